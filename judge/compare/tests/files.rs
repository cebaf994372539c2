//! Change files through the library, in pieces, against the judge's rules and the published Rust over quick-xml 0.26: what `roadfile` has to print, from the calls that a terminal makes.

use files::compare::{Answers, Counts, edge_rows, enemies, large, limits, random};
use files::file::ROADFILE;
use files::produce::Shape;
use judge::random::Random;
use torvaskin::{FileReader, Overlay, Refusal, Sizes};

/// The library, which is lent a file in pieces of one size, or cut at random.
struct Pieces {
    size: Option<usize>,
    random: Random,
}

impl Pieces {
    fn of(size: Option<usize>) -> Self {
        Self { size, random: Random::new(7) }
    }

    fn page(&mut self, file: &[u8]) -> Result<String, Refusal> {
        let (mut overlay, mut reader) = (Overlay::new(&Sizes::MOST)?, FileReader::new());
        let mut rest = file;
        while !rest.is_empty() {
            let most = rest.len().min(65_536);
            let size = self.size.unwrap_or_else(|| 1 + self.random.below(most)).min(most);
            let (piece, behind) = rest.split_at(size);
            reader.piece(&mut overlay, piece)?;
            rest = behind;
        }
        reader.end(&overlay)?;
        overlay.listing(ROADFILE.output)
    }
}

impl Answers for Pieces {
    fn answer(&mut self, file: &[u8]) -> Vec<u8> {
        let feeds = file.iter().filter(|byte| **byte == b'\n').count() as u64;
        let refused = |refusal: Refusal| {
            let held = refusal.held().map_or("-".into(), |held| held.to_string());
            // 19 names no line: it is one past the line feeds
            format!("refused\t{}\t{}\t{held}\n", refusal.number(), refusal.line().unwrap_or(feeds + 1))
        };
        self.page(file).unwrap_or_else(refused).into_bytes()
    }
}

fn compare(what: impl FnOnce(&mut Counts) -> Result<(), String>) {
    std::panic::set_hook(Box::new(|what| {
        if !what.location().is_some_and(|place| place.file().contains("vendored")) {
            eprintln!("{what}");
        }
    }));
    let mut counts = Counts::new();
    let reply = what(&mut counts);
    for (class, files) in &counts {
        println!("{files:>7}  {class}");
    }
    reply.unwrap_or_else(|difference| panic!("{difference}"));
}

/// The rows of the edge table, whole, byte by byte and cut at random.
#[test]
fn table() {
    for size in [Some(usize::MAX), Some(1), None] {
        compare(|counts| edge_rows(&mut Pieces::of(size), counts));
    }
}

/// Small files at random, cut at random.
#[test]
fn small_files() {
    compare(|counts| random(&mut Pieces::of(None), &ROADFILE, counts, 3, 20_000));
}

/// Each size and limit, and one past it; files that are made to take time or room; a real-looking file, its pieces as long as no line is. Each call tests what is lent, so
/// single bytes of so long a file would take minutes.
#[test]
fn large_files() {
    compare(|counts| limits(&mut Pieces::of(None), &ROADFILE, counts));
    compare(|counts| enemies(&mut Pieces::of(None), &ROADFILE, counts, 1_000_000));
    compare(|counts| large(&mut Pieces::of(Some(4_093)), &ROADFILE, counts, &Shape::SOME, 5));
}
