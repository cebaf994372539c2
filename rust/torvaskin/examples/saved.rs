//! Keeps an overlay in a file: `saved FILE < EVENTS` loads the overlay of FILE, or begins an empty one where there is no such file, takes in the
//! document on standard input and saves the overlay; `saved --list FILE` prints the listing of a saved one. Ends with 0, with 1 for a refusal,
//! with 2 for an error of the operating system or a file that is not whole. The file is that of c/saved.c, which says how it is laid out.

use std::fs::{self, File};
use std::io::{self, Read, Write, stderr, stdin, stdout};
use std::path::Path;
use std::process::ExitCode;

use torvaskin::{Overlay, Owned, Reader, Refusal, STORED_FORM, Sizes};

/// Why a file or a document is not taken.
#[derive(Debug)]
pub enum Why {
    /// Refused by the library.
    Refused(Refusal),
    /// An error of the operating system, or a file that is no saved overlay.
    Failed(String),
}

impl From<Refusal> for Why {
    fn from(refusal: Refusal) -> Self {
        Self::Refused(refusal)
    }
}

fn failed(what: &str) -> impl FnOnce(io::Error) -> Why {
    move |why| Why::Failed(format!("{what}: {why}"))
}

const MARK: &[u8; 8] = b"torvaskn";

/// CRC-32 as gzip has it.
fn checksum(bytes: &[u8]) -> u32 {
    let turned = bytes.iter().fold(u32::MAX, |sum, byte| {
        (0..8).fold(sum ^ u32::from(*byte), |sum, _| if sum & 1 == 1 { 0xedb8_8320 ^ (sum >> 1) } else { sum >> 1 })
    });
    !turned
}

/// The used fronts of the words' parts and of the bytes' parts, each with where it begins and how long it is.
fn fronts(sizes: &Sizes, used: &Sizes) -> [[(usize, usize); 4]; 2] {
    let laid_out = |sizes: [usize; 4], used: [usize; 4]| {
        let mut from = 0;
        std::array::from_fn(|part| {
            let front = (from, used[part]);
            from += sizes[part];
            front
        })
    };
    let words = |of: &Sizes| [3 * of.ids[0], 3 * of.ids[1], 3 * of.ids[2], 2 * of.strings];
    let bytes = |of: &Sizes| [of.arenas[0], of.arenas[1], of.arenas[2], of.string_bytes];
    [laid_out(words(sizes), words(used)), laid_out(bytes(sizes), bytes(used))]
}

/// The counts and the sizes that counters have.
fn counted(counters: &[u64; 17]) -> Option<(Sizes, Sizes)> {
    let mut numbers = [0; 17];
    for (number, word) in numbers.iter_mut().zip(counters) {
        *number = usize::try_from(*word).ok()?;
    }
    let [n, w, r, na, wa, ra, strings, string_bytes, _, rest @ ..] = numbers;
    let used = Sizes { ids: [n, w, r], arenas: [na, wa, ra], strings, string_bytes };
    let [n, w, r, na, wa, ra, strings, string_bytes] = rest;
    Some((used, Sizes { ids: [n, w, r], arenas: [na, wa, ra], strings, string_bytes }))
}

fn is_within(used: &Sizes, sizes: &Sizes) -> bool {
    let all = |of: &Sizes| [&of.ids[..], &of.arenas[..], &[of.strings, of.string_bytes]].concat();
    all(used).iter().zip(all(sizes)).all(|(count, size)| *count <= size)
}

/// An overlay as a file has it.
pub fn saved(overlay: &Overlay) -> Result<Vec<u8>, Refusal> {
    let (used, sizes, storage) = (overlay.used()?, overlay.sizes()?, overlay.clone().into_storage());
    let [words, bytes] = fronts(&sizes, &used);
    let mut file = Vec::from(MARK);
    file.extend(u64::from(STORED_FORM).to_le_bytes());
    file.extend(storage.counters.iter().flat_map(|word| word.to_le_bytes()));
    for (from, len) in words {
        file.extend(storage.words[from..][..len].iter().flat_map(|word| word.to_le_bytes()));
    }
    for (from, len) in bytes {
        file.extend(&storage.bytes[from..][..len]);
    }
    let sum = checksum(&file);
    file.extend(u64::from(sum).to_le_bytes());
    Ok(file)
}

/// The overlay of a file. Nothing is copied before its counts are compared with its sizes, and these with what may be lent.
pub fn loaded(file: &[u8]) -> Result<Overlay, Why> {
    let wrong = |what: &str| Why::Failed(what.into());
    let word = |rest: &mut &[u8]| {
        let (first, behind) = rest.split_first_chunk().ok_or(wrong("the file is too short"))?;
        *rest = behind;
        Ok::<_, Why>(u64::from_le_bytes(*first))
    };
    let rest = &mut &file[..];
    if word(rest)? != u64::from_le_bytes(*MARK) {
        return Err(wrong("this is no saved overlay"));
    }
    if word(rest)? != u64::from(STORED_FORM) {
        return Err(wrong("this overlay was saved in another stored form: CHANGELOG.md says how it is carried over"));
    }
    let mut counters = [0; 17];
    for counter in &mut counters {
        *counter = word(rest)?;
    }
    let fitting = counted(&counters).filter(|(used, sizes)| is_within(used, sizes));
    let (used, sizes) = fitting.ok_or(wrong("a count is above its size"))?;
    // sizes above the largest are refused 1
    let mut storage: Owned = sizes.allocate()?;
    *storage.counters = counters;
    let [words, bytes] = fronts(&sizes, &used);
    for (from, len) in words {
        for to in &mut storage.words[from..][..len] {
            *to = word(rest)?;
        }
    }
    for (from, len) in bytes {
        let (front, behind) = rest.split_at_checked(len).ok_or(wrong("the file is too short"))?;
        storage.bytes[from..][..len].copy_from_slice(front);
        *rest = behind;
    }
    let sum = checksum(&file[..file.len() - rest.len()]);
    if word(rest)? != u64::from(sum) {
        return Err(wrong("the checksum is wrong: the file is damaged"));
    }
    if !rest.is_empty() {
        return Err(wrong("the file is longer than its counts say"));
    }
    let overlay = Overlay::kept(storage);
    overlay.is_sound()?;
    Ok(overlay)
}

/// Takes a document in, in one run.
fn take_in(overlay: &mut Overlay, input: &[u8]) -> Result<(), Refusal> {
    let mut reader = Reader::new();
    let taken = reader.events(overlay, input)?;
    if taken < input.len() {
        // the rest is a line without its line feed, which is refused
        reader.event(overlay, &input[taken..])?;
    }
    reader.end(overlay)
}

/// Writes a file beside the old one, which takes its place when it is whole and on the disk.
fn replace(name: &Path, file: &[u8]) -> io::Result<()> {
    let mut beside = name.as_os_str().to_owned();
    beside.push(".new");
    let written = File::create(&beside).and_then(|mut new| new.write_all(file).and_then(|()| new.sync_all()));
    written.and_then(|()| fs::rename(&beside, name)).inspect_err(|_| {
        let _ = fs::remove_file(&beside);
    })
}

fn run(name: &Path, lists: bool) -> Result<(), Why> {
    let shown = name.display().to_string();
    let mut overlay = match fs::read(name) {
        Ok(file) => loaded(&file).map_err(|why| match why {
            Why::Failed(what) => Why::Failed(format!("{shown}: {what}")),
            refused => refused,
        })?,
        Err(why) if why.kind() == io::ErrorKind::NotFound && !lists => Overlay::new(&Sizes::ROADLIST)?,
        Err(why) => return Err(failed(&shown)(why)),
    };
    if lists {
        let (listing, mut output) = (overlay.listing(1 << 20)?, stdout());
        return output.write_all(listing.as_bytes()).and_then(|()| output.flush()).map_err(failed("standard output"));
    }
    let mut input = Vec::new();
    stdin().read_to_end(&mut input).map_err(failed("standard input"))?;
    take_in(&mut overlay, &input)?;
    // a document that is refused leaves the file as it was
    replace(name, &saved(&overlay)?).map_err(failed(&shown))
}

pub fn main() -> ExitCode {
    let words: Vec<_> = std::env::args_os().skip(1).collect();
    let ran = match &words[..] {
        [name] => run(Path::new(name), false),
        [list, name] if list == "--list" => run(Path::new(name), true),
        _ => Err(Why::Failed("usage: saved FILE < EVENTS, saved --list FILE".into())),
    };
    let (status, why) = match ran {
        Ok(()) => return ExitCode::SUCCESS,
        Err(Why::Refused(refusal)) => (1, refusal.to_string()),
        Err(Why::Failed(what)) => (2, what),
    };
    // where standard error cannot be written either, the status still says it
    let _ = writeln!(stderr(), "{why}");
    ExitCode::from(status)
}
