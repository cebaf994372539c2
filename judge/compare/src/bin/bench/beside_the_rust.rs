//! The yardstick compared with the Rust, before anything is timed: its events, what a program prints with them, and its fields and texts.

use crate::by_hand;
use compare::Library;
use compare::overlay::{Between, Entries, blocks};
use judge::Sizes;
use judge::compare::call::{Answer, Call, Lines, Port, Storage};
use judge::compare::ground::{self, Ground};
use judge::compare::program::{self, Program};
use judge::compare::{Compared, overlay};
use judge::lines::escape;
use judge::random::{Random, depth, seed_and_rounds};
use std::cell::RefCell;
use torvaskin::entry::EventsReply;

/// The yardstick for events, and the library for all else: for lines without a line feed, and for storage that is not sound.
struct ByHand;

fn events(lent: &mut Storage, reader: usize, run: &[u8]) -> EventsReply {
    let mut lines = lent.readers[reader].clone();
    let staged = lines.parts.as_mut_slice().try_into().expect("of its length");
    // SAFETY: the library has tested what is lent, or has just set it up.
    let reply = unsafe { by_hand::events(blocks(lent), &mut lines.words, staged, run) };
    lent.readers[reader] = lines;
    reply
}

/// Whether these bytes are one line, with its line feed.
fn is_line(bytes: &[u8]) -> bool {
    !bytes.is_empty() && bytes.iter().position(|byte| *byte == b'\n') == Some(bytes.len() - 1)
}

impl Port for ByHand {
    fn call(&self, lent: &mut Storage, call: &Call) -> Answer {
        let library = Entries(Between);
        let mut is_sound = |reader| library.call(lent, &Call::End(reader)).number() != 22;
        match call {
            Call::Events(reader, run) if is_sound(*reader) => {
                let EventsReply { number, held, line, taken } = events(lent, *reader, run);
                Answer::Events { number, held, line, taken }
            }
            Call::Event(reader, run) if is_line(run) && is_sound(*reader) => {
                let EventsReply { number, held, line, .. } = events(lent, *reader, run);
                Answer::Event { number, held, line }
            }
            call => library.call(lent, call),
        }
    }
}

/// An empty overlay in the sizes of `roadlist`, and a fresh reader.
fn empty() -> Storage {
    let mut lent = Storage::drawn(&mut Random::new(1), &Sizes::ROADLIST);
    assert_eq!(ByHand.call(&mut lent, &Call::SetUp(Sizes::ROADLIST.numbers(), 0)).number(), 0);
    lent.readers = vec![Lines::fresh(&mut Random::new(2))];
    lent
}

/// What `roadlist` prints for a refusal.
fn refused(number: u32, held: i32, line: u64) -> Vec<u8> {
    let held = if number == 12 { held.to_string() } else { "-".to_owned() };
    format!("refused\t{number}\t{line}\t{held}\n").into_bytes()
}

impl Program for ByHand {
    fn print(&self, input: &[u8]) -> Vec<u8> {
        let mut lent = empty();
        let EventsReply { number, held, line, taken } = events(&mut lent, 0, input);
        if number != 0 {
            return refused(number, held, line);
        }
        // a rest is a line without its line feed, which is refused
        let rest = (taken < input.len()).then(|| Call::Event(0, input[taken..].into()));
        for call in rest.into_iter().chain([Call::End(0)]) {
            if let Answer::Event { number: number @ 1.., held, line } = self.call(&mut lent, &call) {
                return refused(number, held, line);
            }
        }
        match self.call(&mut lent, &Call::Listing(65_536)) {
            Answer::Listing { number: 0, len, mut output } => {
                output.truncate(len);
                output
            }
            answer => refused(answer.number(), 0, lent.readers[0].words[15] + 1),
        }
    }
}

thread_local! {
    /// Storage that is used again and again.
    static LENT: RefCell<Storage> = RefCell::new(empty());
}

/// The refusal of a field of a way that stands in a section, or the number that its record has from a place on.
fn field<const N: usize>(name: &str, value: &[u8], at: usize) -> Result<[u8; N], u32> {
    let value = escape(std::str::from_utf8(value).map_err(|_| 3u32)?);
    let id = if name == "id" { String::new() } else { "\tid=1".to_owned() };
    let line = format!("empty\tway{id}\t{name}={value}\n");
    LENT.with_borrow_mut(|lent| {
        lent.counters[..9].copy_from_slice(&[0, 0, 0, 0, 0, 0, 1, 0, 0]);
        lent.readers[0].words = [0; 19];
        lent.readers[0].words[0] = 2;
        match events(lent, 0, line.as_bytes()).number {
            0 => Ok(lent.arena(judge::Kind::Way)[at..at + N].try_into().expect("so many")),
            number => Err(number),
        }
    })
}

/// The answer by the yardstick; by the library where the text cannot stand in a line.
fn read(by_hand: Result<i64, u32>, library: impl FnOnce() -> (u32, i64)) -> (u32, i64) {
    match by_hand {
        Ok(value) => (0, value),
        Err(2 | 3) => library(),
        Err(number) => (number, 0),
    }
}

impl Ground for ByHand {
    fn osm_id_key(&self, id: i64) -> (u8, u64) {
        Library.osm_id_key(id)
    }

    fn osm_id_cmp(&self, a: i64, b: i64) -> u8 {
        Library.osm_id_cmp(a, b)
    }

    fn blob_osm_first_key(&self, min: i64, max: i64) -> (u8, u64) {
        Library.blob_osm_first_key(min, max)
    }

    fn blob_osm_last_key(&self, min: i64, max: i64) -> (u8, u64) {
        Library.blob_osm_last_key(min, max)
    }

    fn osm_id_rank(&self, id: i64) -> u64 {
        Library.osm_id_rank(id)
    }

    fn version_admit(&self, floor: u64, claim: u64) -> (u32, i32) {
        Library.version_admit(floor, claim)
    }

    fn version_raise(&self, floor: u64, claim: u64) -> u64 {
        Library.version_raise(floor, claim)
    }

    fn read_i64(&self, s: &[u8]) -> (u32, i64) {
        read(field("id", s, 0).map(i64::from_le_bytes), || Library.read_i64(s))
    }

    fn read_i32(&self, s: &[u8]) -> (u32, i64) {
        read(field("version", s, 17).map(|n| i32::from_le_bytes(n).into()), || Library.read_i32(s))
    }

    fn stamp(&self, s: &[u8]) -> (u32, i64) {
        read(field("timestamp", s, 21).map(i64::from_le_bytes), || Library.stamp(s))
    }

    fn is_text(&self, s: &[u8]) -> u8 {
        by_hand::is_text(s).into()
    }
}

/// The sum of what was compared.
fn all<const N: usize>(compared: [Compared; N]) -> u64 {
    compared.into_iter().map(|answers| answers.unwrap_or_else(|difference| panic!("by hand: {difference}"))).sum()
}

/// Of the seed and as many rounds as a comparison's.
pub fn beside_the_rust() {
    let (seed, rounds) = seed_and_rounds();
    let answers = all([
        overlay::nesting(&ByHand, depth()),
        overlay::coordinates(&ByHand, seed, rounds),
        overlay::documents(&ByHand, seed, rounds).map(|(_, answers)| answers),
        overlay::wide_documents(&ByHand, seed, rounds).map(|(_, answers)| answers),
        overlay::large_document(&ByHand, seed).map(|(_, answers)| answers),
        program::limits(&ByHand),
        ground::integers(&ByHand, seed, rounds),
        ground::stamps(&ByHand, seed, rounds),
        ground::texts(&ByHand, seed, rounds),
    ]);
    println!("by hand in C: {answers} answers are the Rust's");
}
