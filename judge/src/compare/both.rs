//! The Rust and a port, given the same calls.

use super::Tally;
use super::call::{Answer, Call, Given, Lines, Port, Push, Storage, in_turn};
use super::rust::Rust;
use crate::answer::Sizes;
use crate::random::Random;

/// Both sides.
pub struct Both<'a> {
    pub(super) rust: Rust,
    port: &'a dyn Port,
    /// What is lent to the port, and what it is to be after the last call.
    lent: Storage,
    expected: Storage,
    random: Random,
    pub(super) tally: Tally,
    /// The calls since the set-up, for the report.
    log: Vec<String>,
}

/// Where both sides stand.
pub(super) type Here = (Rust, Storage, Storage, usize);

/// How many calls a report shows.
const SHOWN: usize = 60;

/// The calls before a difference: the set-up, and the last ones.
fn shown(log: &[String]) -> String {
    match log.split_first() {
        Some((set_up, calls)) if calls.len() > SHOWN => {
            let left = calls.len() - SHOWN;
            format!("{set_up}\n({left} calls)\n{}", calls[left..].join("\n"))
        }
        _ => log.join("\n"),
    }
}

impl<'a> Both<'a> {
    pub(super) fn new(port: &'a dyn Port) -> Self {
        let mut random = Random::new(7);
        let lent = Storage::drawn(&mut random, &super::direct::ROOMY);
        Self { rust: Rust::default(), port, expected: lent.clone(), lent, random, tally: Tally::new(), log: Vec::new() }
    }

    /// The Rust's answer. What is lent then holds the Rust's state after an accepted call and is otherwise as before, a setting that was given
    /// as it was given; after a refused one it is as before but for the stop mark. A run is its stop mark, or its lines in turn.
    fn told(&mut self, call: &Call) -> Answer {
        let mut changed = false;
        let answer = match call {
            Call::Events(n, run) => {
                let first = self.rust.mark(*n);
                in_turn(run, first, |line| self.answered(&Call::Event(*n, line.into()), &mut changed))
            }
            call => self.answered(call, &mut changed),
        };
        if changed {
            self.expected.hold(&self.rust.overlay.state());
        }
        match call {
            Call::SetUp(_, setting) | Call::Allow(setting) if answer.number() == 0 => {
                self.expected.counters[8] = *setting
            }
            _ => {}
        }
        answer
    }

    /// The answer to what is no run, what a set-up gives, and what an event leaves of its reader. Whether the overlay may have changed is noted.
    fn answered(&mut self, call: &Call, changed: &mut bool) -> Answer {
        let answer = match call {
            Call::SetUp(sizes, setting) => {
                self.rust.set_up(sizes, self.lent.words.len(), self.lent.bytes.len(), *setting)
            }
            call => self.rust.call(&self.lent.sizes(), call),
        };
        let number = answer.number();
        *changed |= number == 0 && call.is_change();
        match call {
            Call::SetUp(sizes, _) if number == 0 => self.expected.give(sizes),
            Call::Event(n, _) => self.rust.hold_reader(*n, &mut self.expected.readers[*n]),
            _ => {}
        }
        answer
    }

    /// A call on both sides: the answer, and all that is lent after it.
    pub(super) fn call(&mut self, call: &Call) -> Result<u32, String> {
        self.log.push(call.shown());
        let answer = self.told(call);
        let port = self.port.call(&mut self.lent, call);
        let log = &self.log;
        self.tally.same(|| shown(log), &answer, &port)?;
        let written = self.expected.changes(&self.lent);
        self.tally.same(|| format!("{}\nlent", shown(log)), Vec::new(), written)?;
        Ok(answer.number())
    }

    /// A new overlay in storage that holds anything; where it is refused the old one stays.
    pub(super) fn set_up(&mut self, sizes: &Sizes, setting: u64) -> Result<u32, String> {
        self.set_up_in(sizes, &sizes.numbers(), setting)
    }

    /// The same in blocks of other sizes than are given.
    pub(super) fn set_up_in(&mut self, blocks: &Sizes, given: &Given, setting: u64) -> Result<u32, String> {
        self.log.clear();
        self.log.push(format!("{blocks:?}"));
        let lent = Storage::drawn(&mut self.random, blocks);
        let old = std::mem::replace(&mut self.lent, lent);
        let expected = std::mem::replace(&mut self.expected, self.lent.clone());
        let number = self.call(&Call::SetUp(*given, setting))?;
        if number != 0 {
            (self.lent, self.expected) = (old, expected);
        }
        Ok(number)
    }

    /// The same overlay moved into blocks of other sizes, which stand behind its counters then.
    pub(super) fn lend(&mut self, sizes: &Sizes) {
        self.log.push(format!("lent anew: {sizes:?}"));
        let mut lent = Storage::drawn(&mut self.random, sizes);
        lent.give(&sizes.numbers());
        lent.hold(&self.rust.overlay.state());
        lent.counters[8] = self.lent.counters[8];
        lent.readers = std::mem::take(&mut self.lent.readers);
        self.expected = lent.clone();
        self.lent = lent;
    }

    /// A reader begins, anywhere in a list.
    pub(super) fn fresh(&mut self, reader: usize) {
        self.log.push(format!("reader {reader} begins"));
        let lines = Lines::fresh(&mut self.random);
        for readers in [&mut self.lent.readers, &mut self.expected.readers] {
            readers.resize(readers.len().max(reader + 1), lines.clone());
            readers[reader] = lines.clone();
        }
        let readers = &mut self.rust.readers;
        readers.resize(readers.len().max(reader + 1), Default::default());
        readers[reader] = Default::default();
    }

    pub(super) fn push(&mut self, push: &Push) -> Result<u32, String> {
        self.call(&push.call())
    }

    pub(super) fn intern(&mut self, text: &[u8]) -> Result<u32, String> {
        self.call(&Call::Intern(text.to_vec()))
    }

    pub(super) fn event(&mut self, reader: usize, line: &[u8]) -> Result<u32, String> {
        self.call(&Call::Event(reader, line.to_vec()))
    }

    /// Reads are not kept for the report.
    pub(super) fn read(&mut self, call: &Call) -> Result<u32, String> {
        let number = self.call(call)?;
        self.log.pop();
        Ok(number)
    }

    /// How long the listing is, and the listing in outputs that are longer, exactly long enough, and one byte short.
    pub(super) fn listing(&mut self) -> Result<(), String> {
        self.read(&Call::ListingLength)?;
        let len = self.rust.overlay.listing().len();
        for size in [Some(len), Some(len + 9), len.checked_sub(1)] {
            if let Some(size) = size {
                self.read(&Call::Listing(size))?;
            }
        }
        Ok(())
    }

    pub(super) fn here(&self) -> Here {
        let (lent, expected) = (self.lent.clone(), self.expected.clone());
        (self.rust.clone(), lent, expected, self.log.len())
    }

    /// Back to where both sides stood.
    pub(super) fn back(&mut self, here: Here) {
        (self.rust, self.lent, self.expected) = (here.0, here.1, here.2);
        self.log.truncate(here.3);
    }
}
