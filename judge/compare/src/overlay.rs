//! The C entries on lent storage behind the judge's trait.

use judge::Meta;
use judge::compare::call::{Answer, Call, Given, Lines, Port, STAGED, Storage, UNWRITTEN, UNWRITTEN_WORD};
use torvaskin::entry::{self, ArenaMeta, KindSize, PushHead};
use torvaskin::{Blocks, Lent, Shared};

/// How many elements stand before and past each lent block.
const GUARD: usize = 16;

const WORD: u64 = 0xa5a5_a5a5_a5a5_a5a5;
const BYTE: u8 = 0xa5;

fn guarded<T: Copy>(block: &[T], guard: T) -> Vec<T> {
    let mut all = vec![guard; block.len() + 2 * GUARD];
    all[GUARD..GUARD + block.len()].copy_from_slice(block);
    all
}

/// A block without its guards.
fn inside<T>(all: &mut [T]) -> &mut [T] {
    let past = all.len() - GUARD;
    &mut all[GUARD..past]
}

/// Takes a block back; a guard that was touched is a fault of the library.
fn back<T: Copy + PartialEq>(block: &mut [T], all: &[T], guard: T) {
    let (before, rest) = all.split_at(GUARD);
    let (inside, past) = rest.split_at(block.len());
    let mut guards = before.iter().chain(past);
    assert!(guards.all(|g| *g == guard), "written outside a block");
    block.copy_from_slice(inside);
}

/// A slice that is as long as an array.
fn whole<T, const LEN: usize>(block: &mut [T]) -> &mut [T; LEN] {
    block.try_into().expect("of its length")
}

/// The blocks where they lie.
pub fn blocks(lent: &mut Storage) -> Lent<'_> {
    Blocks { words: &mut lent.words, bytes: &mut lent.bytes, counters: &mut lent.counters }
}

/// The same, to be read.
pub fn shared(lent: &Storage) -> Shared<'_> {
    Blocks { words: &lent.words, bytes: &lent.bytes, counters: &lent.counters }
}

/// How storage is lent to a call.
pub trait Lend {
    /// To one that may change it.
    fn lend(&self, lent: &mut Storage, call: impl FnOnce(Lent<'_>) -> Answer) -> Answer;
    /// To one that only reads.
    fn read(&self, lent: &Storage, call: impl FnOnce(Shared<'_>) -> Answer) -> Answer;
    /// A reader's words and parts, or a listing's output.
    fn words<R>(&self, words: &mut [u64], call: impl FnOnce(&mut [u64]) -> R) -> R;
    fn bytes<R>(&self, bytes: &mut [u8], call: impl FnOnce(&mut [u8]) -> R) -> R;
}

/// Between guards.
#[derive(Clone, Copy)]
pub struct Between;

impl Lend for Between {
    fn lend(&self, lent: &mut Storage, call: impl FnOnce(Lent<'_>) -> Answer) -> Answer {
        let (mut words, mut bytes) = (guarded(&lent.words, WORD), guarded(&lent.bytes, BYTE));
        let mut counters = guarded(&lent.counters, WORD);
        let answer = call(Blocks {
            words: inside(&mut words),
            bytes: inside(&mut bytes),
            counters: whole(inside(&mut counters)),
        });
        back(&mut lent.words, &words, WORD);
        back(&mut lent.bytes, &bytes, BYTE);
        back(&mut lent.counters, &counters, WORD);
        answer
    }

    fn read(&self, lent: &Storage, call: impl FnOnce(Shared<'_>) -> Answer) -> Answer {
        call(shared(lent))
    }

    fn words<R>(&self, words: &mut [u64], call: impl FnOnce(&mut [u64]) -> R) -> R {
        let mut all = guarded(words, WORD);
        let answer = call(inside(&mut all));
        back(words, &all, WORD);
        answer
    }

    fn bytes<R>(&self, bytes: &mut [u8], call: impl FnOnce(&mut [u8]) -> R) -> R {
        let mut all = guarded(bytes, BYTE);
        let answer = call(inside(&mut all));
        back(bytes, &all, BYTE);
        answer
    }
}

/// Each block in memory of its own, of exactly its length, for a tool that sees accesses outside: the
/// vectors of a copied storage are as long as their memory, and arrays are moved into boxes.
#[derive(Clone, Copy)]
pub struct Exact;

impl Lend for Exact {
    fn lend(&self, lent: &mut Storage, call: impl FnOnce(Lent<'_>) -> Answer) -> Answer {
        let mut counters = Box::new(lent.counters);
        let answer = call(Blocks { counters: &mut counters, ..blocks(lent) });
        lent.counters = *counters;
        answer
    }

    fn read(&self, lent: &Storage, call: impl FnOnce(Shared<'_>) -> Answer) -> Answer {
        call(Blocks { counters: &Box::new(lent.counters), ..shared(lent) })
    }

    fn words<R>(&self, words: &mut [u64], call: impl FnOnce(&mut [u64]) -> R) -> R {
        let mut exact: Box<[u64]> = (&*words).into();
        let answer = call(&mut exact);
        words.copy_from_slice(&exact);
        answer
    }

    fn bytes<R>(&self, bytes: &mut [u8], call: impl FnOnce(&mut [u8]) -> R) -> R {
        let mut exact: Box<[u8]> = (&*bytes).into();
        let answer = call(&mut exact);
        bytes.copy_from_slice(&exact);
        answer
    }
}

/// The C entries, with storage lent in one of these ways.
#[derive(Clone, Copy)]
pub struct Entries<L>(pub L);

fn reply(r: entry::Reply) -> Answer {
    let (number, held) = (r.number, r.held);
    Answer::Reply { number, held }
}

fn number(n: entry::Number) -> Answer {
    let (number, value) = (n.number, n.value);
    Answer::Number { number, value }
}

fn part(part: entry::Part) -> Answer {
    Answer::Part { number: part.number, found: part.found, start: part.start, len: part.len }
}

fn event(event: entry::EventReply) -> Answer {
    let (number, held, line) = (event.number, event.held, event.line);
    Answer::Event { number, held, line }
}

fn events(reply: entry::EventsReply) -> Answer {
    let (number, held, line, taken) = (reply.number, reply.held, reply.line, reply.taken);
    Answer::Events { number, held, line, taken }
}

fn meta_in(meta: &Meta) -> ArenaMeta {
    ArenaMeta {
        flags: meta.flags,
        version: meta.version.cast_unsigned(),
        timestamp: meta.timestamp.cast_unsigned(),
        changeset: meta.changeset.cast_unsigned(),
        uid: meta.uid.cast_unsigned(),
        user: meta.user,
    }
}

fn sizes_in(sizes: &Given) -> entry::Sizes {
    let [nodes, ways, relations, node_bytes, way_bytes, relation_bytes, strings, string_bytes] = *sizes;
    entry::Sizes {
        nodes: KindSize { ids: nodes, bytes: node_bytes },
        ways: KindSize { ids: ways, bytes: way_bytes },
        relations: KindSize { ids: relations, bytes: relation_bytes },
        strings,
        string_bytes,
    }
}

/// A call that changes the overlay.
fn changing(p: Lent<'_>, call: &Call) -> Answer {
    match call {
        Call::SetUp(sizes, setting) => reply(entry::set_up(p, sizes_in(sizes), *setting)),
        Call::Allow(setting) => reply(entry::allow_version_regression(p, *setting)),
        Call::Intern(text) => {
            let text = entry::intern(p, text);
            let (number, value) = (text.number, text.handle);
            Answer::Number { number, value }
        }
        Call::Push(kind, head, meta, parts) => {
            let head = PushHead {
                id: head.id.cast_unsigned(),
                lat: head.lat.cast_unsigned(),
                lon: head.lon.cast_unsigned(),
                count: head.count,
                tags: head.tags,
            };
            reply(entry::push(p, *kind, head, meta_in(meta), parts))
        }
        Call::Delete(kind, id, meta) => reply(entry::delete(p, *kind, *id, meta_in(meta))),
        call => panic!("{call:?}"),
    }
}

/// A text behind the empty one, which every sound overlay holds, in a call of many texts: what `intern` of it answers.
fn interned_behind_empty(p: Lent<'_>, text: &[u8]) -> Answer {
    let mut handles = [UNWRITTEN_WORD; 3];
    let done = entry::intern_texts(p, text, &[0, text.len()], &mut handles);
    let value = match (done.number, done.taken, handles) {
        (0, 2, [0, handle, UNWRITTEN_WORD]) => handle,
        (22, 0, [UNWRITTEN_WORD, UNWRITTEN_WORD, UNWRITTEN_WORD]) => 0,
        (3 | 13, 1, [0, UNWRITTEN_WORD, UNWRITTEN_WORD]) => 0,
        other => panic!("{other:?}"),
    };
    Answer::Number { number: done.number, value }
}

impl<L: Lend> Entries<L> {
    /// A call that only reads.
    fn reading(&self, p: Shared<'_>, call: &Call) -> Answer {
        match *call {
            Call::IsSound => reply(entry::is_sound(p)),
            Call::LiveCount(kind) => number(entry::live_count(p, kind)),
            Call::DeletedCount(kind) => number(entry::deleted_count(p, kind)),
            Call::IsEmpty => number(entry::is_empty(p)),
            Call::LiveId(kind, n) => number(entry::live_id(p, kind, n)),
            Call::DeletedId(kind, n) => number(entry::deleted_id(p, kind, n)),
            Call::Record(kind, n) => part(entry::record(p, kind, n)),
            Call::Get(kind, id) => part(entry::get(p, kind, id)),
            Call::Has(kind, id) => number(entry::has(p, kind, id)),
            Call::IsDeleted(kind, id) => number(entry::is_deleted(p, kind, id)),
            Call::KnownVersion(kind, id) => number(entry::known_version(p, kind, id)),
            Call::Text(handle) => part(entry::text(p, handle)),
            Call::LiveIds(kind, size) => self.lists(size, |ids, versions| entry::live_ids(p, kind, ids, versions)),
            Call::DeletedIds(kind, size) => {
                self.lists(size, |ids, versions| entry::deleted_ids(p, kind, ids, versions))
            }
            Call::Listing(size) => {
                let mut output = vec![UNWRITTEN; size];
                let listed = self.0.bytes(&mut output, |out| entry::listing(p, out));
                Answer::Listing { number: listed.number, len: listed.length, output }
            }
            Call::ListingLength => {
                let listed = entry::listing_length(p);
                Answer::Number { number: listed.number, value: listed.length as u64 }
            }
            ref call => panic!("{call:?}"),
        }
    }

    /// A call that fills two lists.
    fn lists(&self, size: usize, fill: impl FnOnce(&mut [u64], &mut [u64]) -> entry::Number) -> Answer {
        let (mut ids, mut versions) = (vec![UNWRITTEN_WORD; size], vec![UNWRITTEN_WORD; size]);
        let filled = self.0.words(&mut ids, |ids| self.0.words(&mut versions, |versions| fill(ids, versions)));
        Answer::Lists { number: filled.number, value: filled.value, ids, versions }
    }

    /// A call with a reader's words and parts.
    fn reader(&self, lines: &mut Lines, call: impl FnOnce(&mut [u64; 19], &mut [u8; STAGED]) -> Answer) -> Answer {
        let Lines { words, parts } = lines;
        self.0.words(words, |words| self.0.bytes(parts, |parts| call(whole(words), whole(parts))))
    }
}

impl<L: Lend> Port for Entries<L> {
    fn call(&self, lent: &mut Storage, call: &Call) -> Answer {
        match call {
            Call::Event(n, line) => {
                let mut reader = lent.readers[*n].clone();
                let answer = self.0.lend(lent, |p| {
                    self.reader(&mut reader, |words, parts| event(entry::event(p, words, parts, line)))
                });
                lent.readers[*n] = reader;
                answer
            }
            Call::Events(n, run) => {
                let mut reader = lent.readers[*n].clone();
                let answer = self.0.lend(lent, |p| {
                    self.reader(&mut reader, |words, parts| events(entry::events(p, words, parts, run)))
                });
                lent.readers[*n] = reader;
                answer
            }
            Call::End(n) => {
                let mut reader = lent.readers[*n].clone();
                let answer =
                    self.reader(&mut reader, |words, parts| self.0.read(lent, |p| event(entry::end(p, words, parts))));
                assert!(reader == lent.readers[*n], "an end that writes");
                answer
            }
            Call::Intern(text) => {
                let mut other = lent.clone();
                let many = self.0.lend(&mut other, |p| interned_behind_empty(p, text));
                let answer = self.0.lend(lent, |p| changing(p, call));
                assert!(many == answer && other == *lent, "many texts in one call are not their `intern`s");
                answer
            }
            call if call.is_change() => self.0.lend(lent, |p| changing(p, call)),
            call => self.0.read(lent, |p| self.reading(p, call)),
        }
    }
}
