//! The published Rust behind the calls: its refusals, then document 01's words for those that it has
//! not.

use super::call::{Answer, Call, Given, Head, Lines, Push, kind_of, write_front};
use super::words::{first_fault, meta_is_legal, pushed, sizes_fit};
use super::words_reader::Reading;
use crate::answer::{Change, Kind, Meta, Overlay, Reader, Refusal, Sizes, Stop};
use crate::lines;

/// The overlay and its readers.
#[derive(Clone, Default)]
pub struct Rust {
    pub overlay: Overlay,
    pub readers: Vec<Reader>,
}

/// The bits of an id by its number, or 21.
fn nth(ids: &[i64], n: u64) -> Result<u64, u32> {
    let id = usize::try_from(n).ok().and_then(|n| ids.get(n));
    id.map(|id| id.cast_unsigned()).ok_or(21)
}

fn stopped(reply: Result<(), Stop>) -> Answer {
    let stop = reply.err().map(|s| (s.number, s.held.unwrap_or(0), s.line));
    let (number, held, line) = stop.unwrap_or((0, 0, 0));
    Answer::Event { number, held, line }
}

impl Rust {
    /// An act, undone where the state after it does not fit the sizes.
    fn act<T>(&mut self, sizes: &Sizes, act: impl FnOnce(&mut Overlay) -> Result<T, Refusal>) -> Result<T, (u32, i32)> {
        let before = self.overlay.clone();
        let reply = act(&mut self.overlay).map_err(|r| (r.number, r.held.unwrap_or(0)));
        let full = sizes.exceeded(&self.overlay);
        let reply = reply.and_then(|value| full.map_or(Ok(value), |number| Err((number, 0))));
        if reply.is_err() {
            self.overlay = before;
        }
        reply
    }

    pub fn texts(&self) -> u64 {
        self.overlay.state().texts.len() as u64
    }

    fn intern(&mut self, sizes: &Sizes, text: &[u8]) -> Result<u64, u32> {
        let text = lines::text(text).ok_or(3u32)?;
        let handle = self.act(sizes, |overlay| Ok(u64::from(overlay.intern(text))));
        handle.map_err(|refused| refused.0)
    }

    fn push(&mut self, sizes: &Sizes, kind: u8, head: &Head, meta: &Meta, parts: &[u8]) -> Result<(), (u32, i32)> {
        let plain = |number: u32| (number, 0);
        let kind = kind_of(kind).map_err(plain)?;
        let record = pushed(kind, head, meta, parts).ok_or((17, 0))?;
        first_fault(kind, &record, self.texts()).map_err(plain)?;
        let tag = |tag: &(u32, &[u8])| (tag.0, lines::text(tag.1).expect("text").to_owned());
        let tags: Vec<(u32, String)> = record.tags.iter().map(tag).collect();
        let tags: Vec<(u32, &str)> = tags.iter().map(|tag| (tag.0, &*tag.1)).collect();
        self.act(sizes, |overlay| match kind {
            Kind::Node => overlay.push_node(head.id, (head.lat, head.lon), &tags, meta),
            Kind::Way => overlay.push_way(head.id, &record.refs, &tags, meta),
            Kind::Relation => overlay.push_relation(head.id, &record.members, &tags, meta),
        })
    }

    fn delete(&mut self, sizes: &Sizes, kind: u8, id: i64, meta: &Meta) -> Result<(), (u32, i32)> {
        let kind = kind_of(kind).map_err(|number| (number, 0))?;
        if !meta_is_legal(meta, self.texts()) {
            return Err((17, 0));
        }
        self.act(sizes, |overlay| overlay.delete(kind, id, meta))
    }

    /// Where a live record lies.
    fn view(&self, kind: Kind, record: &crate::answer::Record) -> (u64, u64) {
        let place = self.overlay.place(kind, record.id).expect("it is live");
        (place as u64, record.len as u64)
    }

    fn record(&self, kind: u8, n: u64) -> Result<Option<(u64, u64)>, u32> {
        let kind = kind_of(kind)?;
        if n >= self.overlay.live_count(kind) as u64 {
            return Err(21);
        }
        let record = self.overlay.sorted_record(kind, n as usize);
        Ok(Some(self.view(kind, &record)))
    }

    fn get(&self, kind: u8, id: i64) -> Result<Option<(u64, u64)>, u32> {
        let kind = kind_of(kind)?;
        let record = self.overlay.record(kind, id);
        Ok(record.map(|record| self.view(kind, &record)))
    }

    fn text(&self, handle: u64) -> Result<Option<(u64, u64)>, u32> {
        let spans = self.overlay.state().spans;
        let n = usize::try_from(handle).unwrap_or(usize::MAX);
        let span = spans.get(n).ok_or(21u32)?;
        Ok(Some((span.0.into(), span.1.into())))
    }

    /// Ids, each with its known version.
    fn known(&self, kind: Kind, ids: &[i64]) -> Vec<(i64, Option<i32>)> {
        ids.iter().map(|id| (*id, self.overlay.known_version(kind, *id))).collect()
    }

    /// What is read of a kind, or 17.
    fn of_kind(&self, kind: u8, read: impl FnOnce(Kind) -> Result<u64, u32>) -> Answer {
        Answer::value(kind_of(kind).and_then(read))
    }

    fn event(&mut self, sizes: &Sizes, reader: usize, line: &[u8]) -> Answer {
        let (body, ended) = line.strip_suffix(b"\n").map_or((line, false), |b| (b, true));
        let reader = &mut self.readers[reader];
        stopped(reader.line(&mut self.overlay, body, ended, Change::None, Some(sizes)))
    }

    /// What a reader that is stopped repeats; 0 where it goes on.
    pub fn mark(&self, reader: usize) -> Answer {
        stopped(self.readers[reader].stop().map_or(Ok(()), Err))
    }

    /// In blocks of so many words and bytes.
    pub fn set_up(&mut self, sizes: &Given, words: usize, bytes: usize, setting: u64) -> Answer {
        if !sizes_fit(sizes, words, bytes) {
            return Answer::reply(Err((1, 0)));
        }
        *self = Self::default();
        self.overlay.allow_version_regression(setting != 0);
        Answer::reply(Ok(()))
    }

    pub fn call(&mut self, sizes: &Sizes, call: &Call) -> Answer {
        let overlay = &self.overlay;
        match call {
            Call::SetUp(..) => panic!("it needs the blocks"),
            Call::IsSound => Answer::reply(Ok(())),
            Call::Allow(setting) => {
                self.overlay.allow_version_regression(*setting != 0);
                Answer::reply(Ok(()))
            }
            Call::Intern(text) => Answer::value(self.intern(sizes, text)),
            Call::Push(kind, head, meta, parts) => Answer::reply(self.push(sizes, *kind, head, meta, parts)),
            Call::Delete(kind, id, meta) => Answer::reply(self.delete(sizes, *kind, *id, meta)),
            Call::LiveCount(kind) => self.of_kind(*kind, |k| Ok(overlay.live_count(k) as u64)),
            Call::DeletedCount(kind) => self.of_kind(*kind, |k| Ok(overlay.deleted_count(k) as u64)),
            Call::IsEmpty => Answer::value(Ok(overlay.is_empty().into())),
            Call::LiveId(kind, n) => self.of_kind(*kind, |k| nth(&overlay.sorted_ids(k).0, *n)),
            Call::DeletedId(kind, n) => self.of_kind(*kind, |k| nth(&overlay.sorted_ids(k).1, *n)),
            Call::Record(kind, n) => Answer::part(self.record(*kind, *n)),
            Call::Get(kind, id) => Answer::part(self.get(*kind, *id)),
            Call::Has(kind, id) => self.of_kind(*kind, |k| Ok(overlay.has(k, *id).into())),
            Call::IsDeleted(kind, id) => self.of_kind(*kind, |k| Ok(overlay.is_deleted(k, *id).into())),
            Call::KnownVersion(kind, id) => {
                self.of_kind(*kind, |k| Ok(super::ground::word(overlay.known_version(k, *id))))
            }
            Call::Text(handle) => Answer::part(self.text(*handle)),
            Call::LiveIds(kind, size) => {
                Answer::lists(*size, kind_of(*kind).map(|k| self.known(k, &overlay.sorted_ids(k).0)))
            }
            Call::DeletedIds(kind, size) => {
                Answer::lists(*size, kind_of(*kind).map(|k| self.known(k, &overlay.sorted_ids(k).1)))
            }
            Call::Event(reader, line) => self.event(sizes, *reader, line),
            Call::Events(..) => panic!("its lines are given one by one"),
            Call::End(reader) => stopped(self.readers[*reader].end()),
            Call::Listing(size) => Answer::listing(*size, Ok(overlay.listing())),
            Call::ListingLength => Answer::value(Ok(overlay.listing().len() as u64)),
        }
    }

    /// Writes over what is lent for a reader how the Rust's stands: its words, and the parts that are
    /// staged.
    pub fn hold_reader(&self, n: usize, lent: &mut Lines) {
        let reader = &self.readers[n];
        let stop = reader.stop();
        let staged = reader.staged();
        let push = staged.map(|s| {
            let (flags, version, timestamp, changeset, uid, user) = s.meta;
            let meta = Meta { flags, version, timestamp, changeset, uid, user };
            let values = s.tag_values.iter().map(|v| v.clone().into_bytes());
            Push {
                place: (s.lat, s.lon),
                refs: s.refs.clone(),
                members: s.members.clone(),
                tags: s.tag_keys.iter().copied().zip(values).collect(),
                ..Push::plain(s.kind, s.id, meta)
            }
        });
        let parts = push.as_ref().map_or_else(Vec::new, Push::parts);
        let reading = Reading {
            place: reader.place(),
            head: push.as_ref().map_or_else(Head::default, Push::head),
            meta: push.as_ref().map_or_else(Meta::default, |p| p.meta),
            used: parts.len(),
            lines: reader.lines(),
            stop: stop.map_or((0, 0, 0), |s| (s.number, s.held.unwrap_or(0), s.line)),
        };
        lent.words = reading.words();
        write_front(&mut lent.parts, &parts);
    }
}
