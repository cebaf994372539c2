//! What the judge answers: event lines, direct calls, the overlay's state, the listing.

use std::borrow::Cow;
use std::collections::HashMap;

use quick_xml::events::attributes::seven_decimals;
use quick_xml::events::{BytesEnd, BytesStart, BytesText, Event, Forms};
use quick_xml::lines::{Line, escape, judge_line, unescape};

use crate::degrees::{self, Axis};
use crate::ground;
use crate::nesting::Place;
use crate::osc::CompactDiffOverlay;
use crate::osc::xml_parse::{JudgeStaged, JudgeSteps, judge_drive};
use crate::osm_id::osm_id_cmp;

pub use crate::kinds::ElementKind as Kind;
pub use crate::osc::direct::{Lookups, Meta, Overlay, Record};
pub use crate::refusal::Refusal;

/// The kinds in the listing's order.
pub const KINDS: [Kind; 3] = [Kind::Node, Kind::Way, Kind::Relation];

/// The overlay's whole state; ids in OSM order.
#[derive(Clone, Debug, PartialEq, Eq)]
pub struct State {
    pub kinds: [KindState; 3],
    /// Texts by handle.
    pub texts: Vec<String>,
    /// Offset and length by handle, and the bytes that they point into.
    pub spans: Vec<(u32, u32)>,
    pub string_bytes: Vec<u8>,
    pub allow_version_regression: bool,
}

#[derive(Clone, Debug, Default, PartialEq, Eq)]
pub struct KindState {
    pub arena: Vec<u8>,
    pub live: Vec<(i64, usize)>,
    pub deleted: Vec<i64>,
    pub floors: Vec<(i64, i32)>,
}

impl Default for Overlay {
    fn default() -> Self {
        Self::new()
    }
}

impl Overlay {
    pub fn new() -> Self {
        Self { inner: CompactDiffOverlay::new() }
    }

    pub fn allow_version_regression(&mut self, allow: bool) {
        self.inner.allow_version_regression(allow);
    }

    pub fn known_version(&self, kind: Kind, id: i64) -> Option<i32> {
        self.inner.judge_known(kind, id)
    }

    /// Where the live record of an id starts in its arena.
    pub fn place(&self, kind: Kind, id: i64) -> Option<usize> {
        self.inner.judge_index(kind).get(&id).copied()
    }

    pub fn is_empty(&self) -> bool {
        self.inner.is_empty()
    }

    pub fn has(&self, kind: Kind, id: i64) -> bool {
        match kind {
            Kind::Node => self.inner.has_node(id),
            Kind::Way => self.inner.has_way(id),
            Kind::Relation => self.inner.has_relation(id),
        }
    }

    pub fn is_deleted(&self, kind: Kind, id: i64) -> bool {
        self.inner.is_deleted(kind, id)
    }

    pub fn live_count(&self, kind: Kind) -> usize {
        match kind {
            Kind::Node => self.inner.node_count(),
            Kind::Way => self.inner.way_count(),
            Kind::Relation => self.inner.relation_count(),
        }
    }

    pub fn deleted_count(&self, kind: Kind) -> usize {
        self.inner.deleted_ids(kind).len()
    }

    pub fn state(&self) -> State {
        let (spans, string_bytes) = self.inner.judge_spans();
        State {
            kinds: KINDS.map(|kind| self.kind_state(kind)),
            texts: self.inner.judge_texts(),
            spans: spans.to_vec(),
            string_bytes: string_bytes.to_vec(),
            allow_version_regression: self.inner.judge_allows(),
        }
    }

    fn kind_state(&self, kind: Kind) -> KindState {
        KindState {
            arena: self.inner.judge_arena(kind).to_vec(),
            live: in_order(self.inner.judge_index(kind)),
            deleted: {
                let mut ids: Vec<i64> = self.inner.deleted_ids(kind).iter().copied().collect();
                ids.sort_by(|a, b| osm_id_cmp(*a, *b));
                ids
            },
            floors: in_order(self.inner.judge_floors(kind)),
        }
    }

    /// Document 01's listing.
    pub fn listing(&self) -> Vec<u8> {
        let mut out = String::new();
        for kind in KINDS {
            let ((live, deleted), records) = (self.sorted_ids(kind), self.sorted_records(kind));
            let live = live.into_iter().zip(records.iter().map(Some));
            let deleted = deleted.into_iter().map(|id| (id, None));
            let mut lines: Vec<(i64, Option<&Record>)> = live.chain(deleted).collect();
            lines.sort_by(|a, b| osm_id_cmp(a.0, b.0));
            for (id, record) in lines {
                list_one(&mut out, kind, id, self.known_version(kind, id), record);
            }
        }
        out.into_bytes()
    }
}

/// One line of the listing.
pub fn list_one(out: &mut String, kind: Kind, id: i64, known: Option<i32>, record: Option<&Record>) {
    let known = known.map_or_else(|| "?".to_owned(), |v| v.to_string());
    let sign = if record.is_some() { "+" } else { "-" };
    let letter = ["n", "w", "r"][kind as usize];
    let mut fields = vec![letter.to_owned(), id.to_string(), sign.to_owned(), known];
    if let Some(r) = record {
        assert_eq!(r.id, id);
        fields.extend([r.flags.to_string(), r.version.to_string(), r.timestamp.to_string()]);
        fields.extend([r.changeset.to_string(), r.uid.to_string(), escape(&r.user)]);
        match kind {
            Kind::Node => {
                let (lat, lon) = r.place.expect("a node has a place");
                fields.extend([lat.to_string(), lon.to_string()]);
            }
            Kind::Way => {
                fields.push(r.refs.len().to_string());
                fields.extend(r.refs.iter().map(i64::to_string));
            }
            Kind::Relation => {
                fields.push(r.members.len().to_string());
                for (byte, id, role) in &r.members {
                    fields.extend([byte.to_string(), id.to_string(), escape(role)]);
                }
            }
        }
        fields.push(r.tags.len().to_string());
        for (key, value) in &r.tags {
            fields.extend([escape(key), escape(value)]);
        }
    }
    out.push_str(&fields.join("\t"));
    out.push('\n');
}

fn in_order<V: Copy, S>(map: &HashMap<i64, V, S>) -> Vec<(i64, V)> {
    let mut pairs: Vec<(i64, V)> = map.iter().map(|(&id, &v)| (id, v)).collect();
    pairs.sort_by(|a, b| osm_id_cmp(a.0, b.0));
    pairs
}

/// A stopped reader's answer, or that of a refused end.
#[derive(Clone, Copy, Debug, PartialEq, Eq)]
pub struct Stop {
    pub number: u32,
    pub line: u64,
    pub held: Option<i32>,
}

impl Stop {
    fn at(refusal: Refusal, line: u64) -> Self {
        Self { number: refusal.number, line, held: refusal.held }
    }
}

/// Lent sizes. The published Rust has none: 13 to 16 and 19 are document 01's words. With them a sign in a timestamp is 9
/// and degrees in another form 23, as document 02 words it.
#[derive(Clone, Copy, Debug, PartialEq, Eq)]
pub struct Sizes {
    /// For each kind.
    pub ids: [usize; 3],
    /// For each kind.
    pub arenas: [usize; 3],
    pub strings: usize,
    pub string_bytes: usize,
    pub output: usize,
}

impl Sizes {
    /// What `roadlist` lends.
    pub const ROADLIST: Self =
        Self { ids: [512; 3], arenas: [8_192; 3], strings: 512, string_bytes: 8_192, output: 65_536 };

    /// As numbers: ids of the three kinds, arena bytes of the same, strings, string bytes.
    pub fn numbers(&self) -> [u64; 8] {
        let ([a, b, c], [d, e, f]) = (self.ids, self.arenas);
        [a, b, c, d, e, f, self.strings, self.string_bytes].map(|size| size as u64)
    }

    /// The first of 13, 14 and 15 that the overlay would not fit.
    pub(crate) fn exceeded(&self, overlay: &Overlay) -> Option<u32> {
        let (spans, bytes) = overlay.inner.judge_spans();
        let over = |most: &[usize; 3], used: &dyn Fn(Kind) -> usize| KINDS.iter().any(|&k| used(k) > most[k as usize]);
        if spans.len() > self.strings || bytes.len() > self.string_bytes {
            Some(13)
        } else if over(&self.ids, &|kind| overlay.live_count(kind) + overlay.deleted_count(kind)) {
            Some(14)
        } else if over(&self.arenas, &|kind| overlay.inner.judge_arena(kind).len()) {
            Some(15)
        } else {
            None
        }
    }
}

/// Document 01's limits on an element.
pub const MOST_TAGS: usize = 256;
pub const MOST_REFS: usize = 2_000;
pub const MOST_MEMBERS: usize = 2_000;
pub const MOST_VALUE_BYTES: usize = 16_384;

/// One reader: the published driver one event at a time, with document 01's stop mark and line count.
#[derive(Clone)]
pub struct Reader {
    steps: JudgeSteps,
    lines: u64,
    stop: Option<Stop>,
}

/// How a refused event leaves the overlay.
#[derive(Clone, Copy, Debug, PartialEq, Eq)]
pub enum Change {
    /// As the published Rust leaves it.
    AsRust,
    /// As it was, by document 01.
    None,
}

impl Default for Reader {
    fn default() -> Self {
        Self::new()
    }
}

impl Reader {
    pub fn new() -> Self {
        Self { steps: JudgeSteps::new(), lines: 0, stop: None }
    }

    /// One line without its line feed; `ended` says whether it had one.
    pub fn line(
        &mut self,
        overlay: &mut Overlay,
        line: &[u8],
        ended: bool,
        change: Change,
        sizes: Option<&Sizes>,
    ) -> Result<(), Stop> {
        if let Some(stop) = self.stop {
            return Err(stop);
        }
        match self.event(overlay, line, ended, change, sizes) {
            Ok(()) => {
                self.lines += 1;
                Ok(())
            }
            Err(refusal) => {
                let stop = Stop::at(refusal, self.lines + 1);
                self.stop = Some(stop);
                Err(stop)
            }
        }
    }

    fn event(
        &mut self,
        overlay: &mut Overlay,
        line: &[u8],
        ended: bool,
        change: Change,
        sizes: Option<&Sizes>,
    ) -> Result<(), Refusal> {
        let mut forms = Forms::default();
        let event = match judge_line(line, ended).map_err(Refusal::plain)? {
            Line::Close => Event::End(BytesEnd),
            Line::Other => Event::Text(BytesText),
            Line::Open { empty, content, name_len } => {
                let start = match sizes {
                    Some(_) => BytesStart::from_content(compared(content, name_len), name_len),
                    None => BytesStart::from_content(content, name_len),
                };
                forms = start.forms();
                if empty { Event::Empty(start) } else { Event::Start(start) }
            }
        };
        let before = (change == Change::None).then(|| (overlay.clone(), self.steps.clone()));
        let mut reply = self.steps.step(&mut overlay.inner, &event).map_err(|e| Refusal::of_event(&e, forms));
        if let (Ok(()), Some(sizes)) = (reply, sizes) {
            let full = sizes.exceeded(overlay).or(self.element_over());
            reply = full.map_or(Ok(()), |number| Err(Refusal::plain(number)));
        }
        if reply.is_err()
            && let Some((overlay_before, steps_before)) = before
        {
            *overlay = overlay_before;
            self.steps = steps_before;
        }
        reply
    }

    /// 16, by what is staged.
    fn element_over(&self) -> Option<u32> {
        let staged = self.steps.staged()?;
        let bytes: usize = staged.tag_values.iter().map(String::len).sum();
        (staged.tag_keys.len() > MOST_TAGS
            || staged.refs.len() > MOST_REFS
            || staged.members.len() > MOST_MEMBERS
            || bytes > MOST_VALUE_BYTES)
            .then_some(16)
    }

    /// The end of the reader's input. A refused end changes nothing.
    pub fn end(&self) -> Result<(), Stop> {
        match self.stop {
            Some(stop) => Err(stop),
            None if self.steps.is_done() => Ok(()),
            None => Err(Stop::at(Refusal::plain(18), self.lines + 1)),
        }
    }

    /// What is staged for an element.
    pub(crate) fn staged(&self) -> Option<&JudgeStaged> {
        self.steps.staged()
    }

    /// Where the published driver stands.
    pub fn place(&self) -> Place {
        self.steps.place()
    }

    /// The accepted events.
    pub fn lines(&self) -> u64 {
        self.lines
    }

    pub fn stop(&self) -> Option<Stop> {
        self.stop
    }
}

/// An element's name and fields as the Rust is handed them where it is compared. What it takes and document 02 does not
/// has no value then, and the Rust refuses it with the same number at the same place: a timestamp with a sign, and degrees
/// in another form. Degrees that lie as near to two whole numbers and that its float gives the other one are given as the
/// one further from 0, which they stand for.
fn compared(content: &str, name_len: usize) -> String {
    let (name, fields) = content.split_at(name_len);
    let fields: Vec<Cow<'_, str>> = fields.split('\t').map(compared_field).collect();
    name.to_owned() + &fields.join("\t")
}

fn compared_field(field: &str) -> Cow<'_, str> {
    let Some((name, raw)) = field.split_once('=') else { return Cow::Borrowed(field) };
    let text = unescape(raw).expect("an event line");
    if name == "timestamp" && ground::stamp(text.as_bytes()) != ground::stamp_with_signs(text.as_bytes()) {
        return Cow::Borrowed("timestamp=");
    }
    let Some(axis) = Axis::BOTH.into_iter().find(|axis| axis.name() == name) else { return Cow::Borrowed(field) };
    match degrees::read(&text, axis) {
        told if told == degrees::by_floats(&text, axis) => Cow::Borrowed(field),
        Err(number) => {
            assert_eq!(number, degrees::NOT_DEGREES, "{text}");
            Cow::Owned(format!("{name}="))
        }
        Ok(nearest) => {
            assert!(degrees::is_tie(&text), "{text}");
            Cow::Owned(format!("{name}={}", seven_decimals(nearest)))
        }
    }
}

/// What a program prints for event lines.
#[derive(Clone, Debug, PartialEq, Eq)]
pub enum Outcome {
    Listing(Vec<u8>),
    Refused(Stop),
}

impl Outcome {
    pub fn print(&self) -> Vec<u8> {
        match self {
            Self::Listing(bytes) => bytes.clone(),
            Self::Refused(stop) => {
                let held = stop.held.map_or_else(|| "-".to_owned(), |v| v.to_string());
                format!("refused\t{}\t{}\t{held}\n", stop.number, stop.line).into_bytes()
            }
        }
    }
}

/// Event lines through the published `drive_osc` into a new overlay: its listing or the refusal.
pub fn run(input: &[u8], allow_regression: bool) -> (Outcome, Overlay) {
    let mut overlay = Overlay::new();
    overlay.allow_version_regression(allow_regression);
    let outcome = match drive(input, &mut overlay) {
        Ok(()) => Outcome::Listing(overlay.listing()),
        Err(stop) => Outcome::Refused(stop),
    };
    (outcome, overlay)
}

/// Event lines through the published `drive_osc` into `overlay`.
pub fn drive(input: &[u8], overlay: &mut Overlay) -> Result<(), Stop> {
    let mut reader = quick_xml::Reader::from_reader(input);
    judge_drive(&mut reader, &mut overlay.inner).map_err(|e| {
        let refusal = Refusal::of_event(&e, reader.forms());
        let past = u64::from(refusal.number == 18);
        Stop::at(refusal, reader.lines() + past)
    })
}

/// The lines of an input, each with whether it had its line feed.
pub fn split_lines(input: &[u8]) -> Vec<(&[u8], bool)> {
    input
        .split_inclusive(|&b| b == b'\n')
        .map(|line| match line.split_last() {
            Some((b'\n', rest)) => (rest, true),
            _ => (line, false),
        })
        .collect()
}

/// Event lines one at a time into a new overlay, with lent sizes: 13 to 16 and 19 too, 9 for a sign, and 23 for degrees in another form.
pub fn run_sized(input: &[u8], allow_regression: bool, sizes: &Sizes) -> (Outcome, Overlay) {
    let mut overlay = Overlay::new();
    overlay.allow_version_regression(allow_regression);
    let mut reader = Reader::new();
    let mut reply = Ok(());
    for (line, ended) in split_lines(input) {
        reply = reader.line(&mut overlay, line, ended, Change::None, Some(sizes));
        if reply.is_err() {
            break;
        }
    }
    let outcome = match reply.and_then(|()| reader.end()) {
        Err(stop) => Outcome::Refused(stop),
        Ok(()) => {
            let listing = overlay.listing();
            if listing.len() > sizes.output {
                Outcome::Refused(Stop::at(Refusal::plain(19), reader.lines() + 1))
            } else {
                Outcome::Listing(listing)
            }
        }
    };
    (outcome, overlay)
}

/// `Seek` of sorted.rs over lent lists.
#[derive(Default)]
pub struct Seek(crate::osc::sorted::Seek);

impl Seek {
    pub fn at(place: Option<usize>) -> Self {
        Self(crate::osc::sorted::Seek::judge_at(place))
    }

    pub fn find(&mut self, ids: &[i64], id: i64) -> Option<usize> {
        self.0.find(ids, id)
    }

    /// The place that the next call begins at; none before the first.
    pub fn place(&self) -> Option<usize> {
        self.0.judge_place()
    }
}
