//! An event and an end by document 01's words, on lent storage.

use super::call::{Answer, Head, Lines, Storage, in_turn};
use super::words::{Words, admitted, claim, first_fault, pushed, store_delete, store_push, store_text};
use crate::answer::{KINDS, Kind, MOST_MEMBERS, MOST_REFS, MOST_TAGS, MOST_VALUE_BYTES, Meta};
use crate::degrees::{self, Axis};
use crate::ground;
use crate::lines::{Line, judge_line, unescape};
use crate::nesting::Place;

const DOC: u8 = 0;
const ROOT: u8 = 1;
const SECTION: u8 = 2;
const ELEMENT: u8 = 3;
const LEAF: u8 = 4;
const OTHER: u8 = 5;
const DONE: u8 = 6;
const DELETE: u8 = 2;

/// What a reader's words say.
#[derive(Clone, Copy, Debug, PartialEq, Eq)]
pub struct Reading {
    pub place: Place,
    pub head: Head,
    pub meta: Meta,
    pub used: usize,
    pub lines: u64,
    /// Number, version held, line.
    pub stop: (u32, i32, u64),
}

/// A number within the width of its field, and not above the last code.
fn code<T: TryFrom<u64> + PartialOrd>(word: u64, last: T) -> Option<T> {
    T::try_from(word).ok().filter(|code| *code <= last)
}

fn bits(word: u64) -> Option<i32> {
    u32::try_from(word).ok().map(u32::cast_signed)
}

impl Reading {
    /// None where a word is no code, or does not fit its field. "a refused event, except for 22, stops its reader": with 2 to 16 and 23 to 26.
    pub fn of(words: &[u64; 19]) -> Option<Self> {
        let [level, section, kind, id, lat, lon, count, tags, flags, version, ..] = *words;
        let [.., timestamp, changeset, uid, user, used, lines, number, line, held] = *words;
        // A mark is a refusal that stops a reader, with the version held for 12 alone, and none has a line.
        if !matches!(number, 0 | 2..=16 | 23..=26) || (number != 12 && held != 0) || (number == 0 && line != 0) {
            return None;
        }
        Some(Self {
            place: Place { level: code(level, DONE)?, section: code(section, DELETE)?, kind: code(kind, 2)? },
            head: Head {
                id: id.cast_signed(),
                lat: bits(lat)?,
                lon: bits(lon)?,
                count: code(count, u32::MAX)?,
                tags: code(tags, u32::MAX)?,
            },
            meta: Meta {
                flags: code(flags, u8::MAX)?,
                version: bits(version)?,
                timestamp: timestamp.cast_signed(),
                changeset: changeset.cast_signed(),
                uid: bits(uid)?,
                user: code(user, u32::MAX)?,
            },
            used: used as usize,
            lines,
            stop: (code(number, 26)?, bits(held)?, line),
        })
    }

    pub fn words(&self) -> [u64; 19] {
        let wide = |n: i32| u64::from(n.cast_unsigned());
        let (place, head, meta, stop) = (self.place, self.head, self.meta, self.stop);
        [
            place.level.into(),
            place.section.into(),
            place.kind.into(),
            head.id.cast_unsigned(),
            wide(head.lat),
            wide(head.lon),
            head.count.into(),
            head.tags.into(),
            meta.flags.into(),
            wide(meta.version),
            meta.timestamp.cast_unsigned(),
            meta.changeset.cast_unsigned(),
            wide(meta.uid),
            meta.user.into(),
            self.used as u64,
            self.lines,
            stop.0.into(),
            stop.2,
            wide(stop.1),
        ]
    }

    fn kind(&self) -> Kind {
        KINDS[usize::from(self.place.kind)]
    }

    /// "staged parts passing the same; line count (u64) below its largest".
    fn is_sound(&self, parts: &[u8], strings: u64) -> bool {
        let staged = parts.get(..self.used);
        let record = staged.and_then(|p| pushed(self.kind(), &self.head, &self.meta, p));
        record.is_some_and(|r| first_fault(self.kind(), &r, strings).is_ok()) && self.lines < u64::MAX
    }

    /// Nothing is staged.
    fn clear(&mut self) {
        (self.head, self.meta, self.used) = (Head::default(), Meta::default(), 0);
    }

    /// How many bytes refs or members take.
    fn middle(&self) -> usize {
        let size = [0, 8, 13][usize::from(self.place.kind)];
        size * self.head.count as usize
    }
}

fn answer((number, held, line): (u32, i32, u64)) -> Answer {
    Answer::Event { number, held, line }
}

/// The reader, where it and the overlay are sound; or its answer: 22, which names no line, or the
/// repeat of its stop mark.
fn going(words: &Words, lent: &Storage, n: usize) -> Result<Reading, Answer> {
    let Lines { words: held, parts } = &lent.readers[n];
    let sound = |r: &Reading| words.checked(lent).is_ok() && r.is_sound(parts, lent.counters[6]);
    let reading = Reading::of(held).filter(sound);
    let reading = reading.ok_or_else(|| answer((22, 0, 0)))?;
    if reading.stop.0 != 0 {
        return Err(answer(reading.stop));
    }
    Ok(reading)
}

pub(super) fn event(words: &Words, lent: &mut Storage, n: usize, line: &[u8]) -> Answer {
    let before = match going(words, lent, n) {
        Ok(reading) => reading,
        Err(answer) => return answer,
    };
    let mut after = (lent.clone(), before);
    let next = before.lines + 1;
    match step(&mut after.0, n, &mut after.1, line) {
        Ok(()) => {
            (after.1.lines, after.1.stop) = (next, (0, 0, 0));
            after.0.readers[n].words = after.1.words();
            *lent = after.0;
            answer((0, 0, 0))
        }
        Err((number, held)) => {
            let stop = (number, held, next);
            lent.readers[n].words = Reading { stop, ..before }.words();
            answer(stop)
        }
    }
}

/// A run: "each call .., first", so 22 and the stop mark are told whatever it holds.
pub(super) fn events(words: &Words, lent: &mut Storage, n: usize, run: &[u8]) -> Answer {
    let first = going(words, lent, n).err().unwrap_or_else(|| answer((0, 0, 0)));
    in_turn(run, first, |line| event(words, lent, n, line))
}

/// "18 level is not Done". It stops nothing and changes nothing.
pub(super) fn end(words: &Words, lent: &Storage, n: usize) -> Answer {
    match going(words, lent, n) {
        Ok(reading) if reading.place.level == DONE => answer((0, 0, 0)),
        Ok(reading) => answer((18, 0, reading.lines + 1)),
        Err(answer) => answer,
    }
}

type Stepped = Result<(), (u32, i32)>;

fn plain(number: u32) -> (u32, i32) {
    (number, 0)
}

fn step(lent: &mut Storage, n: usize, reading: &mut Reading, line: &[u8]) -> Stepped {
    let (body, ended) = line.strip_suffix(b"\n").map_or((line, false), |b| (b, true));
    match judge_line(body, ended).map_err(plain)? {
        Line::Other => Ok(()),
        Line::Close => close(lent, n, reading),
        Line::Open { empty, content, name_len } => {
            let fields = content[name_len..].split('\t').skip(1);
            let fields = fields.map(|field| {
                let (name, value) = field.split_once('=').expect("an event line");
                (name, unescape(value).expect("an event line"))
            });
            let fields = Fields(fields.collect());
            open(lent, n, reading, empty, &content[..name_len], &fields)
        }
    }
}

/// "A close goes Leaf to Element to Section to Root to Done, Other to Root; in Doc and Done it changes
/// nothing." "A push happens when its element ends."
fn close(lent: &mut Storage, n: usize, reading: &mut Reading) -> Stepped {
    if reading.place.level == ELEMENT && reading.place.section != DELETE {
        let parts = lent.readers[n].parts[..reading.used].to_vec();
        store_push(lent, reading.kind(), &reading.head, &reading.meta, &parts)?;
        reading.clear();
    }
    let closed = [DOC, DONE, ROOT, SECTION, ELEMENT, ROOT, DONE];
    reading.place.level = closed[usize::from(reading.place.level)];
    Ok(())
}

/// The attributes of a line, in its order.
struct Fields<'a>(Vec<(&'a str, String)>);

impl Fields<'_> {
    fn get(&self, name: &str) -> Option<&str> {
        let field = self.0.iter().find(|field| field.0 == name);
        field.map(|field| &*field.1)
    }

    /// 7.
    fn given(&self, name: &str) -> Result<&str, (u32, i32)> {
        self.get(name).ok_or((7, 0))
    }

    /// 7, 8.
    fn number(&self, name: &str) -> Result<i64, (u32, i32)> {
        let value = self.given(name)?.as_bytes();
        ground::read_i64(value).ok_or((8, 0))
    }

    /// "24 a pushed node's coordinate in both forms, first at that coordinate's place"; 7; "23 text not of this form, where 8
    /// is checked for `lat7`"; "10 as before".
    fn coordinate(&self, axis: Axis) -> Result<i32, (u32, i32)> {
        let (seven, most) = match axis {
            Axis::Latitude => ("lat7", 900_000_000),
            Axis::Longitude => ("lon7", 1_800_000_000),
        };
        match (self.get(seven), self.get(axis.name())) {
            (Some(_), Some(_)) => Err((24, 0)),
            (None, Some(text)) => degrees::read(text, axis).map_err(plain),
            _ => {
                let value = ground::read_i32(self.given(seven)?.as_bytes()).ok_or((8, 0))?;
                if value.unsigned_abs() > most { Err((10, 0)) } else { Ok(value) }
            }
        }
    }

    /// Metadata in line order, but for the user's handle: 8, 9. "Any of the six attributes sets flag 1;
    /// only `visible=false` exactly sets 2."
    fn meta(&self) -> Result<Meta, (u32, i32)> {
        let mut meta = Meta::default();
        for (name, value) in &self.0 {
            let narrow = || ground::read_i32(value.as_bytes()).ok_or((8, 0));
            match *name {
                "version" => (meta.flags, meta.version) = (meta.flags | 8, narrow()?),
                "uid" => meta.uid = narrow()?,
                "changeset" => {
                    meta.changeset = ground::read_i64(value.as_bytes()).ok_or((8, 0))?;
                }
                "timestamp" => meta.timestamp = ground::stamp(value.as_bytes()).ok_or((9, 0))?,
                "user" => meta.flags |= 4,
                "visible" if value == "false" => meta.flags |= 2,
                "visible" => {}
                _ => continue,
            }
            meta.flags |= 1;
        }
        Ok(meta)
    }
}

/// The nesting rules at an open: 5, 6, or what is done and the level after it.
fn open(lent: &mut Storage, n: usize, reading: &mut Reading, empty: bool, name: &str, fields: &Fields) -> Stepped {
    let place = reading.place;
    let number = |names: [&str; 3]| names.iter().position(|n| *n == name).map(|n| n as u8);
    let object = number(["node", "way", "relation"]);
    let goes_to = |level| if empty { place.level } else { level };
    match place.level {
        DOC if name == "osmChange" => {
            reading.place.level = if empty { DONE } else { ROOT };
        }
        ROOT if object.is_some() => return Err((6, 0)),
        ROOT if name != "osmChange" => match number(["create", "modify", "delete"]) {
            Some(section) if !empty => {
                (reading.place.level, reading.place.section) = (SECTION, section);
            }
            Some(_) => {}
            None => reading.place.level = goes_to(OTHER),
        },
        SECTION => {
            let kind = object.ok_or((5, 0))?;
            begin(lent, reading, empty, kind, fields)?;
            reading.place.level = goes_to(ELEMENT);
        }
        ELEMENT => {
            child(lent, n, reading, name, fields)?;
            reading.place.level = goes_to(LEAF);
        }
        _ => return Err((5, 0)),
    }
    Ok(())
}

/// "Fields: id; then metadata in line order; then a pushed node's lat7; then lon7", or `lat` and `lon` in their places. "In a delete
/// section the delete happens at the opening." 12, 13, 14, 15.
fn begin(lent: &mut Storage, reading: &mut Reading, empty: bool, kind: u8, fields: &Fields) -> Stepped {
    let deletes = reading.place.section == DELETE;
    let mut head = Head { id: fields.number("id")?, ..Head::default() };
    let mut meta = fields.meta()?;
    if kind == 0 && !deletes {
        head.lat = fields.coordinate(Axis::Latitude)?;
        head.lon = fields.coordinate(Axis::Longitude)?;
    }
    let which = KINDS[usize::from(kind)];
    if deletes || empty {
        admitted(lent, which, head.id, claim(&meta))?;
    }
    if let Some(user) = fields.get("user") {
        meta.user = store_text(lent, user.as_bytes()).map_err(plain)?;
    }
    reading.clear();
    if deletes {
        store_delete(lent, which, head.id, &meta)?;
    } else if empty {
        store_push(lent, which, &head, &meta, &[])?;
    } else {
        (reading.head, reading.meta) = (head, meta);
    }
    // An empty element opens none.
    if !empty {
        reading.place.kind = kind;
    }
    Ok(())
}

/// "`tag` anywhere, `nd` in a way, `member` in a relation, `bbox` and `bounds` in those two." In a
/// delete section "children are checked and dropped".
fn child(lent: &mut Storage, n: usize, reading: &mut Reading, name: &str, fields: &Fields) -> Stepped {
    let dropped = reading.place.section == DELETE;
    match (name, reading.place.kind) {
        ("tag", _) => {
            let (key, value) = (fields.given("k")?, fields.given("v")?.as_bytes());
            if dropped {
                return Ok(());
            }
            let key = store_text(lent, key.as_bytes()).map_err(plain)?;
            let values = reading.used - reading.middle() - 8 * reading.head.tags as usize;
            let fits = values + value.len() <= MOST_VALUE_BYTES;
            reading.head.tags += 1;
            if !fits || reading.head.tags as usize > MOST_TAGS {
                return Err((16, 0));
            }
            let tag = [&key.to_le_bytes(), &(value.len() as u32).to_le_bytes(), value].concat();
            stage(lent, n, reading, reading.used, &tag);
        }
        ("nd", 1) => {
            let part = fields.number("ref")?.to_le_bytes();
            if !dropped {
                counted(lent, n, reading, MOST_REFS, &part)?;
            }
        }
        ("member", 2) => {
            let kinds = ["node", "way", "relation"];
            let kind = fields.given("type")?;
            let byte = kinds.iter().position(|k| *k == kind).ok_or((11, 0))?;
            let id = fields.number("ref")?;
            if dropped {
                return Ok(());
            }
            let role = fields.get("role").unwrap_or_default();
            let role = store_text(lent, role.as_bytes()).map_err(plain)?;
            let part = [&id.to_le_bytes()[..], &[byte as u8], &role.to_le_bytes()].concat();
            counted(lent, n, reading, MOST_MEMBERS, &part)?;
        }
        ("bbox" | "bounds", 1 | 2) => {}
        _ => return Err((5, 0)),
    }
    Ok(())
}

/// One ref or member more, behind those that are there: 16.
fn counted(lent: &mut Storage, n: usize, reading: &mut Reading, most: usize, part: &[u8]) -> Stepped {
    let at = reading.middle();
    reading.head.count += 1;
    if reading.head.count as usize > most {
        return Err((16, 0));
    }
    stage(lent, n, reading, at, part);
    Ok(())
}

/// A part put in at a place; what is staged past it moves.
fn stage(lent: &mut Storage, n: usize, reading: &mut Reading, at: usize, part: &[u8]) {
    let parts = &mut lent.readers[n].parts;
    parts.copy_within(at..reading.used, at + part.len());
    parts[at..at + part.len()].copy_from_slice(part);
    reading.used += part.len();
}
