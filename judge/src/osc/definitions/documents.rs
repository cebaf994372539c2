//! Whole documents at random through `drive_osc`, two into one overlay, refused ones too: the whole state after each.

use std::collections::BTreeSet;

use super::attributes::{self, element};
use super::page::{Page, Row, row};
use super::state::{place, refused, staged, told};
use super::term::{atom, call, list, result, z};
use crate::answer::{Change, KINDS, Overlay, Reader, Stop, drive};
use crate::lines::{Line, judge_line, unescape};
use crate::produce::{Bytes, Documents, Style};
use crate::random::Random;

/// So many times two documents into one overlay: valid ones, ones with bad attributes, damaged ones.
const PAIRS: usize = 100;

pub(super) fn page() -> Page {
    let mut page = Page::new("Documents");
    let style = Style { objects: 5, ids: 1, ..Style::VALID };
    let source = |(seed, damage)| Documents::new(seed, Style { damage, ..style });
    let mut sources = [(1, 0), (2, 0), (3, 20)].map(source);
    let (mut driven, mut sorted, mut numbers) = (Vec::new(), Vec::new(), BTreeSet::new());
    for n in 0..PAIRS {
        let source = &mut sources[n % 3];
        source.forget();
        let mut both = [events(&source.document()), events(&source.document())];
        if n % 3 == 1 {
            both.iter_mut().for_each(|document| spoil(document, &mut source.random));
        }
        let mut overlay = Overlay::new();
        overlay.allow_version_regression(n % 5 == 4);
        let mut term = format!("Parse.allow Parse.new {}", n % 5 == 4);
        for document in &both {
            let question = call("document", &[not_published(document), list(document.iter().map(event)), term]);
            let (number, answer) = after(document, &mut overlay);
            numbers.insert(number);
            driven.push(row(format!("of_driven ({question})"), answer));
            term = format!("{}.sink.overlay", atom(question));
        }
        sorted.push(in_order(&term, &overlay));
    }
    // A document, and each error that one can give.
    assert_eq!(numbers.into_iter().collect::<Vec<_>>(), [0, 5, 6, 7, 8, 9, 10, 11, 12, 18, 23, 24]);
    page.about("drive_osc", driven);
    page.about("into_sorted", sorted);
    page
}

/// The lines of a document that are events and not long.
fn events(lines: &[Bytes]) -> Vec<Bytes> {
    let is_event =
        |line: &&Bytes| line.len() < 200 && line.strip_suffix(b"\n").is_some_and(|line| judge_line(line, true).is_ok());
    lines.iter().filter(is_event).cloned().collect()
}

/// Takes an attribute away, or gives it a value that its reader refuses.
fn spoil(document: &mut [Bytes], random: &mut Random) {
    let named =
        ["id", "version", "version", "timestamp", "uid", "lat7", "lon7", "lat", "lon", "ref", "type", "type", "k", "v"];
    let bad = |name: &str, random: &mut Random| match name {
        "lat7" | "lon7" => "1800000001",
        "lat" | "lon" => *random.pick(&["180.000000000001", "x", "1\\t"]),
        "version" => "-3",
        _ => *random.pick(&["x", "", "area"]),
    };
    let has =
        |line: &&mut Bytes, name: &str| line.windows(name.len() + 2).any(|w| w == format!("\t{name}=").as_bytes());
    for _ in 0..2 {
        let name = *random.pick(&named);
        let mut lines: Vec<&mut Bytes> = document.iter_mut().filter(|line| has(line, name)).collect();
        if !lines.is_empty() {
            let line = lines.swap_remove(random.below(lines.len()));
            let text = String::from_utf8(line.clone()).expect("an event is text");
            let (before, rest) = text.split_once(&format!("\t{name}=")).expect("it is there");
            let behind = &rest[rest.find(['\t', '\n']).expect("a line feed")..];
            let other = if random.once_in(3) { String::new() } else { format!("\t{name}={}", bad(name, random)) };
            *line = format!("{before}{other}{behind}").into_bytes();
        }
    }
}

/// An element's name and attributes, values unescaped.
fn parted<'a>(content: &'a str, name_len: usize) -> (&'a str, Vec<(&'a str, String)>) {
    let (name, fields) = content.split_at(name_len);
    let one = |field: &'a str| {
        let (name, value) = field.split_once('=').expect("a name and a value");
        (name, unescape(value).expect("good escapes"))
    };
    (name, fields.split('\t').skip(1).map(one).collect())
}

fn line(line: &[u8]) -> Line<'_> {
    judge_line(&line[..line.len() - 1], true).expect("an event")
}

fn event(bytes: &Bytes) -> String {
    match line(bytes) {
        Line::Close => "XmlParse.End".to_owned(),
        Line::Other => "XmlParse.Event.Other".to_owned(),
        Line::Open { empty, content, name_len } => {
            let (name, attributes) = parted(content, name_len);
            call(if empty { "XmlParse.Empty" } else { "XmlParse.Start" }, &[element(name, &attributes)])
        }
    }
}

/// What is not published, at the document's timestamps and degrees.
fn not_published(document: &[Bytes]) -> String {
    let values = |wanted: &str| -> Vec<String> {
        let mut values = BTreeSet::new();
        for bytes in document {
            if let Line::Open { content, name_len, .. } = line(bytes) {
                let given = parted(content, name_len).1.into_iter().filter(|(name, _)| *name == wanted);
                values.extend(given.map(|(_, value)| value));
            }
        }
        values.into_iter().collect()
    };
    attributes::not_published(&values("timestamp"), &values("lat"), &values("lon"))
}

/// `drive_osc`, and the same event by event for where it stands and what is staged.
/// The number of its answer, and all of it as a term.
fn after(document: &[Bytes], overlay: &mut Overlay) -> (u32, String) {
    let mut beside = overlay.clone();
    let reply = drive(&document.concat(), overlay);
    let mut reader = Reader::new();
    let step = |line: &Bytes| reader.line(&mut beside, &line[..line.len() - 1], true, Change::AsRust, None);
    let stepped: Result<(), Stop> = document.iter().try_for_each(step).and_then(|()| reader.end());
    assert_eq!(reply, stepped);
    assert_eq!(overlay.state(), beside.state());
    let told_of = result(reply.map(|()| "tt".to_owned()).map_err(|stop| refused(stop.number, stop.held)));
    let term = call("summary", &[place(reader.place()), told(overlay), staged(reader.staged()), told_of]);
    (reply.map_or_else(|stop| stop.number, |()| 0), term)
}

/// `into_sorted` of what the documents left.
fn in_order(term: &str, overlay: &Overlay) -> Row {
    let state = overlay.state();
    let one = |k: usize| {
        let (live, deleted) = overlay.sorted_ids(KINDS[k]);
        let offset = |id: &i64| state.kinds[k].live.iter().find(|(other, _)| other == id).expect("live").1;
        let ids = |of: &[i64]| list(of.iter().map(|&id| z(id)));
        call("listed", &[ids(&live), list(live.iter().map(offset)), ids(&deleted)])
    };
    row(format!("in_order (Sorted.into_sorted ({term}))"), list([0, 1, 2].map(one)))
}
