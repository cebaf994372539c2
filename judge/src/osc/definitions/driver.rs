//! xml_parse.rs, the driver and its sink: `handle_open` and `handle_close` at every level, section and open kind, with
//! and without a staged element; `begin_element` with good and bad attributes. The whole state after each.

use std::ops::Range;

use quick_xml::events::{BytesEnd, Event, Forms};

use super::attributes::{STAMP, element, not_published, start};
use super::page::{Page, Row, row};
use super::state::{kind_name, overlay, place, staged, told, unit};
use super::term::{atom, call};
use crate::answer::{KINDS, Overlay};
use crate::kinds::ElementKind;
use crate::nesting::Place;
use crate::osc::direct::Meta;
use crate::osc::xml_parse::{JudgeStaged, JudgeSteps};
use crate::produce::GOOD;

/// Id 1 of each kind at version 2, and a text.
fn before() -> Overlay {
    let meta = Meta { flags: 9, version: 2, ..Meta::default() };
    let mut overlay = Overlay::new();
    let key = overlay.intern("a");
    overlay.push_node(1, (5, 6), &[(key, "b")], &meta).expect("taken");
    overlay.push_way(1, &[7], &[], &meta).expect("taken");
    overlay.push_relation(1, &[], &[], &meta).expect("taken");
    overlay
}

/// A staged element that was begun before, with a version.
fn begun(kind: ElementKind, version: i32) -> JudgeStaged {
    let mut staged = JudgeStaged {
        kind,
        id: 1,
        lat: 0,
        lon: 0,
        meta: (9, version, 0, 0, 0, 0),
        tag_keys: vec![1],
        tag_values: vec!["v".to_owned()],
        refs: vec![],
        members: vec![],
    };
    match kind {
        ElementKind::Node => (staged.lat, staged.lon) = (8, -9),
        ElementKind::Way => staged.refs = vec![3],
        ElementKind::Relation => staged.members = vec![(4, 1, 0)],
    }
    staged
}

/// A state of the driver: where it stands, and what is staged, which the page has under a name.
#[derive(Clone)]
struct Stand {
    place: Place,
    sink: String,
    staged: Option<JudgeStaged>,
}

impl Stand {
    fn bare(place: Place) -> Self {
        Self { place, sink: "sink_none".to_owned(), staged: None }
    }

    /// With an element of the open kind staged.
    fn with_staged(place: Place, (name, version): (&str, i32)) -> Self {
        let kind = KINDS[usize::from(place.kind)];
        Self { place, sink: format!("{name}_{kind}"), staged: Some(begun(kind, version)) }
    }

    fn state(&self) -> String {
        place(self.place)
    }

    /// What a call answers and leaves, of an element with its coordinates in these forms.
    fn after(&self, forms: Forms, f: impl FnOnce(&mut JudgeSteps, &mut Overlay) -> Result<(), crate::Error>) -> String {
        let (mut steps, mut after) = (JudgeSteps::at(self.place, self.staged.clone()), before());
        let reply = f(&mut steps, &mut after);
        let held = if after.state() == before().state() { "unchanged".to_owned() } else { told(&after) };
        call("summary", &[place(steps.place()), held, staged(steps.staged()), unit(reply, forms)])
    }
}

/// Staged elements: at the version that is held, and below it.
const GOING: (&str, i32) = ("sink", 2);
const STALE: (&str, i32) = ("stale", 1);

/// Every level, section and open kind.
fn places() -> impl Iterator<Item = Place> {
    (0..63).map(|n| Place { level: n / 9, section: n / 3 % 3, kind: n % 3 })
}

/// At each place nothing staged, or an element of the open kind.
fn stands(level: impl Fn(u8) -> bool) -> Vec<Stand> {
    let here = places().filter(|place| level(place.level));
    here.flat_map(|place| [Stand::bare(place), Stand::with_staged(place, GOING)]).collect()
}

/// Elements below the version that is held, then children with something missing or bad.
const BAD: [&str; 12] = [
    "node|id=1|version=1|lat7=3|lon7=-4|user=w",
    "way|id=1|version=1|user=w",
    "relation|id=1|version=1",
    "tag|k=a",
    "tag|v=b",
    "nd",
    "nd|ref=x",
    "member|ref=1",
    "member|type=area|ref=x",
    "member|type=way",
    "member|type=node|ref=",
    "member|type=relation|ref=2",
];

/// An element by its name and fields.
fn parted(line: &str) -> (&str, Vec<(&str, &str)>) {
    let mut fields = line.split('|');
    let name = fields.next().expect("a name");
    (name, fields.map(|field| field.split_once('=').expect("a name and a value")).collect())
}

fn defined(name: &'static str) -> Page {
    let mut page = Page::new(name);
    let texts = DEGREES.map(str::to_owned);
    page.define("np", "NotPublished", &not_published(&[STAMP.to_owned()], &texts, &texts));
    page.define("before", "CompactDiffOverlay", &overlay(&before()));
    page.define("unchanged", "Told", "overlay before");
    page.define("sink_none", "CompactSink", "XmlParse.sink_with before None");
    for (name, version) in [GOING, STALE] {
        for kind in KINDS {
            let sink = format!("XmlParse.sink_with before {}", atom(staged(Some(&begun(kind, version)))));
            page.define(&format!("{name}_{kind}"), "CompactSink", &sink);
        }
    }
    page
}

pub(super) fn page() -> Page {
    let mut page = defined("Driver");
    for (n, line) in GOOD.iter().chain(&BAD).enumerate() {
        let (name, attributes) = parted(line);
        page.define(&format!("element_{n}"), "BytesStart", &element(name, &attributes));
    }
    page.about("unchanged", [row("overlay before".to_owned(), told(&before()))]);
    let opened = |stands: Vec<Stand>, numbers: Range<usize>| -> Vec<Row> {
        let each = |stand: &Stand| -> Vec<Row> { numbers.clone().flat_map(|n| open(stand, n)).collect() };
        stands.iter().flat_map(each).collect()
    };
    let good = GOOD.len();
    page.about("handle_open", opened(stands(|_| true), 0..good));
    page.about("handle_stale", opened(stands(|level| level == 2), good..good + 3));
    page.about("handle_child", opened(stands(|level| level == 3), good + 3..good + BAD.len()));
    let stale = places().map(|place| Stand::with_staged(place, STALE));
    page.about("handle_close", stands(|_| true).into_iter().chain(stale).map(|stand| close(&stand)));
    page
}

/// `handle_open` of the element with that number, opened and empty.
fn open(stand: &Stand, number: usize) -> [Row; 2] {
    let line = GOOD.iter().chain(&BAD).nth(number).expect("an element");
    let (name, attributes) = parted(line);
    [false, true].map(|empty| {
        let e = start(name, &attributes);
        let forms = e.forms();
        let event = if empty { Event::Empty(e) } else { Event::Start(e) };
        let answer = stand.after(forms, |steps, overlay| steps.step(&mut overlay.inner, &event));
        let arguments = [format!("element_{number}"), empty.to_string(), stand.state(), stand.sink.clone()];
        row(format!("of_driven ({})", call("XmlParse.handle_open np", &arguments)), answer)
    })
}

fn close(stand: &Stand) -> Row {
    let answer = stand.after(Forms::default(), |steps, overlay| steps.step(&mut overlay.inner, &Event::End(BytesEnd)));
    row(format!("of_driven ({})", call("XmlParse.handle_close", &[stand.state(), stand.sink.clone()])), answer)
}

/// Coordinates in degrees: read, rounded and out of range.
const DEGREES: [&str; 3] = ["-1.50000005", "+90", "180.000000000001"];

/// A node's coordinates, each missing, in one form, good or bad, or in both; in either order.
fn coordinates() -> Vec<Vec<(&'static str, &'static str)>> {
    let [read, _, far] = DEGREES;
    let of = |seven, degrees| -> Vec<Vec<(&'static str, &'static str)>> {
        vec![
            vec![],
            vec![(seven, "5")],
            vec![(seven, "x")],
            vec![(degrees, read)],
            vec![(degrees, "x")],
            vec![(degrees, far)],
            vec![(degrees, "x"), (seven, "5")],
            vec![(seven, "x"), (degrees, read)],
        ]
    };
    let mut out = Vec::new();
    for lat in of("lat7", "lat") {
        for lon in of("lon7", "lon") {
            let mut given = [&[("id", "1")], &lat[..], &lon[..]].concat();
            if out.len() % 2 == 1 {
                given.reverse();
            }
            out.push(given);
        }
    }
    out
}

/// Attributes of an element: one choice of each, in either order.
fn choices() -> Vec<Vec<(&'static str, &'static str)>> {
    let ids = [None, Some("1"), Some("x")];
    let versions = [None, Some("1"), Some("3"), Some("x")];
    let users = [None, Some("u")];
    let lats = [None, Some("-900000000"), Some("900000001"), Some("x")];
    let lons = [None, Some("1800000000"), Some("-1800000001")];
    let mut out = Vec::new();
    for id in ids {
        for version in versions {
            for user in users {
                for lat in lats {
                    for lon in lons {
                        let all = [("id", id), ("version", version), ("user", user), ("lat7", lat), ("lon7", lon)];
                        let mut given: Vec<_> = all.into_iter().filter_map(|(k, v)| Some((k, v?))).collect();
                        if out.len() % 2 == 1 {
                            given.reverse();
                        }
                        out.push(given);
                    }
                }
            }
        }
    }
    out
}

/// `begin_element`: of a node with all choices, of the others with each sixth; and with all coordinates.
pub(super) fn begin_page() -> Page {
    let mut page = defined("Begin");
    for kind in KINDS {
        let choices = choices().into_iter().chain(coordinates());
        let choices: Vec<_> = choices.step_by(if kind == ElementKind::Node { 1 } else { 6 }).collect();
        let each = (0..3).flat_map(|section| choices.iter().map(move |given| begin(kind, section, given)));
        page.about(&format!("begin_{kind}"), each);
    }
    page
}

fn begin(kind: ElementKind, section: u8, given: &[(&str, &str)]) -> Row {
    let stand = Stand::bare(Place { level: 2, section, kind: 0 });
    let e = start(kind.as_str(), given);
    let answer = stand.after(e.forms(), |steps, overlay| steps.begin(&mut overlay.inner, kind, &e));
    let action = super::state::action(section).to_owned();
    let arguments = [stand.sink.clone(), action, kind_name(kind).to_owned(), element(kind.as_str(), given)];
    let question = call("XmlParse.begin_element np", &arguments);
    row(format!("of_sunk ({}) ({question})", stand.state()), answer)
}
