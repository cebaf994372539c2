//! xml_parse.rs, the readers of attributes: every short list out of a few attributes, good and bad.

use super::page::{Page, Row, row};
use super::state::{error, meta, refused, texts};
use super::term::{atom, bytes, call, list, result, z};
use crate::answer::Overlay;
use crate::degrees::{Axis, NOT_DEGREES, by_floats};
use crate::kinds::ElementKind;
use crate::lines::escape;
use crate::osc::ParseResult;
use crate::osc::xml_parse::*;
use quick_xml::events::BytesStart;

/// An attribute's name and value.
pub(super) type Pair = (&'static str, &'static str);

/// An element of that name as the stand-in hands it over.
pub(super) fn start(name: &str, attributes: &[(impl AsRef<str>, impl AsRef<str>)]) -> BytesStart<'static> {
    let field = |(k, v): &(_, _)| format!("\t{}={}", AsRef::<str>::as_ref(k), escape(AsRef::<str>::as_ref(v)));
    let fields: String = attributes.iter().map(field).collect();
    BytesStart::from_content(format!("{name}{fields}"), name.len())
}

/// The same as a term.
pub(super) fn element(name: &str, attributes: &[(impl AsRef<str>, impl AsRef<str>)]) -> String {
    let attr = |(k, v): &(_, _)| call("attr", &[bytes(AsRef::<str>::as_ref(k)), bytes(AsRef::<str>::as_ref(v))]);
    call("element", &[bytes(name), list(attributes.iter().map(attr))])
}

/// Every list of up to so many of them, one of them more than once too.
fn lists(of: &[Pair], most: usize) -> Vec<Vec<Pair>> {
    let mut all: Vec<Vec<Pair>> = vec![vec![]];
    let mut longest = all.clone();
    for _ in 0..most {
        let longer =
            |list: &Vec<Pair>| -> Vec<Vec<Pair>> { of.iter().map(|&one| [&list[..], &[one]].concat()).collect() };
        longest = longest.iter().flat_map(longer).collect();
        all.extend(longest.clone());
    }
    all
}

/// A function of an element at each list.
fn asked(
    function: &str,
    name: &str,
    lists: &[Vec<Pair>],
    f: impl Fn(&BytesStart<'_>) -> ParseResult<String>,
) -> Vec<Row> {
    let one = |attributes: &Vec<Pair>| {
        let answer = f(&start(name, attributes)).map_err(|e| error(&e));
        row(function.replace('@', &atom(element(name, attributes))), result(answer))
    };
    lists.iter().map(one).collect()
}

pub(super) fn page() -> Page {
    let mut page = Page::new("Attributes");
    let ids =
        [("id", "1"), ("id", "x"), ("id", ""), ("id", "-9223372036854775808"), ("Id", "2"), ("ref", "3"), ("ref", "x")];
    let id =
        asked("XmlParse.parse_i64_attr @ (ascii \"id\")", "node", &lists(&ids, 2), |e| parse_i64_attr(e, "id").map(z));
    page.about("parse_i64_attr", id);
    page.about("parse_nd", asked("XmlParse.parse_nd @", "nd", &lists(&ids, 2), |e| parse_nd(e).map(z)));
    let tags = [("k", "a"), ("k", ""), ("v", "b"), ("v", "two\twords"), ("kv", "z")];
    let text = asked("XmlParse.parse_str_attr @ (ascii \"k\")", "tag", &lists(&tags, 2), |e| {
        parse_str_attr(e, "k").map(bytes)
    });
    page.about("parse_str_attr", text);
    let tag = |(k, v): (String, String)| format!("record {{ k = {}; v = {} }}", bytes(k), bytes(v));
    page.about("parse_tag", asked("XmlParse.parse_tag @", "tag", &lists(&tags, 3), |e| parse_tag(e).map(tag)));
    let parts = [
        ("type", "node"),
        ("type", "way"),
        ("type", "relation"),
        ("type", "area"),
        ("ref", "7"),
        ("ref", "x"),
        ("role", "r"),
        ("role", ""),
    ];
    let members = asked("XmlParse.parse_member @", "member", &lists(&parts, 3), |e| parse_member(e).map(member));
    page.about("parse_member", members);
    page.about("arena_meta", metas());
    page
}

fn member(m: ParsedMember) -> String {
    let kind = match m.kind {
        ElementKind::Node => "Node",
        ElementKind::Way => "Way",
        ElementKind::Relation => "Relation",
    };
    format!("record {{ kind = {kind}; ref_id = {}; role = {} }}", z(m.ref_id), bytes(m.role))
}

/// A timestamp that is read.
pub(super) const STAMP: &str = "2024-01-01T23:00:00Z";

/// The timestamps that `arena_meta` may meet, each that is read with its seconds.
fn stamps(values: &[String]) -> String {
    let mut values = values.to_vec();
    values.sort();
    values.dedup();
    let read = |text: String| crate::parse_rfc3339_utc(&text).ok().map(|at| call("stamp", &[bytes(text), z(at)]));
    list(values.into_iter().filter_map(read))
}

/// The coordinates in degrees that an element may have, each that is a number with what the Rust makes of it.
fn degrees(values: &[String], axis: Axis) -> String {
    let read = |text: &String| match by_floats(text, axis) {
        Err(NOT_DEGREES) => None,
        answer => Some(call("degrees", &[bytes(text), result(answer.map(z).map_err(|number| refused(number, None)))])),
    };
    list(values.iter().filter_map(read))
}

/// What is not published, at these timestamps and texts of `lat` and `lon`.
pub(super) fn not_published(timestamps: &[String], lats: &[String], lons: &[String]) -> String {
    call("not_published", &[stamps(timestamps), degrees(lats, Axis::Latitude), degrees(lons, Axis::Longitude)])
}

/// `arena_meta` into an overlay that holds the user `u`.
fn metas() -> Vec<Row> {
    let of = [
        ("version", "2"),
        ("version", "x"),
        ("version", "2147483648"),
        ("timestamp", STAMP),
        ("timestamp", "yesterday"),
        ("changeset", "9223372036854775807"),
        ("changeset", ""),
        ("uid", "-2147483648"),
        ("uid", "2147483648"),
        ("user", "u"),
        ("user", ""),
        ("user", "new"),
        ("visible", "false"),
        ("visible", "False"),
        ("id", "x"),
    ];
    let mut all = lists(&of, 2);
    // Of the lists of three each thirteenth.
    all.extend(lists(&of, 3).into_iter().filter(|list| list.len() == 3).step_by(13));
    let overlay = "Parse.intern_in Parse.new (ascii \"u\")";
    let np = not_published(&[STAMP.to_owned()], &[], &[]);
    let scan = format!("XmlParse.scan_meta_attrs ({np}) XmlParse.default @.attributes");
    let read = |e: &BytesStart<'_>| {
        let mut overlay = Overlay::new();
        overlay.intern("u");
        let m = JUDGE_META(e, &mut overlay.inner)?;
        let (table, string_bytes) = overlay.inner.judge_spans();
        let left = texts(string_bytes, table, &overlay.inner.judge_lookup());
        Ok(call("scanned", &[meta(&m), left]))
    };
    asked(&format!("of_scan ({overlay}) ({scan})"), "way", &all, read)
}
