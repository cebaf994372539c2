//! The Rust's states and errors as terms.

use quick_xml::events::Forms;

use super::term::{atom, bytes, call, list, option, packed, result, z};
use crate::answer::{KindState, Overlay, State};
use crate::error::ErrorKind;
use crate::kinds::ElementKind;
use crate::nesting::Place;
use crate::osc::compact::ArenaMeta;
use crate::osc::xml_parse::JudgeStaged;
use crate::refusal::Refusal;

pub(super) fn key((class, magnitude): (u8, u64)) -> String {
    format!("key {class} {magnitude}")
}

pub(super) fn kind_name(kind: ElementKind) -> &'static str {
    ["Node", "Way", "Relation"][kind as usize]
}

pub(super) fn action(number: u8) -> &'static str {
    ["Create", "Modify", "Delete"][usize::from(number)]
}

pub(super) fn place(p: Place) -> String {
    let level = ["Doc", "Root", "Section", "Element", "Leaf", "Level.Other", "Done"][usize::from(p.level)];
    let kind = ["Node", "Way", "Relation"][usize::from(p.kind)];
    format!("at {level} {} {kind}", action(p.section))
}

/// An error by the name of its maker.
pub(super) fn error(err: &crate::Error) -> String {
    error_of_event(err, Forms::default())
}

/// The same of an event with an element that has its coordinates in these forms.
fn error_of_event(err: &crate::Error, forms: Forms) -> String {
    if matches!(err.kind(), ErrorKind::Internal { .. }) {
        return "XmlParse.internal".to_owned();
    }
    let refusal = Refusal::of_event(err, forms);
    refused(refusal.number, refusal.held)
}

/// The same by the documents' number.
pub(super) fn refused(number: u32, held: Option<i32>) -> String {
    let name = match number {
        5 => "misplaced",
        6 => "outside_section",
        7 => "missing_attr",
        8 => "not_integer",
        9 => "bad_timestamp",
        10 => "bad_coordinate",
        11 => "unknown_member_type",
        12 => return call("XmlParse.version_regression", &[z(held.expect("what is held"))]),
        18 => "truncated",
        23 => "not_degrees",
        24 => "both_forms",
        _ => panic!("no error of the definitions has number {number}"),
    };
    format!("XmlParse.{name}")
}

/// `Ok(())`, or the error, of an event with an element that has its coordinates in these forms.
pub(super) fn unit(reply: Result<(), crate::Error>, forms: Forms) -> String {
    result(reply.map(|()| "tt".to_owned()).map_err(|e| error_of_event(&e, forms)))
}

pub(super) fn meta(m: &ArenaMeta) -> String {
    let numbers = [z(m.version), z(m.timestamp), z(m.changeset), z(m.uid)];
    call("meta", &[&[m.flags.to_string()], &numbers[..], &[m.user_id.to_string()]].concat())
}

pub(super) fn tags(tags: &[(u32, &str)]) -> String {
    list(tags.iter().map(|(key, value)| call("tag", &[key.to_string(), bytes(value)])))
}

pub(super) fn members(members: &[(i64, u8, u32)]) -> String {
    list(members.iter().map(|&(id, byte, role)| call("member", &[z(id), byte.to_string(), role.to_string()])))
}

pub(super) fn spans(spans: &[(u32, u32)]) -> String {
    list(spans.iter().map(|(offset, len)| format!("span {offset} {len}")))
}

pub(super) fn entries(pairs: &[(i64, String)]) -> String {
    list(pairs.iter().map(|(id, value)| call("entry", &[z(*id), value.clone()])))
}

/// Index and floors of a kind as entries.
pub(super) fn maps(k: &KindState) -> (String, String) {
    let index: Vec<(i64, String)> = k.live.iter().map(|&(id, at)| (id, at.to_string())).collect();
    let floors: Vec<(i64, String)> = k.floors.iter().map(|&(id, v)| (id, z(v))).collect();
    (entries(&index), entries(&floors))
}

fn kept(k: &KindState) -> String {
    let (index, floors) = maps(k);
    call("kept", &[packed(&k.arena), index, list(k.deleted.iter().map(|&id| z(id))), floors])
}

pub(super) fn texts(string_bytes: &[u8], table: &[(u32, u32)], found: &(Vec<Option<u32>>, usize)) -> String {
    let found_each = list(found.0.iter().map(|&n| option(n)));
    call("texts", &[packed(string_bytes), spans(table), found_each, found.1.to_string()])
}

/// The whole overlay.
pub(super) fn told(overlay: &Overlay) -> String {
    let state: State = overlay.state();
    let [nodes, ways, relations] = state.kinds.each_ref().map(kept);
    let held = texts(&state.string_bytes, &state.spans, &overlay.inner.judge_lookup());
    call("told", &[nodes, ways, relations, held, state.allow_version_regression.to_string()])
}

pub(super) fn staged(staged: Option<&JudgeStaged>) -> String {
    let Some(s) = staged else {
        return "None".to_owned();
    };
    let (flags, version, timestamp, changeset, uid, user_id) = s.meta;
    let head = meta(&ArenaMeta { flags, version, timestamp, changeset, uid, user_id });
    let parts = [
        list(&s.tag_keys),
        list(s.tag_values.iter().map(bytes)),
        list(s.refs.iter().map(|&id| z(id))),
        members(&s.members),
    ];
    let numbers = [z(s.id), z(s.lat), z(s.lon), head];
    call("staging", &[&[kind_name(s.kind).to_owned()], &numbers[..], &parts].concat())
}

/// A field of a record with its value.
pub(super) fn record(fields: &[(&str, String)]) -> String {
    let fields: Vec<String> = fields.iter().map(|(name, value)| format!("{name} = {value}")).collect();
    format!("record {{ {} }}", fields.join("; "))
}

/// The overlay as a value of the definitions.
pub(super) fn overlay(overlay: &Overlay) -> String {
    let state = overlay.state();
    let of_kind = |k: &KindState| {
        let (index, floors) = maps(k);
        let deleted = list(k.deleted.iter().map(|&id| z(id)));
        record(&[("arena", list(&k.arena)), ("index", index), ("deleted", deleted), ("floors", floors)])
    };
    let [nodes, ways, relations] = state.kinds.each_ref().map(of_kind);
    let texts = list(state.texts.iter().skip(1).map(bytes));
    let interner = format!("intern_all Interner.new {}", atom(texts));
    let allow = state.allow_version_regression.to_string();
    let fields = [("nodes", nodes), ("ways", ways), ("relations", relations), ("interner", interner)];
    record(&[&fields[..], &[("allow_version_regression", allow)]].concat())
}
