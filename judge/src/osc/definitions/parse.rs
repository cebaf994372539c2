//! parse.rs: every call on every small state of an id, in both settings; the whole state after it.

use rustc_hash::FxHashMap;

use super::page::{Page, Row, row, rows};
use super::state::{entries, error, kind_name, members, meta, overlay, tags, told};
use super::term::{atom, bytes, call, list, option, packed, result, z};
use crate::answer::Overlay;
use crate::kinds::ElementKind;
use crate::osc::CompactDiffOverlay;
use crate::osc::compact::{ArenaMeta, arena_append_node, arena_append_relation, arena_append_way};
use crate::osc::parse::JudgeFields;

/// Metadata that claims a version or none.
fn claiming(version: Option<i32>) -> ArenaMeta {
    match version {
        None => ArenaMeta { flags: 1, version: 5, ..ArenaMeta::default() },
        Some(version) => ArenaMeta { flags: 9, version, ..ArenaMeta::default() },
    }
}

fn record(kind: ElementKind, arena: &mut Vec<u8>, id: i64, version: Option<i32>) -> usize {
    let meta = claiming(version);
    let appended = match kind {
        ElementKind::Node => arena_append_node(arena, id, 1, 2, &[], &meta),
        ElementKind::Way => arena_append_way(arena, id, &[], &[], &meta),
        ElementKind::Relation => arena_append_relation(arena, id, &[], &[], &meta),
    };
    appended.expect("few")
}

/// What is live of id 1: nothing, a record without a version, with version 2, with version -1.
const LIVE: [Option<Option<i32>>; 4] = [None, Some(None), Some(Some(2)), Some(Some(-1))];
const FLOORS: [Option<i32>; 4] = [None, Some(1), Some(2), Some(3)];
const CLAIMS: [Option<i32>; 5] = [None, Some(-1), Some(1), Some(2), Some(3)];

/// The fields of a kind: what there is of id 1, and a record and a floor of id 2.
fn fields(kind: ElementKind, live: Option<Option<i32>>, deleted: bool, floor: Option<i32>) -> JudgeFields {
    let mut out = JudgeFields::default();
    let at = record(kind, &mut out.0, 2, Some(1));
    out.1.insert(2, at);
    out.3.insert(2, 1);
    if let Some(version) = live {
        let at = record(kind, &mut out.0, 1, version);
        out.1.insert(1, at);
    }
    if deleted {
        out.2.insert(1);
    }
    out.3.extend(floor.map(|floor| (1, floor)));
    out
}

/// Every such state of a kind, in both settings.
fn states(kind: ElementKind) -> Vec<Overlay> {
    let mut out = Vec::new();
    for live in LIVE {
        for deleted in [false, true] {
            for floor in FLOORS {
                let mut inner = CompactDiffOverlay::new();
                inner.intern("a").expect("few");
                inner = inner.judge_with(kind, fields(kind, live, deleted, floor));
                for allow in [false, true] {
                    inner.allow_version_regression(allow);
                    out.push(Overlay { inner: inner.clone() });
                }
            }
        }
    }
    out
}

pub(super) fn page(kind: ElementKind) -> Page {
    let mut page = Page::new(["ParseNode", "ParseWay", "ParseRelation"][kind as usize]);
    let states = states(kind);
    let name = |n: usize| format!("state_{n}");
    for (n, state) in states.iter().enumerate() {
        page.define(&name(n), "CompactDiffOverlay", &overlay(state));
    }
    let each = || states.iter().enumerate().map(|(n, state)| (name(n), state));
    page.about("stored_version", each().flat_map(|(name, state)| reads(kind, &name, state)));
    page.about("reads", each().map(|(name, state)| record_of(kind, &name, state)));
    page.about("check_version_advance", each().flat_map(|(name, state)| checks(kind, &name, state)));
    page.about("push", each().flat_map(|(name, state)| CLAIMS.map(|claim| push(kind, &name, state, claim))));
    page.about("delete", each().flat_map(|(name, state)| CLAIMS.map(|claim| delete(kind, &name, state, claim))));
    if kind == ElementKind::Node {
        page.about("raise_floor", raises());
        page.about("is_empty", empties());
        page.about("allow", each().flat_map(|(name, state)| [false, true].map(|b| allow(&name, state, b))));
        page.about("intern", each().flat_map(|(name, state)| ["", "a", "b"].map(|text| intern(&name, state, text))));
    }
    page
}

fn fields_of(kind: ElementKind, name: &str) -> String {
    format!("Parse.fields_of_element {name} {}", kind_name(kind))
}

fn meta_off(kind: ElementKind) -> String {
    format!("Compact.META_OFF {}", kind_name(kind))
}

const IDS: [i64; 3] = [1, 2, 3];

fn reads(kind: ElementKind, name: &str, state: &Overlay) -> Vec<Row> {
    let fields = fields_of(kind, name);
    let stored = |id: i64| call("Parse.stored_version", &[meta_off(kind), fields.clone(), z(id)]);
    IDS.map(|id| row(stored(id), option(state.inner.judge_known(kind, id).map(z)))).into()
}

/// `get_..`, `has_..`, `is_deleted` at each id.
fn record_of(kind: ElementKind, name: &str, state: &Overlay) -> Row {
    let fields = atom(fields_of(kind, name));
    let question = |id: i64| {
        let id = z(id);
        let view = format!("option_map packed (Parse.get_data {fields} ({id}))");
        format!("reads ({view}) (Parse.has {fields} ({id})) (Parse.is_deleted {fields} ({id}))")
    };
    let answer = |id: i64| {
        let view = option(state.record(kind, id).map(|record| packed(&record.view)));
        call("reads", &[view, state.has(kind, id).to_string(), state.is_deleted(kind, id).to_string()])
    };
    rows(list(IDS.map(question)), &IDS.map(answer))
}

fn checks(kind: ElementKind, name: &str, state: &Overlay) -> Vec<Row> {
    let one = |claim: i32| {
        let arguments =
            [format!("{name}.allow_version_regression"), meta_off(kind), fields_of(kind, name), z(1), z(claim)];
        let reply = state.inner.judge_check(kind, 1, claim);
        row(call("Parse.check_version_advance", &arguments), regression(reply.map(|()| "tt".to_owned())))
    };
    CLAIMS.into_iter().flatten().map(one).collect()
}

/// The error is a regression, which carries what is held.
fn regression(reply: Result<String, crate::Error>) -> String {
    let held = |e: crate::Error| {
        let error = error(&e);
        error.strip_prefix("XmlParse.version_regression ").expect("a regression").to_owned()
    };
    result(reply.map_err(held))
}

fn push(kind: ElementKind, name: &str, state: &Overlay, claim: Option<i32>) -> Row {
    let (mut after, m) = (state.clone(), claiming(claim));
    let tagged: &[(u32, &str)] = &[(1, "v")];
    let inner = &mut after.inner;
    let (reply, question) = match kind {
        ElementKind::Node => {
            let reply = inner.push_node(1, 7, -8, tagged, &m);
            (reply, call("Parse.push_node", &[name.to_owned(), z(1), z(7), z(-8), tags(tagged), meta(&m)]))
        }
        ElementKind::Way => {
            let reply = inner.push_way(1, &[5], tagged, &m);
            (reply, call("Parse.push_way", &[name.to_owned(), z(1), list([z(5)]), tags(tagged), meta(&m)]))
        }
        ElementKind::Relation => {
            let parts = [(6, 1, 1)];
            let reply = inner.push_relation(1, &parts, tagged, &m);
            (reply, call("Parse.push_relation", &[name.to_owned(), z(1), members(&parts), tags(tagged), meta(&m)]))
        }
    };
    changed(question, state, &after, reply)
}

fn delete(kind: ElementKind, name: &str, state: &Overlay, claim: Option<i32>) -> Row {
    let (mut after, m) = (state.clone(), claiming(claim));
    let reply = match kind {
        ElementKind::Node => after.inner.delete_node(1, &m),
        ElementKind::Way => after.inner.delete_way(1, &m),
        ElementKind::Relation => after.inner.delete_relation(1, &m),
    };
    let question = call("Parse.delete_kind", &[name.to_owned(), kind_name(kind).to_owned(), z(1), meta(&m)]);
    changed(question, state, &after, reply)
}

/// The whole state after a call; a refused one changes nothing.
fn changed(question: String, before: &Overlay, after: &Overlay, reply: Result<(), crate::Error>) -> Row {
    if reply.is_err() {
        assert_eq!(before.state(), after.state());
    }
    row(format!("after ({question})"), regression(reply.map(|()| told(after))))
}

fn raises() -> Vec<Row> {
    let mut out = Vec::new();
    let floors: [&[(i64, i32)]; 4] = [&[], &[(1, 2)], &[(2, 9)], &[(1, 4), (2, 9)]];
    for map in floors {
        for carried in CLAIMS {
            for claim in CLAIMS {
                let mut after: FxHashMap<i64, i32> = map.iter().copied().collect();
                CompactDiffOverlay::JUDGE_RAISE(&mut after, 1, carried, &claiming(claim));
                let mut after: Vec<(i64, i32)> = after.into_iter().collect();
                after.sort_unstable();
                let term = |map: &[(i64, i32)]| entries(&map.iter().map(|&(id, v)| (id, z(v))).collect::<Vec<_>>());
                let version = |v: Option<i32>| option(v.map(z));
                let claim = call("Compact.version_claim", &[meta(&claiming(claim))]);
                let question = call("Parse.raise_floor", &[term(map), z(1), version(carried), claim]);
                out.push(row(format!("sorted ({question})"), term(&after)));
            }
        }
    }
    out
}

/// An overlay with one live or deleted id of each kind or none, and with one that was pushed and deleted.
fn empties() -> Vec<Row> {
    let calls: [fn(&mut CompactDiffOverlay, &ArenaMeta) -> Result<(), crate::Error>; 7] = [
        |_, _| Ok(()),
        |o, m| o.push_node(1, 0, 0, &[], m),
        |o, m| o.push_way(1, &[], &[], m),
        |o, m| o.push_relation(1, &[], &[], m),
        |o, m| o.delete_node(1, m),
        |o, m| o.delete_way(1, m),
        |o, m| o.delete_relation(1, m),
    ];
    let mut out = Vec::new();
    for first in calls {
        for second in calls {
            let mut state = Overlay::new();
            first(&mut state.inner, &claiming(None)).expect("taken");
            second(&mut state.inner, &claiming(None)).expect("taken");
            out.push(row(call("Parse.is_empty", &[overlay(&state)]), state.is_empty().to_string()));
        }
    }
    out
}

fn allow(name: &str, state: &Overlay, allow: bool) -> Row {
    let mut after = state.clone();
    after.allow_version_regression(allow);
    row(format!("overlay (Parse.allow {name} {allow})"), told(&after))
}

fn intern(name: &str, state: &Overlay, text: &str) -> Row {
    let mut after = state.clone();
    let id = after.intern(text);
    let (handle, left) = (
        call("Parse.handle_in_overlay", &[name.to_owned(), bytes(text)]),
        call("Parse.intern_in", &[name.to_owned(), bytes(text)]),
    );
    row(format!("handle ({handle}) (overlay ({left}))"), format!("handle {id} ({})", told(&after)))
}
