//! What Rust itself gives (integers, maps, slices), osm_id.rs and version_floor.rs.

use std::cmp::Ordering;
use std::collections::HashSet;
use std::fmt::Display;

use rustc_hash::FxHashMap;

use super::page::{Page, Row, row, rows};
use super::state::{action, key, kind_name};
use super::term::{atom, bytes, call, list, option, result, z};
use crate::compare::ground::strings_over;
use crate::kinds::ElementKind;
use crate::osc::xml_parse::judge_action;
use crate::produce::close_names;
use crate::random::Random;
use crate::{ground, osm_id};

/// 0, and numbers with either sign near powers of two, up to the ends.
fn edge_ids() -> Vec<i64> {
    let mut ids = vec![0, i64::MIN, i64::MIN + 1, i64::MAX];
    for power in [0, 2, 8, 16, 31, 32, 53, 61, 62] {
        for n in [(1 << power) - 1, 1 << power, (1 << power) + 1] {
            ids.extend([n, -n]);
        }
    }
    ids.sort_unstable();
    ids.dedup();
    ids
}

fn edge_versions() -> Vec<i32> {
    let mut ids: Vec<i32> = edge_ids().into_iter().filter_map(|id| i32::try_from(id).ok()).collect();
    ids.extend([i32::MIN, i32::MIN + 1]);
    ids
}

fn ordering(order: Ordering) -> String {
    format!("{order:?}")
}

/// Every two of a list that `name` stands for: one row for each first one.
fn pairs<T: Copy, A: Display>(
    function: &str,
    name: &str,
    all: &[T],
    term: fn(T) -> String,
    f: impl Fn(T, T) -> A,
) -> Vec<Row> {
    let one = |&a: &T| {
        let answers: Vec<String> = all.iter().map(|&b| f(a, b).to_string()).collect();
        rows(format!("map ({function} {}) {name}", atom(term(a))), &answers)
    };
    all.iter().map(one).collect()
}

pub(super) fn osm_id() -> Page {
    let mut page = Page::new("OsmId");
    let ids = edge_ids();
    page.define("ids", "List ℤ", &list(ids.iter().map(|&id| z(id))));
    let keys: Vec<String> = ids.iter().map(|&id| key(osm_id::osm_id_key(id))).collect();
    page.about("osm_id_key", [rows("map OsmId.osm_id_key ids".to_owned(), &keys)]);
    let cmp = pairs("OsmId.osm_id_cmp", "ids", &ids, z, |a, b| ordering(osm_id::osm_id_cmp(a, b)));
    page.about("osm_id_cmp", cmp);
    let first = pairs("OsmId.blob_osm_first_key", "ids", &ids, z, |a, b| key(osm_id::blob_osm_first_key(a, b)));
    page.about("blob_osm_first_key", first);
    let last = pairs("OsmId.blob_osm_last_key", "ids", &ids, z, |a, b| key(osm_id::blob_osm_last_key(a, b)));
    page.about("blob_osm_last_key", last);
    page
}

pub(super) fn version_floor() -> Page {
    let mut page = Page::new("VersionFloor");
    let versions: Vec<Option<i32>> = std::iter::once(None).chain(edge_versions().into_iter().map(Some)).collect();
    let term = |v: Option<i32>| option(v.map(z));
    page.define("versions", "List (Option ℤ)", &list(versions.iter().map(|&v| term(v))));
    let admitted = |floor, claim| result(ground::admit(floor, claim).map_or(Ok("tt".to_owned()), |held| Err(z(held))));
    page.about("admit", pairs("VersionFloor.admit", "versions", &versions, term, admitted));
    let raised = |floor, claim| term(ground::raise(floor, claim));
    page.about("raise", pairs("VersionFloor.raise", "versions", &versions, term, raised));
    page
}

/// What Rust itself gives.
pub(super) fn of_rust() -> Page {
    let mut page = Page::new("Std");
    page.about("parse_int", integers());
    let names = || close_names(&mut Random::new(1), 100).into_iter().filter_map(|name| String::from_utf8(name).ok());
    let kind = |n: String| row(call("Std.from_name", &[bytes(&n)]), option(ElementKind::from_name(&n).map(kind_name)));
    page.about("from_name", names().map(kind));
    let act = |n: String| row(call("XmlParse.action_for", &[bytes(&n)]), option(judge_action(&n).map(action)));
    page.about("action_for", names().map(act));
    let (ids, versions) = (edge_ids(), edge_versions());
    page.define("ids", "List ℤ", &list(ids.iter().map(|&id| z(id))));
    page.define("versions", "List ℤ", &list(versions.iter().map(|&v| z(v))));
    page.about("equal", pairs("Std.eq_z", "ids", &ids, z, |a, b| a == b));
    page.about("max", pairs("Std.max_z", "versions", &versions, z, |a, b| z(a.max(b))));
    page.about("slice", slices());
    page.about("map", maps());
    page.about("set", sets());
    page
}

/// Every short string of five symbols, the bytes beside the digits, the ends of both widths with signs and zeros.
fn integers() -> Vec<Row> {
    let mut texts: Vec<String> =
        ["1/", "/1", "1:", ":1", " 1", "1 ", "1.0", "1_0", "٣", "0x1"].map(str::to_owned).into();
    let _ = strings_over(b"+-09a", 4, &mut |s| {
        texts.push(String::from_utf8_lossy(s).into_owned());
        Ok(())
    });
    for end in [1i128 << 31, 1 << 32, 1 << 63, 1 << 64, 10i128.pow(18), 10i128.pow(19)] {
        for n in end - 2..=end + 2 {
            texts.extend(["", "+", "-", "000", "-000", "+-", "--"].map(|before| format!("{before}{n}")));
            texts.extend([format!("{n}0"), format!("-{n}a")]);
        }
    }
    let one = |text: String| {
        let answers =
            [option(ground::read_i64(text.as_bytes()).map(z)), option(ground::read_i32(text.as_bytes()).map(z))];
        rows(format!("map (λ n. Std.parse_int n {}) (63 ∷ 31 ∷ [])", atom(bytes(text))), &answers)
    };
    texts.into_iter().map(one).collect()
}

fn slices() -> Vec<Row> {
    let mut out = Vec::new();
    for len in 0..5 {
        let s: Vec<u8> = (7..7 + len).collect();
        for i in 0..6 {
            let question = |n: usize| call("Std.slice", &[list(&s), i.to_string(), n.to_string()]);
            out.extend((0..6).map(|n| row(question(n), option(s.get(i..i + n).map(list)))));
        }
    }
    out
}

/// Every three changes of a map: its content, seen by the ids.
fn maps() -> Vec<Row> {
    let changes = [(1, Some(5)), (1, Some(6)), (2, Some(7)), (-1, Some(8)), (1, None), (2, None)];
    let mut out = Vec::new();
    for a in changes {
        for b in changes {
            for c in changes {
                let (mut map, mut term) = (FxHashMap::default(), "[]".to_owned());
                for (id, value) in [a, b, c] {
                    match value {
                        Some(v) => map.insert(id, v),
                        None => map.remove(&id),
                    };
                    term = match value {
                        Some(v) => call("Std.insert", &[term, z(id), v.to_string()]),
                        None => call("Std.remove", &[term, z(id)]),
                    };
                }
                let seen: Vec<String> = [1, 2, -1, 0].iter().map(|id| option(map.get(id))).collect();
                out.push(rows(
                    format!("map (Std.get {{T = ℕ}} {}) (pos 1 ∷ pos 2 ∷ negsuc 0 ∷ pos 0 ∷ [])", atom(&term)),
                    &seen,
                ));
            }
        }
    }
    out
}

/// Every three changes of a set.
fn sets() -> Vec<Row> {
    let changes = [(1, true), (2, true), (-1, true), (1, false), (2, false)];
    let mut out = Vec::new();
    for a in changes {
        for b in changes {
            for c in changes {
                let (mut set, mut term) = (HashSet::new(), "[]".to_owned());
                for (id, put) in [a, b, c] {
                    let function = if put { "Std.insert_into" } else { "Std.remove_from" };
                    if put {
                        set.insert(id)
                    } else {
                        set.remove(&id)
                    };
                    term = call(function, &[term, z(id)]);
                }
                let seen: Vec<String> = [1i64, 2, -1, 0].iter().map(|id| set.contains(id).to_string()).collect();
                let ids = "(pos 1 ∷ pos 2 ∷ negsuc 0 ∷ pos 0 ∷ [])";
                out.push(rows(format!("map (Std.contains {}) {ids}", atom(&term)), &seen));
            }
        }
    }
    out
}
