//! sorted.rs: short lists of ids in any order that a map may give them, lookups in every short list in OSM order.

use super::page::{Page, Row, row, rows};
use super::state::{entries, key};
use super::term::{atom, call, list, option, unless_panic, z};
use crate::answer::{Lookups, Seek};
use crate::osc::sorted::KindTable;
use crate::osm_id::{osm_id_cmp, osm_id_key};

/// In OSM order; asked for beside them, the ends.
const IDS: [i64; 5] = [0, -1, -3, 2, 4];
const ASKED: [i64; 9] = [0, -1, -2, -3, 1, 2, 4, i64::MIN, i64::MAX];

pub(super) fn page() -> Page {
    let mut page = Page::new("Sorted");
    page.define("asked", "List ℤ", &ids(&ASKED));
    page.about("build", orders().iter().map(|index| build(index)));
    page.about("record", records());
    let lists = lists();
    let few = lists.iter().step_by(5);
    page.about("range_overlaps", lists.iter().flat_map(|live| few.clone().flat_map(|gone| overlaps(live, gone))));
    page.about("upsert_range", lists.iter().flat_map(|list_of| ASKED.map(|first| upserts(list_of, first))));
    page.about("find", lists.iter().flat_map(|list_of| finds(list_of)));
    page
}

fn ids(of: &[i64]) -> String {
    list(of.iter().map(|&id| z(id)))
}

/// Every list of up to three different ids, in every order.
fn orders() -> Vec<Vec<i64>> {
    let mut all = vec![vec![]];
    let mut longest: Vec<Vec<i64>> = all.clone();
    for _ in 0..3 {
        let longer = |list_of: &Vec<i64>| -> Vec<Vec<i64>> {
            let others = IDS.into_iter().filter(|id| !list_of.contains(id));
            others.map(|id| [&list_of[..], &[id]].concat()).collect()
        };
        longest = longest.iter().flat_map(longer).collect();
        all.extend(longest.clone());
    }
    all
}

/// Every list of the ids that is in OSM order.
fn lists() -> Vec<Vec<i64>> {
    let chosen = |set: usize| (0..IDS.len()).filter(|n| set >> n & 1 == 1).map(|n| IDS[n]).collect();
    let mut lists: Vec<Vec<i64>> = (0..1 << IDS.len()).map(chosen).collect();
    lists.iter_mut().for_each(|list_of| list_of.sort_by(|a, b| osm_id_cmp(*a, *b)));
    lists
}

/// A table of the ids with offsets, the others deleted.
fn build(index: &[i64]) -> Row {
    let pairs: Vec<(i64, usize)> = index.iter().enumerate().map(|(n, &id)| (id, 10 * n)).collect();
    let gone: Vec<i64> = IDS.into_iter().rev().filter(|id| !index.contains(id)).collect();
    let table = KindTable::build(vec![7, 8], pairs.iter().copied().collect(), gone.iter().copied().collect());
    let entries = entries(&pairs.iter().map(|(id, at)| (*id, at.to_string())).collect::<Vec<_>>());
    let question = call("Sorted.build", &[list([7, 8]), entries, ids(&gone)]);
    row(
        format!("of_table ({question})"),
        call("listed", &[ids(table.upserts()), list(table.judge_offsets()), ids(table.deleted())]),
    )
}

/// A record by its number, one past the last too.
fn records() -> Vec<Row> {
    let (arena, offsets) = (vec![5, 6, 7], vec![2, 0, 3]);
    let table = KindTable::judge_of(arena.clone(), vec![1, 2, 3], offsets.clone());
    let term = format!(
        "record {{ arena = {}; ids = {}; offsets = {}; deleted = [] }}",
        list(&arena),
        ids(&[1, 2, 3]),
        list(&offsets)
    );
    let one = |n: usize| {
        row(
            call("Sorted.table_record", &[term.clone(), n.to_string()]),
            option(unless_panic(|| list(table.judge_record(n)))),
        )
    };
    (0..5).map(one).collect()
}

fn overlaps(live: &[i64], gone: &[i64]) -> Vec<Row> {
    let lookups = Lookups::over(live, gone);
    let one = |min: i64| {
        let answers = ASKED.map(|max| lookups.range_overlaps(min, max).to_string());
        let question = call("Sorted.range_overlaps", &[ids(live), ids(gone), z(min)]);
        rows(format!("map ({question}) asked"), &answers)
    };
    [0, -2, 1, i64::MIN].map(one).into()
}

fn upserts(list_of: &[i64], first: i64) -> Row {
    let lookups = Lookups::over(list_of, &[]);
    let one = |last: i64| {
        let (start, end) = lookups.upsert_range(first, last);
        format!("record {{ start = {start}; end = {end} }}")
    };
    let question = call("Sorted.upsert_range", &[ids(list_of), z(first)]);
    let keys = list(ASKED.map(|last| key(osm_id_key(last))));
    rows(format!("map ({question}) {}", atom(keys)), &ASKED.map(one))
}

/// From every place, and from none.
fn finds(list_of: &[i64]) -> Vec<Row> {
    let places = std::iter::once(None).chain((0..=list_of.len() + 1).map(Some));
    let one = |place: Option<usize>| {
        let answer = |id: i64| {
            let mut seek = Seek::at(place);
            let found = option(seek.find(list_of, id));
            format!("record {{ seek = {}; found = {found} }}", option(seek.place()))
        };
        let question = call("Sorted.find", &[option(place), ids(list_of)]);
        rows(format!("map ({question}) asked"), &ASKED.map(answer))
    };
    places.map(one).collect()
}
