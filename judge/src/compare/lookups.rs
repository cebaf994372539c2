//! `range_overlaps`, `upsert_range` and `Seek::find` over lent lists.

use super::{Compared, Tally};
use crate::answer::{Lookups, Seek};
use crate::ground::osm_id_cmp;
use crate::random::Random;

/// The port's lookups: the number first, 0 or 20.
pub trait LookupPort {
    fn range_overlaps(&self, live: &[i64], deleted: &[i64], min: i64, max: i64) -> (u32, bool);
    /// The first place and one past the last; 0 and 0 on a refusal.
    fn upsert_range(&self, ids: &[i64], first: i64, last: i64) -> (u32, usize, usize);
    /// A seek at its beginning has no place. The place after the call, and where the id was found;
    /// on a refusal the place as it was, and none.
    fn seek_find(&self, place: Option<usize>, ids: &[i64], id: i64) -> (u32, Option<usize>, Option<usize>);
}

/// The last place that a cursor can be lent at: a word from 2^63 on is none.
const LAST_PLACE: usize = usize::MAX >> 1;

/// Strictly in OSM order.
pub fn is_ordered(ids: &[i64]) -> bool {
    ids.windows(2).all(|w| osm_id_cmp(w[0], w[1]) == 0)
}

/// The published lookups, and document 01's words for 20.
pub struct JudgeLookups;

impl LookupPort for JudgeLookups {
    fn range_overlaps(&self, live: &[i64], deleted: &[i64], min: i64, max: i64) -> (u32, bool) {
        if !is_ordered(live) || !is_ordered(deleted) {
            return (20, false);
        }
        (0, Lookups::over(live, deleted).range_overlaps(min, max))
    }

    fn upsert_range(&self, ids: &[i64], first: i64, last: i64) -> (u32, usize, usize) {
        if !is_ordered(ids) {
            return (20, 0, 0);
        }
        let (start, end) = Lookups::over(ids, &[]).upsert_range(first, last);
        (0, start, end)
    }

    fn seek_find(&self, place: Option<usize>, ids: &[i64], id: i64) -> (u32, Option<usize>, Option<usize>) {
        if !is_ordered(ids) {
            return (20, place, None);
        }
        let mut seek = Seek::at(place);
        let found = seek.find(ids, id);
        (0, seek.place(), found)
    }
}

/// Every list of up to three ids out of seven, in any order, with every range of those ids; every two
/// lists of one or two of them with a few ranges.
pub fn short_lists(port: &dyn LookupPort) -> Compared {
    let mut tally = Tally::new();
    let ids = [0, -1, -2, i64::MIN, 1, 2, i64::MAX];
    let mut lists: Vec<Vec<i64>> = vec![vec![]];
    for len in 0..3 {
        let longer: Vec<Vec<i64>> = lists
            .iter()
            .filter(|l| l.len() == len)
            .flat_map(|l| ids.iter().map(move |&id| [&l[..], &[id]].concat()))
            .collect();
        lists.extend(longer);
    }
    for live in lists.iter().filter(|l| (1..3).contains(&l.len())) {
        for deleted in lists.iter().filter(|l| (1..3).contains(&l.len())) {
            for (a, b) in [(0, 0), (-2, -1), (-1, -2), (-2, 1), (1, 2), (2, i64::MIN)] {
                one_range(&mut tally, port, live, deleted, a, b)?;
            }
        }
    }
    for list in &lists {
        for a in ids {
            for b in ids {
                one_range(&mut tally, port, list, &[], a, b)?;
                one_range(&mut tally, port, &[], list, a, b)?;
            }
            for place in [None, Some(0), Some(1), Some(2), Some(3), Some(9), Some(LAST_PLACE)] {
                one_seek(&mut tally, port, place, list, a)?;
            }
        }
    }
    tally.done()
}

fn one_range(
    tally: &mut Tally,
    port: &dyn LookupPort,
    live: &[i64],
    deleted: &[i64],
    a: i64,
    b: i64,
) -> Result<(), String> {
    let what = || format!("{live:?} {deleted:?} {a} {b}");
    let judge = JudgeLookups.range_overlaps(live, deleted, a, b);
    tally.same(what, judge, port.range_overlaps(live, deleted, a, b))?;
    let judge = JudgeLookups.upsert_range(live, a, b);
    tally.same(what, judge, port.upsert_range(live, a, b))
}

fn one_seek(
    tally: &mut Tally,
    port: &dyn LookupPort,
    place: Option<usize>,
    ids: &[i64],
    id: i64,
) -> Result<Option<usize>, String> {
    let judge = JudgeLookups.seek_find(place, ids, id);
    tally.same(|| format!("seek_find {place:?} {ids:?} {id}"), judge, port.seek_find(place, ids, id))?;
    Ok(judge.1)
}

/// Longer lists at random, with walks of one seek.
pub fn random_lists(port: &dyn LookupPort, seed: u64, rounds: u64) -> Compared {
    let mut tally = Tally::new();
    let mut random = Random::new(seed);
    for _ in 0..4_000 * rounds {
        let live = random_list(&mut random);
        let deleted = random_list(&mut random);
        for _ in 0..8 {
            let (a, b) = (near(&mut random, &live), near(&mut random, &deleted));
            one_range(&mut tally, port, &live, &deleted, a, b)?;
            one_range(&mut tally, port, &live, &deleted, b, a)?;
        }
        let mut place = None;
        for _ in 0..random.below(20) {
            let id = near(&mut random, &live);
            let shorter = if random.once_in(8) { &live[..random.below(live.len() + 1)] } else { &live };
            place = one_seek(&mut tally, port, place, shorter, id)?;
        }
    }
    tally.done()
}

/// Mostly in OSM order without repeats; at times two places are swapped or equal.
fn random_list(random: &mut Random) -> Vec<i64> {
    let mut ids: Vec<i64> = (0..random.below(40)).map(|_| random.id()).collect();
    ids.sort_by_key(|&id| crate::ground::osm_id_key(id));
    ids.dedup();
    if random.once_in(10) && ids.len() > 1 {
        let at = random.below(ids.len() - 1);
        if random.once_in(2) {
            ids.swap(at, at + 1);
        } else {
            ids[at + 1] = ids[at];
        }
    }
    ids
}

fn near(random: &mut Random, ids: &[i64]) -> i64 {
    if ids.is_empty() || random.once_in(4) {
        random.id()
    } else {
        random.pick(ids).wrapping_add(random.below(3) as i64 - 1)
    }
}
