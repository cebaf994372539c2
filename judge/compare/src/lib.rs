//! The built libraries behind the judge's traits.

pub mod overlay;

use judge::compare::Compared;
use judge::compare::ground::Ground;
use judge::compare::lookups::LookupPort;
use torvaskin::entry::{self, Number, OsmIdKey};

/// Prints how many answers were compared, or panics at the difference.
#[track_caller]
pub fn same(compared: Compared) {
    match compared {
        Ok(answers) => println!("{answers} answers are the same"),
        Err(difference) => panic!("{difference}"),
    }
}

/// The library's calls without state.
#[derive(Clone, Copy, Debug)]
pub struct Library;

fn key(k: OsmIdKey) -> (u8, u64) {
    (k.class, k.magnitude)
}

/// The number of 64 bits.
fn wide(n: Number) -> (u32, i64) {
    (n.number, n.value.cast_signed())
}

/// The number of 32 bits; bits above them are a fault of the port.
fn narrow(n: Number) -> (u32, i64) {
    let bits = u32::try_from(n.value).expect("the bits of an i32");
    (n.number, i64::from(bits.cast_signed()))
}

impl Ground for Library {
    fn osm_id_key(&self, id: i64) -> (u8, u64) {
        key(entry::osm_id_key(id))
    }

    fn osm_id_cmp(&self, a: i64, b: i64) -> u8 {
        entry::osm_id_cmp(a, b)
    }

    fn blob_osm_first_key(&self, min: i64, max: i64) -> (u8, u64) {
        key(entry::blob_osm_first_key(min, max))
    }

    fn blob_osm_last_key(&self, min: i64, max: i64) -> (u8, u64) {
        key(entry::blob_osm_last_key(min, max))
    }

    fn osm_id_rank(&self, id: i64) -> u64 {
        entry::osm_id_rank(id)
    }

    fn version_admit(&self, floor: u64, claim: u64) -> (u32, i32) {
        let reply = entry::version_admit(floor, claim);
        (reply.number, reply.held)
    }

    fn version_raise(&self, floor: u64, claim: u64) -> u64 {
        entry::version_raise(floor, claim)
    }

    fn read_i64(&self, s: &[u8]) -> (u32, i64) {
        wide(entry::read_i64(s))
    }

    fn read_i32(&self, s: &[u8]) -> (u32, i64) {
        narrow(entry::read_i32(s))
    }

    fn stamp(&self, s: &[u8]) -> (u32, i64) {
        wide(entry::parse_rfc3339_utc(s))
    }

    fn is_text(&self, s: &[u8]) -> u8 {
        entry::is_text(s)
    }
}

/// A word from here on is no place.
pub const NO_PLACE: usize = 1 << 63;

fn place(word: usize) -> Option<usize> {
    (word < NO_PLACE).then_some(word)
}

impl LookupPort for Library {
    fn range_overlaps(&self, live: &[i64], deleted: &[i64], min: i64, max: i64) -> (u32, bool) {
        let reply = entry::range_overlaps(live, deleted, min, max);
        assert!(reply.value <= u64::from(reply.number == 0), "{reply:?}");
        (reply.number, reply.value == 1)
    }

    fn upsert_range(&self, ids: &[i64], first: i64, last: i64) -> (u32, usize, usize) {
        let reply = entry::upsert_range(ids, first, last);
        (reply.number, reply.from, reply.to)
    }

    fn seek_find(&self, at: Option<usize>, ids: &[i64], id: i64) -> (u32, Option<usize>, Option<usize>) {
        let reply = entry::seek_find(ids, at.unwrap_or(NO_PLACE), id);
        (reply.number, place(reply.place), place(reply.found))
    }
}
