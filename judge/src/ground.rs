//! The calls without state, as the published files or Rust's own readers answer them.

use std::cmp::Ordering;

use crate::osc::version_floor::VersionFloor;
use crate::osm_id;

pub fn osm_id_key(id: i64) -> (u8, u64) {
    osm_id::osm_id_key(id)
}

/// 0 less, 1 equal, 2 greater.
pub fn osm_id_cmp(a: i64, b: i64) -> u8 {
    match osm_id::osm_id_cmp(a, b) {
        Ordering::Less => 0,
        Ordering::Equal => 1,
        Ordering::Greater => 2,
    }
}

pub fn blob_osm_first_key(min: i64, max: i64) -> (u8, u64) {
    osm_id::blob_osm_first_key(min, max)
}

pub fn blob_osm_last_key(min: i64, max: i64) -> (u8, u64) {
    osm_id::blob_osm_last_key(min, max)
}

/// None where the claim is admitted, else the floor that it fell below.
pub fn admit(floor: Option<i32>, claim: Option<i32>) -> Option<i32> {
    VersionFloor::new(floor).admit(claim).err()
}

/// The floor after `raise`. Its field is private, so it is compared with a floor made anew.
pub fn raise(floor: Option<i32>, claim: Option<i32>) -> Option<i32> {
    let mut raised = VersionFloor::new(floor);
    raised.raise(claim);
    [floor, claim]
        .into_iter()
        .find(|&v| VersionFloor::new(v) == raised)
        .expect("a raised floor is the floor or the claim")
}

/// None stands for 8.
pub fn read_i64(bytes: &[u8]) -> Option<i64> {
    std::str::from_utf8(bytes).ok()?.parse().ok()
}

/// None stands for 8.
pub fn read_i32(bytes: &[u8]) -> Option<i32> {
    std::str::from_utf8(bytes).ok()?.parse().ok()
}

/// The Rust's reader, which takes signs. Document 01's words, not the published Rust: see commands.rs.
pub fn stamp_with_signs(bytes: &[u8]) -> Option<i64> {
    crate::parse_rfc3339_utc(std::str::from_utf8(bytes).ok()?).ok()
}

/// Document 02, request 6: every field of a timestamp is digits. Equality with the Rust reads over these texts.
pub fn digit_fields(bytes: &[u8]) -> bool {
    let digits = |field| bytes.get(field).is_some_and(|f: &[u8]| f.iter().all(u8::is_ascii_digit));
    [0..4, 5..7, 8..10, 11..13, 14..16, 17..19].into_iter().all(digits)
}

/// None stands for 9: the Rust's answer where every field is digits, and no other text is taken.
pub fn stamp(bytes: &[u8]) -> Option<i64> {
    stamp_with_signs(bytes).filter(|_| digit_fields(bytes))
}

/// Rust's UTF-8 reader, and XML 1.0's characters.
pub fn is_text(bytes: &[u8]) -> bool {
    crate::lines::text(bytes).is_some()
}
