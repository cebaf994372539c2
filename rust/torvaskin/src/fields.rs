//! What single fields say: integers, timestamps, text; and the version rule.

use crate::Refusal;
use crate::entry::{self, Number};

/// The highest version that was claimed for something, or none.
///
/// ```
/// use torvaskin::fields::VersionFloor;
///
/// let mut floor = VersionFloor(None);
/// floor.raise(Some(4));
/// floor.raise(None);
/// assert_eq!(floor, VersionFloor(Some(4)));
/// assert_eq!(floor.admit(Some(4)), Ok(()));
/// assert_eq!(floor.admit(Some(3)), Err(4));
/// ```
#[derive(Clone, Copy, Debug, Default, PartialEq, Eq)]
pub struct VersionFloor(pub Option<i32>);

impl VersionFloor {
    /// Whether a claim may follow; else the floor.
    pub fn admit(self, claim: Option<i32>) -> Result<(), i32> {
        let reply = entry::version_admit(word(self.0), word(claim));
        if reply.number == 0 { Ok(()) } else { Err(reply.held) }
    }

    /// The larger of the floor and a claim.
    pub fn raise(&mut self, claim: Option<i32>) {
        let raised = entry::version_raise(word(self.0), word(claim));
        self.0 = u32::try_from(raised).ok().map(u32::cast_signed);
    }
}

fn word(version: Option<i32>) -> u64 {
    version.map_or(1 << 32, |version| version.cast_unsigned().into())
}

/// An integer field of 64 bits, as Rust's `parse`. Refused 8.
///
/// ```
/// assert_eq!(torvaskin::fields::read_i64(b"+7"), Ok(7));
/// assert_eq!(torvaskin::fields::read_i64(b"7 ").unwrap_err().number(), 8);
/// ```
pub fn read_i64(field: &[u8]) -> Result<i64, Refusal> {
    value(entry::read_i64(field)).map(u64::cast_signed)
}

/// An integer field of 32 bits. Refused 8.
///
/// ```
/// assert_eq!(torvaskin::fields::read_i32(b"-2147483648"), Ok(i32::MIN));
/// assert_eq!(torvaskin::fields::read_i32(b"2147483648").unwrap_err().number(), 8);
/// ```
pub fn read_i32(field: &[u8]) -> Result<i32, Refusal> {
    value(entry::read_i32(field)).map(|bits| (bits as u32).cast_signed())
}

/// A timestamp as seconds since 1970. Refused 9.
///
/// ```
/// assert_eq!(torvaskin::fields::parse_rfc3339_utc(b"2000-02-29T00:00:00Z"), Ok(951_782_400));
/// ```
pub fn parse_rfc3339_utc(field: &[u8]) -> Result<i64, Refusal> {
    value(entry::parse_rfc3339_utc(field)).map(u64::cast_signed)
}

/// Whether bytes are text: well-formed UTF-8 of XML 1.0 characters.
///
/// ```
/// assert!(torvaskin::fields::is_text("Straße".as_bytes()));
/// assert!(!torvaskin::fields::is_text(b"\x01"));
/// ```
pub fn is_text(bytes: &[u8]) -> bool {
    entry::is_text(bytes) != 0
}

fn value(number: Number) -> Result<u64, Refusal> {
    Refusal::unless_taken(number.number, 0, 0).map(|()| number.value)
}
