//! A coordinate in degrees: document 02's words (request 1), and what the built Rust makes of the same text.

use quick_xml::events::BytesStart;

use crate::lines::escape;
use crate::osc::xml_parse::coord_to_decimicro;
use crate::refusal::Refusal;

#[derive(Clone, Copy, Debug, PartialEq, Eq)]
pub enum Axis {
    Latitude,
    Longitude,
}

impl Axis {
    pub const BOTH: [Self; 2] = [Self::Latitude, Self::Longitude];

    /// "may not pass 90 or 180".
    pub fn most(self) -> u32 {
        match self {
            Self::Latitude => 90,
            Self::Longitude => 180,
        }
    }

    /// The attribute in degrees.
    pub fn name(self) -> &'static str {
        match self {
            Self::Latitude => "lat",
            Self::Longitude => "lon",
        }
    }
}

pub const NOT_DEGREES: u32 = 23;
pub const OUT_OF_RANGE: u32 = 10;

/// 1e-12 degree in one degree, and in 1e-7 degree.
const DEGREE: i128 = 1_000_000_000_000;
const UNIT: i128 = 100_000;

/// The number of a text of one to so many digits.
fn digits(text: &str, most: usize) -> Option<i128> {
    let digits = (1..=most).contains(&text.len()) && text.bytes().all(|b| b.is_ascii_digit());
    digits.then(|| text.parse().expect("digits"))
}

/// "an optional sign, one to three digits, then optionally a point and one to twelve digits": the exact degrees in units
/// of 1e-12 degree, or none where the text is not so written.
pub fn exact(text: &str) -> Option<i128> {
    let unsigned = text.strip_prefix(['+', '-']).unwrap_or(text);
    let (whole, decimals) = unsigned.split_once('.').unwrap_or((unsigned, "0"));
    let (whole, decimal) = (digits(whole, 3)?, digits(decimals, 12)?);
    let size = whole * DEGREE + decimal * 10i128.pow(12 - decimals.len() as u32);
    Some(if text.starts_with('-') { -size } else { size })
}

/// "The result is the nearest 1e-7 degree, ties away from zero".
pub fn nearest(exact: i128) -> i128 {
    let below = exact.div_euclid(UNIT);
    let far = |whole: i128| (exact - whole * UNIT).abs();
    let further_from_zero = |whole: i128| -whole.abs();
    [below, below + 1].into_iter().min_by_key(|&whole| (far(whole), further_from_zero(whole))).expect("two")
}

/// Whether two whole numbers are equally near.
pub fn is_tie(text: &str) -> bool {
    exact(text).is_some_and(|exact| 2 * exact.rem_euclid(UNIT) == UNIT)
}

/// 23 or 10, or the coordinate in units of 1e-7 degree.
pub fn read(text: &str, axis: Axis) -> Result<i32, u32> {
    let exact = exact(text).ok_or(NOT_DEGREES)?;
    if exact.abs() > i128::from(axis.most()) * DEGREE {
        return Err(OUT_OF_RANGE);
    }
    Ok(i32::try_from(nearest(exact)).expect("within the range"))
}

/// What the built Rust reads in an element with that attribute. That a degree is scaled by 1e7 is assumed: coord.rs.
pub fn by_floats(text: &str, axis: Axis) -> Result<i32, u32> {
    let element = BytesStart::from_content(format!("node\t{}={}", axis.name(), escape(text)), 4);
    coord_to_decimicro(&element, axis.name(), 0).map_err(|e| Refusal::of_event(&e, element.forms()).number)
}
