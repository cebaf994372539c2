//! The documents' number for an error of the published files; README.md gives the reasons.

use std::num::{ParseFloatError, ParseIntError};

use quick_xml::events::{Forms, Given};

use crate::Error;
use crate::commands::NotAStamp;
use crate::coord_pack::OUT_OF_RANGE;
use crate::error::ErrorKind;

/// A refusal's number, and the known version for 12.
#[derive(Clone, Copy, Debug, PartialEq, Eq)]
pub struct Refusal {
    pub number: u32,
    pub held: Option<i32>,
}

impl Refusal {
    pub(crate) fn plain(number: u32) -> Self {
        Self { number, held: None }
    }

    /// Of a direct call.
    pub(crate) fn of(err: &Error) -> Self {
        Self::of_event(err, Forms::default())
    }

    /// Of an event with an element that has its coordinates in these forms.
    pub(crate) fn of_event(err: &Error, forms: Forms) -> Self {
        match err.kind() {
            ErrorKind::VersionRegression { held, .. } => Self { number: 12, held: Some(*held) },
            ErrorKind::InvalidData { source: Some(cause), msg } => {
                if let Some(quick_xml::Error::Line(number)) = cause.downcast_ref() {
                    Self::plain(*number)
                } else if cause.is::<ParseIntError>() {
                    Self::plain(8)
                } else if cause.is::<ParseFloatError>() {
                    Self::plain(by_forms(msg, forms))
                } else if cause.is::<NotAStamp>() {
                    Self::plain(9)
                } else {
                    panic!("no number for this error: {}", err.report())
                }
            }
            ErrorKind::InvalidData { msg, source: None } => Self::plain(by_message(msg)),
            _ => panic!("no number for this error: {}", err.report()),
        }
    }
}

/// What a coordinate is refused that the Rust reads as no number: the message names it.
fn by_forms(msg: &str, forms: Forms) -> u32 {
    let given = match msg {
        "attribute 'lat' is not a valid number" => forms.lat,
        "attribute 'lon' is not a valid number" => forms.lon,
        _ => panic!("no number for this message: {msg}"),
    };
    match given {
        Given { seven: true, degrees: true } => 24,
        Given { degrees: true, .. } => 23,
        _ => 8,
    }
}

/// Each message below is made at one kind of place; none of them begins as another does, and what
/// the input puts into them stands further on.
fn by_message(msg: &str) -> u32 {
    let outside = |kind: &str| {
        msg.strip_prefix(kind).is_some_and(|rest| rest.contains(" appears outside any <create>, <modify> or <delete>"))
    };
    if msg.starts_with("OSC element <") {
        5
    } else if outside("OSC node ") || outside("OSC way ") || outside("OSC relation ") {
        6
    } else if msg.starts_with("missing attribute '") {
        7
    } else if msg == OUT_OF_RANGE {
        10
    } else if msg.starts_with("unknown relation member type: '") {
        11
    } else if msg.starts_with("OSC input ended without a closing </osmChange> tag") {
        18
    } else {
        panic!("no number for this message: {msg}")
    }
}
