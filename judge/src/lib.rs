//! The published Rust, built unchanged, as the judge of the port: see README.md.

mod answer;
mod commands;
mod coord;
pub mod degrees;
mod fixed_list;
mod host;
mod kinds;
mod osc;
mod refusal;

pub use quick_xml::events::attributes::seven_decimals;
pub use quick_xml::lines;

pub use answer::*;
pub use commands::parse_rfc3339_utc;
pub use fixed_list::{fixed_list, fixed_questions};

pub use osc::definitions;

pub mod compare;
pub mod produce;
pub mod random;

/// Direct calls of osm_id.rs and version_floor.rs, which keep no state.
pub mod ground;

/// Where a reader stands.
pub mod nesting;

// What the published files name by these paths.
pub(crate) use coord::{coord_fmt, coord_pack};
pub(crate) use error::{Error, Result};
pub(crate) use host::{counters, read, write};
#[cfg(test)]
pub(crate) use kinds::MemberId;
pub(crate) use kinds::{ElementKind, HeaderBlock};

include!(concat!(env!("OUT_DIR"), "/root_modules.rs"));

/// The source that the compiler sees for a published module: for the test that it is unchanged.
pub fn built_source(name: &str) -> &'static [u8] {
    macro_rules! sources {
        ($($name:literal)*) => {
            match name {
                $($name => include_bytes!(concat!(env!("OUT_DIR"), "/", $name, ".rs")),)*
                _ => panic!("no published module {name}"),
            }
        };
    }
    sources!("osm_id" "error" "version_floor" "interner" "compact" "parse" "sorted" "xml_parse")
}
