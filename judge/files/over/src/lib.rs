//! The published files, unchanged, with their XML read by quick-xml 0.26. All else that they name is what the judge has
//! for it, in the same files.

#[path = "../../../src/commands.rs"]
mod commands;
#[path = "../../../src/coord.rs"]
mod coord;
#[allow(dead_code)]
#[path = "../../../src/host.rs"]
mod host;
#[path = "../../../src/kinds.rs"]
mod kinds;
#[path = "../../../src/nesting.rs"]
mod nesting;
mod osc;

/// What direct.rs makes of an error. No direct call is made here.
mod refusal {
    pub struct Refusal;

    impl Refusal {
        pub(crate) fn of(_: &crate::Error) -> Self {
            Self
        }
    }
}

// What the published files name by these paths.
pub(crate) use coord::{coord_fmt, coord_pack};
pub(crate) use error::{Error, Result};
pub(crate) use host::{counters, read, write};
pub(crate) use kinds::HeaderBlock;

pub use kinds::ElementKind as Kind;
pub(crate) use kinds::ElementKind;
pub use osc::direct::Record;

include!(concat!(env!("OUT_DIR"), "/root_modules.rs"));

use std::io::BufReader;

/// An id that an overlay knows: kind, id, known version, and its record where it is live.
pub struct Row {
    pub kind: Kind,
    pub id: i64,
    pub known: Option<i32>,
    pub record: Option<Record>,
}

/// A file through the published `drive_osc` into a new overlay, or what the error says.
fn driven(file: &[u8]) -> std::result::Result<osc::CompactDiffOverlay, String> {
    let mut overlay = osc::CompactDiffOverlay::new();
    // as `open_osc_reader` sets it up
    let mut reader = quick_xml::Reader::from_reader(BufReader::new(file));
    reader.config_mut().trim_text(true);
    osc::xml_parse::judge_drive(&mut reader, &mut overlay).map_err(|e| e.report().to_string())?;
    Ok(overlay)
}

/// That alone, to be timed: whether the overlay knows anything.
pub fn drive(file: &[u8]) -> std::result::Result<bool, String> {
    driven(file).map(|overlay| !overlay.is_empty())
}

/// The ids that a file leaves, by kind and in OSM order, or what the error says.
pub fn rows_of(file: &[u8]) -> std::result::Result<Vec<Row>, String> {
    let overlay = osc::direct::Overlay { inner: driven(file)? };
    Ok([Kind::Node, Kind::Way, Kind::Relation].into_iter().flat_map(|kind| rows_of_kind(&overlay, kind)).collect())
}

fn rows_of_kind(overlay: &osc::direct::Overlay, kind: Kind) -> Vec<Row> {
    let (live, deleted) = overlay.sorted_ids(kind);
    let live = live.into_iter().zip(overlay.sorted_records(kind).into_iter().map(Some));
    let deleted = deleted.into_iter().map(|id| (id, None));
    let mut ids: Vec<(i64, Option<Record>)> = live.chain(deleted).collect();
    ids.sort_by(|a, b| osm_id::osm_id_cmp(a.0, b.0));
    let row = |(id, record)| Row { kind, id, known: overlay.inner.judge_known(kind, id), record };
    ids.into_iter().map(row).collect()
}

/// The source that the compiler sees for xml_parse.rs: for the test that it is unchanged.
pub fn built_xml_parse() -> &'static [u8] {
    include_bytes!(concat!(env!("OUT_DIR"), "/xml_parse.rs"))
}
