//! What the published Rust makes of a file, its XML read by quick-xml 0.26.

use std::panic::{AssertUnwindSafe, catch_unwind};

use judge::{Kind, Record, list_one};
use over::Row;

/// The listing, or what its error says; of a panic its message.
pub fn listing_of(file: &[u8]) -> Result<Vec<u8>, String> {
    let rows = catch_unwind(AssertUnwindSafe(|| over::rows_of(file))).unwrap_or_else(|what| {
        let text = what.downcast_ref::<String>().map(String::as_str).or(what.downcast_ref::<&str>().copied());
        Err(format!("panic: {}", text.unwrap_or("")))
    })?;
    let mut out = String::new();
    for Row { kind, id, known, record } in rows {
        list_one(&mut out, kind_of(kind), id, known, record.map(record_of).as_ref());
    }
    Ok(out.into_bytes())
}

fn kind_of(kind: over::Kind) -> Kind {
    match kind {
        over::Kind::Node => Kind::Node,
        over::Kind::Way => Kind::Way,
        over::Kind::Relation => Kind::Relation,
    }
}

/// The same record, of the package `over` and of the judge, which build the same files.
fn record_of(record: over::Record) -> Record {
    let over::Record { id, flags, version, timestamp, changeset, uid, user, visible, .. } = record;
    let over::Record { place, refs, members, tags, view, len, .. } = record;
    Record { id, flags, version, timestamp, changeset, uid, user, visible, place, refs, members, tags, view, len }
}
