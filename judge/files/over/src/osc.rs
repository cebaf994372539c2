//! The published `osc` modules, and what they expect of their parent.

pub(crate) type ParseResult<T> = crate::Result<T>;

/// Named by functions of xml_parse.rs that no sink here calls.
pub(crate) mod write {
    pub(crate) struct OwnedMetadata {
        pub(crate) version: Option<i32>,
        pub(crate) timestamp: String,
        pub(crate) changeset: String,
        pub(crate) uid: String,
        pub(crate) user: String,
        pub(crate) visible: String,
    }
}

pub(crate) use parse::CompactDiffOverlay;

include!(concat!(env!("OUT_DIR"), "/osc_modules.rs"));

#[allow(dead_code)]
#[path = "../../../src/osc/direct.rs"]
pub(crate) mod direct;
