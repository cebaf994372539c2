//! The published `osc` modules, and what they expect of their parent.

pub(crate) type ParseResult<T> = crate::Result<T>;

/// Named by functions of xml_parse.rs that no sink here calls.
pub(crate) mod write {
    pub(crate) struct OwnedMetadata {
        pub(crate) version: Option<i32>,
        pub(crate) timestamp: String,
        pub(crate) changeset: String,
        pub(crate) uid: String,
        pub(crate) user: String,
        pub(crate) visible: String,
    }
}

pub(crate) use parse::CompactDiffOverlay;

include!(concat!(env!("OUT_DIR"), "/osc_modules.rs"));

/// Calls that the published files keep to the `osc` module.
pub(crate) mod direct;

/// Answers as equations about the definitions of the crate `published`.
pub mod definitions;
