//! Stand-ins: element kinds by their three names, and one constant that an error text mentions.

use std::fmt;

#[derive(Clone, Copy, Debug, PartialEq, Eq)]
pub enum ElementKind {
    Node,
    Way,
    Relation,
}

impl ElementKind {
    pub(crate) fn from_name(name: &str) -> Option<Self> {
        match name {
            "node" => Some(Self::Node),
            "way" => Some(Self::Way),
            "relation" => Some(Self::Relation),
            _ => None,
        }
    }

    pub(crate) fn as_str(self) -> &'static str {
        match self {
            Self::Node => "node",
            Self::Way => "way",
            Self::Relation => "relation",
        }
    }
}

impl fmt::Display for ElementKind {
    fn fmt(&self, f: &mut fmt::Formatter<'_>) -> fmt::Result {
        f.write_str(self.as_str())
    }
}

pub(crate) struct HeaderBlock;

impl HeaderBlock {
    pub(crate) const LOCATIONS_ON_WAYS: &'static str = "LocationsOnWays";
}

/// Named by the published files only in builds for unit tests.
#[cfg(test)]
#[allow(dead_code)]
pub(crate) enum MemberId {
    Node(i64),
    Way(i64),
    Relation(i64),
}
