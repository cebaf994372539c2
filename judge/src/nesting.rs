//! Where xml_parse.rs's driver stands.

/// The library's words for it. The level: Doc 0, Root 1, Section 2, Element 3, Leaf 4, Other 5, Done 6.
/// The section that is open or was open last: create 0, modify 1, delete 2. The element: node 0, way 1,
/// relation 2.
#[derive(Clone, Copy, Debug, PartialEq, Eq)]
pub struct Place {
    pub level: u8,
    pub section: u8,
    pub kind: u8,
}
