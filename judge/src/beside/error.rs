// Beside the published file: the trait that it names and that is not published with it.
pub(crate) trait Leaf: fmt::Display {}

impl Leaf for crate::coord_pack::OutOfRange {}
