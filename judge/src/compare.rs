//! The comparisons, apart from what they compare with: a port is a trait's implementation, by the
//! built library in the package `compare`, by document 01's words with a fault in tests/faults.rs.

pub mod both;
pub mod call;
pub mod damaged;
pub mod direct;
pub mod ground;
pub mod lookups;
pub mod overlay;
pub mod program;
pub mod reads;
pub mod rust;
pub mod words;
mod words_reader;

/// The number of compared answers, or the first difference.
pub type Compared = Result<u64, String>;

/// Counts comparisons and ends at the first difference.
pub(crate) struct Tally(u64);

impl Tally {
    pub(crate) fn new() -> Self {
        Self(0)
    }

    pub(crate) fn same<T: PartialEq + std::fmt::Debug>(
        &mut self,
        what: impl FnOnce() -> String,
        judge: T,
        port: T,
    ) -> Result<(), String> {
        self.0 += 1;
        if judge == port { Ok(()) } else { Err(format!("{}: the judge {judge:?}, the port {port:?}", what())) }
    }

    pub(crate) fn done(self) -> Compared {
        Ok(self.0)
    }
}
