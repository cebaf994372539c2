//! Stand-ins for the program around the parser: cancellation, counters, diagnostics, input files,
//! member types and metadata. None of them decides anything that is compared.

use std::ops::Deref;

#[derive(Clone)]
pub struct Invocation;

impl Invocation {
    pub(crate) fn check(&self) -> crate::Result<()> {
        Ok(())
    }
}

pub(crate) struct Recorder(Invocation);

impl Recorder {
    pub(crate) fn handle(&self) -> &Invocation {
        &self.0
    }

    pub(crate) fn counter(&self, _name: &str, _value: u64) {}
}

pub(crate) struct Call(Recorder);

impl Call {
    pub(crate) fn detached() -> Self {
        Self(Recorder(Invocation))
    }
}

impl Deref for Call {
    type Target = Recorder;

    fn deref(&self) -> &Recorder {
        &self.0
    }
}

pub struct Diagnostics;

/// A diagnostic's text is made, as in the published program, and dropped.
macro_rules! diag {
    ($diagnostics:expr, $level:ident, $key:expr, $($text:tt)*) => {{
        let _: &$crate::host::Diagnostics = $diagnostics;
        let _ = format!($($text)*);
    }};
}
pub(crate) use diag;

pub(crate) mod counters {
    pub(crate) struct Stopwatch;

    impl Stopwatch {
        pub(crate) fn start() -> Self {
            Self
        }

        pub(crate) fn elapsed_ns(&self) -> u64 {
            0
        }
    }
}

pub(crate) mod read {
    pub(crate) mod blob {
        #[derive(Clone, Copy, Debug, PartialEq, Eq)]
        pub struct ByteOffset(pub u64);
    }

    pub(crate) mod elements {
        #[derive(Clone, Copy, Debug, PartialEq, Eq)]
        #[allow(dead_code)] // nothing here makes an unknown type
        pub enum MemberType {
            Node,
            Way,
            Relation,
            Unknown(i32),
        }
    }

    pub(crate) mod input {
        pub(crate) fn open(path: &std::path::Path) -> crate::Result<std::fs::File> {
            Ok(std::fs::File::open(path)?)
        }
    }
}

pub(crate) mod write {
    pub(crate) mod block_builder {
        #[derive(Clone, Copy, Debug, PartialEq, Eq)]
        pub struct Metadata<'a> {
            pub version: i32,
            pub timestamp: i64,
            pub changeset: i64,
            pub uid: i32,
            pub user: &'a str,
            pub visible: bool,
        }
    }
}
