//! Stand-in for one error type that error.rs names. Nothing makes one.

pub enum WireError {}

impl WireError {
    pub fn as_str(&self) -> &'static str {
        match *self {}
    }
}
