//! Stand-in for one error type that error.rs names. Nothing makes one.

use std::fmt;

#[derive(Debug)]
pub enum ThreadPoolBuildError {}

impl fmt::Display for ThreadPoolBuildError {
    fn fmt(&self, _f: &mut fmt::Formatter<'_>) -> fmt::Result {
        match *self {}
    }
}

impl std::error::Error for ThreadPoolBuildError {}
