//! The judge of change files: what the program `roadfile` has to print for a file, by document 02's words (request 2), and
//! what the published Rust makes of the same file.

pub mod compare;
pub mod edge;
pub mod expat;
pub mod file;
pub mod markup;
pub mod osmium;
pub mod produce;
pub mod rust;
