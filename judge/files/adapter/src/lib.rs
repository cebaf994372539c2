//! quick-xml 0.26 under the names and types of the later release that the published files use: names and values are `str`
//! there, the reader's settings a value of their own. What is markup, which attributes it has and what a reference means
//! is decided by 0.26.

pub mod events;

use std::fmt;
use std::io::{self, BufRead};
use std::sync::Arc;

use events::{BytesStart, Event};

/// Named by the published file in each call of `normalized_value`.
#[derive(Clone, Copy, Debug)]
pub enum XmlVersion {
    Implicit1_0,
}

/// A failed read, or an error of 0.26.
#[derive(Debug)]
pub enum Error {
    Io(Arc<io::Error>),
    Xml(real::Error),
}

impl From<real::Error> for Error {
    fn from(err: real::Error) -> Self {
        match err {
            real::Error::Io(err) => Self::Io(Arc::new(err)),
            other => Self::Xml(other),
        }
    }
}

impl fmt::Display for Error {
    fn fmt(&self, f: &mut fmt::Formatter<'_>) -> fmt::Result {
        match self {
            Self::Io(err) => fmt::Display::fmt(err, f),
            Self::Xml(err) => fmt::Debug::fmt(err, f),
        }
    }
}

impl std::error::Error for Error {}

pub struct Reader<R>(real::Reader<R>);

impl<R> Reader<R> {
    /// The reader's settings: itself.
    pub fn config_mut(&mut self) -> &mut Self {
        self
    }

    pub fn trim_text(&mut self, trim: bool) {
        self.0.trim_text(trim);
    }
}

impl<R: BufRead> Reader<R> {
    pub fn from_reader(input: R) -> Self {
        Self(real::Reader::from_reader(input))
    }

    /// A tag that is no UTF-8 cannot be handed on as `str`: an error.
    pub fn read_event_into<'b>(&mut self, buf: &'b mut Vec<u8>) -> Result<Event<'b>, Error> {
        Ok(match self.0.read_event_into(buf)? {
            real::events::Event::Start(tag) => Event::Start(BytesStart::of(tag)?),
            real::events::Event::Empty(tag) => Event::Empty(BytesStart::of(tag)?),
            real::events::Event::End(_) => Event::End(events::BytesEnd),
            real::events::Event::Eof => Event::Eof,
            _ => Event::Text(events::BytesText),
        })
    }
}
