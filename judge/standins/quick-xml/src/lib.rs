//! Stand-in for the part of quick-xml that xml_parse.rs uses. The reader's events come from event
//! lines; lines.rs judges those. Everything behind the event is the published file's.

pub mod events;
pub mod lines;

use std::fmt;
use std::io::{self, BufRead};
use std::sync::Arc;

use events::{BytesEnd, BytesStart, BytesText, Event, Forms};
use lines::Line;

/// Named by the published file in each call of `normalized_value`.
#[derive(Clone, Copy, Debug)]
pub enum XmlVersion {
    Implicit1_0,
}

/// A failed read, or a line that document 01 refuses with 2, 3 or 4.
#[derive(Debug)]
pub enum Error {
    Io(Arc<io::Error>),
    Line(u32),
}

impl fmt::Display for Error {
    fn fmt(&self, f: &mut fmt::Formatter<'_>) -> fmt::Result {
        match self {
            Self::Io(err) => fmt::Display::fmt(err, f),
            Self::Line(number) => write!(f, "line refused with {number}"),
        }
    }
}

impl std::error::Error for Error {}

#[derive(Default)]
pub struct Config;

impl Config {
    pub fn trim_text(&mut self, _trim: bool) {}
}

/// Reads one event line for each event.
pub struct Reader<R> {
    input: R,
    config: Config,
    lines: u64,
    forms: Forms,
}

impl<R> Reader<R> {
    pub fn from_reader(input: R) -> Self {
        Self { input, config: Config, lines: 0, forms: Forms::default() }
    }

    pub fn config_mut(&mut self) -> &mut Config {
        &mut self.config
    }

    /// The lines read so far, a refused one included.
    pub fn lines(&self) -> u64 {
        self.lines
    }

    /// The forms of the coordinates in the last element read.
    pub fn forms(&self) -> Forms {
        self.forms
    }
}

impl<R: BufRead> Reader<R> {
    pub fn read_event_into<'b>(&mut self, buf: &'b mut Vec<u8>) -> Result<Event<'b>, Error> {
        let ended = self.read_line(buf).map_err(|e| Error::Io(Arc::new(e)))?;
        if buf.is_empty() && !ended {
            return Ok(Event::Eof);
        }
        self.lines += 1;
        match lines::judge_line(buf, ended).map_err(Error::Line)? {
            Line::Open { empty, content, name_len } => {
                let start = BytesStart::from_content(content, name_len);
                self.forms = start.forms();
                Ok(if empty { Event::Empty(start) } else { Event::Start(start) })
            }
            Line::Close => Ok(Event::End(BytesEnd)),
            Line::Other => Ok(Event::Text(BytesText)),
        }
    }

    /// One line without its line feed into `buf`; whether the line feed was there.
    /// A line that is too long is read only as far as that shows.
    fn read_line(&mut self, buf: &mut Vec<u8>) -> io::Result<bool> {
        loop {
            let chunk = match self.input.fill_buf() {
                Ok(chunk) => chunk,
                Err(e) if e.kind() == io::ErrorKind::Interrupted => continue,
                Err(e) => return Err(e),
            };
            if chunk.is_empty() {
                return Ok(false);
            }
            let end = chunk.iter().position(|&b| b == b'\n');
            let taken = end.unwrap_or(chunk.len());
            buf.extend_from_slice(&chunk[..taken]);
            self.input.consume(taken + usize::from(end.is_some()));
            if end.is_some() {
                return Ok(true);
            }
            if buf.len() > lines::LINE_MAX {
                return Ok(false);
            }
        }
    }
}
