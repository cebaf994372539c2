//! A whole file: its markups one after another, document 02's 25 and 26, the event lines, and what `roadfile` prints.

use judge::degrees::{Axis, by_floats, is_tie, read};
use judge::lines::LINE_MAX;
use judge::{Change, Outcome, Overlay, Reader, Sizes, Stop};

use crate::markup::{Attribute, Begun, Fault, Markup, Tag, markup};

/// What `roadfile` lends: for each kind and for the strings document 01's most, and an output of two mebibytes.
pub const ROADFILE: Sizes =
    Sizes { ids: [4_096; 3], arenas: [1_048_576; 3], strings: 4_096, string_bytes: 65_536, output: 2_097_152 };

/// What a file's markups have that the Rust over quick-xml 0.26 reads in another way, as far as it was read.
#[derive(Clone, Copy, Debug, Default, PartialEq, Eq)]
pub struct Seen {
    /// A reference in an attribute that the Rust reads undecoded and as a number or a timestamp.
    pub undecoded: bool,
    /// One in `visible`.
    pub visible: bool,
    /// One in any other attribute but `k`, `v`, `user` and `role`.
    pub elsewhere: bool,
    pub long_reference: bool,
    /// A raw tab or line end in a value.
    pub raw_space: bool,
    /// `>` inside of an instruction.
    pub greater: bool,
    /// `lat7` or `lon7`.
    pub sevens: bool,
    /// Degrees that lie as near to two whole numbers, of which the Rust's float gives the other.
    pub ties: bool,
}

impl Seen {
    fn note(&mut self, attribute: &Attribute) {
        let Attribute { name, value, references, .. } = attribute;
        if *references > 0 {
            match &**name {
                "k" | "v" | "user" | "role" => {}
                "id" | "ref" | "version" | "changeset" | "uid" | "timestamp" | "lat" | "lon" => self.undecoded = true,
                "visible" => self.visible = true,
                _ => self.elsewhere = true,
            }
        }
        self.long_reference |= attribute.long_reference;
        self.raw_space |= attribute.raw_space;
        self.sevens |= matches!(&**name, "lat7" | "lon7");
        let axis = Axis::BOTH.into_iter().find(|axis| axis.name() == name);
        self.ties |= axis.is_some_and(|axis| is_tie(value) && read(value, axis) != by_floats(value, axis));
    }

    /// "references only in `k`, `v`, `user` and `role` and no raw tab or line end in a value"
    pub fn is_compared(&self) -> bool {
        !(self.undecoded || self.visible || self.elsewhere || self.raw_space)
    }
}

/// Why a file is refused.
#[derive(Clone, Copy, Debug, PartialEq, Eq)]
pub struct Refused {
    pub stop: Stop,
    /// Of 25.
    pub fault: Option<Fault>,
    /// Whether the Rust looks at what is at fault.
    pub looked_at: bool,
}

/// Whether the Rust reads a tag as far: of a `node`, `way` and `relation` every attribute, of their children those that they need and what stands
/// before these, of another element none. References it reads in five attributes.
fn is_looked_at(fault: Fault, begun: &Begun) -> bool {
    let needs: &[&str] = match &*begun.name {
        "node" | "way" | "relation" => &["user"],
        "tag" => &["k", "v"],
        "nd" => &["ref"],
        "member" => &["type", "ref", "role"],
        _ => return false,
    };
    if fault == Fault::Reference {
        return begun.within.as_deref().is_some_and(|name| name != "ref" && needs.contains(&name));
    }
    needs == ["user"] || !needs.iter().all(|name| begun.before.iter().any(|before| before == name))
}

/// What an event line is refused with: the number, and the version held.
pub type Taken = Result<(), (u32, Option<i32>)>;

/// A file as far as it was read.
#[derive(Clone, Debug, Default)]
pub struct Read {
    pub seen: Seen,
    /// The names of the elements that are open.
    open: Vec<String>,
}

/// "LINE is then the line of the markup's first byte, for 18 and 19 the line feeds plus one."
pub fn line_at(file: &[u8], at: usize) -> u64 {
    1 + file[..at].iter().filter(|&&b| b == b'\n').count() as u64
}

impl Read {
    /// Hands on each event's line without its line feed. A line that is refused ends the file.
    pub fn file(&mut self, file: &[u8], take: &mut dyn FnMut(&str) -> Taken) -> Result<(), Refused> {
        let mut at = 0;
        let (mut line, mut counted) = (1, 0);
        while let Some(text) = file[at..].iter().position(|&b| b == b'<') {
            at += text;
            line += line_at(&file[counted..], at - counted) - 1;
            counted = at;
            let first = at == 0 || (at == 3 && file.starts_with(b"\xef\xbb\xbf"));
            let flawed = |(fault, begun)| Refused {
                stop: Stop { number: 25, line, held: None },
                fault: Some(fault),
                looked_at: is_looked_at(fault, &begun),
            };
            let (found, length) = markup(&file[at..], first).map_err(flawed)?;
            self.note(&found);
            if let Markup::Tag(tag) = &found
                && twice_within(tag)
            {
                return Err(flawed((Fault::Twice, Begun::twice(tag))));
            }
            let reply = self.event(found, take);
            let refused = |(number, held)| Refused { stop: Stop { number, line, held }, fault: None, looked_at: false };
            reply.map_err(refused)?;
            at += length;
        }
        Ok(())
    }

    fn note(&mut self, found: &Markup) {
        match found {
            Markup::Tag(tag) => tag.attributes.iter().for_each(|attribute| self.seen.note(attribute)),
            Markup::Instruction { greater } => self.seen.greater |= greater,
            _ => {}
        }
    }

    /// Of a well-formed markup: 26, and what its event is refused with.
    fn event(&mut self, found: Markup, take: &mut dyn FnMut(&str) -> Taken) -> Taken {
        match found {
            Markup::Tag(tag) => {
                take(&tag.line())?;
                if !tag.empty {
                    self.open.push(tag.name);
                }
            }
            Markup::End(name) => {
                if self.open.last() != Some(&name) {
                    return Err((26, None));
                }
                take("close")?;
                self.open.pop();
            }
            Markup::Silent | Markup::Instruction { .. } => {}
        }
        Ok(())
    }
}

/// An attribute twice is 25 where the line may be held, and else the line is 2.
fn twice_within(tag: &Tag) -> bool {
    tag.names_twice() && tag.line().len() <= LINE_MAX
}

/// What is said of a file.
#[derive(Clone, Debug)]
pub struct Answer {
    pub outcome: Outcome,
    /// Of 25, and whether the Rust looks at it.
    pub fault: Option<(Fault, bool)>,
    pub seen: Seen,
}

/// What `roadfile` prints for a file: its event lines by the judge's reference for these.
pub fn answer(file: &[u8], sizes: &Sizes) -> Answer {
    let (mut overlay, mut reader) = (Overlay::new(), Reader::new());
    let mut read = Read::default();
    let mut take = |line: &str| {
        let reply = reader.line(&mut overlay, line.as_bytes(), true, Change::AsRust, Some(sizes));
        reply.map_err(|stop| (stop.number, stop.held))
    };
    let reply = read.file(file, &mut take);
    let (outcome, fault) = match reply {
        Err(Refused { stop, fault, looked_at }) => (Outcome::Refused(stop), fault.map(|fault| (fault, looked_at))),
        Ok(()) => (at_the_end(file, sizes, &overlay, &reader), None),
    };
    Answer { outcome, fault, seen: read.seen }
}

/// "for 18 and 19 the line feeds plus one"
fn at_the_end(file: &[u8], sizes: &Sizes, overlay: &Overlay, reader: &Reader) -> Outcome {
    let refused = |number| Outcome::Refused(Stop { number, line: line_at(file, file.len()), held: None });
    if reader.end().is_err() {
        return refused(18);
    }
    let listing = overlay.listing();
    if listing.len() > sizes.output { refused(19) } else { Outcome::Listing(listing) }
}

/// The event lines of a file, each with its line feed, up to where it ends or is refused, and why it is refused: 25 and 26 alone.
pub fn lines_of(file: &[u8]) -> (String, Result<(), Refused>) {
    let mut lines = String::new();
    let mut take = |line: &str| {
        lines.push_str(line);
        lines.push('\n');
        Ok(())
    };
    let reply = Read::default().file(file, &mut take);
    (lines, reply)
}
