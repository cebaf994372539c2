//! The comparison of what answers a file with the model of file.rs, and beside it with the published Rust over quick-xml 0.26.

use std::collections::BTreeMap;
use std::fmt;

use judge::{Outcome, Sizes};

use crate::edge;
use crate::file::{self, Answer};
use crate::markup::Fault;
use crate::produce::{Files, Shape, Style, real};
use crate::rust;

/// What prints an answer for a file: the program, or another entry to the library.
pub trait Answers {
    fn answer(&mut self, file: &[u8]) -> Vec<u8>;
}

/// The rules of file.rs themselves.
pub struct Model(pub Sizes);

impl Answers for Model {
    fn answer(&mut self, file: &[u8]) -> Vec<u8> {
        file::answer(file, &self.0).outcome.print()
    }
}

/// How the port and the Rust stand to each other on a file.
#[derive(Clone, Copy, Debug, PartialEq, Eq, PartialOrd, Ord)]
pub enum Class {
    /// Both take it, and it is of those that are compared: the same listing.
    Compared,
    /// Both take it, it is not of those that are compared, and the listing is the same all the same.
    Same,
    Refused,
    OnlyRust(&'static str),
    OnlyPort(&'static str),
    ReadDifferently(&'static str),
}

impl fmt::Display for Class {
    fn fmt(&self, f: &mut fmt::Formatter<'_>) -> fmt::Result {
        match self {
            Self::Compared => f.write_str("both take it: compared, the same"),
            Self::Same => f.write_str("both take it: not of those that are compared, the same"),
            Self::Refused => f.write_str("both refuse it"),
            Self::OnlyRust(class) => write!(f, "only the Rust takes it: {class}"),
            Self::OnlyPort(class) => write!(f, "only the port takes it: {class}"),
            Self::ReadDifferently(class) => write!(f, "both take it, read differently: {class}"),
        }
    }
}

/// Files by class.
pub type Counts = BTreeMap<Class, u64>;

/// The class of what only the Rust takes, by the refusal; none where there is no such class.
fn only_rust(number: u32, fault: Option<(Fault, bool)>) -> Option<&'static str> {
    Some(match (number, fault) {
        (25, Some((Fault::Tag | Fault::Twice | Fault::Reference, true))) => return None,
        (25, Some((fault, _))) => match fault {
            Fault::Cut => "the file ends inside its last markup",
            Fault::NoText => "bytes that are no text inside a markup",
            Fault::Doctype => "DOCTYPE",
            Fault::Cdata => "CDATA",
            Fault::Comment => "`--` in a comment",
            Fault::Instruction => "an instruction whose target is no name",
            Fault::Reserved => "`xml` as a target, in any case, elsewhere than at the beginning",
            Fault::Declaration => "a declaration that is not XML 1.0's",
            Fault::Encoding => "a declared encoding other than UTF-8",
            Fault::Name => "an element's name that is none",
            Fault::Space => "no white space before an attribute",
            Fault::AttributeName => "an attribute's name that is none",
            Fault::Tag => "attributes not well formed, where the Rust does not look",
            Fault::LessThan => "`<` in a value",
            Fault::Reference => "a reference that XML does not know, where the Rust does not look",
            Fault::Excluded => "a reference to a character that XML excludes",
            Fault::Twice => "an attribute twice, where the Rust does not look",
            Fault::EndTag | Fault::Bang => return None,
        },
        (2, None) => "a line over 16,384 bytes",
        (9, None) => "D9, a sign in a timestamp",
        (23, None) => "D10, degrees in another form",
        (24, None) => "D13, a coordinate in both forms",
        (13..=16 | 19, None) => "D6, sizes and limits",
        _ => return None,
    })
}

/// The class of what only the port takes, by what the Rust's error says.
fn only_port(answer: &Answer, error: &str) -> Option<&'static str> {
    let seen = answer.seen;
    let says = |words: &[&str]| words.iter().any(|word| error.contains(word));
    if seen.undecoded && says(&["is not a valid integer", "unparsable"]) {
        Some("a reference in a number or a timestamp")
    } else if seen.long_reference && says(&["Cannot convert"]) {
        Some("a reference of more than seven decimal or six hexadecimal digits")
    } else if seen.greater && says(&["XmlDecl"]) {
        Some("`>` inside of an instruction")
    } else if seen.sevens && says(&["missing attribute 'lat'", "missing attribute 'lon'"]) {
        Some("lat7 and lon7")
    } else {
        None
    }
}

/// The class of what both take and read differently, where it is not of those that are compared.
fn differently(answer: &Answer) -> Option<&'static str> {
    let seen = answer.seen;
    if seen.visible {
        Some("a reference in `visible`")
    } else if seen.ties {
        Some("D12, degrees that lie as near to two whole numbers")
    } else {
        None
    }
}

/// A file's class, or what is in none.
pub fn class(answer: &Answer, rust: &Result<Vec<u8>, String>) -> Result<Class, String> {
    let found = match (&answer.outcome, rust) {
        (Outcome::Refused(_), Err(_)) => Some(Class::Refused),
        (Outcome::Refused(stop), Ok(_)) => only_rust(stop.number, answer.fault).map(Class::OnlyRust),
        (Outcome::Listing(_), Err(error)) => only_port(answer, error).map(Class::OnlyPort),
        (Outcome::Listing(ours), Ok(theirs)) if ours == theirs => {
            let compared = answer.seen.is_compared() && !answer.seen.ties;
            Some(if compared { Class::Compared } else { Class::Same })
        }
        (Outcome::Listing(_), Ok(_)) => differently(answer).map(Class::ReadDifferently),
    };
    let theirs = || match rust {
        Ok(listing) => format!("{:?}", String::from_utf8_lossy(listing)),
        Err(error) => format!("refused: {error}"),
    };
    found.ok_or_else(|| format!("in no class: the rules {:?}, the Rust {}", answer, theirs()))
}

/// One file: what it prints, and its class.
pub fn one(port: &mut dyn Answers, sizes: &Sizes, counts: &mut Counts, file: &[u8]) -> Result<(), String> {
    let answer = file::answer(file, sizes);
    let (expected, told) = (answer.outcome.print(), port.answer(file));
    if expected != told {
        let [expected, told] = [&expected, &told].map(|bytes| shown(bytes));
        return Err(format!("{}\nby the rules {expected}\nprinted {told}", shown(file)));
    }
    let class = class(&answer, &rust::listing_of(file)).map_err(|why| format!("{}\n{why}", shown(file)))?;
    *counts.entry(class).or_default() += 1;
    Ok(())
}

/// Bytes as they are shown where something differs, as far as that is of use.
fn shown(bytes: &[u8]) -> String {
    let most = bytes.len().min(4_000);
    let cut = if most < bytes.len() { " .." } else { "" };
    format!("\"{}\"{cut}", bytes[..most].escape_ascii())
}

/// Every row of the edge table, whose answers are those of `roadfile`'s sizes.
pub fn edge_rows(port: &mut dyn Answers, counts: &mut Counts) -> Result<(), String> {
    for row in edge::rows() {
        let told = port.answer(&row.input);
        if told != row.answer {
            let [expected, told] = [&row.answer, &told].map(|bytes| shown(bytes));
            return Err(format!("{}\n{}\nby the table {expected}\nprinted {told}", row.name, shown(&row.input)));
        }
        one(port, &file::ROADFILE, counts, &row.input)?;
    }
    Ok(())
}

/// Small files at random, a third of each style.
pub fn random(
    port: &mut dyn Answers,
    sizes: &Sizes,
    counts: &mut Counts,
    seed: u64,
    files: usize,
) -> Result<(), String> {
    let mut source = Files::new(seed);
    for n in 0..files {
        let style = [Style::Compared, Style::Damaged, Style::Wide][n % 3];
        one(port, sizes, counts, &source.file(style))?;
    }
    Ok(())
}

/// A real-looking file, whole, cut, and with one fault at its end.
pub fn large(
    port: &mut dyn Answers,
    sizes: &Sizes,
    counts: &mut Counts,
    shape: &Shape,
    seed: u64,
) -> Result<(), String> {
    let file = real(shape, seed);
    let end = file.len() - "</osmChange>\n".len();
    let broken = [&file[..end], b"<a b=\"<\"/></osmChange>\n"].concat();
    let other_end = [&file[..end], b"</osmchange>"].concat();
    let after = [&file[..], b"text & <!-- a -->"].concat();
    for file in [&file, &file[..end], &file[..end + 5], &broken, &other_end, &after] {
        one(port, sizes, counts, file)?;
    }
    Ok(())
}

/// Elements of one section.
fn section(name: &str, elements: &str) -> Vec<u8> {
    format!("<osmChange><{name}>{elements}</{name}></osmChange>").into_bytes()
}

/// At each size that is lent and at each limit, and one past it.
pub fn limits(port: &mut dyn Answers, sizes: &Sizes, counts: &mut Counts) -> Result<(), String> {
    for more in [0, 1] {
        for file in at_sizes(sizes, more).into_iter().chain(at_limits(more)) {
            one(port, sizes, counts, &file)?;
        }
    }
    Ok(())
}

/// Files that need so much more than what is lent: ids, strings, string bytes, arena bytes, output.
fn at_sizes(sizes: &Sizes, more: usize) -> Vec<Vec<u8>> {
    let mut files = Vec::new();
    for (kind, ids) in ["node", "way", "relation"].iter().zip(sizes.ids) {
        files.push(section("delete", &(0..ids + more).map(|id| format!("<{kind} id='{id}'/>")).collect::<String>()));
    }
    // handle 0 is the empty text
    let user = |name: String| format!("<way id='1' user='{name}'/>");
    files.push(section("delete", &(1..sizes.strings + more).map(|n| user(n.to_string())).collect::<String>()));
    let (whole, rest) = ((sizes.string_bytes - 1) / 16_000, (sizes.string_bytes - 1) % 16_000 + 1 + more);
    let names = (0..whole).map(|n| format!("{}{n:05}", "u".repeat(15_995)));
    files.push(section("delete", &names.chain([format!("x{}", "u".repeat(rest - 1))]).map(user).collect::<String>()));
    // 45 bytes a way, 8 a ref
    let (ways, rest) = (sizes.arenas[1] / 45, sizes.arenas[1] % 45);
    let refs = "<nd ref='1'/>".repeat(rest / 8 + more);
    files.push(section("create", &("<way id='1'/>".repeat(ways - 1) + &format!("<way id='1'>{refs}</way>"))));
    // with an id of three digits and no version a line is 25 bytes and the name
    let name = sizes.output / 128 - 25;
    let listed = |id: usize, name: usize| format!("<way id='{id}' user='{}'/>", "n".repeat(name));
    let ways: String = (100..227).map(|id| listed(id, name)).collect();
    files.push(section("create", &(ways + &listed(900, name + sizes.output % 128 + more))));
    files
}

/// Elements with so many parts more than document 01 takes.
fn at_limits(more: usize) -> Vec<Vec<u8>> {
    let element = |kind: &str, children: String| section("create", &format!("<{kind} id='1'>{children}</{kind}>"));
    vec![
        element("way", "<tag k='a' v=''/>".repeat(256 + more)),
        element("way", "<nd ref='9'/>".repeat(2_000 + more)),
        element("relation", "<member type='way' ref='1'/>".repeat(2_000 + more)),
        element(
            "way",
            format!("<tag k='a' v='{}'/>", "v".repeat(8_192)).repeat(2) + &"<tag k='a' v='w'/>".repeat(more),
        ),
    ]
}

/// Files made to take time or room: one markup, or very many.
pub fn enemies(port: &mut dyn Answers, sizes: &Sizes, counts: &mut Counts, length: usize) -> Result<(), String> {
    let of = |text: &str| text.repeat(length / text.len());
    let inside = |inside: &str| format!("<osmChange>{inside}</osmChange>");
    let tag = |value: &str| {
        let way = format!("<way id=\"1\"><tag k=\"a\" v=\"{value}\"/></way>");
        String::from_utf8(section("create", &way)).expect("text")
    };
    let attributes: String = (0..length / 12).map(|n| format!(" a{n}=\"\"")).collect();
    let files = [
        inside(&format!("<!--{}-->", of(" -"))),
        inside(&format!("<?a {}?>", of("? "))),
        inside(&of("<!-- -->")),
        inside(&of("\n")),
        inside(&of("<a/>")),
        inside(&of("<a></a>")),
        inside(&of("<a>")),
        inside(&format!("<a></a{}", of("a"))),
        inside(&format!("<a></{}>", of("a"))),
        inside(&format!("<a></a{}>", of(" \n"))),
        inside(&format!("<{}/>", of("a"))),
        inside(&format!("<a{}/>", of(" \r\n"))),
        inside(&format!("<a {}/>", of("b"))),
        inside(&format!("<a b=\"{}\"/>", of("x"))),
        inside(&format!("<a b=\"{}", of("x"))),
        inside(&format!("<a{attributes}/>")),
        format!("<osmChange{attributes}/>"),
        tag(&of("&#65;")),
        tag(&format!("&#{}65;", of("0"))),
        tag(&format!("&#{};", of("9"))),
        tag(&format!("&#x{}41;", of("0"))),
        tag(&format!("&{};", of("a"))),
        tag(&of("\\")),
        format!("<?xml version=\"1.{}\"?><osmChange/>", of("0")),
        format!("<?xml{}version='1.0'?><osmChange/>", of(" ")),
        of("<"),
        of(">"),
        of("\u{feff}"),
        of("<osmChange>"),
    ];
    files.iter().try_for_each(|file| one(port, sizes, counts, file.as_bytes()))
}
