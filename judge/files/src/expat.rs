//! expat beside the model, by Python's xml.parsers.expat, where that is there: which files are well formed, and which events they have.

use std::collections::BTreeMap;
use std::io::Write;
use std::process::{Command, Stdio};

use judge::lines::LINE_MAX;

use crate::file::lines_of;
use crate::markup::{Fault, Markup, markup};

/// What expat says of files: their event lines, with `open` and `close` for an empty element, or its error. None where Python or its expat is not there.
pub fn expat(files: &[Vec<u8>]) -> Option<Vec<Result<String, String>>> {
    let script = concat!(env!("CARGO_MANIFEST_DIR"), "/expat.py");
    let mut check = Command::new("python3");
    let check = check.args(["-c", "from xml.parsers import expat"]).stderr(Stdio::null()).status();
    check.ok().filter(|status| status.success())?;
    let mut child = Command::new("python3").arg(script).stdin(Stdio::piped()).stdout(Stdio::piped()).spawn().ok()?;
    let mut given = child.stdin.take().expect("its standard input");
    let output = std::thread::scope(|scope| {
        scope.spawn(move || {
            for file in files {
                let framed = [&(file.len() as u32).to_le_bytes(), &file[..]].concat();
                given.write_all(&framed).expect("files for expat");
            }
        });
        child.wait_with_output().expect("expat's answers")
    });
    assert!(output.status.success(), "expat.py: {:?}", output.status);
    let mut rest = &output.stdout[..];
    let answers: Vec<_> = files.iter().map(|_| one_answer(&mut rest)).collect();
    assert!(rest.is_empty());
    Some(answers)
}

fn one_answer(rest: &mut &[u8]) -> Result<String, String> {
    let (length, behind) = rest.split_at(4);
    let length = u32::from_le_bytes(length.try_into().expect("four bytes")) as usize;
    let (text, after) = behind.split_at(length);
    *rest = after;
    let text = std::str::from_utf8(text).expect("UTF-8");
    match text.split_at(1) {
        ("+", lines) => Ok(lines.to_owned()),
        (_, error) => Err(error.to_owned()),
    }
}

/// The model's event lines with `open` and `close` for an empty element.
fn opened(lines: &str) -> String {
    let mut out = String::new();
    for line in lines.lines() {
        match line.strip_prefix("empty\t") {
            Some(rest) => out.push_str(&format!("open\t{rest}\nclose\n")),
            None => out.push_str(&format!("{line}\n")),
        }
    }
    out
}

/// Whether the events are those of one element and what it holds.
fn is_one_element(lines: &str) -> bool {
    let (mut depth, mut roots) = (0, 0);
    for line in lines.lines() {
        if line == "close" {
            depth -= 1;
        } else {
            roots += usize::from(depth == 0);
            depth += 1;
        }
    }
    depth == 0 && roots == 1
}

/// What stands between markups, which the model passes over: whether XML would take it, and whether names have none but ASCII's characters.
struct Around {
    text_is_xml: bool,
    names_are_ascii: bool,
}

fn around(file: &[u8]) -> Around {
    let mut found = Around { text_is_xml: true, names_are_ascii: true };
    let (mut at, mut depth) = (0, 0usize);
    if file.starts_with(b"\xef\xbb\xbf") {
        at = 3;
    }
    loop {
        let text = &file[at..];
        let length = text.iter().position(|&b| b == b'<').unwrap_or(text.len());
        found.text_is_xml &= is_text(&text[..length], depth);
        let Ok((markup, taken)) = markup(&text[length..], true) else { return found };
        match markup {
            Markup::Tag(tag) => {
                depth += usize::from(!tag.empty);
                found.names_are_ascii &= tag.name.is_ascii() && tag.attributes.iter().all(|a| a.name.is_ascii());
            }
            Markup::End(_) => depth = depth.saturating_sub(1),
            // an instruction's target too
            Markup::Instruction { .. } => found.names_are_ascii &= text[length..length + taken].is_ascii(),
            Markup::Silent => {}
        }
        at += length + taken;
    }
}

/// Text without `&` and `]]>`, of characters that XML takes; outside of every element white space alone.
fn is_text(text: &[u8], depth: usize) -> bool {
    let legal = judge::lines::text(text).is_some_and(|text| !text.contains('&') && !text.contains("]]>"));
    legal && (depth > 0 || text.iter().all(u8::is_ascii_whitespace))
}

/// Files by what the model and expat say of them.
pub type Counts = BTreeMap<&'static str, u64>;

/// The class of a file, or why it is in none.
fn class(file: &[u8], expat: &Result<String, String>) -> Result<&'static str, String> {
    let (lines, reply) = lines_of(file);
    let (lines, model) = (opened(&lines), reply.map_err(|refused| refused.fault));
    let taken = model.is_ok() && is_one_element(&lines);
    Ok(match (taken, expat) {
        (true, Ok(theirs)) if *theirs == lines => "both take it, with the same events",
        (false, Err(_)) => "neither takes it",
        (true, Err(_)) if !around(file).text_is_xml => "text that the model ignores unchecked",
        (true, Err(_)) if !around(file).names_are_ascii => "names of the fifth edition",
        (true, Err(error)) if error.contains("duplicate") && lines.lines().any(|line| line.len() > LINE_MAX) => {
            "an attribute twice in a line over 16,384 bytes, which is 2"
        }
        (false, Ok(_)) => match model {
            Err(Some(Fault::Doctype)) => "DOCTYPE",
            Err(Some(Fault::Cdata)) => "CDATA",
            Err(Some(Fault::Encoding)) => "encodings",
            Err(Some(Fault::Declaration)) => "versions, and names of encodings",
            Err(Some(Fault::NoText | Fault::Name)) if file.starts_with(b"\xff\xfe") => "UTF-16",
            _ => return Err(format!("expat takes it, the model says {model:?}")),
        },
        _ => return Err(format!("the model {model:?}, {lines:?}, expat {expat:?}")),
    })
}

/// Files by class, or the first that is in none. None where there is no expat.
pub fn compare(files: &[Vec<u8>]) -> Option<Result<Counts, String>> {
    let answers = expat(files)?;
    let mut counts = Counts::new();
    for (file, answer) in files.iter().zip(&answers) {
        match class(file, answer) {
            Ok(class) => *counts.entry(class).or_default() += 1,
            Err(why) => {
                let shown = |text: String| text.chars().take(600).collect::<String>();
                return Some(Err(format!("\"{}\": {}", shown(file.escape_ascii().to_string()), shown(why))));
            }
        }
    }
    Some(Ok(counts))
}
