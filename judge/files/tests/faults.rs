//! The rules with one fault each: the comparison finds every one.

use files::compare::{Answers, Counts, Model, edge_rows, random};
use files::file::{ROADFILE, answer, line_at};
use judge::Outcome;

type Fault = Box<dyn Fn(&[u8]) -> Vec<u8>>;

struct Wrong(Fault);

impl Answers for Wrong {
    fn answer(&mut self, file: &[u8]) -> Vec<u8> {
        (self.0)(file)
    }
}

fn replaced(file: &[u8], from: &[u8], to: &[u8]) -> Vec<u8> {
    let (mut out, mut rest) = (Vec::new(), file);
    while let Some(at) = rest.windows(from.len()).position(|window| window == from) {
        out.extend_from_slice(&rest[..at]);
        out.extend_from_slice(to);
        rest = &rest[at + from.len()..];
    }
    out.extend_from_slice(rest);
    out
}

/// Reads one text for another.
fn reads(from: &'static str, to: &'static str) -> Fault {
    Box::new(move |file| answer(&replaced(file, from.as_bytes(), to.as_bytes()), &ROADFILE).outcome.print())
}

/// Gives another number.
fn number(from: u32, to: u32) -> Fault {
    prints(move |_, stop| {
        if stop.number == from {
            stop.number = to;
        }
    })
}

/// Refuses in another way.
fn prints(change: impl Fn(&[u8], &mut judge::Stop) + 'static) -> Fault {
    Box::new(move |file| {
        let mut outcome = answer(file, &ROADFILE).outcome;
        if let Outcome::Refused(stop) = &mut outcome {
            change(file, stop);
        }
        outcome.print()
    })
}

#[test]
fn every_fault_is_found() {
    let faults: Vec<(&str, Fault)> = vec![
        ("-- in a comment taken", reads("a -- b", "a b")),
        ("---> taken", reads("--->", "-->")),
        ("character 0 taken", reads("&#0;", "")),
        ("a reference wraps", reads("&#4294967361;", "&#65;")),
        ("X for x", reads("&#X41;", "&#x41;")),
        ("another entity", reads("&nbsp;", " ")),
        ("an entity in capitals", reads("&AMP;", "&amp;")),
        ("CR LF as two spaces", reads("a\r\nb", "a  b")),
        ("a raw tab kept", reads("a\tb", "a&#9;b")),
        ("a line feed by reference made a space", reads("&#10;", " ")),
        ("`<` in a value taken", reads("a<b", "a&lt;b")),
        ("no space between attributes", reads("b=\"c\"d", "b=\"c\" d")),
        ("26 before 25", reads("</b c>", "</b>")),
        ("bounds closes bbox", reads("<bbox></bounds>", "<bbox></bbox>")),
        ("the name compared up to the shorter's end", reads("<abc></ab>", "<abc></abc>")),
        ("DOCTYPE skipped", reads("<!DOCTYPE osmChange>", "")),
        ("CDATA skipped", reads("<![CDATA[a]]>", "")),
        ("the declaration anywhere", reads("\n<?xml version=\"1.0\"?>", "\n")),
        ("the encoding compared with case", reads("encoding='utf-8'", "encoding='x'")),
        ("another encoding taken", reads("\"ISO-8859-1\"", "\"UTF-8\"")),
        ("version 2.0 taken", reads("version=\"2.0\"", "version=\"1.0\"")),
        ("U+0085 as white space", reads("\u{85}b", " b")),
        ("a name of U+00D7", reads("<\u{d7}", "<a")),
        ("the fourth edition's names", reads("<\u{132}", "<\u{d7}")),
        ("a second mark passed over", reads("\u{feff}\u{feff}", "\u{feff}")),
        ("text judged", reads("]]></osmChange>", "<")),
        ("an attribute twice taken", reads("b=\"1\" b=\"2\"", "b=\"1\"")),
        ("an attribute twice is 4", number(25, 4)),
        ("bytes that are no text are 3", number(25, 3)),
        ("2 for 25", number(25, 2)),
        ("25 for 26", number(26, 25)),
        ("25 for 18", number(18, 25)),
        ("25 for 2", number(2, 25)),
        ("no line", prints(|_, stop| stop.line += 1)),
        ("LINE of the file's end", prints(|file, stop| stop.line = line_at(file, file.len()))),
        ("a carriage return counts", prints(|file, stop| stop.line += u64::from(file.contains(&b'\r')))),
        ("refuses all", Box::new(|_| b"refused\t25\t1\t-\n".to_vec())),
        ("prints nothing", Box::new(|_| Vec::new())),
    ];
    let found = |wrong: &mut Wrong| {
        let mut counts = Counts::new();
        edge_rows(wrong, &mut counts).and_then(|()| random(wrong, &ROADFILE, &mut counts, 1, 600)).is_err()
    };
    for (name, fault) in faults {
        assert!(found(&mut Wrong(fault)), "not found: {name}");
    }
}

/// Without a fault there is none.
#[test]
fn the_rules_themselves() {
    let mut counts = Counts::new();
    let port = &mut Model(ROADFILE);
    edge_rows(port, &mut counts).and_then(|()| random(port, &ROADFILE, &mut counts, 1, 600)).expect("no fault");
}
