//! The fixed list: the judge's answers on the calls without state, one a line, fields parted by tabs.
//! The same bytes on every run.

use std::collections::HashSet;

use crate::compare::ground::{
    EDGE_STAMPS, Ground, Judge, edge_ids, edge_integers, edge_versions, random_integer, random_stamp, text_vectors,
    version,
};
use crate::random::Random;

/// A line: what is asked, and what the judge answers.
struct Line {
    question: String,
    answer: String,
}

/// Lines in order, each question once.
struct List {
    lines: Vec<Line>,
    seen: HashSet<String>,
}

impl List {
    fn add(&mut self, question: String, answer: String) {
        if self.seen.insert(question.clone()) {
            self.lines.push(Line { question, answer });
        }
    }

    /// The bytes as a field; none where they are no text or would end the field.
    fn field(bytes: &[u8]) -> Option<&str> {
        crate::lines::text(bytes).filter(|s| !s.contains(['\t', '\n', '\r']))
    }

    fn integer(&mut self, bytes: &[u8]) {
        let Some(text) = Self::field(bytes) else {
            return;
        };
        for (name, (number, value)) in [("i64", Judge.read_i64(bytes)), ("i32", Judge.read_i32(bytes))] {
            self.add(format!("{name}\t{text}"), format!("{number}\t{value}"));
        }
    }

    fn stamp(&mut self, bytes: &[u8]) {
        if let Some(text) = Self::field(bytes) {
            let (number, value) = Judge.stamp(bytes);
            self.add(format!("stamp\t{text}"), format!("{number}\t{value}"));
        }
    }
}

/// The whole list; README.md says which lines there are.
pub fn fixed_list() -> String {
    let shown = |line: &Line| format!("{}\t{}\n", line.question, line.answer);
    list().lines.iter().map(shown).collect()
}

/// The same lines without their answers.
pub fn fixed_questions() -> String {
    let shown = |line: &Line| format!("{}\n", line.question);
    list().lines.iter().map(shown).collect()
}

fn list() -> List {
    let mut list = List { lines: Vec::new(), seen: HashSet::new() };
    let mut random = Random::new(20_261_105);
    let ids = edge_ids();
    for id in ids.iter().step_by(3).copied().chain([0, 1, -1, i64::MIN, i64::MAX]) {
        let (class, magnitude) = Judge.osm_id_key(id);
        list.add(format!("key\t{id}"), format!("{class}\t{magnitude}"));
    }
    for _ in 0..200 {
        let (a, b) = (*random.pick(&ids), *random.pick(&ids));
        list.add(format!("cmp\t{a}\t{b}"), Judge.osm_id_cmp(a, b).to_string());
        let (class, magnitude) = Judge.blob_osm_first_key(a, b);
        list.add(format!("first\t{a}\t{b}"), format!("{class}\t{magnitude}"));
        let (class, magnitude) = Judge.blob_osm_last_key(a, b);
        list.add(format!("last\t{a}\t{b}"), format!("{class}\t{magnitude}"));
    }
    let shown = |word: u64| version(word).map_or_else(|| "?".to_owned(), |v| v.to_string());
    let versions: Vec<u64> = {
        // One word for none: the list has no words, only versions.
        let all = edge_versions();
        let mut seen = HashSet::new();
        all.into_iter().filter(|&w| seen.insert(version(w))).collect()
    };
    for &floor in &versions {
        for &claim in &versions {
            let (number, held) = Judge.version_admit(floor, claim);
            let (f, c) = (shown(floor), shown(claim));
            list.add(format!("admit\t{f}\t{c}"), format!("{number}\t{held}"));
            let raised = shown(Judge.version_raise(floor, claim));
            list.add(format!("raise\t{f}\t{c}"), raised);
        }
    }
    for text in [
        "",
        "+",
        "-",
        "+7",
        "-0",
        "-00",
        "7",
        "07",
        "+-7",
        " 7",
        "7 ",
        "a",
        "2147483647",
        "2147483648",
        "-2147483648",
        "-2147483649",
        "9223372036854775807",
        "9223372036854775808",
        "-9223372036854775808",
        "-9223372036854775809",
        "18446744073709551616",
        "0x7",
        "7.0",
    ] {
        list.integer(text.as_bytes());
    }
    let edges = edge_integers();
    for _ in 0..170 {
        let edge = random.pick(&edges);
        if edge.len() < 400 {
            list.integer(edge);
        }
        let other = random_integer(&mut random);
        list.integer(&other);
    }
    for stamp in EDGE_STAMPS {
        list.stamp(stamp.as_bytes());
        for _ in 0..6 {
            let mut damaged = stamp.as_bytes().to_vec();
            let at = random.below(damaged.len());
            damaged[at] = *random.pick(b"+-0123456789 TZ:tz");
            list.stamp(&damaged);
        }
    }
    for year in ["1972", "1999", "2000", "2001", "2096", "2100", "2400", "-004", "+096", "0000"] {
        for date in ["01-31", "02-28", "02-29", "04-30", "04-31", "12-31"] {
            list.stamp(format!("{year}-{date}T23:59:59Z").as_bytes());
        }
    }
    for _ in 0..200 {
        let stamp = random_stamp(&mut random);
        list.stamp(&stamp);
    }
    for bytes in text_vectors() {
        let hex: String = bytes.iter().map(|b| format!("{b:02x}")).collect();
        list.add(format!("text\t{hex}"), Judge.is_text(&bytes).to_string());
    }
    list
}
