//! interner.rs: every short list of texts, and spans at and past the ends of the bytes.

use super::page::{Page, Row, row};
use super::state::{spans, texts};
use super::term::{bytes, call, list, option, unless_panic};
use crate::osc::interner::{StringInterner, StringTable};

const TEXTS: [&str; 4] = ["", "a", "ab", "ü"];

pub(super) fn page() -> Page {
    let mut page = Page::new("Interner");
    let (mut handles, mut held, mut resolved) = (Vec::new(), Vec::new(), Vec::new());
    for given in lists(4) {
        let mut interner = StringInterner::new();
        let given_term = list(given.iter().map(bytes));
        let ids: Vec<u32> = given.iter().map(|text| interner.intern(text).expect("fewer than 2^32 bytes")).collect();
        handles.push(row(call("handles", &["Interner.new".to_owned(), given_term.clone()]), list(ids)));
        let after = call("intern_all", &["Interner.new".to_owned(), given_term]);
        let (table, string_bytes) = interner.judge_spans();
        held.push(row(format!("of_texts ({after})"), texts(string_bytes, table, &interner.judge_lookup())));
        resolved.push(every_text(&after, &interner));
    }
    page.about("handles", handles);
    page.about("intern", held);
    page.about("resolve", resolved);
    page.about("resolve_span", any_spans());
    page
}

/// Every list of up to so many texts.
fn lists(most: usize) -> Vec<Vec<&'static str>> {
    let mut all: Vec<Vec<&str>> = vec![vec![]];
    let mut longest = all.clone();
    for _ in 0..most {
        let longer = |list: &Vec<&'static str>| TEXTS.map(|text| [&list[..], &[text]].concat());
        longest = longest.iter().flat_map(longer).collect();
        all.extend(longest.clone());
    }
    all
}

/// Each handle, and one past the last.
fn every_text(after: &str, interner: &StringInterner) -> Row {
    let strings = interner.strings();
    let answers: Vec<String> = (0..6).map(|id| option(unless_panic(|| bytes(strings.resolve(id))))).collect();
    super::page::rows(format!("map (Interner.resolve ({after}).strings) (0 ∷ 1 ∷ 2 ∷ 3 ∷ 4 ∷ 5 ∷ [])"), &answers)
}

fn any_spans() -> Vec<Row> {
    let mut out = Vec::new();
    for offset in 0..5 {
        for len in 0..5 {
            let table = [(0, 0), (offset, len)];
            let strings = StringTable::judge_of("abc", &table);
            let term = call("strings", &[bytes("abc"), spans(&table)]);
            for id in [0, 1, 2] {
                let answer = option(unless_panic(|| bytes(strings.resolve(id))));
                out.push(row(call("Interner.resolve", &[term.clone(), id.to_string()]), answer));
            }
        }
    }
    out
}
