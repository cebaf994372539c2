//! Values as terms of antt.

use std::fmt::Display;

/// Where the term is an argument.
pub(super) fn atom(term: impl Display) -> String {
    let term = term.to_string();
    if term.contains(' ') { format!("({term})") } else { term }
}

/// A function at its arguments.
pub(super) fn call(function: &str, arguments: &[String]) -> String {
    let arguments: String = arguments.iter().map(|argument| format!(" {}", atom(argument))).collect();
    format!("{function}{arguments}")
}

/// A signed number.
pub(super) fn z(n: impl Into<i64>) -> String {
    match n.into() {
        n @ 0.. => format!("pos {n}"),
        n => format!("negsuc {}", -(n + 1)),
    }
}

pub(super) fn list(items: impl IntoIterator<Item = impl Display>) -> String {
    let mut out: String = items.into_iter().map(|item| format!("{} ∷ ", atom(item))).collect();
    out.push_str("[]");
    out
}

pub(super) fn option(value: Option<impl Display>) -> String {
    value.map_or("None".to_owned(), |v| format!("Some {}", atom(v)))
}

pub(super) fn result(value: Result<String, String>) -> String {
    match value {
        Ok(v) => format!("Ok {}", atom(v)),
        Err(e) => format!("Err {}", atom(e)),
    }
}

/// Bytes: as a word where they are one.
pub(super) fn bytes(s: impl AsRef<[u8]>) -> String {
    let s = s.as_ref();
    let plain = |b: &u8| b.is_ascii_graphic() && !b"\"\\".contains(b);
    if !s.is_empty() && s.iter().all(plain) { format!("ascii \"{}\"", String::from_utf8_lossy(s)) } else { list(s) }
}

/// Bytes as one number: three digits for each, after a 1.
pub(super) fn packed(s: &[u8]) -> String {
    s.iter().fold("1".to_owned(), |out, b| out + &format!("{b:03}"))
}

/// What a call answers; none where it panics.
pub(super) fn unless_panic<T>(f: impl FnOnce() -> T) -> Option<T> {
    std::panic::catch_unwind(std::panic::AssertUnwindSafe(f)).ok()
}
