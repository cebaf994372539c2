//! The edge table, edge.tsv: inputs at each rule's edge, with what `roadfile` has to print, and what expat and the published Rust say of
//! them. Its fields are written with `\t`, `\n`, `\r`, `\\`, `\xHH`, and `\{N TEXT}` for TEXT N times; `(nothing)` is an empty listing.

pub struct Row {
    /// Class and note.
    pub name: String,
    pub input: Vec<u8>,
    pub answer: Vec<u8>,
    /// What expat 2.5.0 says: `ok`, or its error.
    pub expat: String,
    /// The listing by the Rust over quick-xml 0.26, or none where it refuses the file.
    pub rust: Option<Vec<u8>>,
}

pub fn rows() -> Vec<Row> {
    let row = |line: &str| {
        let fields: Vec<&str> = line.split('\t').collect();
        let [class, note, input, answer, expat, rust] = fields[..] else { panic!("six fields: {line}") };
        Row {
            name: format!("{class}: {note}"),
            input: bytes(input),
            answer: listing(answer),
            expat: expat.to_owned(),
            rust: (rust != "refused").then(|| listing(rust)),
        }
    };
    include_str!("../edge.tsv").lines().skip(1).map(row).collect()
}

fn listing(field: &str) -> Vec<u8> {
    if field == "(nothing)" { Vec::new() } else { bytes(field) }
}

/// The bytes that a field stands for.
pub fn bytes(field: &str) -> Vec<u8> {
    let mut out = Vec::new();
    let mut rest = field;
    while let Some((before, behind)) = rest.split_once('\\') {
        out.extend_from_slice(before.as_bytes());
        let (code, after) = behind.split_at(1);
        rest = after;
        match code {
            "t" => out.push(b'\t'),
            "n" => out.push(b'\n'),
            "r" => out.push(b'\r'),
            "\\" => out.push(b'\\'),
            "x" => {
                let (digits, after) = rest.split_at(2);
                out.push(u8::from_str_radix(digits, 16).expect("two hexadecimal digits"));
                rest = after;
            }
            "{" => {
                let (inner, after) = rest.split_once('}').expect("a brace that closes");
                let (times, text) = inner.split_once(' ').expect("how often, and the text");
                out.extend(bytes(text).repeat(times.parse().expect("a number")));
                rest = after;
            }
            _ => panic!("no escape: {field}"),
        }
    }
    out.extend_from_slice(rest.as_bytes());
    out
}
