//! A change file, FILE or standard input; the listing, or a line `refused` with what the Rust's error says, on standard output, as the
//! published Rust answers over quick-xml 0.26. With `--model` what `roadfile` has to print, with `--lines` the event lines.

use std::io::{Read, Write};

use files::file::{self, ROADFILE};

fn main() -> std::io::Result<()> {
    let (mut path, mut way) = (None, String::new());
    for arg in std::env::args().skip(1) {
        if arg.starts_with("--") { way = arg } else { path = Some(arg) }
    }
    let mut input = Vec::new();
    match path {
        Some(path) => input = std::fs::read(path)?,
        None => drop(std::io::stdin().read_to_end(&mut input)?),
    }
    let printed = match &*way {
        "" => files::rust::listing_of(&input)
            .unwrap_or_else(|error| format!("refused\t{}\n", error.replace('\n', " ")).into_bytes()),
        "--model" => file::answer(&input, &ROADFILE).outcome.print(),
        "--lines" => file::lines_of(&input).0.into_bytes(),
        other => panic!("unknown option {other}"),
    };
    std::io::stdout().write_all(&printed)
}
