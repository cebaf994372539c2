//! The built program `roadlist` against the judge.

use std::io::{Read, Write};
use std::path::PathBuf;
use std::process::{Command, Stdio};

use compare::same;
use judge::compare::program::{self, Program};
use judge::random::{Random, seed_and_rounds};

struct Roadlist(PathBuf);

impl Roadlist {
    fn built() -> Self {
        Self(std::env::var_os("TORVASKIN_ROADLIST").map_or_else(
            || PathBuf::from(concat!(env!("CARGO_MANIFEST_DIR"), "/../../crates/roadlist/out/roadlist")),
            PathBuf::from,
        ))
    }
}

impl Program for Roadlist {
    /// The input comes in pieces of many lengths. A refusal has a message on standard error, a listing has none.
    fn print(&self, input: &[u8]) -> Vec<u8> {
        let mut child = Command::new(&self.0)
            .stdin(Stdio::piped())
            .stdout(Stdio::piped())
            .stderr(Stdio::piped())
            .spawn()
            .unwrap_or_else(|e| panic!("{}: {e}", self.0.display()));
        let mut stdin = child.stdin.take().expect("piped");
        let input = input.to_vec();
        // The program may end before it has read all: then the pipe is closed, which is no fault.
        let writer = std::thread::spawn(move || {
            let mut random = Random::new(input.len() as u64);
            let mut rest = &input[..];
            while !rest.is_empty() {
                let most = *random.pick(&[1, 30, 5_000, 1 << 20]);
                let (piece, after) = rest.split_at(rest.len().min(1 + random.below(most)));
                if stdin.write_all(piece).is_err() {
                    break;
                }
                rest = after;
            }
        });
        let mut output = Vec::new();
        let mut stdout = child.stdout.take().expect("piped");
        stdout.read_to_end(&mut output).expect("its output");
        writer.join().expect("its input");
        let errors = child.wait_with_output().expect("its end").stderr;
        assert_eq!(errors.is_empty(), !output.starts_with(b"refused\t"), "{}", errors.escape_ascii());
        output
    }
}

#[test]
fn limits() {
    same(program::limits(&Roadlist::built()));
}

#[test]
fn documents() {
    let (seed, rounds) = seed_and_rounds();
    let compared = program::documents(&Roadlist::built(), seed, rounds);
    if let Ok(inputs) = compared {
        println!("{inputs} documents");
    }
    same(compared);
}
