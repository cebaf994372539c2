//! A terminal in small: event lines on standard input, or from the files that are named; the listing or the `refused` line on standard output,
//! as the program `roadlist` prints them, and on standard error what a refusal means. Ends with 0, 1 or 2 as `roadlist` does.

use std::io::{self, Read, Write, stderr, stdin, stdout};
use std::process::ExitCode;

use torvaskin::{Overlay, Reader, Refusal, Sizes};

/// The listing of an input, or its refusal with the line.
pub fn page(input: &[u8]) -> Result<String, (Refusal, u64)> {
    let read = || {
        let mut overlay = Overlay::new(&Sizes::ROADLIST)?;
        let mut reader = Reader::new();
        let taken = reader.events(&mut overlay, input)?;
        if taken < input.len() {
            // a last line without its line feed
            reader.event(&mut overlay, &input[taken..])?;
        }
        reader.end(&overlay)?;
        overlay.listing(65_536)
    };
    // the listing's own refusal names no line: it is one past the last
    let past = input.iter().filter(|byte| **byte == b'\n').count() as u64 + 1;
    read().map_err(|refusal: Refusal| (refusal, refusal.line().unwrap_or(past)))
}

/// `refused`, the number, the line, the version held.
pub fn refused((refusal, line): (Refusal, u64)) -> String {
    let held = refusal.held().map_or("-".into(), |held| held.to_string());
    format!("refused\t{}\t{line}\t{held}\n", refusal.number())
}

/// What is read, or what could not be read and why.
fn input() -> Result<Vec<u8>, (String, io::Error)> {
    let mut input = Vec::new();
    for file in std::env::args_os().skip(1) {
        input.extend(std::fs::read(&file).map_err(|why| (file.to_string_lossy().into_owned(), why))?);
    }
    if std::env::args_os().len() == 1 {
        stdin().read_to_end(&mut input).map_err(|why| ("standard input".into(), why))?;
    }
    Ok(input)
}

fn print(text: &str) -> Result<(), (String, io::Error)> {
    let mut output = stdout();
    output.write_all(text.as_bytes()).and_then(|()| output.flush()).map_err(|why| ("standard output".into(), why))
}

/// Whether the input was taken.
fn run() -> Result<bool, (String, io::Error)> {
    match page(&input()?) {
        Ok(listing) => print(&listing).map(|()| true),
        Err(refusal) => {
            let _ = writeln!(stderr(), "{}\n{}", refusal.0, refusal.0.reason().help());
            print(&refused(refusal)).map(|()| false)
        }
    }
}

pub fn main() -> ExitCode {
    match run() {
        Ok(taken) => ExitCode::from(u8::from(!taken)),
        Err((what, why)) => {
            // where standard error cannot be written either, the status still says it
            let _ = writeln!(stderr(), "{what}: {why}");
            ExitCode::from(2)
        }
    }
}
