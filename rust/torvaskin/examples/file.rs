use std::error::Error;
use std::io::{Read, Write, stderr, stdin, stdout};
use std::process::ExitCode;
use torvaskin::{FileReader, Overlay, Refusal, Sizes};

fn listing(input: &[u8]) -> Result<String, Refusal> {
    let (mut overlay, mut file) = (Overlay::new(&Sizes::ROADLIST)?, FileReader::new());
    file.piece(&mut overlay, input)?;
    file.end(&overlay)?;
    overlay.listing(65_536)
}

fn run() -> Result<(), Box<dyn Error>> {
    let mut input = Vec::new();
    stdin().read_to_end(&mut input)?;
    let mut output = stdout();
    output.write_all(listing(&input)?.as_bytes())?;
    Ok(output.flush()?)
}

fn main() -> ExitCode {
    let Err(why) = run() else { return ExitCode::SUCCESS };
    // where standard error cannot be written either, the status still says it
    let _ = writeln!(stderr(), "{why}");
    ExitCode::from(if why.is::<Refusal>() { 1 } else { 2 })
}
