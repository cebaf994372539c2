//! Event lines on standard input; the listing, or `refused`, on standard output, as the published
//! Rust answers. With `--sizes` also document 01's limits for what `roadlist` lends, and timestamps and degrees as
//! document 02 has them; with `--allow` version regression is allowed; with `--state` the overlay's state follows.

use std::io::{Read, Write};

fn main() -> std::io::Result<()> {
    let mut sized = false;
    let mut allow = false;
    let mut state = false;
    for arg in std::env::args().skip(1) {
        match arg.as_str() {
            "--sizes" => sized = true,
            "--allow" => allow = true,
            "--state" => state = true,
            other => panic!("unknown option {other}"),
        }
    }
    let mut input = Vec::new();
    std::io::stdin().read_to_end(&mut input)?;
    let (outcome, overlay) =
        if sized { judge::run_sized(&input, allow, &judge::Sizes::ROADLIST) } else { judge::run(&input, allow) };
    let mut out = std::io::stdout().lock();
    out.write_all(&outcome.print())?;
    if state {
        writeln!(out, "{:x?}", overlay.state())?;
    }
    Ok(())
}
