//! A real-looking change file on standard output: some hundred KB, or with the word `large` some MB; a number behind it is the seed.

use std::io::Write;

use files::produce::{Shape, real};

fn main() -> std::io::Result<()> {
    let args: Vec<String> = std::env::args().skip(1).collect();
    let shape = if args.iter().any(|arg| arg == "large") { Shape::LARGE } else { Shape::SOME };
    let seed = args.iter().find_map(|arg| arg.parse().ok()).unwrap_or(1);
    std::io::stdout().write_all(&real(&shape, seed))
}
