//! Writes a crate of the Rust's answers as equations about the definitions of `published`, and prints how many there
//! are: `make_definitions FOLDER`; with the word `wrong`, each equation has one wrong answer where it has several.

use std::path::Path;

fn main() -> std::io::Result<()> {
    let mut words = std::env::args().skip(1);
    let folder = words.next().expect("a folder");
    let spoiled = words.next().is_some_and(|word| word == "wrong");
    let asked = judge::definitions::write(Path::new(&folder), spoiled)?;
    println!("{} {} {}", asked.answers, asked.equations, asked.wrong);
    Ok(())
}
