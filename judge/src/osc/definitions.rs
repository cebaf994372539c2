//! Answers of the published Rust as closed equations about the definitions of the crate `published`: a crate of
//! them, which the checker computes. `../../../definitions` has it do so.

mod attributes;
mod compact;
mod documents;
mod driver;
mod interner;
mod page;
mod parse;
mod plain;
mod sorted;
mod state;
mod term;

use std::fs;
use std::io;
use std::path::Path;

use crate::answer::KINDS;
use page::Page;

/// What the pages share.
const HEAD: &str = include_str!("definitions/head.txt");

/// How much was asked.
pub struct Asked {
    pub answers: usize,
    pub equations: usize,
    /// The equations with a wrong answer.
    pub wrong: usize,
}

fn pages() -> Vec<Page> {
    let mut pages = vec![plain::of_rust(), plain::osm_id(), plain::version_floor(), interner::page(), compact::page()];
    pages.extend(KINDS.map(parse::page));
    pages.extend([sorted::page(), attributes::page(), driver::page(), driver::begin_page()]);
    pages.push(documents::page());
    pages
}

/// Writes the crate; where `spoiled`, each equation with one wrong answer.
pub fn write(folder: &Path, spoiled: bool) -> io::Result<Asked> {
    std::panic::set_hook(Box::new(|_| ()));
    let mut pages = pages();
    let _ = std::panic::take_hook();
    let wrong = if spoiled { pages.iter_mut().map(Page::spoil).sum() } else { 0 };
    for part in ["src", "specs", "proofs"] {
        fs::create_dir_all(folder.join(part))?;
    }
    fs::write(folder.join("src/lib.rt"), "// It has no code.\n#![tactic(auto)]\n")?;
    fs::write(folder.join("specs/Lib.antt"), "pub mod Head\n")?;
    fs::write(folder.join("specs/Head.antt"), HEAD)?;
    let list: String = pages.iter().map(|page| format!("mod {}\n", page.name)).collect();
    fs::write(folder.join("proofs/Lib.antt"), list)?;
    for page in &pages {
        fs::write(folder.join(format!("proofs/{}.antt", page.name)), page.text())?;
    }
    let answers = pages.iter().map(Page::answers).sum();
    Ok(Asked { answers, equations: pages.iter().map(Page::equations).sum(), wrong })
}
