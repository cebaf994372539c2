//! The crate beside the repository's pages and samples.

use std::fs::File;
use std::path::{Path, PathBuf};
use std::process::{Command, Stdio};

use torvaskin::{FileReader, Overlay, Reason, Refusal, STORED_FORM, Sizes, VERSION};

#[allow(dead_code)]
#[path = "../examples/terminal.rs"]
mod terminal;

#[allow(dead_code)]
#[path = "../examples/saved.rs"]
mod saved;

fn repository() -> PathBuf {
    Path::new(env!("CARGO_MANIFEST_DIR")).join("../..")
}

fn text(path: &Path) -> String {
    std::fs::read_to_string(path).unwrap_or_else(|e| panic!("{}: {e}", path.display()))
}

/// Each refusal says what docs/REFUSALS.md says, and the page has no other.
#[test]
fn refusals() {
    let page = text(&repository().join("docs/REFUSALS.md"));
    let row = |line: &str| -> Option<(u8, String, String)> {
        let mut cells = line.strip_prefix("| ")?.strip_suffix(" |")?.split(" | ");
        Some((cells.next()?.parse().ok()?, cells.next()?.into(), cells.next()?.into()))
    };
    let mut rows: Vec<_> = page.lines().filter_map(row).collect();
    rows.sort();
    let of = |reason: &Reason| (*reason as u8, reason.sentence().to_string(), reason.help().to_string());
    assert_eq!(Reason::ALL.iter().map(of).collect::<Vec<_>>(), rows);
    assert!(rows.iter().map(|row| row.0).eq(1..=26));
}

/// The small terminal prints what is stored for each sample, as `roadlist` does.
#[test]
fn samples() {
    let mut inputs = vec![(repository().join("crates/roadlist/stdin"), repository().join("crates/roadlist/stdout"))];
    for file in std::fs::read_dir(repository().join("samples")).expect("the samples") {
        let input = file.expect("a sample").path();
        if input.extension().is_some_and(|e| e == "events") {
            inputs.push((input.clone(), input.with_extension("out")));
        }
    }
    assert!(inputs.len() > 20);
    for (input, output) in inputs {
        let printed = terminal::page(&std::fs::read(&input).expect("a sample")).unwrap_or_else(terminal::refused);
        assert_eq!(printed, text(&output), "{}", input.display());
    }
}

/// A reader of files gives what is stored for each sample, in one piece and byte by byte.
#[test]
fn files() {
    let mut seen = 0;
    for file in std::fs::read_dir(repository().join("samples")).expect("the samples") {
        let input = file.expect("a sample").path();
        if input.extension().is_none_or(|e| e != "osc") {
            continue;
        }
        let bytes = std::fs::read(&input).expect("a sample");
        let page = |size: usize| -> Result<String, Refusal> {
            let (mut overlay, mut reader) = (Overlay::new(&Sizes::ROADLIST)?, FileReader::new());
            bytes.chunks(size).try_for_each(|piece| reader.piece(&mut overlay, piece))?;
            reader.end(&overlay)?;
            overlay.listing(65_536)
        };
        let output = text(&input.with_extension("out"));
        for size in [1, 7, bytes.len()] {
            let printed = page(size).unwrap_or_else(|refusal| {
                terminal::refused((refusal, refusal.line().expect("a file's refusal has one")))
            });
            assert_eq!(printed, output, "{} in pieces of {size}", input.display());
        }
        seen += 1;
    }
    assert!(seen > 10);
}

/// README prints the example as it is compiled.
#[test]
fn readme() {
    let (page, example) = (text(&repository().join("README.md")), include_str!("../examples/file.rs"));
    assert!(page.contains(&format!("```rust\n{example}```\n")));
}

/// The crate's version and stored form are those of the header, and CHANGELOG.md begins with the version.
#[test]
fn version() {
    let header = text(&repository().join("include/torvaskin.h"));
    assert!(header.contains(&format!("\n#define TVK_VERSION \"{VERSION}\"\n")));
    assert!(header.contains(&format!("\n#define TVK_STORED_FORM {STORED_FORM}\n")));
    let changes = text(&repository().join("CHANGELOG.md"));
    assert_eq!(changes.lines().find_map(|line| line.strip_prefix("## ")), Some(VERSION));
}

/// An overlay that was saved is loaded, and is saved as it was; a file that is cut off or has a changed bit is not loaded.
#[test]
fn saved_overlay() {
    let file = std::fs::read(repository().join(format!("c/saved.{STORED_FORM}"))).expect("a saved overlay");
    let overlay = saved::loaded(&file).expect("it is whole");
    let listing = overlay.listing(65_536).expect("it fits");
    assert_eq!(listing, text(&repository().join("crates/roadlist/stdout")));
    assert_eq!(saved::saved(&overlay).expect("sound"), file);
    for len in 0..file.len() {
        assert!(saved::loaded(&file[..len]).is_err());
    }
    for at in 0..8 * file.len() {
        let mut changed = file.clone();
        changed[at / 8] ^= 1 << (at % 8);
        assert!(saved::loaded(&changed).is_err(), "bit {at}");
    }
    assert!(saved::loaded(&[&file[..], b"\n"].concat()).is_err());
}

/// What an example does with an input and an output: its status, what it prints and what it says.
fn ran(example: &str, arguments: &[&str], input: &Path, output: Stdio) -> (Option<i32>, String, String) {
    // beside the tests, where `cargo test` builds the examples
    let tests = std::env::current_exe().expect("a path");
    let program = tests.ancestors().nth(2).expect("a folder").join("examples").join(example);
    let input = File::open(input).expect("an input");
    let ran = Command::new(&program).args(arguments).stdin(input).stdout(output).stderr(Stdio::piped()).spawn();
    let ran = ran.unwrap_or_else(|e| panic!("{}: {e}", program.display())).wait_with_output().expect("it ends");
    let said = |bytes| String::from_utf8(bytes).expect("text");
    (ran.status.code(), said(ran.stdout), said(ran.stderr))
}

/// Each example prints the listing; a refusal and an error of the operating system are a status and a sentence, and never a panic.
#[test]
fn faults() {
    let (page, input) = (text(&repository().join("samples/example.out")), repository().join("samples/example.events"));
    let kept = std::env::temp_dir().join(format!("torvaskin-saved-{}", std::process::id()));
    let file = kept.to_str().expect("text");
    assert_eq!(ran("saved", &[file], &input, Stdio::piped()), (Some(0), String::new(), String::new()));
    for (example, arguments) in [("listing", &[][..]), ("terminal", &[]), ("saved", &["--list", file])] {
        assert_eq!(ran(example, arguments, &input, Stdio::piped()), (Some(0), page.clone(), String::new()));
        let full = File::options().write(true).open("/dev/full").expect("a full disk");
        let (status, _, said) = ran(example, arguments, &input, full.into());
        assert!(status == Some(2) && said.contains("No space left"), "{example}: {status:?} {said}");
    }
    let older = repository().join("samples/older_version.events");
    for (example, arguments, printed) in
        [("listing", &[][..], ""), ("terminal", &[], "refused\t12\t6\t4\n"), ("saved", &[file], "")]
    {
        let (status, output, said) = ran(example, arguments, &older, Stdio::piped());
        assert_eq!((status, &output[..]), (Some(1), printed), "{example}");
        assert!(said.starts_with("refused 12, line 6, version held 4: A change is older than"), "{example}: {said}");
        let (status, output, said) = ran(example, arguments, &repository(), Stdio::piped());
        assert_eq!((status, &output[..]), (Some(2), ""), "{example}");
        assert!(said.contains("directory"), "{example}: {said}");
    }
    let osc = |name: &str| repository().join("samples").join(name).with_extension("osc");
    assert_eq!(ran("file", &[], &osc("example"), Stdio::piped()), (Some(0), page.clone(), String::new()));
    let (status, output, said) = ran("file", &[], &osc("other_end_tag"), Stdio::piped());
    assert_eq!((status, &output[..]), (Some(1), ""), "{said}");
    assert!(said.starts_with("refused 26, line 4: An end tag closes nothing"), "{said}");
    std::fs::remove_file(&kept).expect("it was kept");
    let (status, _, said) = ran("terminal", &["none"], &input, Stdio::piped());
    assert!(status == Some(2) && said.starts_with("none: "), "{said}");
    let (status, _, said) = ran("saved", &["--list", "none"], &input, Stdio::piped());
    assert!(status == Some(2) && said.starts_with("none: "), "{said}");
}
