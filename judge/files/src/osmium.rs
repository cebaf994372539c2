//! A change file as osmium-tool writes it, where that is installed.

use std::io::Write;
use std::process::{Command, Stdio};

pub const NONE: &str = "osmium is not installed: a file that it writes was not read";

/// The file as `osmium cat` writes it, or none without osmium.
pub fn written(file: &[u8]) -> Option<Vec<u8>> {
    let mut check = Command::new("osmium");
    check.arg("--version").stdout(Stdio::null()).status().ok().filter(|status| status.success())?;
    let mut osmium = Command::new("osmium");
    let osmium = osmium.args(["cat", "-", "-F", "osc", "-f", "osc", "-o", "-"]);
    let mut child = osmium.stdin(Stdio::piped()).stdout(Stdio::piped()).spawn().expect("osmium");
    let mut given = child.stdin.take().expect("its standard input");
    let output = std::thread::scope(|scope| {
        scope.spawn(move || given.write_all(file).expect("a file for osmium"));
        child.wait_with_output().expect("what it writes")
    });
    assert!(output.status.success(), "osmium: {:?}", output.status);
    Some(output.stdout)
}
