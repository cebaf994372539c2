//! As ../../build.rs: each published file, unchanged, and the small file beside it as one module source.

use std::fs;
use std::path::Path;

const ROOT: [&str; 2] = ["osm_id", "error"];
const OSC: [&str; 6] = ["version_floor", "interner", "compact", "parse", "sorted", "xml_parse"];

const ALLOW: &str = "#[allow(dead_code, unexpected_cfgs, unused_imports, clippy::all)]";

fn main() {
    println!("cargo::rerun-if-changed=../../published");
    println!("cargo::rerun-if-changed=../../src/beside");
    modules(&ROOT, "", "root_modules.rs");
    modules(&OSC, "osc/", "osc_modules.rs");
}

fn modules(names: &[&str], folder: &str, list: &str) {
    let out = std::env::var("OUT_DIR").expect("cargo sets OUT_DIR");
    let out = Path::new(&out);
    let mut lines = String::new();
    for name in names {
        let mut source = fs::read(format!("../../published/src/{folder}{name}.rs")).expect("a published file");
        if let Ok(beside) = fs::read(format!("../../src/beside/{name}.rs")) {
            source.extend_from_slice(&beside);
        }
        let target = out.join(format!("{name}.rs"));
        fs::write(&target, source).expect("a module source");
        lines.push_str(&format!("{ALLOW}\n#[path = {:?}]\npub(crate) mod {name};\n", target.display().to_string()));
    }
    fs::write(out.join(list), lines).expect("a module list");
}
