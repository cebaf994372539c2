//! Puts each published file and the small file beside it into one module source, the published bytes
//! first and unchanged: only code of the same module may read private fields.

use std::fs;
use std::path::Path;

const FILES: [(&str, &str); 8] = [
    ("osm_id", "osm_id.rs"),
    ("error", "error.rs"),
    ("version_floor", "osc/version_floor.rs"),
    ("interner", "osc/interner.rs"),
    ("compact", "osc/compact.rs"),
    ("parse", "osc/parse.rs"),
    ("sorted", "osc/sorted.rs"),
    ("xml_parse", "osc/xml_parse.rs"),
];

const ALLOW: &str = "#[allow(dead_code, unexpected_cfgs, unused_imports, clippy::all)]";

fn main() {
    println!("cargo::rerun-if-changed=published");
    println!("cargo::rerun-if-changed=src/beside");
    let out = std::env::var("OUT_DIR").expect("cargo sets OUT_DIR");
    let mut root = String::new();
    let mut osc = String::new();
    for (name, path) in FILES {
        let mut source = fs::read(Path::new("published/src").join(path)).expect("a published file");
        if let Ok(beside) = fs::read(format!("src/beside/{name}.rs")) {
            source.extend_from_slice(&beside);
        }
        let target = Path::new(&out).join(format!("{name}.rs"));
        fs::write(&target, source).expect("a module source");
        let list = if path.starts_with("osc/") { &mut osc } else { &mut root };
        list.push_str(&format!("{ALLOW}\n#[path = {:?}]\npub(crate) mod {name};\n", target.display().to_string()));
    }
    fs::write(Path::new(&out).join("root_modules.rs"), root).expect("the root's module list");
    fs::write(Path::new(&out).join("osc_modules.rs"), osc).expect("osc's module list");
}
