//! Builds the yardstick for the benchmarks, by CC or cc, and links it into them alone.

use std::path::{Path, PathBuf};
use std::process::Command;

fn main() {
    let out = PathBuf::from(std::env::var_os("OUT_DIR").expect("cargo sets it"));
    let compiler = std::env::var_os("CC").unwrap_or_else(|| "cc".into());
    println!("cargo::rerun-if-env-changed=CC");
    println!("cargo::rerun-if-changed=../yardstick");
    println!("cargo::rerun-if-changed=../../include");
    for name in ["lines", "soundness", "text"] {
        let object = out.join(name).with_extension("o");
        let status = Command::new(&compiler)
            .args(["-std=c11", "-O3", "-march=x86-64-v2", "-Wall", "-Wextra", "-Wpedantic", "-Wconversion", "-Werror"])
            .args(["-I", "../../include", "-c", "-o"])
            .arg(&object)
            .arg(Path::new("../yardstick").join(name).with_extension("c"))
            .status()
            .unwrap_or_else(|e| panic!("no C compiler {}: {e}", compiler.display()));
        assert!(status.success(), "yardstick/{name}.c is not taken by {}", compiler.display());
        println!("cargo::rustc-link-arg-bin=bench={}", object.display());
    }
}
