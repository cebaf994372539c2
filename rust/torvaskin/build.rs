//! Links the built library: the file that TORVASKIN_LIB names, else what `./library` writes. It is copied first, so that nothing else of its folder is linked.

use std::path::PathBuf;

fn main() {
    let target = ["ARCH", "OS", "POINTER_WIDTH"]
        .map(|what| std::env::var(format!("CARGO_CFG_TARGET_{what}")).unwrap_or_default());
    if target != ["x86_64", "linux", "64"] {
        println!(
            "cargo::error=the library is built for x86-64 Linux with 64-bit pointers alone, and not for {}",
            target.join(" ")
        );
        return;
    }
    let out = PathBuf::from(std::env::var_os("OUT_DIR").expect("cargo sets it"));
    println!("cargo::rustc-link-search=native={}", out.display());
    println!("cargo::rerun-if-env-changed=TORVASKIN_LIB");
    let lib = std::env::var_os("TORVASKIN_LIB").map_or_else(
        || {
            let here = std::env::var_os("CARGO_MANIFEST_DIR").expect("cargo sets it");
            PathBuf::from(here).join("../../target/torvaskin/libtorvaskin.a")
        },
        PathBuf::from,
    );
    println!("cargo::rerun-if-changed={}", lib.display());
    std::fs::copy(&lib, out.join("libtorvaskin.a"))
        .unwrap_or_else(|e| panic!("no library at {}: {e}; `./library` builds it", lib.display()));
    println!("cargo::rustc-link-lib=static=torvaskin");
}
