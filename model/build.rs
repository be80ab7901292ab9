//! Tells cargo where the static library is that `tools/build` writes at the repository's root, and
//! whether the program is there that it writes. library/ruffarmoire.rs names the archive that it
//! links (`#[link]`), so the model's own tests need none.

use std::path::Path;

/// The archive of the library.
const ARCHIVE: &str = "ruffarmoire";

/// The program that tests run.
const PROGRAM: &str = "seek";

fn main() {
    let package = std::env::var("CARGO_MANIFEST_DIR").expect("cargo sets it");
    let target = Path::new(&package).join("../target");
    let archives = target.join("staticlib");
    println!("cargo::rerun-if-changed=build.rs");
    println!("cargo::rustc-link-search=native={}", archives.display());
    let archive = archives.join(format!("lib{ARCHIVE}.a"));
    tell("archive", ARCHIVE, &archive);
    let program = target.join("bin").join(PROGRAM);
    tell("program", PROGRAM, &program);
}

/// Sets `cfg(KIND = "NAME")` where the file is there, and warns where it is not.
fn tell(kind: &str, name: &str, file: &Path) {
    println!("cargo::rerun-if-changed={}", file.display());
    println!("cargo::rustc-check-cfg=cfg({kind}, values(\"{name}\"))");
    if file.is_file() {
        println!("cargo::rustc-cfg={kind}=\"{name}\"");
    } else {
        println!(
            "cargo::warning=the {kind} {name} is missing: run `tools/build` at the repository's \
             root before its tests"
        );
    }
}
