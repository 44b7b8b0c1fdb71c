//! Finds path.rs where it lies and the port's static library. Either may be missing: the program then says so.
//!
//! LOQSHYBER_PATH_RS   path.rs; else ../shared/docs/src/src/engines/tn/path.rs, from the repository's top
//! LOQSHYBER_HOST_LIB  the library; else crates/host/out/libhost.a, from the repository's top (`rt lib` in crates/host)

use std::path::{Path, PathBuf};
use std::{env, fs};

const PATH_RS: &str = "../shared/docs/src/src/engines/tn/path.rs";
const HOST_LIB: &str = "crates/host/out/libhost.a";

/// The file that a variable names, or the one at its usual place, if it is there.
fn find(variable: &str, top: &Path, usual: &str) -> Option<PathBuf> {
    println!("cargo::rerun-if-env-changed={variable}");
    let path = env::var_os(variable).map_or_else(|| top.join(usual), PathBuf::from);
    println!("cargo::rerun-if-changed={}", path.display());
    path.is_file().then(|| path.canonicalize().expect("a file has a path"))
}

/// What stands in path.rs, and what stands for it in its settled copy: sizes of empty lists are 0 and not −0.0; pairs of over 40 bits are told.
const SETTLED: [(&str, &str); 2] = [
    ("hg.log2dim[i as usize]).sum() };", "hg.log2dim[i as usize]).sum::<f64>() + 0.0 };"),
    (
        "let d = sm - p.alpha * (sx + sy);",
        "let d = sm - p.alpha * (sx + sy);\n        if sx.max(sy).max(sm) > 40f64.exp2() { super::meet_wide(); }",
    ),
];

/// path.rs with each of these lines changed, at its one place.
fn settled(text: String) -> String {
    SETTLED.iter().fold(text, |text, (line, other)| {
        assert_eq!(text.matches(line).count(), 1, "path.rs has other lines than those that its settled copy changes");
        text.replace(line, other)
    })
}

fn main() {
    let folder = PathBuf::from(env::var_os("CARGO_MANIFEST_DIR").expect("cargo sets it"));
    let out = PathBuf::from(env::var_os("OUT_DIR").expect("cargo sets it"));
    let top = folder.parent().expect("the harness stands in the repository");
    println!("cargo::rerun-if-changed=build.rs");
    println!("cargo::rustc-check-cfg=cfg(path_rs, port)");
    if let Some(path) = find("LOQSHYBER_PATH_RS", top, PATH_RS) {
        let copy = out.join("settled.rs");
        fs::write(&copy, settled(fs::read_to_string(&path).expect("path.rs can be read"))).expect("OUT_DIR can be written");
        let modules = format!("#[path = {path:?}]\npub mod path;\n#[path = {copy:?}]\npub mod settled;\n");
        fs::write(out.join("engine.rs"), modules).expect("OUT_DIR can be written");
        println!("cargo::rustc-cfg=path_rs");
    }
    if let Some(library) = find("LOQSHYBER_HOST_LIB", top, HOST_LIB) {
        fs::copy(&library, out.join("libhost.a")).expect("OUT_DIR can be written");
        println!("cargo::rustc-link-search=native={}", out.display());
        println!("cargo::rustc-link-lib=static=host");
        println!("cargo::rustc-cfg=port");
    }
}
