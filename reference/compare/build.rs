//! Links the proved code, `libguard.a`, `libguard64.a`, `libguard_four.a` and `libguard_four64.a`. GUARD_LIB names their folder; without it that is
//! the repository's out/, where tools/libraries puts them.
use std::env;
use std::fs;
use std::path::PathBuf;

fn main() {
    println!("cargo:rerun-if-env-changed=GUARD_LIB");
    let folder = env::var("GUARD_LIB")
        .map(PathBuf::from)
        .unwrap_or_else(|_| PathBuf::from(env::var("CARGO_MANIFEST_DIR").unwrap()).join("../../out"));
    println!("cargo:rustc-link-search=native={}", folder.display());
    let library = |name: &str| folder.join(format!("lib{name}.a"));
    let first = library("guard");
    println!("cargo:rerun-if-changed={}", first.display());
    println!("cargo:rustc-link-lib=static=guard");
    // A folder from before 2026-07, which the benchmark is held against, has no library for the second form.
    println!("cargo:rustc-check-cfg=cfg(first_form_alone)");
    let second = library("guard64");
    println!("cargo:rerun-if-changed={}", second.display());
    if second.exists() {
        println!("cargo:rustc-link-lib=static=guard64");
    } else {
        println!("cargo:rustc-cfg=first_form_alone");
    }
    // One from before 2026-10 has none for four stations.
    println!("cargo:rustc-check-cfg=cfg(without_stations)");
    let stations = ["guard_four", "guard_four64"].map(|name| (name, library(name)));
    stations.iter().for_each(|(_, library)| println!("cargo:rerun-if-changed={}", library.display()));
    if stations.iter().all(|(_, library)| library.exists()) {
        stations.iter().for_each(|(name, _)| println!("cargo:rustc-link-lib=static={name}"));
    } else {
        println!("cargo:rustc-cfg=without_stations");
    }
    // One from before 2026-11 has these libraries, but no function in them that judges within limits.
    println!("cargo:rustc-check-cfg=cfg(without_limits)");
    let (name, library) = (b"guard_limits", fs::read(first).unwrap_or_default());
    if !library.windows(name.len()).any(|part| part == name) {
        println!("cargo:rustc-cfg=without_limits");
    }
}
