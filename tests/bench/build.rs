//! Links the archives of whole_run, offered_run, taken_run and rounded_run that `run` lays beside one another, and,
//! where BENCH_BEFORE names an older one of the first, that too, with its functions under other names.

use std::env;
use std::fs;
use std::path::{Path, PathBuf};
use std::process::Command;

/// Of an older archive; one of them alone may have all three.
const EXPORTED: [&str; 3] = ["pipeline_run", "pipeline_run_offered", "pipeline_run_taken"];

fn main() {
    let here = PathBuf::from(env::var_os("CARGO_MANIFEST_DIR").expect("cargo sets it"));
    let archives = here.join("../../target/staticlib");
    link(&archives, "whole_run");
    link(&archives, "offered_run");
    link(&archives, "taken_run");
    link(&archives, "rounded_run");
    println!("cargo:rustc-check-cfg=cfg(before)");
    println!("cargo:rerun-if-env-changed=BENCH_BEFORE");
    if let Some(archive) = env::var_os("BENCH_BEFORE").filter(|name| !name.is_empty()) {
        println!("cargo:rerun-if-changed={}", Path::new(&archive).display());
        let folder = PathBuf::from(env::var_os("OUT_DIR").expect("cargo sets it"));
        let copy = folder.join("libwhole_run_before.a");
        fs::copy(&archive, &copy).expect("BENCH_BEFORE names an archive");
        let renamed = Command::new("objcopy")
            .args(EXPORTED.map(|name| format!("--redefine-sym={name}={name}_before")))
            .arg(&copy)
            .status();
        assert!(renamed.is_ok_and(|status| status.success()), "objcopy renames the functions");
        link(&folder, "whole_run_before");
        println!("cargo:rustc-cfg=before");
    }
}

fn link(folder: &Path, name: &str) {
    println!("cargo:rerun-if-changed={}", folder.join(format!("lib{name}.a")).display());
    println!("cargo:rustc-link-search=native={}", folder.display());
    println!("cargo:rustc-link-lib=static={name}");
}
