//! Links the static archives.
//!
//! They are looked for in the folder named by ZAP_ARCHIVES, else in
//! ../target/staticlib. A relative path counts from this package.

use std::env;
use std::path::PathBuf;

fn main() {
    let package = PathBuf::from(env::var_os("CARGO_MANIFEST_DIR").expect("set by cargo"));
    let folder = match env::var_os("ZAP_ARCHIVES") {
        Some(folder) => package.join(folder),
        None => package.join("../target/staticlib"),
    };
    println!("cargo:rerun-if-env-changed=ZAP_ARCHIVES");
    println!("cargo:rustc-link-search=native={}", folder.display());
    let archives: &[&str] = match env::var_os("CARGO_FEATURE_PROBE") {
        Some(_) => &["host", "probe"],
        None => &["host"],
    };
    for name in archives {
        let archive = folder.join(format!("lib{name}.a"));
        println!("cargo:rerun-if-changed={}", archive.display());
        println!("cargo:rustc-link-lib=static={name}");
        if !archive.exists() {
            panic!("{} is missing: tools/archive {name}, or set ZAP_ARCHIVES", archive.display());
        }
    }
}
