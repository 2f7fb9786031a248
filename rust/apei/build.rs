//! Finds the archive, `libapei.a`, or `libapei_bare.a` where the crate has no feature `std`: in the folder that `APEI_LIB_DIR` names, or in `lib` at the top of the repository, where `./libapei` puts it.
use std::{env, path::PathBuf};

fn main() {
    println!("cargo:rerun-if-env-changed=APEI_LIB_DIR");
    let folder = env::var_os("APEI_LIB_DIR").map_or_else(
        || PathBuf::from(env!("CARGO_MANIFEST_DIR")).join("../../lib"),
        PathBuf::from,
    );
    let name = match env::var_os("CARGO_FEATURE_STD") {
        Some(_) => "apei",
        None => "apei_bare",
    };
    let archive = folder.join(format!("lib{name}.a"));
    if !archive.exists() {
        println!(
            "cargo:warning=there is no {}: run ./libapei, or set APEI_LIB_DIR",
            archive.display()
        );
    }
    println!("cargo:rerun-if-changed={}", archive.display());
    println!("cargo:rustc-link-search=native={}", folder.display());
    println!("cargo:rustc-link-lib=static={name}");
}
