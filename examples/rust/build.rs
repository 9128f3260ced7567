//! Links libzubhanit.a, or without the feature `texts` libzubhanit_codecs.a, from the folder ZUBHANIT_LIB, or from where
//! `./l2 --build` leaves it.

use std::path::PathBuf;

fn main() {
    println!("cargo:rerun-if-env-changed=ZUBHANIT_LIB");
    let folder = std::env::var_os("ZUBHANIT_LIB").map_or_else(
        || PathBuf::from(env!("CARGO_MANIFEST_DIR")).join("../../crates/l2_c/out"),
        PathBuf::from,
    );
    let name = if std::env::var_os("CARGO_FEATURE_TEXTS").is_some() { "zubhanit" } else { "zubhanit_codecs" };
    println!("cargo:rerun-if-changed={}", folder.join(format!("lib{name}.a")).display());
    println!("cargo:rustc-link-search=native={}", folder.display());
    println!("cargo:rustc-link-lib=static={name}");
}
