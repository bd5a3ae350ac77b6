//! Links the proved archive that `rt lib` leaves in crates/ramekinfold/out.

use std::path::Path;

fn main() {
    let folder = Path::new(env!("CARGO_MANIFEST_DIR")).join("../../crates/ramekinfold/out");
    let archive = folder.join("libramekinfold.a");
    println!("cargo:rerun-if-changed=build.rs");
    println!("cargo:rerun-if-changed={}", archive.display());
    if !archive.is_file() {
        println!("cargo:warning=crates/ramekinfold/out/libramekinfold.a is missing: run `rt lib` in crates/ramekinfold first");
        std::process::exit(1);
    }
    println!("cargo:rustc-link-search=native={}", folder.display());
    println!("cargo:rustc-link-lib=static:-bundle=ramekinfold");
}
