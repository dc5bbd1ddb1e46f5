//! Links the static library that `rt lib` leaves in crates/kamzhules/out.
use std::path::Path;

fn main() {
    let here = std::env::var("CARGO_MANIFEST_DIR").expect("cargo names the directory");
    let made = Path::new(&here).join("../crates/kamzhules/out");
    println!("cargo:rustc-link-search=native={}", made.display());
    println!("cargo:rustc-link-lib=static=kamzhules");
    println!("cargo:rerun-if-changed={}", made.join("libkamzhules.a").display());
    println!("cargo:rerun-if-changed=build.rs");
}
