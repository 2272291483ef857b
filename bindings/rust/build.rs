//! Finds the archives of the proved libraries and has them linked.

use std::env;
use std::path::{Path, PathBuf};
use std::process::exit;

/// The box, and the charge above it.
const LIBRARIES: [&str; 2] = ["pd3120_c", "charge_c"];

/// The folder that PD3120_LIB names, or the one that `./pd3120 lib` fills.
fn folder() -> PathBuf {
    if let Some(named) = env::var_os("PD3120_LIB").filter(|named| !named.is_empty()) {
        return PathBuf::from(named);
    }
    let package = env::var_os("CARGO_MANIFEST_DIR").expect("cargo sets it for build scripts");
    let repository = Path::new(&package).ancestors().nth(2);
    repository
        .expect("bindings/rust is two folders deep")
        .join("target/staticlib")
}

fn main() {
    let folder = folder();
    println!("cargo:rerun-if-env-changed=PD3120_LIB");
    for library in LIBRARIES {
        let archive = folder.join(format!("lib{library}.a"));
        println!("cargo:rerun-if-changed={}", archive.display());
        if !archive.is_file() {
            eprintln!("{} is not there.", archive.display());
            eprintln!("Run `./pd3120 lib`, which proves and builds the libraries,");
            eprintln!("or set PD3120_LIB to the absolute path of the folder that has");
            eprintln!("libpd3120_c.a and libcharge_c.a.");
            exit(1);
        }
        println!("cargo:rustc-link-lib=static={library}");
    }
    println!("cargo:rustc-link-search=native={}", folder.display());
}
