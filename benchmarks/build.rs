//! Links libcapi.a from HUTPLAN_ARCHIVE_DIR, by default from where `bash build capi` puts it.

use std::env;
use std::path::PathBuf;

fn main() {
    let here = PathBuf::from(env::var("CARGO_MANIFEST_DIR").unwrap());
    let directory = match env::var("HUTPLAN_ARCHIVE_DIR") {
        Ok(given) => PathBuf::from(given),
        Err(_) => here.join("../target/staticlib"),
    };
    let archive = directory.join("libcapi.a");
    println!("cargo:rerun-if-env-changed=HUTPLAN_ARCHIVE_DIR");
    println!("cargo:rerun-if-changed={}", archive.display());
    println!("cargo:rustc-link-search=native={}", directory.display());
    println!("cargo:rustc-link-lib=static=capi");
    println!("cargo:rustc-env=HUTPLAN_ARCHIVE={}", archive.display());
}
