//! Links the archive of the C calls, from $HUTPLAN_ARCHIVE_DIR or else target/staticlib.

use std::env;
use std::path::{Path, PathBuf};

fn main() {
    let package = env::var("CARGO_MANIFEST_DIR").expect("cargo sets it");
    let built = Path::new(&package).join("../../target/staticlib");
    let directory = env::var_os("HUTPLAN_ARCHIVE_DIR").map_or(built, PathBuf::from);
    let archive = directory.join("libcapi.a");
    println!("cargo:rerun-if-env-changed=HUTPLAN_ARCHIVE_DIR");
    println!("cargo:rerun-if-changed={}", archive.display());
    println!("cargo:rustc-link-search=native={}", directory.display());
    println!("cargo:rustc-link-lib=static=capi");
}
