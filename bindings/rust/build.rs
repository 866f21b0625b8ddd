//! Links `libnewelsage.a`. It stands in the folder that `NEWELSAGE_LIB_DIR` names, or in `target/library` at the repository's top.

use std::env;
use std::path::PathBuf;

fn main() {
    println!("cargo:rerun-if-env-changed=NEWELSAGE_LIB_DIR");
    let folder = match env::var_os("NEWELSAGE_LIB_DIR") {
        Some(folder) => PathBuf::from(folder),
        None => PathBuf::from(env!("CARGO_MANIFEST_DIR")).join("../../target/library"),
    };
    let archive = folder.join("libnewelsage.a");
    println!("cargo:rerun-if-changed={}", archive.display());
    println!("cargo:rustc-link-search=native={}", folder.display());
    println!("cargo:rustc-link-lib=static=newelsage");
}
