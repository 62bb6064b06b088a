//! Tells the linker where the archive is: D64_LIB_DIR names the folder of
//! libd64.a.

use std::env;
use std::path::Path;

fn main() {
    println!("cargo::rerun-if-env-changed=D64_LIB_DIR");
    let folder = env::var("D64_LIB_DIR").unwrap_or_default();
    let archive = Path::new(&folder).join("libd64.a");
    if !archive.is_file() {
        println!("cargo::error=D64_LIB_DIR={folder} is no folder with a libd64.a");
        return;
    }
    // Another archive means another program, though no source changed.
    println!("cargo::rerun-if-changed={}", archive.display());
    println!("cargo::rustc-link-search=native={folder}");
}
