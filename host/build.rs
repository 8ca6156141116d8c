//! Finds the proved archive and links it; without it the package still builds,
//! and only the comparison with the archive is left out.

use std::env;
use std::path::PathBuf;

fn main() {
    println!("cargo:rustc-check-cfg=cfg(archive)");
    println!("cargo:rerun-if-env-changed=STLED325_LIB_DIR");

    let package = PathBuf::from(env::var_os("CARGO_MANIFEST_DIR").expect("cargo names the package"));
    let folder = match env::var_os("STLED325_LIB_DIR") {
        Some(folder) => PathBuf::from(folder),
        None => package.join("../target/staticlib"),
    };
    let archive = folder.join("libstled325.a");
    println!("cargo:rerun-if-changed={}", archive.display());
    println!("cargo:rustc-env=STLED325_ARCHIVE={}", archive.display());

    if archive.is_file() {
        println!("cargo:rustc-cfg=archive");
        println!("cargo:rustc-link-search=native={}", folder.display());
        println!("cargo:rustc-link-lib=static=stled325");
    }
}
