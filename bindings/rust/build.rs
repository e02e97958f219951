//! Links the static library. It is looked for in PACKET_WINDOW_LIBRARY, or where `./library` puts it.

use std::env;
use std::path::{Path, PathBuf};

fn folder() -> PathBuf {
    match env::var_os("PACKET_WINDOW_LIBRARY") {
        Some(folder) => PathBuf::from(folder),
        None => Path::new(env!("CARGO_MANIFEST_DIR")).join("../../target"),
    }
}

fn main() {
    let folder = folder();
    let library = folder.join("libpacket_window.a");
    println!("cargo:rerun-if-env-changed=PACKET_WINDOW_LIBRARY");
    println!("cargo:rerun-if-changed={}", library.display());
    if !library.is_file() {
        panic!("{} is missing: run ./library of the repository, or set PACKET_WINDOW_LIBRARY to its folder", library.display());
    }
    println!("cargo:rustc-link-search=native={}", folder.display());
    println!("cargo:rustc-link-lib=static=packet_window");
}
