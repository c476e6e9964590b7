//! Links the static library when BUSHKALOTE_PANEL names the folder of
//! libpanel.a, and tells the code so by the cfg `panel`.

use std::env;
use std::path::Path;

fn main() {
    println!("cargo:rustc-check-cfg=cfg(panel)");
    println!("cargo:rerun-if-changed=build.rs");
    println!("cargo:rerun-if-env-changed=BUSHKALOTE_PANEL");
    let Ok(folder) = env::var("BUSHKALOTE_PANEL") else {
        return;
    };
    if folder.is_empty() {
        return;
    }
    let archive = Path::new(&folder).join("libpanel.a");
    if !archive.is_file() {
        panic!(
            "BUSHKALOTE_PANEL is set, but {} is not a file",
            archive.display()
        );
    }
    println!("cargo:rerun-if-changed={}", archive.display());
    println!("cargo:rustc-link-search=native={folder}");
    println!("cargo:rustc-link-lib=static=panel");
    println!("cargo:rustc-cfg=panel");
}
