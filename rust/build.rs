//! Links the static library `libgrain.a`. It is looked for in the folder that GRAIN_LIB_DIR names; where that isn't
//! set, in the unpacked archive's `lib` beside this crate, then where `tools/dist` makes it in a checkout.
//!
//! Where there is none this only warns: `cargo check`, `cargo doc` and editors need no library, and a program fails
//! to link.

use std::env;
use std::path::{Path, PathBuf};

const LIBRARY: &str = "libgrain.a";

/// The folders to look in, the first one that has the library being taken.
fn folders() -> Vec<PathBuf> {
    if let Some(folder) = env::var_os("GRAIN_LIB_DIR") {
        return vec![PathBuf::from(folder)];
    }
    let crate_folder = env::var_os("CARGO_MANIFEST_DIR").unwrap();
    let beside = Path::new(&crate_folder).join("..");
    let archive = concat!("grain-", env!("CARGO_PKG_VERSION"), "-x86_64-linux");
    vec![
        beside.join("lib"),
        beside.join("target/dist").join(archive).join("lib"),
    ]
}

fn main() {
    println!("cargo::rerun-if-changed=build.rs");
    println!("cargo::rerun-if-env-changed=GRAIN_LIB_DIR");
    let folders = folders();
    let found = folders.iter().find(|folder| folder.join(LIBRARY).is_file());
    let Some(folder) = found else {
        let names: Vec<_> = folders
            .iter()
            .map(|folder| folder.display().to_string())
            .collect();
        println!(
            "cargo::warning={LIBRARY} is not in {}: programs will not link; name its folder in GRAIN_LIB_DIR",
            names.join(" or ")
        );
        // The file doesn't exist, so this is run again each time until it does.
        for folder in folders {
            println!("cargo::rerun-if-changed={}", folder.join(LIBRARY).display());
        }
        return;
    };
    println!("cargo::rerun-if-changed={}", folder.join(LIBRARY).display());
    println!("cargo::rustc-link-search=native={}", folder.display());
    println!("cargo::rustc-link-lib=static=grain");
}
