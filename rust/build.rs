//! Finds the archive: in the folder BUMBLETURF_LIB, or where `make library` leaves it.

use std::path::{Path, PathBuf};
use std::{env, process};

/// The folders to look in. A relative BUMBLETURF_LIB is meant from where cargo was started, which the shell has in PWD; this script itself
/// runs in the crate's folder, and looks from there too.
fn folders(crate_folder: &Path) -> Vec<PathBuf> {
    let named = match env::var_os("BUMBLETURF_LIB") {
        Some(named) => PathBuf::from(named),
        None => return vec![crate_folder.join("../target/staticlib")],
    };
    if named.is_absolute() {
        return vec![named];
    }
    println!("cargo:rerun-if-env-changed=PWD");
    let started = env::var_os("PWD").map(|from| Path::new(&from).join(&named));
    started.into_iter().chain([crate_folder.join(&named)]).collect()
}

fn main() {
    println!("cargo:rerun-if-env-changed=BUMBLETURF_LIB");
    let folders = folders(Path::new(&env::var_os("CARGO_MANIFEST_DIR").unwrap()));
    for folder in &folders {
        // The installed name comes first: in a system's lib folder, libkernel.a may be somebody else's.
        for name in ["bumbleturf", "kernel"] {
            let archive = folder.join(format!("lib{name}.a"));
            println!("cargo:rerun-if-changed={}", archive.display());
            if archive.is_file() {
                let folder = folder.canonicalize().expect("the archive's folder has a full path");
                println!("cargo:rustc-link-search=native={}", folder.display());
                println!("cargo:rustc-link-lib=static={name}");
                return;
            }
        }
    }
    let looked: Vec<String> = folders.iter().map(|folder| folder.display().to_string()).collect();
    eprintln!(
        "no libbumbleturf.a or libkernel.a in {}: run `make library`, or set BUMBLETURF_LIB to the folder that has one",
        looked.join(" nor in ")
    );
    process::exit(1);
}
