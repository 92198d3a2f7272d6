//! Links the kernel's static library `libkernel.a` when the variable BUMBLETURF_LIB names its folder. Without the variable the
//! binary is built without the parts that need the library.
//!
//! A library written in Rust brings its own runtime parts (a panic handler, for one), whose names can clash with those of this
//! binary. So the library is first joined to one object in which only the names of its C header stay visible. Where the tools
//! for that (`ld`, `objcopy`) are missing, it is linked as it is.

use std::path::Path;
use std::process::Command;

/// The names of the C header.
const NAMES: [&str; 15] = [
    "bt_empty",
    "bt_audit",
    "bt_cone",
    "bt_merge",
    "bt_incidence",
    "bt_boundary",
    "bt_corner",
    "bt_sheet",
    "bt_reduce",
    "bt_check",
    "bt_write",
    "bt_read",
    "bt_compact",
    "bt_weld",
    "bt_import",
];

/// Joins the library to one object with no other visible names; answers whether that was done.
fn join(library: &Path, object: &Path) -> bool {
    let mut joining = Command::new("ld");
    joining.args(["-r", "--force-group-allocation", "-S", "-o"]).arg(object);
    for name in NAMES {
        joining.args(["-u", name]);
    }
    joining.arg(library);
    let mut hiding = Command::new("objcopy");
    for name in NAMES {
        hiding.arg(format!("--keep-global-symbol={name}"));
    }
    hiding.arg(object);
    let done = |command: &mut Command| command.status().is_ok_and(|status| status.success());
    done(&mut joining) && done(&mut hiding)
}

fn main() {
    println!("cargo:rerun-if-changed=build.rs");
    println!("cargo:rerun-if-env-changed=BUMBLETURF_LIB");
    println!("cargo:rustc-check-cfg=cfg(library)");
    let Ok(folder) = std::env::var("BUMBLETURF_LIB") else {
        return;
    };
    let library = Path::new(&folder).join("libkernel.a");
    assert!(library.is_file(), "BUMBLETURF_LIB: there is no file {}", library.display());
    println!("cargo:rerun-if-changed={}", library.display());
    println!("cargo:rustc-cfg=library");
    let object = Path::new(&std::env::var("OUT_DIR").expect("set by cargo")).join("kernel.o");
    if join(&library, &object) {
        println!("cargo:rustc-link-arg={}", object.display());
    } else {
        println!("cargo:rustc-link-search=native={folder}");
        println!("cargo:rustc-link-lib=static=kernel");
    }
}
