//! Finds libhull.a and libhull_shared.a: in `lib` below `HULL_PREFIX`, the folder that was given to `bin/install`, or where
//! that is not set, in the crate itself (`archives/PROCESSOR`, as `bin/package` lays it), or in the folder into which `bin/install`
//! put it.
use std::path::{Path, PathBuf};

const ARCHIVES: [&str; 2] = ["libhull.a", "libhull_shared.a"];

fn has_all(folder: &Path) -> bool {
    ARCHIVES.iter().all(|archive| folder.join(archive).is_file())
}

fn main() {
    println!("cargo:rerun-if-env-changed=HULL_PREFIX");
    let crate_folder = PathBuf::from(std::env::var_os("CARGO_MANIFEST_DIR").expect("cargo names the crate's folder"));
    let folder = match std::env::var_os("HULL_PREFIX") {
        Some(prefix) => Path::new(&prefix).join("lib"),
        None => {
            let inside = crate_folder.join("archives").join(std::env::var("CARGO_CFG_TARGET_ARCH").unwrap_or_default());
            if has_all(&inside) { inside } else { crate_folder.join("../..") } // PREFIX/lib/rust/hull
        }
    };
    if !has_all(&folder) {
        eprintln!(
            "error: {} are not both in {}.\n\
             Build and install them by `bin/install PREFIX` of the hull book's repository, and then either depend on the crate \
             where that has put it, hull = {{ path = \"PREFIX/lib/rust/hull\" }}, or set HULL_PREFIX=PREFIX where cargo builds.",
            ARCHIVES.join(" and "),
            folder.display()
        );
        std::process::exit(1);
    }
    for archive in ARCHIVES {
        println!("cargo:rerun-if-changed={}", folder.join(archive).display());
    }
    println!("cargo:rustc-link-search=native={}", folder.display());
}
