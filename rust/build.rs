//! Links the archive `libmaltcove.a`: from the folder that `MALTCOVE_LIB_DIR` names, else from `../c/build`, where `make`
//! builds it if it isn't there.

use std::env;
use std::path::{Path, PathBuf};
use std::process::Command;

fn main() {
    println!("cargo:rerun-if-env-changed=MALTCOVE_LIB_DIR");
    let folder = match env::var_os("MALTCOVE_LIB_DIR") {
        Some(folder) => PathBuf::from(folder),
        None => built(),
    };
    let archive = folder.join("libmaltcove.a");
    assert!(archive.is_file(), "no archive at {}", archive.display());
    println!("cargo:rerun-if-changed={}", archive.display());
    println!("cargo:rustc-link-search=native={}", folder.display());
    println!("cargo:rustc-link-lib=static=maltcove");
}

/// The folder `c/build` of the repository, with the archive.
fn built() -> PathBuf {
    let c = Path::new(env!("CARGO_MANIFEST_DIR")).join("../c");
    let folder = c.join("build");
    if !folder.join("libmaltcove.a").is_file() {
        let made = Command::new("make")
            .arg("-C")
            .arg(&c)
            .arg("build/libmaltcove.a")
            .status();
        assert!(
            made.is_ok_and(|status| status.success()),
            "`make -C c` doesn't build the archive; MALTCOVE_LIB_DIR can name a folder that has one"
        );
    }
    folder
}
