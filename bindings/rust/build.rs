//! Links the archive: that of the folder `LRLEX_LIB_DIR`, or else the one that `pkg-config` knows.

use std::env;
use std::process::{Command, exit};

fn main() {
    println!("cargo::rerun-if-env-changed=LRLEX_LIB_DIR");
    println!("cargo::rerun-if-env-changed=PKG_CONFIG_PATH");
    let folder = env::var("LRLEX_LIB_DIR").ok().or_else(installed).unwrap_or_else(|| {
        eprintln!("liblrlex.a wasn't found: set LRLEX_LIB_DIR to its folder, or have pkg-config find lrlex.pc");
        exit(1)
    });
    for line in lines(&folder) {
        println!("{line}");
    }
}

/// What has cargo link the archive of this folder, and link it again when it is another.
pub fn lines(folder: &str) -> [String; 3] {
    [
        format!("cargo::rerun-if-changed={folder}/liblrlex.a"),
        format!("cargo::rustc-link-search=native={folder}"),
        "cargo::rustc-link-lib=static=lrlex".to_owned(),
    ]
}

/// The folder that `pkg-config` gives.
fn installed() -> Option<String> {
    let found = Command::new("pkg-config").args(["--variable=libdir", "lrlex"]).output().ok()?;
    let folder = String::from_utf8(found.stdout).ok()?.trim().to_owned();
    (found.status.success() && !folder.is_empty()).then_some(folder)
}
