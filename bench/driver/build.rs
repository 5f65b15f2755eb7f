//! Links the static library. `LARK_ARCHIVE` names it; without it, the one that `tools/archive` leaves in the repository is taken.

use std::env;
use std::path::PathBuf;

fn main() {
    println!("cargo:rerun-if-env-changed=LARK_ARCHIVE");
    let here = PathBuf::from(env::var_os("CARGO_MANIFEST_DIR").unwrap());
    let archive = env::var_os("LARK_ARCHIVE").map_or_else(|| here.join("../../target/staticlib/libledgerlark.a"), PathBuf::from);
    assert!(archive.is_file(), "no static library at {}: set LARK_ARCHIVE, or make it with `tools/archive`", archive.display());
    println!("cargo:rerun-if-changed={}", archive.display());
    println!("cargo:rustc-link-arg={}", archive.display());
}
