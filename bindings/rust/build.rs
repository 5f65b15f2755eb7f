//! Finds the static library and has it linked. It is not built here: its proofs take minutes, and another tool makes it.
//!
//! The first of these that is there is taken: what LARK_ARCHIVE names; what was made in this repository; what is installed, as pkg-config knows it.
//! While the last is taken, cargo does not watch for the second: every build would have to look again for a file that is not there.

use std::env;
use std::ffi::OsString;
use std::fs;
use std::path::{Path, PathBuf};
use std::process::{exit, Command};

const ARCHIVE: &str = "libledgerlark.a";

fn main() {
    println!("cargo::rerun-if-changed=build.rs");
    let crate_folder = PathBuf::from(env::var_os("CARGO_MANIFEST_DIR").unwrap_or_default());
    let made = crate_folder.join("../../target/staticlib").join(ARCHIVE);
    let archive = match variable("LARK_ARCHIVE") {
        // A relative path starts at this crate's folder.
        Some(path) => crate_folder.join(path),
        None if made.is_file() => made,
        None => installed().unwrap_or_else(|| fail("There is no static library in this repository, and pkg-config knows of none.")),
    };
    let shown = archive.display();
    if !archive.is_file() {
        fail(&format!("The static library {shown} is not there."));
    }
    // The linker is told a folder and a name, and makes the file's name from these itself.
    if archive.file_name() != Some(ARCHIVE.as_ref()) {
        fail(&format!("The static library {shown} has another name than {ARCHIVE}."));
    }
    let [processor, system] = ["CARGO_CFG_TARGET_ARCH", "CARGO_CFG_TARGET_OS"].map(|name| env::var(name).unwrap_or_default());
    if (processor != "x86_64" || system != "linux") && is_for_x86_64(&archive) {
        println!(
            "cargo::warning=The static library {shown} is for x86-64 and Linux. For {processor} and {system} this crate can be checked, but not linked."
        );
    }
    let folder = archive.parent().unwrap_or(&crate_folder);
    println!("cargo::rerun-if-changed={shown}");
    println!("cargo::rustc-link-search=native={}", folder.display());
    println!("cargo::rustc-link-lib=static=ledgerlark");
}

/// The archive that pkg-config knows, if it knows one. It has to be of this crate's version.
fn installed() -> Option<PathBuf> {
    for name in ["PKG_CONFIG_PATH", "PKG_CONFIG_LIBDIR", "PKG_CONFIG_SYSROOT_DIR"] {
        variable(name);
    }
    let command = variable("PKG_CONFIG").unwrap_or("pkg-config".into());
    let ask = |question: &str| -> Option<String> {
        let answer = Command::new(&command).args([question, "ledgerlark"]).output().ok()?;
        let said = String::from_utf8(answer.stdout).ok()?;
        answer.status.success().then(|| said.trim_end().to_string())
    };
    let (version, wanted) = (ask("--modversion")?, env!("CARGO_PKG_VERSION"));
    if version != wanted {
        fail(&format!(
            "The static library that is installed is of version {version}, and this crate of {wanted}."
        ));
    }
    Some(Path::new(&ask("--variable=libdir")?).join(ARCHIVE))
}

/// Whether an object in the archive is for x86-64: it begins as ELF files do, and has number 62 where they name the processor.
fn is_for_x86_64(archive: &Path) -> bool {
    let is_one = |bytes: &[u8]| bytes.starts_with(b"\x7fELF") && bytes.ends_with(&[62, 0]);
    fs::read(archive).is_ok_and(|bytes| bytes.windows(20).any(is_one))
}

/// A variable of the environment, if it is set to something. The build depends on it from then on.
fn variable(name: &str) -> Option<OsString> {
    println!("cargo::rerun-if-env-changed={name}");
    env::var_os(name).filter(|value| !value.is_empty())
}

/// Says what is wrong and how to make it right, and ends the build.
fn fail(wrong: &str) -> ! {
    let version = env!("CARGO_PKG_VERSION");
    eprintln!("{wrong} One of these makes it right:");
    eprintln!("- set LARK_ARCHIVE to the path of a {ARCHIVE} (a relative one starts at this crate's folder);");
    eprintln!("- run `make` or `tools/archive` at the repository's root, which leaves it in target/staticlib;");
    eprintln!(
        "- install version {version} of it (`make install`) where pkg-config looks. PKG_CONFIG names another command than pkg-config."
    );
    exit(1)
}
