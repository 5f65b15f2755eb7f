//! Writes the module lines that take the crate's source files from where they lie, so that none of its text stands in this repository.
//!
//! `CRATE_SRC` names a directory that holds `markdown-1.0.0` and `unicode-id-0.3.7`, each with its `src`, as cargo's registry does;
//! `oracle/crate-source` finds one. Without it `vendor` in the repository is taken.

use std::path::{Path, PathBuf};
use std::{env, fs};

/// Every module of the crate but its `lib` and `resolve`, which are replaced.
const MODULES: [(&str, &str); 13] = [
    ("configuration", "configuration.rs"),
    ("construct", "construct/mod.rs"),
    ("event", "event.rs"),
    ("mdast", "mdast.rs"),
    ("message", "message.rs"),
    ("parser", "parser.rs"),
    ("state", "state.rs"),
    ("subtokenize", "subtokenize.rs"),
    ("to_html", "to_html.rs"),
    ("to_mdast", "to_mdast.rs"),
    ("tokenizer", "tokenizer.rs"),
    ("unist", "unist.rs"),
    ("util", "util/mod.rs"),
];

fn line(module: &str, file: &Path) -> String {
    assert!(file.is_file(), "no file {}: set CRATE_SRC to the directory that holds markdown-1.0.0 and unicode-id-0.3.7", file.display());
    format!(
        "#[allow(clippy::all, dead_code, unused_imports, unused_attributes, invalid_doc_attributes)]\n#[path = {:?}]\nmod {module};\n",
        file,
        module = module
    )
}

fn main() {
    println!("cargo:rerun-if-env-changed=CRATE_SRC");
    println!("cargo:rerun-if-changed=build.rs");
    let here = PathBuf::from(env::var_os("CARGO_MANIFEST_DIR").unwrap());
    let source = env::var_os("CRATE_SRC").map_or_else(|| here.join("../../vendor"), PathBuf::from);
    let source = source.canonicalize().unwrap_or(source);
    let mut lines = String::new();
    for (module, file) in MODULES {
        lines += &line(module, &source.join("markdown-1.0.0/src").join(file));
    }
    lines += &line("unicode_id_source", &source.join("unicode-id-0.3.7/src/lib.rs"));
    println!("cargo:rerun-if-changed={}", source.join("markdown-1.0.0/src").display());
    fs::write(PathBuf::from(env::var_os("OUT_DIR").unwrap()).join("modules.rs"), lines).unwrap();
}
