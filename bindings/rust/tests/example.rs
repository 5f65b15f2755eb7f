//! The example, run as a user runs it.

use std::process::Command;

#[test]
fn emphasis() {
    let run = Command::new(env!("CARGO"))
        .args(["run", "--quiet", "--offline", "--example", "emphasis"])
        .current_dir(env!("CARGO_MANIFEST_DIR"))
        .output()
        .expect("cargo runs");
    assert!(run.status.success(), "{}", String::from_utf8_lossy(&run.stderr));
    // Document 01's whole case, with names for numbers.
    let lines = [
        "+Emphasis@0",
        "+EmphasisSequence@0",
        "-EmphasisSequence@1",
        "+EmphasisText@1",
        "+Data@1",
        "-Data@2",
        "-EmphasisText@2",
        "+EmphasisSequence@2",
        "-EmphasisSequence@3",
        "-Emphasis@3",
    ];
    assert_eq!(String::from_utf8_lossy(&run.stdout).lines().collect::<Vec<_>>(), lines);
}
