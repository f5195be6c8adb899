//! Finds the proved code for the target: the archive that the variable YALIVUCU_ARCHIVE names, else the one that a released
//! package carries in `archives/TARGET`, else one that `bindings/archive` proves and compiles. It writes into Cargo's OUT_DIR alone.
use std::env;
use std::path::{Path, PathBuf};
use std::process::Command;

fn main() {
    println!("cargo:rerun-if-env-changed=YALIVUCU_ARCHIVE");
    let folder = PathBuf::from(env::var_os("OUT_DIR").unwrap());
    let target = env::var("TARGET").unwrap();
    let linked = folder.join("libyalivucu.a");
    let carried = Path::new(env!("CARGO_MANIFEST_DIR"))
        .join("archives")
        .join(&target)
        .join("libyalivucu.a");
    match env::var_os("YALIVUCU_ARCHIVE") {
        Some(ready) => copy(Path::new(&ready), &linked),
        None if carried.exists() => copy(&carried, &linked),
        None => make(&folder, &linked, &target),
    }
    println!("cargo:rustc-link-search=native={}", folder.display());
    println!("cargo:rustc-link-lib=static=yalivucu");
}

fn copy(ready: &Path, linked: &Path) {
    println!("cargo:rerun-if-changed={}", ready.display());
    std::fs::copy(ready, linked).unwrap_or_else(|why| panic!("cannot copy {}: {why}", ready.display()));
}

/// Proves the crates of the repository, in a copy of them, and makes the archive for the target. Which crate it is proving goes to
/// standard error, which `cargo build -vv` shows.
fn make(folder: &Path, archive: &Path, target: &str) {
    let top = Path::new(env!("CARGO_MANIFEST_DIR")).join("../..");
    let script = top.join("bindings/archive");
    assert!(
        script.exists(),
        "this package carries no archive for {target}: name one in YALIVUCU_ARCHIVE"
    );
    for part in ["crates.txt", "bindings/archive", "bindings/native.sh"] {
        println!("cargo:rerun-if-changed={}", top.join(part).display());
    }
    // of each crate what a check reads, and not what checks keep beside it
    for entry in std::fs::read_dir(top.join("crates")).unwrap() {
        for part in ["src", "specs", "proofs"] {
            let path = entry.as_ref().unwrap().path().join(part);
            if path.exists() {
                println!("cargo:rerun-if-changed={}", path.display());
            }
        }
    }
    let copy = folder.join("copy");
    let mut command = Command::new("sh");
    command.arg(script).arg("--in").arg(&copy);
    if env::var("HOST").as_deref() != Ok(target) {
        command.args(["--target", target]);
    }
    assert!(
        command.arg(archive).status().is_ok_and(|status| status.success()),
        "bindings/archive made nothing: install the Rattle kit so that `rt` runs, or name a ready archive in YALIVUCU_ARCHIVE"
    );
    // Cargo's folder may lie in a repository of Rattle crates, where `rt` refuses files of Rattle that are none of its crates.
    std::fs::remove_dir_all(copy).unwrap();
}
