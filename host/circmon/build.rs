//! Proves and builds the static library (`tools/library`) and has a copy of it linked. The copy stands in a folder of
//! cargo's: who removes the archive in target/ of the repository does not tell cargo that it is to be built again.

use std::fs;
use std::io;
use std::path::{Path, PathBuf};
use std::process::{exit, Command, Stdio};
use std::time::SystemTime;

const ARCHIVE: &str = "libcapi.a";

fn main() {
    if linting() {
        return;
    }
    let root = folder("CARGO_MANIFEST_DIR").join("../..");
    let copy = folder("OUT_DIR").join(ARCHIVE);
    let parts = ["crates.txt", "toolchain.txt", "tools"].map(|part| root.join(part));
    for place in sources(&root.join("crates")).expect("the crates can be listed").iter().chain(&parts) {
        println!("cargo:rerun-if-changed={}", place.display());
    }
    println!("cargo:rerun-if-changed={}", copy.display());
    if let Err(error) = built(&root).and_then(|()| copied(&root.join("target/staticlib").join(ARCHIVE), &copy)) {
        eprintln!("circmon: {error}");
        exit(1);
    }
    println!("cargo:rustc-link-search=native={}", folder("OUT_DIR").display());
    println!("cargo:rustc-link-lib=static=capi");
}

/// Whether clippy asks: it links nothing, and cargo would have the library proved for it once more.
fn linting() -> bool {
    let wrapper = std::env::var_os("RUSTC_WORKSPACE_WRAPPER").map(PathBuf::from);
    wrapper.is_some_and(|it| it.file_stem().is_some_and(|name| name == "clippy-driver"))
}

/// The folders of the crates with what is proved. What `rt` keeps beside them, in out/, changes with each proof.
fn sources(crates: &Path) -> io::Result<Vec<PathBuf>> {
    let mut found = vec![];
    for entry in fs::read_dir(crates)? {
        let folder = entry?.path();
        found.extend(["src", "specs", "proofs"].map(|part| folder.join(part)).into_iter().filter(|it| it.is_dir()));
    }
    Ok(found)
}

/// A folder that cargo names to build scripts.
fn folder(variable: &str) -> PathBuf {
    PathBuf::from(std::env::var_os(variable).expect("cargo sets it for build scripts"))
}

fn built(root: &Path) -> io::Result<()> {
    let status = Command::new(root.join("tools/library")).stdin(Stdio::null()).status()?;
    if status.success() {
        Ok(())
    } else {
        Err(io::Error::other(format!("tools/library: {status}")))
    }
}

/// The copy has an old time, so that cargo takes it for changed only where it is gone or was written by somebody else.
fn copied(archive: &Path, copy: &Path) -> io::Result<()> {
    fs::copy(archive, copy)?;
    fs::File::options().write(true).open(copy)?.set_modified(SystemTime::UNIX_EPOCH)
}
