//! Links the library libepaxos.a, which has the core of a replica. Without it the crate can be checked and documented,
//! and no program is linked.
#![forbid(unsafe_code)]

use std::path::{Path, PathBuf};
use std::{env, fs};

/// The variable that names the library's folder.
const NAMED: &str = "EPAXOS_LIBRARY";
/// Where builds put it, below the top of the repository: first the proved one. All is in the first folder.
const PLACES: [&str; 2] = ["out", "out/unproved"];
/// Where a release has it, in the crate's folder.
const RELEASED: &str = "lib";
const FILE: &str = "libepaxos.a";
/// What a library that isn't proved has.
const UNPROVED: &[u8] = b"ep_unproved";
const NONE: &str = "there is no libepaxos.a, which has the core; ./epaxos --build --unproved, at the top of the \
    repository, makes one in minutes; EPAXOS_LIBRARY names the folder of another one";

/// The library: the one that is named, or that a release has, or that a build made.
fn find() -> Option<PathBuf> {
    if let Some(named) = env::var_os(NAMED).filter(|it| !it.is_empty()) {
        return Some(Path::new(&named).join(FILE));
    }
    let here = Path::new(env!("CARGO_MANIFEST_DIR"));
    let released = here.join(RELEASED).join(FILE);
    if released.is_file() {
        return Some(released);
    }
    let top = here.join("../../..");
    println!("cargo::rerun-if-changed={}", top.join(PLACES[0]).display());
    PLACES.map(|place| top.join(place).join(FILE)).into_iter().find(|it| it.is_file())
}

/// Whether these bytes are somewhere in the others.
fn has(bytes: &[u8], part: &[u8]) -> bool {
    bytes.windows(part.len()).any(|it| it == part)
}

/// Whether the program is for what the library is for.
fn fits() -> bool {
    let is = |name: &str, value: &str| env::var(name).is_ok_and(|it| it == value);
    is("CARGO_CFG_TARGET_OS", "linux") && is("CARGO_CFG_TARGET_ARCH", "x86_64")
}

/// Has cargo link the library, or says why it can't.
fn link() -> Result<(), String> {
    if !fits() {
        return Err("the core is for Linux on x86-64 alone".into());
    }
    let Some(library) = find() else {
        println!("cargo::warning={NONE}");
        // (it is looked for where a program is linked, which so fails)
        println!("cargo::rustc-link-lib=static:-bundle=epaxos");
        println!("cargo::rustc-cfg=library_is_unproved");
        return Ok(());
    };
    println!("cargo::rerun-if-changed={}", library.display());
    let bytes = fs::read(&library).map_err(|error| format!("{}: {error}", library.display()))?;
    println!("cargo::rustc-link-search=native={}", library.with_file_name("").display());
    println!("cargo::rustc-link-lib=static=epaxos");
    if has(&bytes, UNPROVED) {
        println!("cargo::rustc-cfg=library_is_unproved");
    }
    Ok(())
}

fn main() {
    println!("cargo::rerun-if-changed=build.rs");
    println!("cargo::rerun-if-env-changed={NAMED}");
    println!("cargo::rustc-check-cfg=cfg(library_is_unproved)");
    if let Err(why) = link() {
        println!("cargo::error={why}");
    }
}
