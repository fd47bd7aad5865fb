//! Links jemalloc into the store, in the place of the system's `malloc`, for the core's library too. At a change of
//! generation one thread frees the map of the one before, and with glibc's the thread that serves waits for it.
use std::path::Path;
use std::process::Command;

/// What Debian's package `libjemalloc-dev` brings.
const FILE: &str = "libjemalloc_pic.a";

/// Where the compiler finds it, if it does.
fn find() -> Option<String> {
    let found = Command::new("cc").arg(format!("-print-file-name={FILE}")).output().ok()?;
    String::from_utf8(found.stdout).ok().map(|it| it.trim().into()).filter(|it: &String| Path::new(it).is_file())
}

fn main() {
    println!("cargo::rerun-if-changed=build.rs");
    let Some(file) = find() else {
        println!("cargo::warning=no {FILE} (Debian: libjemalloc-dev): the store stands still longer now and then");
        return;
    };
    println!("cargo::rustc-env=JEMALLOC=1");
    // (what is asked for by name is linked with all that stands beside it, `malloc` too)
    ["-Wl,-u,mallctl", &file, "-lm"].iter().for_each(|it| println!("cargo::rustc-link-arg-bin=store={it}"));
}
