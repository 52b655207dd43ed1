//! Finds the static library, or has it proved and built, and tells cargo to link it.
//!
//! The first of these that is there is taken:
//!
//! 1. the file that `YELTZARUN_LIBRARY` names;
//! 2. `target/lib/libyeltzarun.a` of the repository, brought up to date by `bindings/build-library`
//!    where the Rattle kit (`rt`) is at hand;
//! 3. the library that pkg-config knows as `yeltzarun`.

use std::env;
use std::path::{Path, PathBuf};
use std::process::{Command, exit};

const NAME: &str = "libyeltzarun.a";

fn main() {
    println!("cargo:rerun-if-env-changed=YELTZARUN_LIBRARY");
    println!("cargo:rerun-if-changed=build.rs");
    let library = match env::var_os("YELTZARUN_LIBRARY") {
        Some(named) => PathBuf::from(named),
        None => built().or_else(installed).unwrap_or_else(|| {
            fail(
                "there is no libyeltzarun.a: put the Rattle kit (rt) on the PATH, so that bindings/build-library \
                 builds it, or install it (make -C bindings install), or name the file in YELTZARUN_LIBRARY",
            )
        }),
    };
    let library = library
        .canonicalize()
        .unwrap_or_else(|error| fail(&format!("{}: {error}", library.display())));
    if library.file_name().is_none_or(|name| name != NAME) {
        fail(&format!("{} is not named {NAME}", library.display()));
    }
    println!("cargo:rerun-if-changed={}", library.display());
    let folder = library.parent().expect("a file has a folder");
    println!("cargo:rustc-link-search=native={}", folder.display());
    println!("cargo:rustc-link-lib=static=yeltzarun");
}

/// The repository's own library, after a build where the kit is at hand.
fn built() -> Option<PathBuf> {
    let bindings = PathBuf::from(env::var_os("CARGO_MANIFEST_DIR")?);
    let root = bindings.parent()?;
    let script = bindings.join("build-library");
    let library = root.join("target/lib").join(NAME);
    if script.is_file() && on_the_path("rt") {
        // What it says in one line for each crate goes to cargo's log.
        let status = Command::new(&script).status();
        if !status.is_ok_and(|status| status.success()) {
            fail("bindings/build-library failed");
        }
        println!("cargo:rerun-if-changed={}", root.join("crates").display());
    }
    library.is_file().then_some(library)
}

/// The library that pkg-config knows.
fn installed() -> Option<PathBuf> {
    let answer =
        Command::new("pkg-config").args(["--variable=libdir", "yeltzarun"]).output().ok()?;
    let folder = String::from_utf8(answer.stdout).ok()?;
    let library = Path::new(folder.trim()).join(NAME);
    (answer.status.success() && library.is_file()).then_some(library)
}

fn on_the_path(tool: &str) -> bool {
    let Some(path) = env::var_os("PATH") else { return false };
    env::split_paths(&path).any(|folder| folder.join(tool).is_file())
}

fn fail(what: &str) -> ! {
    eprintln!("yeltzarun: {what}");
    exit(1);
}
