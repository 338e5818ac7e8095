//! Links the library under test to the binaries that call it, and notes how this package is
//! compiled.

use std::env;
use std::path::{Path, PathBuf};
use std::process::Command;

/// The binaries that call the library under test.
const CALLERS: [&str; 2] = ["crosscheck", "bench"];

fn main() {
    println!("cargo:rerun-if-changed=build.rs");
    println!("cargo:rerun-if-env-changed=HPLC_LIB_DIR");
    println!("cargo:rustc-env=REFERENCE_BUILD={}", how_compiled());
    if env::var_os("CARGO_FEATURE_CORE").is_some() {
        link(&library());
    }
}

/// Compiler, profile and flags of this package, in one line.
fn how_compiled() -> String {
    let flags = variable("CARGO_ENCODED_RUSTFLAGS").replace('\u{1f}', " ");
    format!(
        "{}, target {}, profile {}, opt-level {}, RUSTFLAGS \"{flags}\"",
        compiler(),
        variable("TARGET"),
        variable("PROFILE"),
        variable("OPT_LEVEL"),
    )
}

fn variable(name: &str) -> String {
    env::var(name).unwrap_or_default()
}

/// What `rustc --version` prints.
fn compiler() -> String {
    match Command::new(variable("RUSTC")).arg("--version").output() {
        Ok(output) => String::from_utf8_lossy(&output.stdout).trim().to_string(),
        Err(_) => "rustc of unknown version".to_string(),
    }
}

/// The library's file, which must be there.
fn library() -> PathBuf {
    let Some(folder) = env::var_os("HPLC_LIB_DIR") else {
        panic!("feature `core` needs HPLC_LIB_DIR, the folder of libtester.a");
    };
    let file = Path::new(&folder).join("libtester.a");
    match file.canonicalize() {
        Ok(file) => file,
        Err(error) => panic!("{}: {error}", file.display()),
    }
}

/// Links the library to its callers alone.
///
/// `cargo:rustc-link-lib` would go to this package's library and so to every binary. Named here as
/// a link argument of single binaries it also comes last on the link line. This matters where the
/// library is itself Rust code with a panic handler of its own: the handler of std then comes
/// first, and the second definition is passed over.
fn link(library: &Path) {
    let file = library.display();
    println!("cargo:rerun-if-changed={file}");
    println!("cargo:rustc-env=HPLC_LIB_FILE={file}");
    for caller in CALLERS {
        println!("cargo:rustc-link-arg-bin={caller}={file}");
        println!("cargo:rustc-link-arg-bin={caller}=-Wl,--allow-multiple-definition");
    }
}
