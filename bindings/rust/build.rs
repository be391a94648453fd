//! Finds `libtracing_tree.a` and links it.

use std::env;
use std::ffi::OsString;
use std::path::{Path, PathBuf};
use std::process::{exit, Command};

const LIBRARY: &str = "libtracing_tree.a";

/// Returns the folder of the library, or why the build stops. `named` is `TRACING_TREE_LIB`, `home`
/// the crate's folder, and `installed` runs pkg-config.
fn find(
    named: Option<OsString>,
    home: &Path,
    installed: impl FnOnce() -> Option<PathBuf>,
) -> Result<PathBuf, String> {
    if let Some(named) = named.filter(|it| !it.is_empty()) {
        let folder = home.join(named);
        if holds_library(&folder) {
            return Ok(folder);
        }
        return Err(format!(
            "TRACING_TREE_LIB names {}, which has no {LIBRARY}. Set it to the folder that has it, \
             or unset it and run `make bindings` in the repository (about 20 minutes).",
            folder.display()
        ));
    }
    let beside = home.join("lib");
    if holds_library(&beside) {
        return Ok(beside);
    }
    let installed = installed();
    if let Some(folder) = installed.as_ref().filter(|it| holds_library(it)) {
        return Ok(folder.clone());
    }
    let top = home.join("../..");
    let built = top.canonicalize().unwrap_or(top).join("bin");
    if holds_library(&built) {
        return Ok(built);
    }
    let installed = match installed {
        Some(folder) => format!("in {}, which pkg-config names", folder.display()),
        None => "known to pkg-config".to_string(),
    };
    Err(format!(
        "{LIBRARY} isn't in {}, nor {installed}, nor in {}. Run `make bindings` in the repository \
         (about 20 minutes), or set TRACING_TREE_LIB to the folder that has it.",
        beside.display(),
        built.display()
    ))
}

fn holds_library(folder: &Path) -> bool {
    folder.join(LIBRARY).is_file()
}

/// Returns the folder that pkg-config names, if it knows the library.
fn by_pkg_config() -> Option<PathBuf> {
    let program = env::var_os("PKG_CONFIG").unwrap_or_else(|| "pkg-config".into());
    let said = Command::new(program).args(["--variable=libdir", "tracing_tree"]).output().ok()?;
    let folder = String::from_utf8(said.stdout).ok()?;
    let folder = folder.trim_end_matches('\n');
    (said.status.success() && !folder.is_empty()).then(|| folder.into())
}

fn main() {
    let home = env::var_os("CARGO_MANIFEST_DIR").map_or_else(PathBuf::new, PathBuf::from);
    let folder = find(env::var_os("TRACING_TREE_LIB"), &home, by_pkg_config).unwrap_or_else(|why| {
        eprintln!("{why}");
        exit(1)
    });
    for name in ["TRACING_TREE_LIB", "PKG_CONFIG", "PKG_CONFIG_PATH", "PKG_CONFIG_LIBDIR"] {
        println!("cargo:rerun-if-env-changed={name}");
    }
    // Only a file that exists: cargo runs the script at each build if a file that it watches is
    // missing. So a library that is put into `lib/` later is found after `cargo clean`.
    println!("cargo:rerun-if-changed={}", folder.join(LIBRARY).display());
    println!("cargo:rustc-link-search=native={}", folder.display());
    println!("cargo:rustc-link-lib=static=tracing_tree");
}
