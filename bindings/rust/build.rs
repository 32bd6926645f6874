//! Links libgist.a from the folder that GIST_LIB_DIR names.

use std::env;
use std::path::{Path, PathBuf};
use std::process::exit;

/// Ends the build with a message that says what is wrong and what to do.
fn stop(wrong: &str) -> ! {
    eprintln!(
        "error: {wrong}\n\
         Set GIST_LIB_DIR to the folder with libgist.a. `tools/library --release FOLDER`, in the repository of gist, fills \
         a folder within seconds and needs no toolchain:\n    \
         tools/library --release FOLDER && GIST_LIB_DIR=FOLDER cargo build"
    );
    exit(1)
}

/// The folders that a path may mean. A build script doesn't see in which folder cargo was started: a relative path is tried
/// in the folder that the caller's shell was in, in the package and the folders above it, and in those above the target
/// folder, of which one is the workspace.
fn meanings(folder: &Path) -> Vec<PathBuf> {
    if folder.is_absolute() {
        return vec![folder.to_owned()];
    }
    println!("cargo:rerun-if-env-changed=PWD");
    let [caller, package, target] =
        ["PWD", "CARGO_MANIFEST_DIR", "OUT_DIR"].map(|it| env::var_os(it).map(PathBuf::from));
    let above = |it: &Option<PathBuf>| -> Vec<PathBuf> {
        let folders = it.iter().flat_map(|it| it.ancestors());
        folders.map(Path::to_owned).collect()
    };
    // OUT_DIR is target/PROFILE/build/PACKAGE/out
    let workspace = target.and_then(|it| it.ancestors().nth(5).map(Path::to_owned));
    let mut all: Vec<PathBuf> = Vec::new();
    for base in caller
        .into_iter()
        .chain(above(&package))
        .chain(above(&workspace))
    {
        let meant = base.join(folder);
        if !all.contains(&meant) {
            all.push(meant);
        }
    }
    all
}

fn main() {
    println!("cargo:rerun-if-env-changed=GIST_LIB_DIR");
    println!("cargo:rerun-if-changed=build.rs");
    let Some(folder) = env::var_os("GIST_LIB_DIR").filter(|it| !it.is_empty()) else {
        stop("the variable GIST_LIB_DIR isn't set")
    };
    let tried = meanings(Path::new(&folder));
    let Some(folder) = tried.iter().find(|it| it.join("libgist.a").is_file()) else {
        let places: String = tried
            .iter()
            .map(|it| format!("\n    {}", it.display()))
            .collect();
        stop(&format!(
            "GIST_LIB_DIR is {}, and there is no libgist.a in:{places}",
            Path::new(&folder).display()
        ));
    };
    println!(
        "cargo:rerun-if-changed={}",
        folder.join("libgist.a").display()
    );
    println!("cargo:rustc-link-search=native={}", folder.display());
    println!("cargo:rustc-link-lib=static=gist");
}
