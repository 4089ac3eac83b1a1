//! Says where the static library stands: in an unpacked release, beside this package; in the repository, in
//! `crates/node_export/out`, proved, or in the folder `unproved` there. `ZOMTAGI_LIB` names another folder. A release's library,
//! which is also what `scripts/build-library --install` makes, needs no other one. That of the repository needs the C library of
//! the toolchain, which stands beside `rt`, or in the folder that `RATTLE_KIT` names.

use std::env;
use std::path::{Path, PathBuf};
use std::process;

const NO_LIBRARY: &str = "\
zomtagi: the library of a node isn't built. From the root of the repository, build it by
    scripts/build-library --unproved    in about two minutes, without proofs
    scripts/build-library               with proofs: half an hour or more on four processors, once (docs/EMBEDDING.md)
or let ZOMTAGI_LIB name the folder of a libnode_export.a, or of the libzomtagi.a of a release. Looked for:";

const NO_KIT: &str = "\
zomtagi: there is no command rt on the PATH, so the C library of the Rattle toolchain isn't found, which the library of a node
is linked with. Let RATTLE_KIT name the toolchain's folder: the one in which c/liblibc_c.a stands.";

/// The library with what it needs of the toolchain, and without.
const WHOLE: &str = "libzomtagi.a";
const BARE: &str = "libnode_export.a";

fn main() {
    println!("cargo:rerun-if-env-changed=ZOMTAGI_LIB");
    println!("cargo:rerun-if-env-changed=RATTLE_KIT");
    let folders = folders();
    if let Some(folder) = first_with(WHOLE, &folders) {
        println!("cargo:rerun-if-changed={}", folder.join(WHOLE).display());
        link(folder, "zomtagi");
        return;
    }
    for folder in &folders {
        println!("cargo:rerun-if-changed={}", folder.join(BARE).display());
    }
    let Some(folder) = first_with(BARE, &folders) else {
        let looked: String = folders.iter().map(|folder| format!("\n    {}", folder.join(BARE).display())).collect();
        give_up(&format!("{NO_LIBRARY}{looked}"));
    };
    link(folder, "node_export");
    link(&kit().join("c"), "libc_c");
}

/// The folders in which the library may stand, in the order in which they are looked at.
fn folders() -> Vec<PathBuf> {
    let package = PathBuf::from(env::var("CARGO_MANIFEST_DIR").expect("cargo sets it"));
    let (released, out) = (package.join("../lib"), package.join("../../crates/node_export/out"));
    match env::var_os("ZOMTAGI_LIB") {
        Some(folder) => vec![PathBuf::from(folder)],
        None if released.join(WHOLE).exists() => vec![released],
        None => vec![out.clone(), out.join("unproved")],
    }
}

/// The first of these folders that has the archive.
fn first_with<'a>(archive: &str, folders: &'a [PathBuf]) -> Option<&'a Path> {
    folders.iter().map(PathBuf::as_path).find(|folder| folder.join(archive).exists())
}

/// Links the program with a static library of this folder.
fn link(folder: &Path, library: &str) {
    println!("cargo:rustc-link-search=native={}", folder.display());
    println!("cargo:rustc-link-lib=static={library}");
}

/// The folder of the toolchain: the one above that of the command `rt`.
fn kit() -> PathBuf {
    if let Some(kit) = env::var_os("RATTLE_KIT") {
        return PathBuf::from(kit);
    }
    let folders = env::var_os("PATH").unwrap_or_default();
    env::split_paths(&folders)
        .filter_map(|folder| folder.join("rt").canonicalize().ok())
        .find_map(|rt| rt.parent().and_then(Path::parent).map(PathBuf::from))
        .unwrap_or_else(|| give_up(NO_KIT))
}

/// Ends the build with these lines.
fn give_up(why: &str) -> ! {
    eprintln!("{why}");
    process::exit(1)
}
