//! Links the library `crates/rhai_c/out/librhai_c.a`, and the heap of the kit that made it. It proves nothing.

use std::env;
use std::path::{Path, PathBuf};
use std::process::{exit, Command};

fn main() {
    println!("cargo:rerun-if-env-changed=BALVUZSOM_LIBRARY");
    println!("cargo:rerun-if-env-changed=BALVUZSOM_HEAP");
    let root = PathBuf::from(env::var("CARGO_MANIFEST_DIR").unwrap_or_default());
    let library = given("BALVUZSOM_LIBRARY")
        .unwrap_or_else(|| root.join("../../crates/rhai_c/out/librhai_c.a"));
    let heap = given("BALVUZSOM_HEAP").unwrap_or_else(|| kit().join("c/liblibc_c.a"));
    link(
        &library,
        "rhai_c",
        "make it by `python3 tools/install.py library`, or name it in BALVUZSOM_LIBRARY",
    );
    link(
        &heap,
        "libc_c",
        "put the kit's `rt` on the path, or name its file c/liblibc_c.a in BALVUZSOM_HEAP",
    );
}

fn given(variable: &str) -> Option<PathBuf> {
    env::var_os(variable).map(PathBuf::from)
}

/// The kit's folder, in which the page that `rt doc` names stands.
fn kit() -> PathBuf {
    let said = Command::new("rt").arg("doc").output();
    let page = said.map(|it| String::from_utf8_lossy(&it.stdout).trim().to_string());
    let page = PathBuf::from(page.unwrap_or_default());
    page.parent().map(Path::to_path_buf).unwrap_or_default()
}

fn link(archive: &Path, name: &str, otherwise: &str) {
    println!("cargo:rerun-if-changed={}", archive.display());
    let folder = archive.parent().filter(|_| archive.is_file());
    let Some(folder) = folder else {
        eprintln!("balvuzsom: there is no {}: {otherwise}", archive.display());
        exit(1);
    };
    println!("cargo:rustc-link-search=native={}", folder.display());
    println!("cargo:rustc-link-lib=static={name}");
}
