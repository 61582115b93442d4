//! Says where the proved library lies, and the C code of the kit by which it takes memory.
//!
//! KPART_LIBRARY names the folder of `libkp_embed.a` (`crates/kp_embed/out` of this repository where it isn't set), and KPART_HEAP
//! that of `liblibc_c.a` (the folder `c` of the kit whose `rt` is on the path).

use std::env;
use std::path::{Path, PathBuf};

fn named(name: &str) -> Option<PathBuf> {
    println!("cargo::rerun-if-env-changed={name}");
    env::var_os(name).map(PathBuf::from)
}

fn kits() -> PathBuf {
    let path = env::var_os("PATH").unwrap_or_default();
    let found = env::split_paths(&path).map(|folder| folder.join("rt")).find(|it| it.is_file());
    let found = found.expect("rt, the kit's command, isn't on the path: set KPART_HEAP");
    let program = found.canonicalize().expect("rt has a place");
    let kit = program.parent().and_then(Path::parent).expect("rt lies in a folder of the kit");
    kit.join("c")
}

fn link(folder: &Path, name: &str) {
    let file = folder.join(format!("lib{name}.a"));
    assert!(file.is_file(), "{} isn't there: tools/embed builds it", file.display());
    println!("cargo::rerun-if-changed={}", file.display());
    println!("cargo::rustc-link-search=native={}", folder.display());
    println!("cargo::rustc-link-lib=static={name}");
}

fn main() {
    println!("cargo::rerun-if-changed=build.rs");
    let own = PathBuf::from(env::var_os("CARGO_MANIFEST_DIR").expect("cargo names the crate's folder"));
    let library = named("KPART_LIBRARY").unwrap_or_else(|| own.join("../../crates/kp_embed/out"));
    link(&library, "kp_embed");
    link(&named("KPART_HEAP").unwrap_or_else(kits), "libc_c");
}
