//! Links the archives libsm_embed.a and libsm_node.a, and compiles the heap that they want.
//!
//! The archives are in the folder that VAMURETU_LIBRARIES names. Without it they are where `rt lib` leaves them, in the
//! lib/ of an unpacked release, or in the out/ that ./test leaves. The heap is ../heap.c, compiled by `cc` and put into
//! an archive by `ar`; the variables CC and AR name others. The variable VAMURETU_HEAP names another file of C in place
//! of ../heap.c. With the feature `global-allocator` the heap is src/heap.rs, and no C is compiled.

use std::env;
use std::path::{Path, PathBuf};
use std::process::Command;

const LIBRARIES: [&str; 2] = ["sm_embed", "sm_node"];

/// Runs a command, which has to succeed.
fn run(variable: &str, usual: &str, words: &[&str]) {
    println!("cargo:rerun-if-env-changed={variable}");
    let name = env::var(variable).unwrap_or_else(|_| usual.to_owned());
    match Command::new(&name).args(words).status() {
        Ok(status) if status.success() => {}
        Ok(status) => panic!("{name} {words:?} ended with {status}"),
        Err(told) => panic!("{name} could not be started: {told}"),
    }
}

/// The folders where the archive of a library may be, the first one first.
fn folders_of(name: &str, embed: &Path) -> Vec<PathBuf> {
    match env::var_os("VAMURETU_LIBRARIES") {
        Some(folder) if !folder.is_empty() => vec![PathBuf::from(folder)],
        _ => vec![embed.join("../crates").join(name).join("out"), embed.join("../lib"), embed.join("../out")],
    }
}

/// Has a library linked.
fn link(name: &str, embed: &Path) {
    let file = format!("lib{name}.a");
    let folders = folders_of(name, embed);
    let Some(folder) = folders.iter().find(|folder| folder.join(&file).exists()) else {
        panic!("{file} is in none of {folders:?}: name its folder by VAMURETU_LIBRARIES");
    };
    let folder = folder.canonicalize().expect("a folder that is there");
    println!("cargo:rustc-link-search=native={}", folder.display());
    println!("cargo:rustc-link-lib=static={name}");
    println!("cargo:rerun-if-changed={}", folder.join(file).display());
}

/// Compiles the heap, and has it linked behind the libraries.
fn link_heap(embed: &Path, out: &str) {
    let (source, object, archive) = (embed.join("heap.c"), format!("{out}/heap.o"), format!("{out}/libsm_heap.a"));
    let source = source.to_str().expect("a path that is UTF-8");
    println!("cargo:rerun-if-env-changed=VAMURETU_HEAP");
    let named = env::var("VAMURETU_HEAP").ok().filter(|named| !named.is_empty());
    let source = named.as_deref().unwrap_or(source);
    run("CC", "cc", &["-std=c11", "-O2", "-fPIC", "-c", source, "-o", &object]);
    run("AR", "ar", &["crs", &archive, &object]);
    println!("cargo:rustc-link-search=native={out}");
    println!("cargo:rustc-link-lib=static=sm_heap");
    println!("cargo:rerun-if-changed={source}");
}

fn main() {
    let embed = Path::new(&env::var("CARGO_MANIFEST_DIR").expect("cargo sets this")).join("..");
    println!("cargo:rerun-if-env-changed=VAMURETU_LIBRARIES");
    for name in LIBRARIES {
        link(name, &embed);
    }
    if env::var_os("CARGO_FEATURE_GLOBAL_ALLOCATOR").is_none() {
        link_heap(&embed, &env::var("OUT_DIR").expect("cargo sets this"));
    }
}
