//! Links the archive of the proved code and the floor, which lie in the folder that LAMPBUCKLE_BUILD names (scripts/bench), and
//! the archive of an earlier commit where it lies there too: what needs it is under the condition `before`. Where that commit's
//! frames have no pieces, a file beside the archive says so, and the condition is `without_pieces`.

use std::path::Path;

fn main() {
    println!("cargo:rerun-if-env-changed=LAMPBUCKLE_BUILD");
    println!("cargo:rustc-check-cfg=cfg(before, without_pieces)");
    let folder = std::env::var("LAMPBUCKLE_BUILD").expect("LAMPBUCKLE_BUILD names the folder of the archives");
    println!("cargo:rustc-link-search=native={folder}");
    let before = Path::new(&folder).join("libbefore.a").exists();
    if before {
        println!("cargo:rustc-cfg=before");
    }
    let said = Path::new(&folder).join("before-without-pieces");
    println!("cargo:rerun-if-changed={}", said.display());
    if said.exists() {
        println!("cargo:rustc-cfg=without_pieces");
    }
    for (name, linked) in [("lampbuckle", true), ("before", before), ("floor", true)] {
        println!("cargo:rerun-if-changed={folder}/lib{name}.a");
        if linked {
            println!("cargo:rustc-link-lib=static={name}");
        }
    }
}
