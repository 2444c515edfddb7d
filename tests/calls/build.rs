//! Links the archive of the proved code, which lies in the folder that LAMPBUCKLE_BUILD names (scripts/test-calls).

fn main() {
    println!("cargo:rerun-if-env-changed=LAMPBUCKLE_BUILD");
    let folder = std::env::var("LAMPBUCKLE_BUILD").expect("LAMPBUCKLE_BUILD names the folder of liblampbuckle.a");
    println!("cargo:rerun-if-changed={folder}/liblampbuckle.a");
    println!("cargo:rustc-link-search=native={folder}");
    println!("cargo:rustc-link-lib=static=lampbuckle");
}
