//! Where the archive libstand.a is: the folder that LIBSTAND names, or else the one to which `tools/link` writes.

fn main() {
    let written = concat!(env!("CARGO_MANIFEST_DIR"), "/../../target/staticlib");
    let folder = std::env::var("LIBSTAND").unwrap_or_else(|_| written.to_string());
    println!("cargo::rustc-link-search=native={folder}");
    println!("cargo::rustc-link-lib=static=stand");
    println!("cargo::rerun-if-env-changed=LIBSTAND");
    println!("cargo::rerun-if-changed={folder}/libstand.a");
}
