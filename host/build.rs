//! Links libsaltcurtain.a: from the folder SALTCURTAIN_LIB (absolute, or from the project's root), else from target/staticlib.
use std::env;
use std::path::Path;

fn main() {
    let root = Path::new(env!("CARGO_MANIFEST_DIR")).parent().expect("the project's root");
    let folder = root.join(env::var("SALTCURTAIN_LIB").unwrap_or("target/staticlib".into()));
    let archive = folder.join("libsaltcurtain.a");

    println!("cargo::rerun-if-env-changed=SALTCURTAIN_LIB");
    println!("cargo::rerun-if-changed={}", archive.display());
    if archive.is_file() {
        println!("cargo::rustc-link-search=native={}", folder.display());
        println!("cargo::rustc-link-lib=static=saltcurtain");
    } else {
        println!(
            "cargo::error=no {}: `tools/build saltcurtain` in the project's root makes it, or SALTCURTAIN_LIB names its folder",
            archive.display()
        );
    }
}
