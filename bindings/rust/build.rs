//! Says where libdetio is: in the folder DETIO_LIBRARY_DIR, or bindings/out, or where the linker looks.
use std::path::Path;

fn main() {
    let built = Path::new(env!("CARGO_MANIFEST_DIR")).join("../out");
    let folder = std::env::var("DETIO_LIBRARY_DIR").ok().or_else(|| {
        built.join("libdetio.a").exists().then(|| built.display().to_string())
    });
    if let Some(folder) = folder {
        println!("cargo:rustc-link-search=native={folder}");
    }
    println!("cargo:rustc-link-lib=static=detio");
    println!("cargo:rerun-if-env-changed=DETIO_LIBRARY_DIR");
}
