//! Links the library that `rt lib` writes in crates/pigrozk.
use std::path::Path;

fn main() {
    let root = Path::new(env!("CARGO_MANIFEST_DIR")).parent().expect("rust/ stands in a checkout");
    let folder = root.join("crates").join("pigrozk").join("out");
    let archive = folder.join("libpigrozk.a");
    println!("cargo:rerun-if-changed={}", archive.display());
    if !archive.is_file() {
        eprintln!("crates/pigrozk/out/libpigrozk.a is not there: run `rt lib` in crates/pigrozk first");
        std::process::exit(1);
    }
    println!("cargo:rustc-link-search=native={}", folder.display());
    println!("cargo:rustc-link-lib=static=pigrozk");
}
