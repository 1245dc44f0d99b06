//! Links the static library that `./library.sh` writes: target/staticlib/libhost.a, beside this package's folder.

use std::path::Path;

fn main() {
    let here = std::env::var("CARGO_MANIFEST_DIR").expect("the package's folder");
    let folder = format!("{here}/../target/staticlib");
    let library = format!("{folder}/libhost.a");
    println!("cargo:rerun-if-changed={library}");
    if !Path::new(&library).exists() {
        eprintln!("{library} is not there: run `./library.sh` in the folder above this package");
        std::process::exit(1);
    }
    println!("cargo:rustc-link-search=native={folder}");
    println!("cargo:rustc-link-lib=static=host");
}
