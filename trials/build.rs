//! Links the static library that the gate builds from crates/host_c: target/staticlib/libhost.a, beside this package's
//! folder.

fn main() {
    let here = std::env::var("CARGO_MANIFEST_DIR").expect("the package's folder");
    println!("cargo:rustc-link-search=native={}/../target/staticlib", here);
    println!("cargo:rustc-link-lib=static=host");
    println!("cargo:rerun-if-changed={}/../target/staticlib/libhost.a", here);
}
