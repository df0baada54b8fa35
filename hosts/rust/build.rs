// Finds libfoil.a: in the folder that FOIL_LIB_DIR names, or where hosts/build puts it in a clone.
use std::path::PathBuf;

fn main() {
    println!("cargo:rerun-if-env-changed=FOIL_LIB_DIR");
    let here = PathBuf::from(std::env::var_os("CARGO_MANIFEST_DIR").expect("cargo names the crate's folder"));
    let folder = match std::env::var_os("FOIL_LIB_DIR") {
        Some(named) => PathBuf::from(named),
        None => here.join("../../target/hosts/lib"),
    };
    let archive = folder.join("libfoil.a");
    println!("cargo:rerun-if-changed={}", archive.display());
    if !archive.is_file() {
        panic!("there is no {}: run hosts/build in the clone, or name its folder by FOIL_LIB_DIR", archive.display());
    }
    println!("cargo:rustc-link-search=native={}", folder.display());
    println!("cargo:rustc-link-lib=static=foil");
}
