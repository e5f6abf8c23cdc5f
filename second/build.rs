//! Where the proved planner is found, with the feature `proved`.
//! RACK_STATICLIB: the folder of liblisting.a; RATTLE_LIB: the folder of the toolchain's librattle_c.a.

use std::env;
use std::path::PathBuf;

fn main() {
    println!("cargo:rerun-if-env-changed=RACK_STATICLIB");
    println!("cargo:rerun-if-env-changed=RATTLE_LIB");
    if env::var_os("CARGO_FEATURE_PROVED").is_none() {
        return;
    }
    let here = PathBuf::from(env::var_os("CARGO_MANIFEST_DIR").unwrap());
    let listing = env::var_os("RACK_STATICLIB").map_or_else(|| here.join("../target/staticlib"), PathBuf::from);
    let kit = env::var_os("RATTLE_LIB").map_or_else(|| PathBuf::from("/opt/rattle/lib"), PathBuf::from);
    println!("cargo:rerun-if-changed={}", listing.join("liblisting.a").display());
    println!("cargo:rustc-link-search=native={}", listing.display());
    println!("cargo:rustc-link-search=native={}", kit.display());
    println!("cargo:rustc-link-lib=static=listing");
    println!("cargo:rustc-link-lib=static=rattle_c");
}
