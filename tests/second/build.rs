//! Tells the linker where the compared library lies; does nothing without the
//! feature `library`.

use std::env;

fn main() {
    println!("cargo:rerun-if-changed=build.rs");
    println!("cargo:rerun-if-env-changed=OBOECURLEW_LIB");
    if env::var_os("CARGO_FEATURE_LIBRARY").is_none() {
        return;
    }
    let folder = env::var("OBOECURLEW_LIB")
        .expect("OBOECURLEW_LIB must name the folder that holds liboboecurlew.a");
    println!("cargo:rerun-if-changed={folder}/liboboecurlew.a");
    println!("cargo:rustc-link-search=native={folder}");
    println!("cargo:rustc-link-lib=static=oboecurlew");
}
