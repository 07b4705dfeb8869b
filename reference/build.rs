//! With the feature `product`, links the static library `lib$TREECOVER_LIB_NAME.a`
//! (default name `interface`) found in the directory `$TREECOVER_LIB_DIR`.
//! With the feature `before`, links an earlier one beside it, `libbefore.a` from the directory
//! `$TREECOVER_BEFORE_DIR`, whose functions' names begin with `before_` (README.md).

use std::env;

fn main() {
    println!("cargo:rerun-if-changed=build.rs");
    println!("cargo:rerun-if-env-changed=TREECOVER_LIB_DIR");
    println!("cargo:rerun-if-env-changed=TREECOVER_LIB_NAME");
    println!("cargo:rerun-if-env-changed=TREECOVER_BEFORE_DIR");
    if env::var_os("CARGO_FEATURE_PRODUCT").is_some() {
        let name = env::var("TREECOVER_LIB_NAME").unwrap_or_else(|_| "interface".to_string());
        link("TREECOVER_LIB_DIR", &name);
    }
    if env::var_os("CARGO_FEATURE_BEFORE").is_some() {
        link("TREECOVER_BEFORE_DIR", "before");
    }
}

fn link(variable: &str, name: &str) {
    let Ok(directory) = env::var(variable) else {
        eprintln!("{variable} must name the directory of the static library {name}");
        std::process::exit(1);
    };
    println!("cargo:rerun-if-changed={directory}/lib{name}.a");
    println!("cargo:rustc-link-search=native={directory}");
    println!("cargo:rustc-link-lib=static={name}");
}
