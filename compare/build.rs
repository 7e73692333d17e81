//! Links the verified library where the feature `library` asks for it.

use std::env;
use std::path::Path;

fn main() {
    println!("cargo::rerun-if-changed=build.rs");
    println!("cargo::rerun-if-env-changed=AWD_C_LIB_DIR");
    if env::var_os("CARGO_FEATURE_LIBRARY").is_none() {
        return;
    }
    let Some(folder) = env::var_os("AWD_C_LIB_DIR") else {
        println!(
            "cargo::error=AWD_C_LIB_DIR is not set: it names the folder of libawd_c.a (compare/run.sh sets it)"
        );
        return;
    };
    let folder = Path::new(&folder);
    let library = folder.join("libawd_c.a");
    if !library.is_file() {
        println!("cargo::error=there is no {}", library.display());
        return;
    }
    println!("cargo::rerun-if-changed={}", library.display());
    println!("cargo::rustc-link-search=native={}", folder.display());
    println!("cargo::rustc-link-lib=static=awd_c");
}
