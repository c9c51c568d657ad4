//! Links the proved static library: `libgateway.a` in the folder that GATEWAY_LIB_DIR names, else in the repository's
//! `crates/gateway/out`, where `rt lib` puts it.

use std::env;
use std::path::PathBuf;

fn main() {
    println!("cargo:rerun-if-env-changed=GATEWAY_LIB_DIR");
    let folder = match env::var_os("GATEWAY_LIB_DIR") {
        Some(folder) => PathBuf::from(folder),
        None => PathBuf::from(env!("CARGO_MANIFEST_DIR")).join("../../crates/gateway/out"),
    };
    let library = folder.join("libgateway.a");
    if !library.is_file() {
        eprintln!(
            "{} isn't there: run `rt lib` in the repository's folder crates/gateway, or let GATEWAY_LIB_DIR name its folder",
            library.display()
        );
        std::process::exit(1);
    }
    println!("cargo:rerun-if-changed={}", library.display());
    println!("cargo:rustc-link-search=native={}", folder.display());
    println!("cargo:rustc-link-lib=static=gateway");
}
