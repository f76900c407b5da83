//! Links the proved static libraries, libcalls_c.a and libmodem_c.a: from the folder whose absolute path DIMPSTEA_LIB
//! has, or else from target/staticlib of the repository, where `host/archives` writes them.
use std::{env, path::PathBuf};

fn main() {
    let folder = env::var_os("DIMPSTEA_LIB").map_or_else(
        || PathBuf::from(env::var_os("CARGO_MANIFEST_DIR").unwrap()).join("../target/staticlib"),
        PathBuf::from,
    );
    println!("cargo:rerun-if-env-changed=DIMPSTEA_LIB");
    println!("cargo:rustc-link-search=native={}", folder.display());
    for library in ["calls_c", "modem_c"] {
        let archive = folder.join(format!("lib{library}.a"));
        println!("cargo:rerun-if-changed={}", archive.display());
        assert!(
            archive.exists(),
            "{} is missing: run `host/archives` in the repository, or set DIMPSTEA_LIB to the folder that has it",
            archive.display()
        );
        println!("cargo:rustc-link-lib=static={library}");
    }
}
