//! Links the proved library, `libsirophan.a`: from `SIROPHAN_LIB_DIR` where it is set, and else from target/lib of the checkout,
//! which `tools/library` fills, or from lib of the release.

use std::env;
use std::path::{Path, PathBuf};

const ARCHIVE: &str = "libsirophan.a";

fn main() {
    println!("cargo::rerun-if-env-changed=SIROPHAN_LIB_DIR");
    let root = Path::new(env!("CARGO_MANIFEST_DIR")).parent().expect("the crate stands in a folder");
    let folders = match env::var_os("SIROPHAN_LIB_DIR") {
        Some(folder) => vec![PathBuf::from(folder)],
        None => vec![root.join("target/lib"), root.join("lib")],
    };
    match folders.iter().find(|folder| folder.join(ARCHIVE).is_file()) {
        Some(folder) => {
            println!("cargo::rerun-if-changed={}", folder.join(ARCHIVE).display());
            println!("cargo::rustc-link-search=native={}", folder.display());
            println!("cargo::rustc-link-lib=static=sirophan");
        }
        None => println!("cargo::error={}", missing(&folders)),
    }
}

/// What to do where there is no archive.
fn missing(folders: &[PathBuf]) -> String {
    let searched: Vec<String> = folders.iter().map(|folder| folder.display().to_string()).collect();
    format!(
        "{ARCHIVE} is not in {}. Set SIROPHAN_LIB_DIR to the folder lib of an installed release of Sirophan; in a checkout with \
         the prover, `tools/library` makes it.",
        searched.join(" nor in ")
    )
}
