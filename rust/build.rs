//! Links the static library `libgadwemosh.a`. It is looked for in the folder that the environment variable
//! GADWEMOSH_LIBRARY names (cargo reads a relative path from this package's folder), and without it in
//! `target/staticlib` of the repository, where `tools/build gadwemosh` writes it.

use std::env;
use std::path::{absolute, Path, PathBuf};

fn main() -> Result<(), String> {
    println!("cargo::rerun-if-changed=build.rs");
    println!("cargo::rerun-if-env-changed=GADWEMOSH_LIBRARY");
    let folder = match env::var_os("GADWEMOSH_LIBRARY") {
        Some(folder) => PathBuf::from(folder),
        None => Path::new(env!("CARGO_MANIFEST_DIR")).join("../target/staticlib"),
    };
    let folder = absolute(folder).map_err(|error| format!("GADWEMOSH_LIBRARY: {error}"))?;
    let library = folder.join("libgadwemosh.a");
    println!("cargo::rerun-if-changed={}", library.display());
    if !library.is_file() {
        return Err(format!(
            "there is no {}: run `tools/build gadwemosh` in the repository, or name the library's folder in \
             GADWEMOSH_LIBRARY",
            library.display()
        ));
    }
    println!("cargo::rustc-link-search=native={}", folder.display());
    println!("cargo::rustc-link-lib=static=gadwemosh");
    Ok(())
}
