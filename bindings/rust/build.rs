//! Links the proved library, libexport.a, from the folder that MAHJONGLARCH_LIB names, or else from where `tools/staticlib` writes it.
use std::{env, path::PathBuf};

fn main() {
  println!("cargo:rerun-if-env-changed=MAHJONGLARCH_LIB");
  let manifest = PathBuf::from(env::var_os("CARGO_MANIFEST_DIR").expect("cargo sets CARGO_MANIFEST_DIR"));
  let folder = env::var_os("MAHJONGLARCH_LIB").map_or(manifest.join("../../target/staticlib"), PathBuf::from);
  let archive = folder.join("libexport.a");
  println!("cargo:rerun-if-changed={}", archive.display());
  if !archive.is_file() {
    // A warning: `cargo check` and `cargo doc` need no archive, and rustc stops where one is needed.
    println!("cargo:warning=there is no {}: run `tools/staticlib` in the repository's folder,", archive.display());
    println!("cargo:warning=or set MAHJONGLARCH_LIB to the folder that has libexport.a");
  }
  println!("cargo:rustc-link-search=native={}", folder.display());
  println!("cargo:rustc-link-lib=static=export");
}
