//! Links the proved library's archive, `libacs.a`, from the folder that the
//! environment variable ACS_LIB names, else from the repository's own.

use std::env;
use std::path::Path;

fn main() {
    let package = env::var("CARGO_MANIFEST_DIR").unwrap();
    let folder = env::var("ACS_LIB").unwrap_or("../../build/archive".to_string());
    let folder = Path::new(&package).join(folder);
    println!("cargo:rerun-if-env-changed=ACS_LIB");
    println!(
        "cargo:rerun-if-changed={}",
        folder.join("libacs.a").display()
    );
    println!("cargo:rustc-link-search=native={}", folder.display());
    println!("cargo:rustc-link-lib=static=acs");
}
