//! Links a proved library, for the build scripts of this package and of bench.

use std::env;
use std::path::Path;

/// Links `crates/NAME/out/libNAME.a` of the repository, in a folder of which the package lies.
pub fn link(name: &str) {
    let here = env::var("CARGO_MANIFEST_DIR").expect("cargo names the folder of the package");
    let repository = Path::new(&here).parent().expect("the folder lies in a repository");
    let folder = repository.join("crates").join(name).join("out");
    let library = folder.join(format!("lib{name}.a"));
    println!("cargo:rerun-if-changed={}", library.display());
    if !library.exists() {
        panic!("{} is not built: run `rt lib` in crates/{name}", library.display());
    }
    println!("cargo:rustc-link-search=native={}", folder.display());
    println!("cargo:rustc-link-lib=static={name}");
}
