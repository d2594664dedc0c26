//! Links the static libraries that `tools/build.sh` writes: the exported calls, and the controller's.
use std::{env, path::Path};

fn main() {
    let here = env::var("CARGO_MANIFEST_DIR").expect("cargo names the manifest's folder");
    let archives = Path::new(&here).join("../target/staticlib");
    println!("cargo:rustc-link-search=native={}", archives.display());
    for name in ["exports", "cell"] {
        println!("cargo:rustc-link-lib=static={name}");
        println!("cargo:rerun-if-changed={}", archives.join(format!("lib{name}.a")).display());
    }
}
