//! Links the static library of the Rattle crate `threshgleam`.

use std::{env, path::Path};

fn main() {
    let folder = env::var("THRESHGLEAM_LIB_DIR").unwrap_or("../target/staticlib".into());
    let folder = Path::new(env!("CARGO_MANIFEST_DIR")).join(folder);
    println!("cargo:rerun-if-env-changed=THRESHGLEAM_LIB_DIR");
    // Without this line a new archive would not be linked again.
    println!("cargo:rerun-if-changed={}", folder.join("libthreshgleam.a").display());
    println!("cargo:rustc-link-search=native={}", folder.display());
    println!("cargo:rustc-link-lib=static=threshgleam");
}
