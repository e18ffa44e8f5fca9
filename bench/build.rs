//! Links the archive that `rt lib` writes in crates/beqlanosh.

use std::env;
use std::path::Path;

fn main() {
    let here = env::var("CARGO_MANIFEST_DIR").expect("cargo sets the folder of the project");
    let archives = Path::new(&here).join("../crates/beqlanosh/out");
    println!("cargo:rustc-link-search=native={}", archives.display());
    println!("cargo:rustc-link-lib=static=beqlanosh");
    println!(
        "cargo:rerun-if-changed={}",
        archives.join("libbeqlanosh.a").display()
    );
}
