// Says where libjellyspire.a is: in the folder that JELLYSPIRE_ARCHIVE names, or where tools/archive puts it.
use std::env;

fn main() {
    let processor = env::var("CARGO_CFG_TARGET_ARCH").unwrap();
    let here = env::var("CARGO_MANIFEST_DIR").unwrap();
    let archive = env::var("JELLYSPIRE_ARCHIVE").unwrap_or(format!("{here}/../target/archive/{processor}"));
    println!("cargo:rustc-link-search=native={archive}");
    println!("cargo:rerun-if-env-changed=JELLYSPIRE_ARCHIVE");
    println!("cargo:rerun-if-changed={archive}/libjellyspire.a");
}
