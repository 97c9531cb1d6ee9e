//! Links the proved library, which `hosts/build` writes. It is for x86-64 alone: elsewhere this crate can be checked, not linked.
use std::env;
use std::path::PathBuf;

fn main() {
    println!("cargo:rerun-if-env-changed=QUERNHEM_LIBRARY");
    if env::var("CARGO_CFG_TARGET_ARCH").as_deref() != Ok("x86_64") {
        return;
    }
    let folder = env::var_os("QUERNHEM_LIBRARY").map_or_else(
        || PathBuf::from(env::var_os("CARGO_MANIFEST_DIR").unwrap()).join("../../target/staticlib"),
        PathBuf::from,
    );
    println!(
        "cargo:rerun-if-changed={}",
        folder.join("libhost.a").display()
    );
    println!("cargo:rustc-link-search=native={}", folder.display());
    println!("cargo:rustc-link-lib=static=host");
}
