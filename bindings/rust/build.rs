//! Links the proved library, which `tools/prove staticlib interface` puts into target/staticlib at the repository's root.

fn main() {
    let root = std::path::Path::new(env!("CARGO_MANIFEST_DIR")).join("../../target/staticlib");
    println!("cargo:rustc-link-search=native={}", root.display());
    println!("cargo:rustc-link-lib=static=interface");
    println!("cargo:rerun-if-changed={}", root.join("libinterface.a").display());
}
