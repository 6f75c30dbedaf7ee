//! Links the archive that `tools/prove pairing_c` writes; tools/gate makes it before the tests run.

fn main() {
    let root = std::path::Path::new(env!("CARGO_MANIFEST_DIR")).join("../..");
    let archives = root.join("target/staticlib");
    println!("cargo:rustc-link-search=native={}", archives.display());
    println!(
        "cargo:rerun-if-changed={}",
        archives.join("libpairing.a").display()
    );
    println!("cargo:rustc-link-lib=static=pairing");
}
