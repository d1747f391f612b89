//! The proved code: the static libraries that scripts/libraries makes.
fn main() {
    let folder = std::path::Path::new(env!("CARGO_MANIFEST_DIR")).join("../target/staticlib");
    println!("cargo:rustc-link-search=native={}", folder.display());
    for library in ["libtrial.a", "libtrial_calls.a", "libkernels.a"] {
        println!("cargo:rerun-if-changed={}", folder.join(library).display());
    }
}
