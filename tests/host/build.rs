//! Links the archive that `tools/archive` wrote below target/staticlib.
fn main() {
    let root = std::path::Path::new(env!("CARGO_MANIFEST_DIR")).join("../..");
    let archive = root.join("target/staticlib/libquendaric.a");
    assert!(archive.exists(), "no {}: run `tools/archive` first", archive.display());
    println!("cargo:rerun-if-changed={}", archive.display());
    println!("cargo:rustc-link-search=native={}", root.join("target/staticlib").display());
    println!("cargo:rustc-link-lib=static=quendaric");
}
