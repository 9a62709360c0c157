// Part of a build script: links the static library of a crate of the repository.
fn link(name: &str) {
    let here = std::env::var("CARGO_MANIFEST_DIR").expect("cargo sets it");
    let folder = std::path::Path::new(&here).join("../../target/staticlib");
    let library = folder.join(format!("lib{name}.a"));
    assert!(library.exists(), "no {}: `harness/run library {name}` makes it", library.display());
    println!("cargo:rustc-link-search=native={}", folder.display());
    println!("cargo:rustc-link-lib=static={name}");
    println!("cargo:rerun-if-changed={}", library.display());
}
