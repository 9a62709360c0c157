//! The examples of the repository, through the published source and through the library.
use std::{fs, path::Path};

#[test]
fn example_files() {
    let folder = Path::new(env!("CARGO_MANIFEST_DIR")).join("../../examples");
    let mut seen = 0;
    for entry in fs::read_dir(folder).unwrap() {
        let path = entry.unwrap().path();
        if path.extension().is_some_and(|e| e == "session") {
            let (file, listing) = (fs::read(&path).unwrap(), fs::read(path.with_extension("listing")).unwrap());
            assert_eq!(oracle::listing(&file).as_bytes(), listing, "the source: {}", path.display());
            assert_eq!(host::listing(&file).unwrap(), listing, "the library: {}", path.display());
            seen += 1;
        }
    }
    assert!(seen > 0);
}
