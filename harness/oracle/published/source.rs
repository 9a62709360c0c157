// The published files at build time, for the build scripts of the folders around this file. They are read from the folder that
// DOCS_SRC names, or from `shared/docs/src` beside the checkout, and are never kept in the repository.
#![allow(dead_code)] // each build uses a part
use std::path::{Path, PathBuf};
use std::{env, fs};

#[path = "../limits.rs"]
mod limits;

fn variable(name: &str) -> PathBuf {
    PathBuf::from(env::var_os(name).unwrap_or_else(|| panic!("cargo sets {name}")))
}

/// A path from the folder of the crate whose build this is; that folder is two below the oracle's.
pub fn from_here(path: &str) -> PathBuf {
    variable("CARGO_MANIFEST_DIR").join(path)
}

fn read(path: &Path) -> String {
    println!("cargo:rerun-if-changed={}", path.display());
    fs::read_to_string(path)
        .unwrap_or_else(|e| panic!("{}: {e}. DOCS_SRC names the folder of the published files", path.display()))
}

fn write(name: &str, text: &str) {
    let path = variable("OUT_DIR").join(name);
    let folder = path.parent().expect("the build folder");
    let written = fs::create_dir_all(folder).and_then(|()| fs::write(&path, text));
    written.unwrap_or_else(|e| panic!("{}: {e}", path.display()));
}

fn published(name: &str) -> String {
    println!("cargo:rerun-if-env-changed=DOCS_SRC");
    let folder = env::var_os("DOCS_SRC").map_or_else(|| from_here("../../../../../shared/docs/src"), PathBuf::from);
    read(&folder.join("programs").join(name))
}

/// Copies the published engine to the build folder. Only its two limits may differ, where `limits.rs` says other numbers. `edit` is
/// what else is done to a file, by its name.
pub fn copy_engine(edit: impl Fn(&str, String) -> String) {
    println!("cargo:rerun-if-changed={}", from_here("../../limits.rs").display());
    let text = published("auction-engine/src/lib.rs");
    let text = with_limit(&text, "MAX_ORDERS", limits::MAX_ORDERS);
    let text = with_limit(&text, "MAX_FILLS", limits::MAX_FILLS);
    write("engine.rs", &edit("engine.rs", text));
    write_root("engine.rs");
    // The stand-in `#[program]` includes this file.
    println!("cargo:rustc-env=REACH={}", from_here("../../published/auction-engine/reach.rs").display());
}

fn with_limit(text: &str, name: &str, limit: usize) -> String {
    let constant = format!("pub const {name}: usize = ");
    let (before, after) = text.split_once(&constant).unwrap_or_else(|| panic!("no {name} in the published engine"));
    let (_, rest) = after.split_once(';').expect("the end of the constant");
    format!("{before}{constant}{limit};{rest}")
}

/// Copies the published files of credit-math, with stand-ins for the modules that are not published.
pub fn copy_math(edit: impl Fn(&str, String) -> String) {
    for name in ["lib.rs", "allocation.rs", "error.rs"] {
        write(name, &edit(name, published(&format!("credit-math/src/{name}"))));
    }
    for name in ["accrual.rs", "nav.rs", "prudential.rs", "pv.rs", "waterfall.rs"] {
        write(name, &read(&from_here("../../published/credit-math/absent").join(name)));
    }
    write_root("lib.rs");
}

/// Copies the oracle's own code. Its root is included by another, where comments on the whole crate may not stand.
pub fn copy_oracle(edit: impl Fn(&str, String) -> String) {
    let edit = |name: &str, text: String| match name {
        "oracle/lib.rs" => text.lines().filter(|line| !line.starts_with("//!")).collect::<Vec<_>>().join("\n"),
        _ => edit(name, text),
    };
    copy_folder(&from_here("../../src"), "oracle", &edit);
}

fn copy_folder(folder: &Path, name: &str, edit: &impl Fn(&str, String) -> String) {
    println!("cargo:rerun-if-changed={}", folder.display());
    for entry in fs::read_dir(folder).unwrap_or_else(|e| panic!("{}: {e}", folder.display())) {
        let path = entry.expect("a file of the folder").path();
        let name = format!("{name}/{}", path.file_name().and_then(|n| n.to_str()).expect("a plain name"));
        match path.is_dir() {
            true => copy_folder(&path, &name, edit),
            false => write(&name, &edit(&name, read(&path))),
        }
    }
}

/// What the crate's root includes: the copy of the published root as a module. Only so may it keep its own inner attributes.
fn write_root(copy: &str) {
    let path = variable("OUT_DIR").join(copy);
    write("root.rs", &format!("#[path = {path:?}]\nmod published;\n"));
}
