//! Links the static library of the crate `harness_entries`.
include!("../link.rs");

fn main() {
    link("harness_entries");
}
