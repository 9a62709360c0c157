//! Links the static library of the crate `price_by_order`.
include!("../link.rs");

fn main() {
    link("price_by_order");
}
