//! Links the static libraries of the crates `session_file`, `file_inquiries`, `order_slices` and `fills`.
include!("../link.rs");

fn main() {
    link("session_file");
    link("file_inquiries");
    link("order_slices");
    link("fills");
}
