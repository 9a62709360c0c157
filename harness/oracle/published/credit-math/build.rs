#[path = "../source.rs"]
mod source;

fn main() {
    source::copy_math(|_, text| text);
}
