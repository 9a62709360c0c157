#[path = "../source.rs"]
mod source;

fn main() {
    source::copy_engine(|_, text| text);
}
