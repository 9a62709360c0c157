#[path = "../faults.rs"]
mod faults;
#[path = "../../published/source.rs"]
mod source;

fn main() {
    println!("cargo:rerun-if-changed={}", source::from_here("../faults.rs").display());
    source::copy_oracle(faults::with_faults);
}
