//! The baseline's program: the same input and output as the library's.
#[allow(dead_code)]
#[path = "baseline.rs"]
mod baseline;

fn main() {
    baseline::program();
}
