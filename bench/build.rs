//! Copies heap.rs and roots.rs byte for byte: what is measured is the Rust as it is, not the oracle's copy.
#[path = "../oracle/copy.rs"]
mod copy;

fn main() {
    copy::modules("yavs-interp", &["heap", "roots"], |_, text| text);
}
