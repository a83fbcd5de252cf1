//! Links the library of the slot by value, `../crates/by_value/out/libby_value.a`, which this benchmark alone needs.

#[path = "../rust/link.rs"]
mod link;

fn main() {
    link::link("by_value");
}
