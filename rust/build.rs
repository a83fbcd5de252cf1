//! Links the proved library, `../crates/gelwynnar/out/libgelwynnar.a`.

mod link;

fn main() {
    link::link("gelwynnar");
}
