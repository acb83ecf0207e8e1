//! Prints the sizes and offsets that this crate takes for granted, which tests/library compares with those of the C header.

fn main() {
    for (name, number) in vogrilas::layout() {
        println!("{name} {number}");
    }
}
