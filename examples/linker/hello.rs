// Prints its arguments, sorted, with the standard library.
use std::collections::BTreeSet;

fn main() {
    let names: BTreeSet<String> = std::env::args().skip(1).collect();
    println!("hello from Rust: {names:?}");
}
