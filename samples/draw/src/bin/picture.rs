//! Writes docs/picture.svg to standard output. `replay` must be built.

fn main() {
    print!("{}", draw::picture::picture());
}
