//! Prints a full program, always the same.

fn main() {
    print!("{}", plain::full::full_program());
}
