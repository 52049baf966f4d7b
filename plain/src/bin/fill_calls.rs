//! Reads calls of `fill_out` from standard input, TEXT SET ASSIGNMENT LEVELS on each line, and prints each one's reply and both buffers after it.

fn main() {
    plain::calls::print_replies(plain::fill_out);
}
