//! Reads calls of `check` from standard input, TEXT ANSWER ASSIGNMENT LEVELS on each line, and prints each one's reply and both buffers after it.

fn main() {
    plain::calls::print_replies(plain::check);
}
