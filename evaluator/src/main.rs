//! The desk program's lines, from the evaluator: a book on standard input, the lines on standard output.

use std::io::{self, Read, Write};

fn main() -> io::Result<()> {
    // One byte more than the longest book: an input beyond it is refused whatever follows.
    let mut input = Vec::new();
    io::stdin().lock().take(32_769).read_to_end(&mut input)?;
    io::stdout().lock().write_all(evaluator::desk(&input).as_bytes())
}
