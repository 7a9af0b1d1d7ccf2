//! Prints what the model says that `boardcase` prints for the case text on
//! standard input.

use std::io::{self, Read, Write};

fn main() -> io::Result<()> {
    let mut text = Vec::new();
    io::stdin().lock().read_to_end(&mut text)?;
    io::stdout().lock().write_all(&model::report(&text))
}
