//! The program `hour` a second time: a stream on standard input, a line for each command on standard output.

mod answers;

use std::io::{self, Read, Write};

fn main() -> io::Result<()> {
    let mut stream = Vec::new();
    io::stdin().lock().take(answers::LONGEST_STREAM as u64).read_to_end(&mut stream)?;
    io::stdout().lock().write_all(answers::answers(&stream).as_bytes())
}
