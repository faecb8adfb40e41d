//! Copies standard input to standard output so many bytes at a time: `feed BYTES`. A program
//! behind it meets lines that are cut anywhere.

use std::io::{self, Read, Write};

fn main() -> io::Result<()> {
    let size = std::env::args().nth(1).and_then(|word| word.parse::<usize>().ok());
    let Some(size) = size.filter(|size| *size > 0) else {
        eprintln!("usage: feed BYTES");
        std::process::exit(2);
    };
    let mut input = Vec::new();
    io::stdin().lock().read_to_end(&mut input)?;
    // Not `io::stdout`, which keeps bytes back until a line ends.
    let mut output = std::fs::OpenOptions::new().write(true).open("/dev/stdout")?;
    for part in input.chunks(size) {
        output.write_all(part)?;
        std::thread::yield_now();
    }
    Ok(())
}
