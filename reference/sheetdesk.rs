//! The program of document 01: calls on standard input, answers on standard output.
#![allow(dead_code)]

mod desk;
mod text;

use std::io::{self, BufRead, BufReader, BufWriter, Write};

fn main() -> io::Result<()> {
    let mut input = BufReader::new(io::stdin().lock());
    let mut output = BufWriter::new(io::stdout().lock());
    let mut words = vec![0u32; text::LENT];
    let mut line = Vec::new();
    loop {
        line.clear();
        if input.read_until(b'\n', &mut line)? == 0 {
            break;
        }
        let answer = match text::read_line(text::without_end(&line)) {
            Some(call) => text::print(&text::run(&mut words, &call)),
            None => String::from("unread"),
        };
        output.write_all(answer.as_bytes())?;
        output.write_all(b"\n")?;
    }
    output.flush()
}
