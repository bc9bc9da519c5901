//! Answers sample lines: reads queries from standard input, a line each, and prints each with its answer.

#![forbid(unsafe_code)]

mod samples;

use std::io::{self, BufRead, BufWriter, Write};

fn main() -> io::Result<()> {
    let mut output = BufWriter::new(io::stdout().lock());
    for line in io::stdin().lock().split(b'\n') {
        let line = line?;
        let line = String::from_utf8_lossy(&line);
        writeln!(output, "{}", samples::answer(&line))?;
    }
    output.flush()
}
