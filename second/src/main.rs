//! The binary `second`: a script from standard input, its answers to standard
//! output.

use std::io::{self, BufReader, BufWriter, ErrorKind, Write};

use second::bench::Bench;
use second::lines::Lines;
use second::script;

fn run() -> io::Result<()> {
    let mut lines = Lines::new(BufReader::with_capacity(1 << 16, io::stdin().lock()));
    let mut output = BufWriter::with_capacity(1 << 16, io::stdout().lock());
    let mut bench = Bench::default();
    let mut line = Vec::new();
    while lines.next(&mut line)? {
        if let Some(answer) = script::answer(&mut bench, &line) {
            output.write_all(answer.as_bytes())?;
            output.write_all(b"\n")?;
        }
    }
    output.flush()
}

fn main() {
    if let Err(error) = run() {
        // A reader that has gone away is no fault of the script.
        if error.kind() != ErrorKind::BrokenPipe {
            eprintln!("second: {error}");
            std::process::exit(1);
        }
    }
}
