//! The binary `captures SEED [limit]`: a random capture to standard output, or
//! the frame limit N that it is to be salvaged with.

use std::io::{self, ErrorKind, Write};

use second::generator::capture::{capture, Capture};

/// What the command line asks for.
fn asked() -> Option<Vec<u8>> {
    let words: Vec<String> = std::env::args().skip(1).collect();
    let words: Vec<&str> = words.iter().map(String::as_str).collect();
    let Capture { limit, octets } = capture(words.first()?.parse().ok()?);
    match words[1..] {
        [] => Some(octets),
        ["limit"] => Some(format!("{limit}\n").into_bytes()),
        _ => None,
    }
}

fn main() {
    let Some(octets) = asked() else {
        eprintln!("usage: captures SEED [limit]");
        std::process::exit(2);
    };
    let mut output = io::stdout().lock();
    if let Err(error) = output.write_all(&octets).and_then(|()| output.flush()) {
        if error.kind() != ErrorKind::BrokenPipe {
            eprintln!("captures: {error}");
            std::process::exit(1);
        }
    }
}
