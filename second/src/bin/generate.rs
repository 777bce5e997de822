//! The binary `generate SEED LINES [BEFORE]`: a random script to standard
//! output, from an empty bench, or going on where the script BEFORE ends.

use std::fs::File;
use std::io::{self, BufReader, BufWriter, ErrorKind, Write};

use second::bench::Bench;
use second::generator;
use second::lines::Lines;
use second::script;

/// The words of the command line.
fn words() -> Option<(u64, usize, Option<String>)> {
    let words: Vec<String> = std::env::args().skip(1).collect();
    match &words[..] {
        [seed, lines] => Some((seed.parse().ok()?, lines.parse().ok()?, None)),
        [seed, lines, before] => {
            Some((seed.parse().ok()?, lines.parse().ok()?, Some(before.clone())))
        }
        _ => None,
    }
}

/// The bench as a script leaves it.
fn bench_after(before: &str) -> io::Result<Bench> {
    let mut lines = Lines::new(BufReader::new(File::open(before)?));
    let mut bench = Bench::default();
    let mut line = Vec::new();
    while lines.next(&mut line)? {
        script::answer(&mut bench, &line);
    }
    Ok(bench)
}

fn run(seed: u64, lines: usize, before: Option<String>) -> io::Result<()> {
    let bench = before.map_or(Ok(Bench::default()), |before| bench_after(&before))?;
    let mut output = BufWriter::with_capacity(1 << 16, io::stdout().lock());
    generator::go_on(bench, seed, lines, &mut output)?;
    output.flush()
}

fn main() {
    let Some((seed, lines, before)) = words() else {
        eprintln!("usage: generate SEED LINES [BEFORE]");
        std::process::exit(2);
    };
    if let Err(error) = run(seed, lines, before) {
        if error.kind() != ErrorKind::BrokenPipe {
            eprintln!("generate: {error}");
            std::process::exit(1);
        }
    }
}
