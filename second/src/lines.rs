//! The lines of a script, read one by one from a stream of octets.

use std::io::{BufRead, Result};

/// "a line of more than 2,000 octets" is too long
pub const LONGEST: usize = 2_000;

/// Octets kept of a line: with one more than the longest and a 0x0D, a line is
/// too long whatever else it holds, so the rest is skipped.
const KEPT: usize = LONGEST + 2;

/// A source of lines.
pub struct Lines<Source> {
    source: Source,
}

impl<Source: BufRead> Lines<Source> {
    pub fn new(source: Source) -> Self {
        Lines { source }
    }

    /// Puts the next line into `line`; false at the end. "A line ends with
    /// 0x0A; a 0x0D before it is dropped." "Octets after the last 0x0A are a
    /// line of their own"; with no 0x0A there, there is no 0x0D before it.
    pub fn next(&mut self, line: &mut Vec<u8>) -> Result<bool> {
        line.clear();
        let mut any = false;
        loop {
            let there = self.source.fill_buf()?;
            if there.is_empty() {
                return Ok(any);
            }
            any = true;
            let end = there.iter().position(|&octet| octet == b'\n');
            let part = &there[..end.unwrap_or(there.len())];
            keep(line, part);
            let used = part.len() + usize::from(end.is_some());
            self.source.consume(used);
            if end.is_some() {
                // "Only one 0x0D is dropped."
                if line.last() == Some(&b'\r') {
                    line.pop();
                }
                return Ok(true);
            }
        }
    }
}

fn keep(line: &mut Vec<u8>, part: &[u8]) {
    let room = KEPT - line.len();
    line.extend(&part[..part.len().min(room)]);
}

#[cfg(test)]
mod tests {
    use super::*;
    use std::io::{BufReader, Read};

    fn lines(script: &[u8]) -> Vec<Vec<u8>> {
        // A tiny buffer, so that lines lie over its edges.
        let mut lines = Lines::new(BufReader::with_capacity(3, script.take(u64::MAX)));
        let mut all = Vec::new();
        let mut line = Vec::new();
        while lines.next(&mut line).unwrap() {
            all.push(line.clone());
        }
        all
    }

    #[test]
    fn lines_and_their_ends() {
        assert_eq!(lines(b""), [b""; 0]);
        assert_eq!(lines(b"\n"), [b""]);
        assert_eq!(lines(b"abcdef\nb"), [&b"abcdef"[..], b"b"]);
        assert_eq!(lines(b"a\r\nb\r\r\n\r\n"), [&b"a"[..], b"b\r", b""]);
        assert_eq!(lines(b"a\rb\n"), [b"a\rb"]);
        assert_eq!(lines(b"a\r"), [b"a\r"]);
    }

    #[test]
    fn long_lines_stay_too_long() {
        for (length, ending, kept) in [
            (2_000, "\n", 2_000),
            (2_000, "\r\n", 2_000),
            (2_001, "\n", 2_001),
            (2_001, "\r\n", 2_001),
            (2_000, "\r\r\n", 2_001),
            (9_000, "\n", 2_002),
        ] {
            let script = "x".repeat(length) + ending + "y\n";
            let lines = lines(script.as_bytes());
            assert_eq!(lines.len(), 2);
            assert_eq!(lines[0].len(), kept);
            assert_eq!(lines[1], b"y");
        }
    }
}
