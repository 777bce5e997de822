//! What the tests share: a bench that is asked line by line.
#![allow(dead_code)]

use second::bench::Bench;
use second::{script, words};

/// Room for an answer, whatever the frame limit.
const ROOM: usize = 260;

/// A bench at a table.
#[derive(Default)]
pub struct Table {
    pub bench: Bench,
}

impl Table {
    /// The answer to a line that has one.
    pub fn ask(&mut self, line: &str) -> String {
        script::answer(&mut self.bench, line.as_bytes()).expect("a line with an answer")
    }

    /// The answer's octets to a frame for device 1, or the word before the
    /// buffer; the rest of the buffer must be untouched.
    pub fn give(&mut self, frame: &str) -> String {
        self.give_to(1, frame)
    }

    /// The same for device K.
    pub fn give_to(&mut self, k: usize, frame: &str) -> String {
        let answer = self.ask(&format!("frame {k} {frame} {ROOM}"));
        let words: Vec<&str> = answer.split(' ').collect();
        match words[..] {
            ["answer", length, buffer] => {
                let (octets, rest) = buffer.split_at(2 * length.parse::<usize>().unwrap());
                assert_eq!(rest, "a5".repeat(rest.len() / 2));
                octets.to_string()
            }
            ["silence", buffer] => {
                assert_eq!(buffer, "a5".repeat(ROOM));
                "silence".to_string()
            }
            _ => panic!("{answer}"),
        }
    }

    /// A negotiation with device 1, which has address 5: the triples of its
    /// answer, or silence.
    pub fn negotiate(&mut self, triples: &str) -> String {
        let answer = self.give(&negotiation("05", triples));
        match answer.strip_prefix("05bf8180") {
            Some(rest) => {
                let (length, field) = rest.split_at(2);
                assert_eq!(length, format!("{:02x}", field.len() / 2));
                field.to_string()
            }
            None => answer,
        }
    }

    /// The frame limit of device 1.
    pub fn limit(&mut self) -> usize {
        let answer = self.ask("limit 1");
        answer.strip_prefix("limit ").unwrap().parse().unwrap()
    }

    /// Negotiates this frame limit with device 1.
    pub fn agree(&mut self, limit: usize) {
        let bits = format!("{:04x}", 8 * (limit - 4));
        assert_eq!(self.negotiate(&format!("0602{bits}")), format!("0602{bits}"));
        assert_eq!(self.limit(), limit);
    }

    /// All the lines; their answers together.
    pub fn run(&mut self, lines: &[&str]) -> Vec<String> {
        lines.iter().map(|line| self.ask(line)).collect()
    }
}

/// An XID frame with these triples in the group 0x80.
pub fn negotiation(address: &str, triples: &str) -> String {
    let field = triples.replace(' ', "");
    format!("{address}bf8180{:02x}{field}", field.len() / 2)
}

/// HEX of text.
pub fn hex(text: &[u8]) -> String {
    words::written(text)
}

/// A bench with the device of "Both sides of the edge": "range -20 to 100, is
/// fresh". Its identity is KA1234, its present tilt is given.
pub fn fresh(tilt: i16) -> Table {
    let mut table = Table::default();
    let line = format!("device {} 70 68 73 -20 100 {tilt}", hex(b"KA1234"));
    assert_eq!(table.ask(&line), "device 1");
    table
}

/// The same, "then assigned", with address 5.
pub fn assigned(tilt: i16) -> Table {
    let mut table = fresh(tilt);
    assert_eq!(table.give("ffbf81f003020105"), "05bf81f00b01064b4131323334040101");
    table
}

/// The same after SNRM.
pub fn connected(tilt: i16) -> Table {
    let mut table = assigned(tilt);
    assert_eq!(table.give("0593"), "0573");
    table
}
