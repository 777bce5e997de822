//! The generator of random scripts: the plan of a script, the mix of its
//! lines, and the model that follows them. Random captures are in `capture`.
//!
//! Every line that is written is also given to a bench of this package. So
//! the generator knows each device's address, numbers, pending answer and
//! drive, and can say the right thing often and the wrong thing on purpose.

pub mod capture;
pub mod codec;
pub mod devices;
pub mod hand;
pub mod junk;
pub mod live;
pub mod messages;
pub mod negotiation;
pub mod random;
pub mod stretch;
pub mod talk;
pub mod xid;

use std::io::{self, Write};

use crate::bench::Bench;
use crate::script;
use hand::Policy;
use random::Random;

/// Recent good lines, kept to be spoilt.
const RECENT: usize = 64;

/// What is thrown once for a whole script.
struct Plan {
    /// How many devices the bench is to hold.
    devices: usize,
    /// How often, of a thousand frames, something ends a session on purpose.
    rudeness: usize,
    /// Long shared beginnings among the identities.
    clustered: bool,
    /// The shared beginning.
    cluster: Vec<u8>,
    /// Now and then two devices with one identity.
    twins: bool,
    /// The last line has no 0x0A.
    open_end: bool,
}

impl Plan {
    fn throw(seed: u64, dice: &mut Random) -> Plan {
        let devices = match seed % 10 {
            0 => 0,
            1 | 2 => 1,
            3 | 4 => 2,
            5 => dice.between(3, 5) as usize,
            6 => dice.between(6, 14) as usize,
            7 => dice.between(20, 31) as usize,
            _ => 32,
        };
        let cluster_length = dice.between(2, 18) as usize;
        Plan {
            devices,
            rudeness: dice.pick(&[4, 15, 40, 120]),
            clustered: dice.chance(600),
            cluster: (0..cluster_length).map(|_| dice.between(0x21, 0x7E) as u8).collect(),
            twins: seed.is_multiple_of(2),
            open_end: seed.is_multiple_of(3),
        }
    }
}

/// One script in the making.
pub struct Generator<'out> {
    dice: Random,
    plan: Plan,
    bench: Bench,
    output: &'out mut dyn Write,
    /// Lines still to be written.
    left: usize,
    recent: Vec<Vec<u8>>,
    /// The last frame given to each device.
    last_frames: Vec<Vec<u8>>,
    /// The probes that a scan of these devices takes.
    exact: Option<u16>,
    /// Who answers the scan by hand.
    policy: Policy,
}

/// Writes a script of so many lines.
pub fn generate(seed: u64, lines: usize, output: &mut dyn Write) -> io::Result<()> {
    go_on(Bench::default(), seed, lines, output)
}

/// Writes so many lines more of a script that has left the bench so.
pub fn go_on(bench: Bench, seed: u64, lines: usize, output: &mut dyn Write) -> io::Result<()> {
    let mut dice = Random::new(seed);
    let mut plan = Plan::throw(seed, &mut dice);
    plan.devices = plan.devices.max(bench.devices.len());
    let mut generator = Generator {
        dice,
        plan,
        bench,
        output,
        left: lines,
        recent: Vec::new(),
        last_frames: Vec::new(),
        exact: None,
        policy: Policy::Silent,
    };
    generator.run()
}

impl Generator<'_> {
    fn run(&mut self) -> io::Result<()> {
        if self.bench.devices.is_empty() && self.dice.chance(700) {
            self.first_devices()?;
        }
        while self.left > 0 {
            self.something()?;
        }
        Ok(())
    }

    /// The mix. Each weight counts goes, not lines: talks, scans by hand and
    /// live lines are many lines long.
    fn something(&mut self) -> io::Result<()> {
        let scans = match self.bench.devices.len() {
            0..=5 => 100,
            6..=14 => 45,
            _ => 20,
        };
        match self.dice.weighed(&[420, 700, scans, 25, 500, 100, 70, 170]) {
            0 => self.talk(),
            1 => self.codec(),
            2 => self.scan_bench(),
            3 => self.hand(),
            4 => self.junk(),
            5 => self.remark(),
            6 => self.another_device(),
            _ => self.live(),
        }
    }

    /// A good line: written, followed, and remembered for spoiling.
    fn say(&mut self, line: String) -> io::Result<()> {
        let line = line.into_bytes();
        if self.recent.len() < RECENT {
            self.recent.push(line.clone());
        } else {
            let place = self.dice.below(RECENT);
            self.recent[place] = line.clone();
        }
        self.emit(&line)
    }

    /// Any line without 0x0A: written with its end and given to the model.
    fn emit(&mut self, line: &[u8]) -> io::Result<()> {
        if self.left == 0 {
            return Ok(());
        }
        let devices = self.bench.devices.len();
        let ends = self.ending_of(line);
        // A 0x0D at the end of the line itself is dropped with its 0x0A.
        let seen = match line {
            [seen @ .., b'\r'] if ends == b"\n" => seen,
            _ => line,
        };
        script::answer(&mut self.bench, seen);
        if self.bench.devices.len() > self.plan.devices {
            // A spoilt line that makes a device too many is not written.
            self.bench.devices.truncate(devices);
            return Ok(());
        }
        if self.bench.devices.len() != devices {
            self.exact = None;
        }
        self.left -= 1;
        self.output.write_all(line)?;
        self.output.write_all(ends)
    }

    /// Now and then a 0x0D before the 0x0A; nothing after an open end.
    fn ending_of(&mut self, line: &[u8]) -> &'static [u8] {
        if self.left == 1 && self.plan.open_end && line.last() != Some(&b'\r') {
            b""
        } else if self.dice.chance(30) {
            b"\r\n"
        } else {
            b"\n"
        }
    }

    /// A comment or an empty line.
    fn remark(&mut self) -> io::Result<()> {
        let line: &[u8] = match self.dice.below(7) {
            0 => b"# a remark",
            1 => b"#",
            2 => b"#decode 7e 5",
            3 => b"# \xff\x00\x80 octets",
            _ => b"",
        };
        self.emit(line)
    }

    /// HEX, in upper case now and then.
    fn hex(&mut self, octets: &[u8]) -> String {
        let text = crate::words::written(octets);
        if self.dice.chance(60) {
            text.to_uppercase()
        } else {
            text
        }
    }
}
