//! Random captures for the salvage: whole ones, damaged ones, odd ones, and
//! such in which something lies at the border of a reader's runs.

use super::random::Random;
use crate::frame::{ESCAPE, FLAG, LEAST_LIMIT, MOST_LIMIT};

/// A capture, and the frame limit that it is to be salvaged with.
pub struct Capture {
    pub limit: usize,
    pub octets: Vec<u8>,
}

/// Runs that a reader may read a file in; others are multiples of the first.
const SHORT_RUN: usize = 4_096;
const LONG_RUN: usize = 65_536;
/// No capture is longer.
pub const LONGEST: usize = 300_000;
/// The most faults of a capture.
const MOST_FAULTS: usize = 500;

/// One capture in the making.
pub struct Maker {
    pub(super) dice: Random,
    /// The limit that it is to be salvaged with, and most of its frames were
    /// made for.
    pub(super) limit: usize,
}

/// The capture of this seed.
pub fn capture(seed: u64) -> Capture {
    let mut dice = Random::new(seed);
    let limit = match dice.below(20) {
        0..=8 => MOST_LIMIT,
        9..=11 => LEAST_LIMIT,
        12 => 79,
        13 | 14 => 100,
        15 => 259,
        _ => dice.between(78, 260) as usize,
    };
    let mut maker = Maker { dice, limit };
    let mut octets = maker.any();
    octets.truncate(LONGEST);
    Capture { limit, octets }
}

impl Maker {
    fn any(&mut self) -> Vec<u8> {
        match self.dice.weighed(&[110, 130, 280, 230, 40, 60, 150]) {
            0 => self.odd(),
            1 => self.whole(),
            2 => {
                let mut octets = self.whole();
                self.damage(&mut octets);
                self.with_ends(octets)
            }
            3 => {
                let octets = self.mixed();
                self.with_ends(octets)
            }
            4 => {
                let length = self.dice.pick(&[3, 30, 300, 3_000]);
                let length = self.dice.below(length);
                self.dice.octets(length)
            }
            5 => {
                let octets = self.with_a_long_stretch();
                self.with_ends(octets)
            }
            _ => self.about_borders(),
        }
    }

    /// Without octets, with one, without a flag, with flags alone, with one.
    fn odd(&mut self) -> Vec<u8> {
        match self.dice.below(9) {
            0 | 1 => Vec::new(),
            2 => vec![self.dice.pick(&[FLAG, FLAG, ESCAPE, ESCAPE, 0x00, 0x33])],
            3 => vec![FLAG; self.dice.between(1, 20) as usize],
            4 => {
                let length = self.near_a_border(SHORT_RUN);
                vec![FLAG; length]
            }
            5 => self.good(),
            6 => {
                let length = match self.dice.below(8) {
                    0..=3 => self.dice.below(40),
                    4 | 5 => self.dice.below(5_000),
                    6 => self.near_a_border(SHORT_RUN),
                    _ => self.near_a_border(LONG_RUN),
                };
                self.noise(length)
            }
            7 => [self.stretch(), vec![ESCAPE]].concat(),
            _ => {
                // One flag, and something on one side of it or on both.
                let before = if self.dice.chance(600) { self.stretch() } else { Vec::new() };
                let behind = if self.dice.chance(600) { self.stretch() } else { Vec::new() };
                [before, vec![FLAG], behind].concat()
            }
        }
    }

    /// A capture without damage: "one or more flags, then stretches that the
    /// decoder with that N reads, each with one or more flags behind it".
    fn whole(&mut self) -> Vec<u8> {
        let aim = self.length();
        let shared = self.dice.pick(&[0, 500, 950, 1_000]);
        let mut octets = self.flags(shared);
        while octets.len() < aim {
            octets.extend(self.good());
            octets.extend(self.flags(shared));
        }
        octets
    }

    /// Stretches of all kinds.
    fn mixed(&mut self) -> Vec<u8> {
        let aim = self.length();
        let shared = self.dice.pick(&[0, 500, 950, 1_000]);
        let mut octets = self.flags(shared);
        while octets.len() < aim {
            octets.extend(self.stretch());
            octets.extend(self.flags(shared));
        }
        octets
    }

    /// About how long the capture is to be.
    fn length(&mut self) -> usize {
        match self.dice.weighed(&[200, 350, 400, 12]) {
            0 => self.dice.below(100),
            1 => self.dice.below(2_000),
            2 => self.dice.below(18_000),
            _ => 20_000 + self.dice.below(250_000),
        }
    }

    /// Two frames share a flag so many times of a thousand.
    fn flags(&mut self, shared: usize) -> Vec<u8> {
        let count = match self.dice.below(60) {
            0 | 1 => self.dice.between(3, 6) as usize,
            2 => self.dice.below(80) + 1,
            _ if self.dice.chance(shared) => 1,
            _ => 2,
        };
        vec![FLAG; count]
    }

    /// Flipped, lost, doubled and new octets anywhere.
    fn damage(&mut self, octets: &mut Vec<u8>) {
        let faults = match self.dice.below(4) {
            0 => 1,
            1 => self.dice.between(1, 4) as usize,
            2 => octets.len() / 400 + 1,
            _ => octets.len() / 60 + 1,
        };
        for _ in 0..faults.min(MOST_FAULTS) {
            if octets.is_empty() {
                return;
            }
            self.one_fault(octets);
        }
    }

    fn one_fault(&mut self, octets: &mut Vec<u8>) {
        let place = self.dice.below(octets.len());
        match self.dice.below(10) {
            0 | 1 => octets[place] ^= 1 << self.dice.below(8),
            2 => {
                octets.remove(place);
            }
            3 => octets.insert(place, octets[place]),
            4 => {
                let length = self.dice.below(30);
                let noise = self.dice.octets(length);
                octets.splice(place..place, noise);
            }
            5 => {
                // A whole run is lost.
                let behind = place + self.dice.below(300);
                octets.drain(place..behind.min(octets.len()));
            }
            6 | 7 => {
                // The next flag is none: two stretches join.
                if let Some(flag) = octets[place..].iter().position(|&octet| octet == FLAG) {
                    octets[place + flag] ^= 1 << self.dice.below(8);
                }
            }
            8 => octets[place] = FLAG,
            _ => octets[place] = ESCAPE,
        }
    }

    /// Octets before the first flag and behind the last.
    fn with_ends(&mut self, octets: Vec<u8>) -> Vec<u8> {
        let (mut start, mut rest) = (Vec::new(), octets);
        match self.dice.below(10) {
            0 | 1 => start = self.outside(),
            2 => {
                // The capture begins within a frame.
                let lost = self.dice.below(300).min(rest.len());
                rest.drain(..lost);
            }
            _ => (),
        }
        match self.dice.below(12) {
            0 | 1 => rest.extend(self.outside()),
            2 => {
                // It ends within a frame.
                let lost = self.dice.below(300).min(rest.len());
                rest.truncate(rest.len() - lost);
            }
            3 => {
                // It ends within an escape.
                let last = rest.iter().rposition(|&octet| octet == ESCAPE);
                rest.truncate(last.map_or(rest.len(), |last| last + 1));
            }
            4 => rest.push(ESCAPE),
            _ => (),
        }
        [start, rest].concat()
    }

    /// What may stand outside the flags: noise, or a frame that lost its flag.
    fn outside(&mut self) -> Vec<u8> {
        match self.dice.below(4) {
            0 => self.good(),
            1 => {
                let length = self.dice.below(40) + 1;
                self.noise(length)
            }
            2 => {
                let length = self.dice.below(3_000) + 1;
                self.noise(length)
            }
            _ => self.stretch(),
        }
    }

    /// Some thousand octets without a flag, and now and then a hundred
    /// thousand, among other stretches.
    fn with_a_long_stretch(&mut self) -> Vec<u8> {
        let length = match self.dice.below(12) {
            0 => 65_000 + self.dice.below(120_000),
            1 => self.near_a_border(LONG_RUN),
            2..=4 => self.near_a_border(SHORT_RUN),
            _ => 1_000 + self.dice.below(12_000),
        };
        let mut octets = vec![FLAG];
        for _ in 0..self.dice.below(4) {
            octets.extend(self.stretch());
            octets.push(FLAG);
        }
        octets.extend(self.long_stretch(length));
        if self.dice.chance(850) {
            octets.push(FLAG);
        }
        for _ in 0..self.dice.below(4) {
            octets.extend(self.stretch());
            octets.push(FLAG);
        }
        octets
    }

    /// Noise, 0x7D alone, frames without flags, or a frame with a right check.
    fn long_stretch(&mut self, length: usize) -> Vec<u8> {
        match self.dice.below(5) {
            0 => vec![ESCAPE; length],
            1 => self.exactly(length),
            2 => {
                let mut octets = Vec::new();
                while octets.len() < length {
                    octets.extend(self.good());
                }
                octets
            }
            _ => self.noise(length),
        }
    }

    /// A border of runs of this length, or next to it.
    fn near_a_border(&mut self, run: usize) -> usize {
        self.a_border(run) + self.dice.below(5) - 2
    }

    fn a_border(&mut self, run: usize) -> usize {
        let times = if run == SHORT_RUN { [1, 1, 1, 2, 2, 3, 4] } else { [1, 1, 1, 1, 2, 2, 3] };
        run * self.dice.pick(&times)
    }

    /// A capture with something exactly at one border or at some.
    fn about_borders(&mut self) -> Vec<u8> {
        let run = if self.dice.chance(160) { LONG_RUN } else { SHORT_RUN };
        let mut octets = match self.dice.below(8) {
            0 => self.outside(),
            1 => Vec::new(),
            _ => vec![FLAG],
        };
        let mut border = self.a_border(run);
        for _ in 0..self.dice.between(1, 3) {
            let (before, behind) = self.at_a_border();
            self.fill(&mut octets, border.saturating_sub(before.len()));
            octets.extend(before);
            octets.extend(behind);
            border += run;
        }
        match self.dice.below(6) {
            // The capture ends at the last border, or next to it.
            0 => octets.truncate(border - run),
            1 => octets.truncate(border - run + 1),
            2 => octets.truncate(border - run - 1),
            3 => {
                octets.extend(self.stretch());
                octets.push(FLAG);
            }
            _ => (),
        }
        octets
    }

    /// A stretch and its flags, cut where the border is to lie.
    fn at_a_border(&mut self) -> (Vec<u8>, Vec<u8>) {
        let mut stretch = if self.dice.chance(600) { self.good() } else { self.stretch() };
        // 0x7D last before the border and the flag first behind it.
        let open = self.dice.chance(120);
        stretch.extend(open.then_some(ESCAPE));
        let more = self.dice.below(3);
        let octets = [vec![FLAG], stretch, vec![FLAG; 1 + more]].concat();
        let last = octets.len() - 1 - more;
        let cut = match self.dice.below(9) {
            _ if open => last,
            // A flag first behind the border, or last before it.
            0 => 0,
            1 => 1,
            2 => last,
            3 => last + 1,
            4 => octets.len(),
            // Within an escape, or just before one or behind it.
            5 | 6 => {
                let place = self.dice.below(last);
                let near = octets[place..].iter().position(|&octet| octet == ESCAPE);
                near.map_or(last, |near| place + near + 1)
            }
            7 => {
                let near = octets.iter().position(|&octet| octet == ESCAPE);
                near.map_or(last, |near| (near + self.dice.below(3)).min(octets.len()))
            }
            _ => self.dice.below(octets.len() + 1),
        };
        let (before, behind) = octets.split_at(cut);
        (before.to_vec(), behind.to_vec())
    }

    /// Good frames, flags and noise up to exactly this length; what is longer
    /// already stays as it is.
    fn fill(&mut self, octets: &mut Vec<u8>, length: usize) {
        while octets.len() < length {
            let left = length - octets.len();
            let mut part = match self.dice.below(12) {
                0 => vec![FLAG; self.dice.below(6)],
                1 => {
                    let length = self.dice.below(200);
                    self.noise(length)
                }
                2..=5 => {
                    let most = (left - 1).min(self.limit);
                    let raw = if left > self.limit { 4 + self.dice.below(most - 3) } else { most };
                    if raw < 4 {
                        Vec::new()
                    } else {
                        self.plain(raw)
                    }
                }
                _ => self.good(),
            };
            part.push(FLAG);
            if part.len() <= left {
                octets.extend(part);
            }
        }
    }
}
