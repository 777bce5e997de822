//! The live line: frames, noise and flags, cut into runs for the receiver.

use std::io;

use super::Generator;
use crate::frame::{longest_frame, ESCAPE, FLAG, LEAST_LIMIT, MOST_LIMIT};

/// The longest run: a line of the script has room for it.
const LONGEST_RUN: usize = 950;
/// Calls with runs as they are thrown; behind them all that is left is sent in
/// long ones.
const FEW_CALLS: usize = 20;
/// Decoded octets about every edge that a stretch has.
const EDGES: [usize; 16] = [1, 2, 3, 4, 5, 77, 78, 79, 80, 259, 260, 261, 262, 300, 520, 700];

/// What is thrown once for a live line.
struct Way {
    /// A call has one of these; mostly they are the same.
    limits: [usize; 2],
    /// The most octets of a run.
    longest_run: usize,
    /// How often, of a thousand stretches, one is spoilt.
    spoilt: usize,
    /// How often, of a thousand, two frames share a flag.
    shared: usize,
}

impl Generator<'_> {
    /// Some frames and some noise on the line, in as many calls as it takes.
    pub(super) fn live(&mut self) -> io::Result<()> {
        if self.dice.chance(150) {
            self.say("listen".to_string())?;
        }
        let way = self.throw_way();
        let line = self.live_line(&way);
        self.send(&way, &line)
    }

    fn throw_way(&mut self) -> Way {
        let limit = self.good_limit();
        let other = if self.dice.chance(250) { self.good_limit() } else { limit };
        Way {
            limits: [limit, other],
            longest_run: self.dice.pick(&[1, 4, 16, 60, 200, 200, 500, 500, LONGEST_RUN]),
            spoilt: self.dice.pick(&[0, 0, 100, 400]),
            shared: self.dice.pick(&[0, 300, 700, 1_000]),
        }
    }

    /// A limit that is allowed.
    fn good_limit(&mut self) -> usize {
        self.any_limit().clamp(LEAST_LIMIT, MOST_LIMIT)
    }

    /// The octets of the line, from before a flag to behind one.
    fn live_line(&mut self, way: &Way) -> Vec<u8> {
        let mut line = if self.dice.chance(250) { self.before_a_flag() } else { Vec::new() };
        if self.dice.chance(920) {
            line.push(FLAG);
        }
        for _ in 0..self.dice.between(1, 6) {
            line.extend(self.stretch(way));
            line.extend(vec![FLAG; self.flags(way)]);
        }
        if self.dice.chance(100) {
            self.damage(&mut line);
        }
        line
    }

    /// What may come before a flag: noise, or a frame that lost its flag.
    fn before_a_flag(&mut self) -> Vec<u8> {
        if self.dice.chance(400) {
            let count = self.dice.pick(&[4, 5, 10, 78]);
            return self.exactly(count);
        }
        let length = self.dice.below(30);
        let mut noise = self.dice.octets(length);
        noise.retain(|&octet| octet != FLAG);
        noise
    }

    /// How many flags lie behind a stretch: one is shared with the next.
    fn flags(&mut self, way: &Way) -> usize {
        match self.dice.below(40) {
            0 => 0,
            1..=3 => self.dice.between(3, 6) as usize,
            _ if self.dice.chance(way.shared) => 1,
            _ => 2,
        }
    }

    /// What lies between two flags, or should.
    fn stretch(&mut self, way: &Way) -> Vec<u8> {
        let limit = self.dice.pick(&way.limits);
        match self.dice.weighed(&[600, 150, 90, 80, 80, 3]) {
            0 => {
                let (address, control) = self.head();
                let length = self.payload_length(limit);
                let frame = [vec![address, control], self.dice.octets(length)].concat();
                self.line_for(&frame, way.spoilt)
            }
            1 => {
                let edges = [&EDGES[..], &[limit - 1, limit, limit, limit + 1]].concat();
                let count = self.dice.pick(&edges);
                self.exactly(count)
            }
            2 => self.with_more_behind(limit),
            3 => {
                let mut escapes = vec![ESCAPE; self.dice.pick(&[1, 1, 1, 2, 2, 3, 4])];
                if self.dice.chance(300) {
                    let count = self.dice.between(1, 5) as usize;
                    escapes.extend(self.exactly(count));
                }
                escapes
            }
            4 => {
                let length = self.dice.pick(&[3, 20, 100, 300]);
                self.dice.octets(length)
            }
            _ => {
                // Past what two octets count.
                let count = 65_536 + self.dice.pick(&[0, 4, 78, 260]);
                self.exactly(count)
            }
        }
    }

    /// So many decoded octets, with a good check where there is room for one.
    fn exactly(&mut self, count: usize) -> Vec<u8> {
        match count.checked_sub(2) {
            Some(length) => {
                let octets = self.dice.octets(length);
                self.line_for(&octets, 0)
            }
            None => vec![0x33; count],
        }
    }

    /// A good frame that would fill the limit or the store, and something
    /// behind it that spoils it.
    fn with_more_behind(&mut self, limit: usize) -> Vec<u8> {
        let count = self.dice.pick(&[4, 10, LEAST_LIMIT, limit, limit, MOST_LIMIT, MOST_LIMIT]);
        let mut line = self.exactly(count);
        match self.dice.below(6) {
            0 => line.push(ESCAPE),
            1 => line.extend([ESCAPE, ESCAPE]),
            2 => line.extend([ESCAPE, 0x5E]),
            3 => line.push(0x33),
            4 => {
                let length = self.dice.below(300);
                line.extend(vec![0x33; length]);
            }
            _ => {
                // Another good frame: the flag between them is lost.
                let count = self.dice.pick(&[4, 5, limit]);
                line.extend(self.exactly(count));
            }
        }
        line
    }

    /// Flipped, lost, doubled and new octets anywhere on the line.
    fn damage(&mut self, line: &mut Vec<u8>) {
        for _ in 0..self.dice.between(1, 4) {
            if line.is_empty() {
                return;
            }
            let place = self.dice.below(line.len());
            match self.dice.below(6) {
                0 | 1 => line[place] ^= 1 << self.dice.below(8),
                2 => {
                    line.remove(place);
                }
                3 => line.insert(place, line[place]),
                4 => line.insert(place, self.dice.pick(&[FLAG, ESCAPE])),
                _ => line[place] = self.dice.octet(),
            }
        }
    }

    /// The line in calls. What one didn't take goes into the next, mostly.
    fn send(&mut self, way: &Way, line: &[u8]) -> io::Result<()> {
        let mut rest = line;
        let mut calls = 0;
        while !rest.is_empty() && self.left > 0 {
            calls += 1;
            let length = if calls > FEW_CALLS { LONGEST_RUN } else { self.run_length(way, rest) };
            let (run, behind) = rest.split_at(length.min(rest.len()));
            let taken = self.call(way, run)?;
            rest = match self.dice.below(100) {
                // The rest is forgotten, or the line goes dead.
                0..=4 => behind,
                5 => &[],
                _ => &rest[taken..],
            };
            if self.dice.chance(15) {
                self.between_calls()?;
            }
        }
        Ok(())
    }

    /// How long the next run is: cut anywhere, behind an escape, about a flag.
    fn run_length(&mut self, way: &Way, rest: &[u8]) -> usize {
        let near = &rest[..rest.len().min(LONGEST_RUN)];
        let before = |octet: u8| near.iter().position(|&other| other == octet);
        match self.dice.below(40) {
            0 => 0,
            1..=4 => before(ESCAPE).map_or(1, |place| place + 1),
            5 | 6 => {
                // Behind the second of two escapes, where there are two.
                let two = near.windows(2).position(|two| two == [ESCAPE, ESCAPE]);
                two.or(before(ESCAPE)).map_or(1, |place| place + 1 + usize::from(two.is_some()))
            }
            7..=9 => before(FLAG).map_or(1, |place| place + 1),
            10..=12 => before(FLAG).unwrap_or(1),
            13..=15 => way.longest_run,
            _ => 1 + self.dice.below(way.longest_run),
        }
    }

    /// One call; gives how many octets it takes.
    fn call(&mut self, way: &Way, run: &[u8]) -> io::Result<usize> {
        let limit =
            if self.dice.chance(80) { self.any_limit() } else { self.dice.pick(&way.limits) };
        let room = self.room_for(limit);
        // A receiver like the bench's is asked first.
        let mut receiver = self.bench.receiver.clone();
        let taken = receiver.take(limit, run, &mut vec![0; room]).map_or(0, |taken| taken.octets);
        let run = self.hex(run);
        self.say(format!("octets {limit} {run} {room}"))?;
        Ok(taken)
    }

    /// A room about N - 2; shorter ones seldom.
    fn room_for(&mut self, limit: usize) -> usize {
        let least = longest_frame(limit);
        let room = match self.dice.below(32) {
            0 => least.saturating_sub(1),
            1 => self.dice.pick(&[0, 1, 75, least / 2]),
            2 => self.dice.below(least + 1),
            3 | 4 => least + 1,
            5..=7 => least + self.dice.below(40),
            8 => longest_frame(MOST_LIMIT),
            9 => 600,
            _ => least,
        };
        room.min(600)
    }

    /// Something else while a stretch may be open.
    fn between_calls(&mut self) -> io::Result<()> {
        match self.dice.below(5) {
            0 => self.say("listen".to_string()),
            1 => self.junk(),
            2 => self.remark(),
            _ => self.codec(),
        }
    }
}
