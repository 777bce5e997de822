//! Lines for the codec: `decode` and `write`, with a frame limit and without,
//! right and spoilt; and the way of a frame to a device over the line.

use std::io;

use super::random::Random;
use super::Generator;
use crate::check;
use crate::frame::{
    self, longest_line, longest_payload, ESCAPE, FLAG, LEAST_LIMIT, MOST_LIMIT, MOST_WRITTEN, TURN,
};

/// The limit of a line for the codec: 01's own, or one that the line gives.
#[derive(Clone, Copy)]
enum Given {
    Nothing,
    Limit(usize),
}

impl Given {
    /// What stands between the command's name and its other words.
    fn words(self) -> String {
        match self {
            Given::Nothing => String::new(),
            Given::Limit(limit) => format!("-n {limit}"),
        }
    }

    /// The limit that lengths are thrown about: the next one that is allowed.
    fn allowed(self) -> usize {
        match self {
            Given::Nothing => LEAST_LIMIT,
            Given::Limit(limit) => limit.clamp(LEAST_LIMIT, MOST_LIMIT),
        }
    }
}

impl Generator<'_> {
    pub(super) fn codec(&mut self) -> io::Result<()> {
        let given =
            if self.dice.chance(500) { Given::Nothing } else { Given::Limit(self.any_limit()) };
        if self.dice.chance(400) {
            self.write(given)
        } else {
            self.decode(given)
        }
    }

    /// A frame limit as it is given: those allowed, and about their edges.
    pub(super) fn any_limit(&mut self) -> usize {
        match self.dice.below(24) {
            0 => 77,
            1 => 261,
            2 => self.dice.pick(&[0, 1, 2, 4, 76, 262, 65_535]),
            3 => self.dice.below(65_536),
            4..=7 => 78,
            8 | 9 => 79,
            10 | 11 => 259,
            12..=15 => 260,
            _ => self.dice.between(78, 260) as usize,
        }
    }

    fn write(&mut self, given: Given) -> io::Result<()> {
        let (address, control) = self.head();
        let length = self.payload_length(given.allowed());
        let payload = if self.dice.chance(150) {
            // The longest lines: all octets are escaped.
            (0..length).map(|_| self.dice.pick(&[FLAG, ESCAPE])).collect()
        } else {
            self.dice.octets(length)
        };
        let mut line = [0; MOST_WRITTEN];
        let need = frame::write_n(MOST_LIMIT, address, control, &payload, &mut line)
            .unwrap_or(longest_line(given.allowed()));
        let room = self.room_around(need);
        let words = [self.hex(&[address]), self.hex(&[control]), self.hex(&payload)];
        self.say(format!("write{} {} {room}", given.words(), words.join(" ")))
    }

    pub(super) fn head(&mut self) -> (u8, u8) {
        if self.dice.chance(100) {
            (self.dice.pick(&[0x7E, 0x7D]), self.dice.pick(&[0x7E, 0x7D]))
        } else {
            (self.dice.octet(), self.dice.octet())
        }
    }

    /// Short ones, and those about the longest.
    pub(super) fn payload_length(&mut self, limit: usize) -> usize {
        let longest = longest_payload(limit);
        match self.dice.below(10) {
            0..=3 => self.dice.below(12),
            4..=6 => longest - 4 + self.dice.below(8),
            7 => longest + self.dice.below(2),
            8 => self.dice.below(longest + 1),
            _ => self.dice.below(longest + 86),
        }
    }

    /// A room about the exact need, or any other.
    pub(super) fn room_around(&mut self, need: usize) -> usize {
        let room = match self.dice.below(12) {
            0..=3 => need,
            4 | 5 => need.saturating_sub(1),
            6 | 7 => need + 1,
            8 => 0,
            9 => self.dice.below(200),
            10 => self.dice.below(need + 1),
            _ => self.dice.pick(&[600, 522, 521, 258, 158, 157, 76, 1]),
        };
        room.min(600)
    }

    fn decode(&mut self, given: Given) -> io::Result<()> {
        let (address, control) = self.head();
        let mut decoded = vec![address, control];
        let length = self.payload_length(given.allowed());
        decoded.extend(self.dice.octets(length));
        let need = decoded.len();
        let line = if self.dice.chance(60) {
            let length = self.dice.below(given.allowed() + 12);
            self.dice.octets(length)
        } else {
            self.line_for(&decoded, 450)
        };
        let room = self.room_around(need);
        let word = self.hex(&line);
        self.say(format!("decode{} {word} {room}", given.words()))
    }

    /// What lies between two flags for a frame, spoilt so many times of a
    /// thousand. Frames longer than the writer writes come out too.
    pub(super) fn line_for(&mut self, octets: &[u8], spoilt: usize) -> Vec<u8> {
        let mut whole = octets.to_vec();
        whole.extend(check::check_octets(octets));
        let needless = self.dice.pick(&[0, 0, 0, 0, 100, 600]);
        let mut line = escaped(&mut self.dice, &whole, needless);
        if self.dice.chance(spoilt) {
            self.spoil(&mut line);
        }
        line
    }

    fn spoil(&mut self, line: &mut Vec<u8>) {
        let place = self.dice.below(line.len());
        match self.dice.below(12) {
            0 | 1 => line[place] ^= 1 << self.dice.below(8),
            2 | 3 => line.truncate(place),
            4 => line.truncate(self.dice.below(5)),
            5 => line.push(self.dice.octet()),
            6 => line.insert(place, FLAG),
            7 => line.push(ESCAPE),
            8 => line.extend([ESCAPE, ESCAPE]),
            9 => line.insert(place, ESCAPE),
            10 => line[place] = self.dice.octet(),
            _ => {
                line.remove(place);
            }
        }
    }
}

/// Octets as they go on the line, so many of a thousand escaped without need;
/// 0x5E never, for it would become a flag.
pub(super) fn escaped(dice: &mut Random, octets: &[u8], needless: usize) -> Vec<u8> {
    let mut line = Vec::new();
    for &octet in octets {
        if octet == FLAG || octet == ESCAPE || dice.chance(needless) && octet ^ TURN != FLAG {
            line.extend([ESCAPE, octet ^ TURN]);
        } else {
            line.push(octet);
        }
    }
    line
}
