//! What lies between two flags of a capture: frames that read, frames about
//! every edge, escapes, noise. No flag lies in it.

use super::capture::Maker;
use super::codec::escaped;
use crate::check;
use crate::frame::{decode_n, ESCAPE, FEWEST_DECODED, FLAG, MOST_FRAME, MOST_LIMIT};

/// Frame limits whose both sides come up whatever the capture's own limit is.
const LIMITS: [usize; 5] = [78, 79, 100, 259, 260];
/// An octet that is never escaped and doesn't become a flag by an escape.
const PLAIN: u8 = 0x33;

impl Maker {
    /// Any stretch, good or bad.
    pub(super) fn stretch(&mut self) -> Vec<u8> {
        match self.dice.weighed(&[300, 140, 70, 90, 70, 130, 90, 60, 90]) {
            0 => self.good(),
            1 => {
                let count = self.edge();
                self.exactly(count)
            }
            2 => {
                let count = self.edge();
                self.wrong(count)
            }
            3 => self.few(),
            4 => self.escapes(),
            5 => self.much_escaped(),
            6 => self.with_more_behind(),
            7 => {
                // The flag between two frames is lost.
                let first = self.good();
                [first, self.good()].concat()
            }
            _ => {
                let length = self.dice.pick(&[3, 20, 100, 300, 600, 1_000]);
                self.noise(length)
            }
        }
    }

    /// A frame that reads with the capture's limit.
    pub(super) fn good(&mut self) -> Vec<u8> {
        let count = match self.dice.below(12) {
            0..=5 => FEWEST_DECODED + self.dice.below(12),
            6 | 7 => self.limit,
            8 => self.limit - self.dice.below(4),
            _ => FEWEST_DECODED + self.dice.below(self.limit - FEWEST_DECODED + 1),
        };
        if self.dice.chance(80) {
            return self.nearly_all_escaped(count, 0);
        }
        self.good_of(count)
    }

    /// The same with so many decoded octets. A needless escape of 0x5D at its
    /// very end would spoil it, so it is thrown until it reads.
    pub(super) fn good_of(&mut self, count: usize) -> Vec<u8> {
        loop {
            let line = self.exactly(count);
            if self.reads(&line) {
                return line;
            }
        }
    }

    /// The same with so many raw octets, none of them escaped.
    pub(super) fn plain(&mut self, length: usize) -> Vec<u8> {
        loop {
            let mut octets = self.dice.octets(length.saturating_sub(2));
            octets.retain(|&octet| octet != FLAG && octet != ESCAPE);
            octets.resize(length.saturating_sub(2), PLAIN);
            let whole = with_check(&octets);
            if self.reads(&whole) && !whole.contains(&ESCAPE) {
                return whole;
            }
        }
    }

    pub(super) fn reads(&self, stretch: &[u8]) -> bool {
        decode_n(self.limit, stretch, &mut [0; MOST_FRAME]).is_ok()
    }

    /// So many decoded octets, with a right check where there is room for one.
    pub(super) fn exactly(&mut self, count: usize) -> Vec<u8> {
        let whole = match count.checked_sub(2) {
            Some(length) => with_check(&self.dice.octets(length)),
            None => self.dice.octets(count),
        };
        self.on_the_line(&whole)
    }

    /// So many decoded octets with a wrong check: one bit is another.
    fn wrong(&mut self, count: usize) -> Vec<u8> {
        let length = count.saturating_sub(2);
        let mut whole = with_check(&self.dice.octets(length));
        let place = self.dice.below(whole.len());
        whole[place] ^= 1 << self.dice.below(8);
        self.on_the_line(&whole)
    }

    fn on_the_line(&mut self, whole: &[u8]) -> Vec<u8> {
        let needless = self.dice.pick(&[0, 0, 0, 0, 100, 600]);
        escaped(&mut self.dice, whole, needless)
    }

    /// Decoded octets about a limit, the capture's own mostly.
    fn edge(&mut self) -> usize {
        match self.dice.below(10) {
            0..=2 => self.limit,
            3..=5 => self.limit + 1,
            6 => self.limit - 1,
            7 => self.limit + 2,
            _ => self.dice.pick(&LIMITS) + self.dice.below(2),
        }
    }

    /// 1 to 4 decoded octets.
    fn few(&mut self) -> Vec<u8> {
        let count = self.dice.pick(&[1, 2, 3, 3, 4, 4]);
        match self.dice.below(3) {
            0 => self.exactly(count),
            1 => {
                let octets = self.dice.octets(count);
                self.on_the_line(&octets)
            }
            _ => {
                // Each of them escaped.
                let octets = vec![self.dice.pick(&[FLAG, ESCAPE, PLAIN, 0x5D]); count];
                escaped(&mut self.dice, &octets, 1_000)
            }
        }
    }

    /// 0x7D alone, in rows, and as the last octet.
    fn escapes(&mut self) -> Vec<u8> {
        let row = vec![ESCAPE; self.dice.pick(&[1, 1, 1, 2, 2, 3, 4, 7])];
        match self.dice.below(4) {
            0 | 1 => row,
            2 => {
                let count = self.dice.between(1, 5) as usize;
                [self.exactly(count), row].concat()
            }
            _ => {
                let count = self.dice.between(1, 5) as usize;
                [row, self.exactly(count)].concat()
            }
        }
    }

    /// As many raw octets as a frame may have, or about so many.
    fn much_escaped(&mut self) -> Vec<u8> {
        match self.dice.below(12) {
            // 519, 520, 521, 522, 524 raw octets.
            0 => self.nearly_all_escaped(MOST_LIMIT, 1),
            1 | 2 => self.nearly_all_escaped(MOST_LIMIT, 0),
            3 => self.nearly_all_escaped(MOST_LIMIT + 1, 1),
            4 => self.nearly_all_escaped(MOST_LIMIT + 1, 0),
            5 => self.nearly_all_escaped(MOST_LIMIT + 2, 0),
            6 => {
                let count = MOST_LIMIT + 3 + self.dice.below(300);
                self.nearly_all_escaped(count, 0)
            }
            7 => self.nearly_all_escaped(self.limit, 0),
            8 => self.nearly_all_escaped(self.limit + 1, 0),
            9 => {
                // The last one is 0x7D, past the 520 or just not.
                let plain = self.dice.below(3);
                let mut line = self.nearly_all_escaped(MOST_LIMIT, plain);
                line.extend(vec![ESCAPE; self.dice.between(1, 2) as usize]);
                line
            }
            10 => {
                // All are escaped and the check is wrong.
                let mut line = self.nearly_all_escaped(self.limit, 0);
                line[1] ^= 0x01;
                line.retain(|&octet| octet != FLAG);
                line
            }
            _ => vec![ESCAPE; 518 + self.dice.below(6)],
        }
    }

    /// So many decoded octets with a right check, each of them escaped but so
    /// many at the start.
    fn nearly_all_escaped(&mut self, count: usize, plain: usize) -> Vec<u8> {
        let few = self.dice.chance(300);
        loop {
            let octets: Vec<u8> = (0..count - 2)
                .map(|place| match self.dice.octet() {
                    _ if place < plain => PLAIN,
                    octet if few => [FLAG, ESCAPE][usize::from(octet & 1)],
                    0x5E => PLAIN,
                    octet => octet,
                })
                .collect();
            let whole = with_check(&octets);
            let (start, rest) = whole.split_at(plain);
            // 0x5E can't be escaped, and 0x5D at the very end is refused.
            if !rest.contains(&0x5E) && rest.last() != Some(&0x5D) {
                return [start, &escaped(&mut self.dice, rest, 1_000)].concat();
            }
        }
    }

    /// A good frame and something behind it that spoils it.
    fn with_more_behind(&mut self) -> Vec<u8> {
        let mut line = self.good();
        match self.dice.below(5) {
            0 => line.push(ESCAPE),
            1 => line.extend([ESCAPE, ESCAPE]),
            2 => line.extend([ESCAPE, 0x5E]),
            3 => line.push(PLAIN),
            _ => {
                let length = self.dice.below(300);
                line.extend(self.noise(length));
            }
        }
        line
    }

    /// So many octets without a flag.
    pub(super) fn noise(&mut self, length: usize) -> Vec<u8> {
        let mut noise = self.dice.octets(length);
        for octet in &mut noise {
            if *octet == FLAG {
                *octet = ESCAPE;
            }
        }
        noise
    }
}

/// Octets and their two check octets.
fn with_check(octets: &[u8]) -> Vec<u8> {
    [octets, &check::check_octets(octets)].concat()
}
