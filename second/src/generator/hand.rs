//! Scans: of the bench, and by hand against answers that a policy makes up.

use std::io;

use super::Generator;
use crate::identity::PADDED;
use crate::scan::{Beginning, Scan, BITS, PROBE};

/// Who answers a scan by hand.
pub(super) enum Policy {
    Silent,
    /// Every probe is heard.
    Heard,
    /// So many probes of a thousand are heard.
    Coin(usize),
    /// These identities answer, each to beginnings of up to so many bits.
    Present(Vec<([u8; PADDED], usize)>),
}

impl Policy {
    /// What the policy answers to a probe, where the dice have no say.
    fn hears(&self, beginning: &Beginning) -> bool {
        match self {
            Policy::Silent | Policy::Coin(_) => false,
            Policy::Heard => true,
            Policy::Present(identities) => identities.iter().any(|(identity, most)| {
                let mask = beginning.mask();
                beginning.bits <= *most
                    && (0..PADDED)
                        .all(|place| identity[place] & mask[place] == beginning.octets[place])
            }),
        }
    }

    /// The probes to the scan's end with no limit in the way.
    fn exact(&self) -> u16 {
        let mut scan = Scan::new(u16::MAX);
        while let Ok(next) = scan.next() {
            if scan.report(self.hears(&next)).is_err() {
                break;
            }
        }
        scan.count()
    }
}

impl Generator<'_> {
    /// `scan LIMIT` with limits about the exact count.
    pub(super) fn scan_bench(&mut self) -> io::Result<()> {
        let limit = match self.dice.below(12) {
            0 => 0,
            1 => 1,
            2 | 3 => self.dice.below(400) as u16,
            4 => self.dice.below(12_000) as u16,
            5 => u16::MAX,
            6 | 7 => self.exact_count().saturating_sub(1),
            8 => self.exact_count() + 1,
            _ => self.exact_count(),
        };
        self.say(format!("scan {limit}"))
    }

    fn exact_count(&mut self) -> u16 {
        let count = match self.exact {
            Some(count) => count,
            None => self.bench.scan_bench(u16::MAX).map_or(0, |scan| scan.count()),
        };
        self.exact = Some(count);
        count
    }

    /// A scan by hand: begun, or gone on with; asked on after its end too.
    pub(super) fn hand(&mut self) -> io::Result<()> {
        let ended = self.bench.scan.next().is_err();
        if ended && self.dice.chance(900) || self.dice.chance(150) {
            self.begin()?;
        }
        for _ in 0..self.dice.pick(&[20, 300, 500, 700]) {
            if self.left == 0 || self.bench.scan.next().is_err() {
                break;
            }
            self.probe_or_report()?;
            if self.dice.chance(10) {
                self.codec()?;
            }
        }
        for _ in 0..self.dice.below(4) {
            self.probe_or_report()?;
        }
        Ok(())
    }

    fn begin(&mut self) -> io::Result<()> {
        self.policy = self.throw_policy();
        let exact = self.policy.exact();
        let limit = match self.dice.below(15) {
            0 => 0,
            1 => 1,
            2 => self.dice.below(200) as u16,
            3 | 4 => exact.saturating_sub(1),
            5..=7 => exact.max(1),
            8 => exact.saturating_add(1),
            9 | 10 => self.dice.below(usize::from(exact)) as u16,
            _ => u16::MAX,
        };
        self.say(format!("begin {limit}"))
    }

    fn throw_policy(&mut self) -> Policy {
        match self.dice.weighed(&[2, 3, 5, 2, 3, 8, 12]) {
            0 => Policy::Silent,
            1 => Policy::Heard,
            2 => Policy::Coin(self.dice.pick(&[300, 400, 500, 650, 950])),
            3 => Policy::Present(self.someones(1)),
            4 => Policy::Present(self.someones(2)),
            5 => {
                let count = self.dice.pick(&[32, 32, 32, 33, 34, 40]);
                let step = self.dice.pick(&[1, 1, 2, 3]);
                Policy::Present(self.neighbours(count, step))
            }
            _ => Policy::Present(self.fading()),
        }
    }

    /// Identities some of which answer no probe past a number of bits.
    fn fading(&mut self) -> Vec<([u8; PADDED], usize)> {
        let count = 1 + self.dice.below(6);
        // The neighbours part in the first bits of their last octet.
        let mut fading =
            if self.dice.chance(800) { self.neighbours(count, 40) } else { self.someones(count) };
        for (_, most) in &mut fading {
            match self.dice.below(6) {
                0 => *most = self.dice.below(BITS),
                1 | 2 => *most = BITS - 1 - self.dice.below(4),
                _ => (),
            }
        }
        fading
    }

    /// Identities anywhere.
    fn someones(&mut self, count: usize) -> Vec<([u8; PADDED], usize)> {
        (0..count).map(|_| (std::array::from_fn(|_| self.dice.octet()), BITS)).collect()
    }

    /// Identities that differ in their last two octets at most.
    fn neighbours(&mut self, count: usize, step: usize) -> Vec<([u8; PADDED], usize)> {
        let first: [u8; PADDED] = std::array::from_fn(|_| self.dice.octet());
        (0..count)
            .map(|place| {
                let mut identity = first;
                identity[PADDED - 1] = (place * step) as u8;
                if self.dice.chance(30) {
                    identity[PADDED - 2] ^= 1;
                }
                (identity, BITS)
            })
            .collect()
    }

    fn probe_or_report(&mut self) -> io::Result<()> {
        if self.dice.chance(80) {
            let room = match self.dice.below(8) {
                0 => PROBE - 1,
                1 => PROBE + 1,
                2 => 0,
                3 => self.dice.below(120),
                _ => PROBE,
            };
            return self.say(format!("probe {room}"));
        }
        let heard = match (&self.policy, self.bench.scan.next()) {
            (Policy::Coin(per_mille), _) => self.dice.chance(*per_mille),
            (policy, Ok(next)) => {
                policy.hears(&next) != (self.dice.chance(1) && self.dice.chance(300))
            }
            (_, Err(_)) => self.dice.chance(500),
        };
        self.say(format!("report {}", if heard { "heard" } else { "silent" }))
    }
}
