//! Lines that make devices, and those that are refused.

use std::io;

use super::Generator;
use crate::bench::MOST_DEVICES;

/// The seven words of a device line.
struct Data {
    identity: Vec<u8>,
    texts: [Vec<u8>; 3],
    tilts: [i64; 3],
}

impl Generator<'_> {
    /// The bench as the plan has it, nearly.
    pub(super) fn first_devices(&mut self) -> io::Result<()> {
        let some = self.plan.devices - self.plan.devices / 4;
        for _ in 0..some {
            self.good_device()?;
        }
        Ok(())
    }

    /// One more device, or a device line that gets no device.
    pub(super) fn another_device(&mut self) -> io::Result<()> {
        let there = self.bench.devices.len();
        let good = if there < self.plan.devices {
            600
        } else if there == MOST_DEVICES {
            300
        } else {
            0
        };
        if self.dice.chance(good) {
            self.good_device()
        } else {
            self.bad_device()
        }
    }

    fn good_device(&mut self) -> io::Result<()> {
        let data = self.good_data();
        self.say_device(&data)
    }

    fn good_data(&mut self) -> Data {
        let identity = self.identity();
        let texts = [self.text(20), self.text(14), self.text(14)];
        let (lowest, highest) = self.range();
        let present = match self.dice.below(4) {
            0 => lowest,
            1 => highest,
            _ => self.dice.between(lowest, highest),
        };
        Data { identity, texts, tilts: [lowest, highest, present] }
    }

    fn range(&mut self) -> (i64, i64) {
        match self.dice.below(6) {
            0 | 1 => (-20, 100),
            2 => (i64::from(i16::MIN), i64::from(i16::MAX)),
            3 => {
                let only = self.dice.between(-300, 300);
                (only, only)
            }
            _ => {
                let lowest = self.dice.between(-400, 400);
                (lowest, lowest + self.dice.between(1, 300))
            }
        }
    }

    /// An identity: a new one, or another device's again.
    fn identity(&mut self) -> Vec<u8> {
        let there = self.bench.devices.len();
        if self.plan.twins && there > 0 && self.dice.chance(40) {
            let other = self.dice.below(there);
            return self.bench.devices[other].make.identity.unpadded().to_vec();
        }
        // In a cluster of 18 octets the 32nd still finds one within few throws.
        let mut identity = self.any_identity();
        while self.bench.devices.iter().any(|device| device.make.identity.unpadded() == identity) {
            identity = self.any_identity();
        }
        identity
    }

    /// An identity in the cluster, or a scattered one.
    fn any_identity(&mut self) -> Vec<u8> {
        let mut identity = if self.plan.clustered && self.dice.chance(850) {
            self.plan.cluster.clone()
        } else {
            Vec::new()
        };
        let least = (identity.len() + 1).max(3) as i64;
        let length = if self.dice.chance(300) { 19 } else { self.dice.between(least, 19) };
        while identity.len() < length as usize {
            identity.push(self.dice.between(0x20, 0x7E) as u8);
        }
        if let Some(last @ 0x20) = identity.last_mut() {
            *last = 0x21;
        }
        identity
    }

    fn text(&mut self, most: usize) -> Vec<u8> {
        let length = match self.dice.below(4) {
            0 => most,
            1 => 0,
            _ => self.dice.below(most + 1),
        };
        self.dice.octets(length)
    }

    /// Device data with one thing that is not allowed.
    fn bad_device(&mut self) -> io::Result<()> {
        let mut data = self.good_data();
        match self.dice.below(10) {
            0 => data.identity.truncate(2),
            1 => data.identity = b"AB3456789012345678901234".to_vec(),
            2 => data.identity.resize(20, b'x'),
            3 => *data.identity.last_mut().unwrap_or(&mut 0) = 0x20,
            4 => {
                let place = self.dice.below(data.identity.len());
                data.identity[place] = self.dice.pick(&[0x1F, 0x7F, 0x00, 0x80, 0xFF, 0x0A]);
            }
            5 => data.identity.clear(),
            6 => self.too_long_text(&mut data),
            7 => data.tilts.swap(0, 1),
            8 => data.tilts[2] = (data.tilts[1] + 1).min(32_767),
            _ => data.tilts[2] = (data.tilts[0] - 1).max(-32_768),
        }
        self.say_device(&data)
    }

    fn too_long_text(&mut self, data: &mut Data) {
        let which = self.dice.below(3);
        let more = [1, 1, 2, 200][self.dice.below(4)];
        data.texts[which] = self.dice.octets([20, 14, 14][which] + more);
    }

    fn say_device(&mut self, data: &Data) -> io::Result<()> {
        let words = [&data.identity, &data.texts[0], &data.texts[1], &data.texts[2]];
        let words: Vec<String> = words.into_iter().map(|octets| self.hex(octets)).collect();
        let [lowest, highest, present] = data.tilts;
        self.say(format!("device {} {lowest} {highest} {present}", words.join(" ")))
    }
}
