//! Messages for a device: all codes, right and wrong lengths, tilts in and
//! out of its range.

use super::Generator;
use crate::frame::longest_payload;
use crate::message::{KNOWN, UNSUPPORTED};

impl Generator<'_> {
    /// A message: its code, its length field, its data, right and wrong.
    pub(super) fn message(&mut self, device: usize) -> Vec<u8> {
        let code = self.code(device);
        let mut data =
            if code == 0x33 { self.tilt(device).to_le_bytes().to_vec() } else { Vec::new() };
        match self.dice.below(60) {
            0 | 1 => data = self.octets_up_to(4),
            2 => data.push(0),
            3 => {
                data.pop();
            }
            4 => {
                // About the most that the link takes.
                let most = longest_payload(self.record(device).limit) - 3;
                let length = self.dice.between(most as i64 - 5, most as i64 + 5) as usize;
                data = self.dice.octets(length);
            }
            5 => {
                let length = self.dice.below(longest_payload(self.record(device).limit));
                data = self.dice.octets(length);
            }
            _ => (),
        }
        let mut message = vec![code];
        message.extend((data.len() as u16).to_le_bytes());
        message.extend(data);
        self.spoil_message(&mut message);
        message
    }

    fn code(&mut self, device: usize) -> u8 {
        let subscribe = if self.record(device).unit.subscribed { 2 } else { 10 };
        match self.dice.weighed(&[80, 8, 10, subscribe]) {
            // Alarm status, information, clear, subscribe, set, get.
            0 => KNOWN[self.dice.weighed(&[10, 6, 6, 2, 26, 16])],
            1 => self.dice.pick(&UNSUPPORTED),
            2 => self.dice.octet(),
            _ => 0x12,
        }
    }

    fn spoil_message(&mut self, message: &mut Vec<u8>) {
        match self.dice.below(50) {
            0 => message[1] = message[1].wrapping_add(self.dice.pick(&[1, 255])),
            1 => message[2] = self.dice.pick(&[1, 0x80, 0xFF]),
            2 => message.push(self.dice.octet()),
            3 => message.truncate(self.dice.below(3)),
            _ => (),
        }
    }

    /// A tilt to ask for: in the range, at its ends, past them.
    pub(super) fn tilt(&mut self, device: usize) -> i16 {
        let record = self.record(device);
        let (lowest, highest, present) =
            (record.make.lowest, record.make.highest, record.unit.tilt);
        match self.dice.below(20) {
            0 => lowest.saturating_sub(1),
            1 => highest.saturating_add(1),
            2 => lowest,
            3 => highest,
            4 => present,
            5 => self.dice.draw() as i16,
            _ => self.dice.between(i64::from(lowest), i64::from(highest)) as i16,
        }
    }
}
