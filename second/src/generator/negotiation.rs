//! Negotiations, well formed and nearly so; frames about the longest that a
//! link takes; and questions for the limit.

use std::io;

use super::xid::Triple;
use super::Generator;
use crate::device::{EVERYONE, I, POLL, XID};
use crate::frame::longest_frame;
use crate::negotiation::{LENGTH_RECEIVED, LENGTH_SENT, WINDOW_RECEIVED, WINDOW_SENT};
use crate::record::Link;
use crate::xid::{BUS_GROUP, HDLC_GROUP};

impl Generator<'_> {
    /// A negotiation to the device's own address; now and then to another one,
    /// or with the poll bit clear.
    pub(super) fn negotiate(&mut self, device: usize) -> io::Result<()> {
        let own = self.record(device).address;
        let payload = self.negotiation(200);
        let (address, control) = match self.dice.below(24) {
            0 | 1 => (EVERYONE, XID),
            2 => (own, XID & !POLL),
            3 => (self.dice.pick(&[0, own ^ 1, own.wrapping_add(1)]), XID),
            _ => (own, XID),
        };
        self.give(device, address, control, &payload)
    }

    /// The payload of a negotiation, spoilt so many times of a thousand.
    pub(super) fn negotiation(&mut self, spoilt: usize) -> Vec<u8> {
        let mut triples = Vec::new();
        for identifier in [LENGTH_SENT, LENGTH_RECEIVED, WINDOW_SENT, WINDOW_RECEIVED] {
            if self.dice.chance(480) {
                triples.push((identifier, self.negotiated_value(identifier)));
            }
        }
        self.same_length_twice(&mut triples);
        if self.dice.chance(600) {
            self.dice.shuffle(&mut triples);
        }
        let mut group = HDLC_GROUP;
        if self.dice.chance(spoilt) {
            match self.dice.below(12) {
                0 => group = self.dice.pick(&[BUS_GROUP, BUS_GROUP, 0x00, 0x82]),
                _ => self.spoil_negotiation(&mut triples),
            }
        }
        self.payload_of(group, &triples)
    }

    fn negotiated_value(&mut self, identifier: u8) -> Vec<u8> {
        if matches!(identifier, WINDOW_SENT | WINDOW_RECEIVED) {
            return vec![self.dice.pick(&[0, 1, 1, 2, 7, 0xFF])];
        }
        let octets = self.length_in_bits().to_be_bytes();
        let least = octets.iter().position(|&octet| octet != 0).map_or(1, |zeros| 4 - zeros);
        let length = match self.dice.below(3) {
            0 => self.dice.between(least as i64, 4) as usize,
            1 => least,
            _ => least.max(2),
        };
        octets[4 - length..].to_vec()
    }

    /// Now and then 6 asks what 5 asks, perhaps in more octets.
    fn same_length_twice(&mut self, triples: &mut [Triple]) {
        if let [(LENGTH_SENT, sent), (LENGTH_RECEIVED, received), ..] = triples {
            if self.dice.chance(120) {
                *received = sent.clone();
                if received.len() < 4 && self.dice.chance(500) {
                    received.insert(0, 0);
                }
            }
        }
    }

    /// An I-field length: about the least and the greatest that count, between
    /// them, far outside.
    fn length_in_bits(&mut self) -> u32 {
        let octets = match self.dice.weighed(&[5, 7, 10, 4, 1]) {
            0 => self.dice.between(72, 78),
            1 => self.dice.between(254, 258),
            2 => self.dice.between(74, 256),
            3 => {
                let far = [0, 1, 255, 256, 65_535, 65_536, 66_128, 0xFF_FFFF, 0x100_0000, u32::MAX];
                return self.dice.pick(&far);
            }
            _ => return self.dice.draw() as u32,
        };
        let past = match self.dice.below(3) {
            0 => 0,
            1 => 7,
            _ => self.dice.below(8) as u32,
        };
        8 * octets as u32 + past
    }

    /// A repeat, another identifier, another length.
    fn spoil_negotiation(&mut self, triples: &mut Vec<Triple>) {
        if triples.is_empty() {
            let identifier = self.dice.between(5, 8) as u8;
            triples.push((identifier, self.negotiated_value(identifier)));
        }
        let place = self.dice.below(triples.len());
        let identifier = triples[place].0;
        match self.dice.below(8) {
            0 => triples.push(triples[place].clone()),
            1 => triples.push((identifier, self.negotiated_value(identifier))),
            2 => {
                let other = self.dice.pick(&[0, 1, 2, 3, 4, 9, 10, 11, 0x80, 0xFF]);
                let at = self.dice.below(triples.len() + 1);
                triples.insert(at, (other, vec![1]));
            }
            3 => triples[place].0 = self.dice.pick(&[0, 1, 4, 9, 10, 0xFF]),
            4 | 5 => triples[place].1.clear(),
            // Longer, with nothing new in it.
            6 => {
                let longer = if identifier <= LENGTH_RECEIVED { 5 } else { 2 };
                while triples[place].1.len() < longer {
                    triples[place].1.insert(0, 0);
                }
            }
            _ => {
                let octets = self.octets_up_to(6);
                triples[place].1.extend(octets);
            }
        }
    }

    /// A frame of about the most octets that the link takes: an I-frame with
    /// good numbers mostly.
    pub(super) fn at_the_edge(&mut self, device: usize) -> io::Result<()> {
        let record = self.record(device);
        let (own, longest) = (record.address, longest_frame(record.limit));
        let control = match &record.link {
            Link::Connected(session) => I + 2 * session.due + 32 * session.next_to_send(),
            _ => I,
        };
        let control = match self.dice.below(10) {
            0 => self.control(),
            1 => self.unknown_control_if(self.plan.rudeness),
            _ => control,
        };
        let length = match self.dice.below(8) {
            0 => longest - 1,
            1..=3 => longest,
            4..=6 => longest + 1,
            _ => longest + 2,
        };
        let payload = self.message_of(length - 2);
        self.give(device, own, control, &payload)
    }

    /// Any message of so many octets, its length field right mostly.
    fn message_of(&mut self, length: usize) -> Vec<u8> {
        let mut message = self.dice.octets(length);
        if self.dice.chance(700) {
            message[1..3].copy_from_slice(&((length - 3) as u16).to_le_bytes());
        }
        message
    }

    /// `limit K`, where N has just changed mostly.
    pub(super) fn ask_limit(&mut self, device: usize, before: usize) -> io::Result<()> {
        if self.record(device).limit != before && self.dice.chance(600) {
            return self.say(format!("limit {}", device + 1));
        }
        Ok(())
    }
}
