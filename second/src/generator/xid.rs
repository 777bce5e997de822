//! XID payloads: scans that match and don't, assignments right and wrong, wild
//! cards where they count and where they don't.

use super::Generator;
use crate::identity::PADDED;
use crate::record::DEVICE_TYPE;
use crate::xid::{
    written, ADDRESS, ANY_TYPE, ANY_VENDOR, BUS_GROUP, HDLC_GROUP, IDENTITY, MASK, TYPE,
    VENDOR_CODE,
};

/// Identifier and value.
pub(super) type Triple = (u8, Vec<u8>);

/// How a payload names a device's type, or its vendor, rightly.
#[derive(Clone, Copy)]
enum Name {
    Absent,
    Own,
    Wild,
}

use Name::{Absent, Own, Wild};

impl Name {
    fn triple(self, identifier: u8, own: &[u8], wild: &[u8]) -> Option<Triple> {
        match self {
            Absent => None,
            Own => Some((identifier, own.to_vec())),
            Wild => Some((identifier, wild.to_vec())),
        }
    }
}

impl Generator<'_> {
    /// A scan for a device: it matches more often than not.
    pub(super) fn xid_scan(&mut self, device: usize) -> Vec<u8> {
        let padded = self.bench.devices[device].make.identity.padded();
        let length = match self.dice.below(4) {
            0 => PADDED,
            1 => self.bench.devices[device].make.identity.unpadded().len(),
            _ => self.dice.between(1, PADDED as i64) as usize,
        };
        let mut mask = self.mask(length);
        let mut value: Vec<u8> = padded.iter().zip(&mask).map(|(own, mask)| own & mask).collect();
        let place = self.dice.below(length);
        let bit = 1 << self.dice.below(8);
        match self.dice.below(12) {
            // A bit of the value turned, inside the mask or outside it.
            0 | 1 => value[place] ^= bit,
            2 => value[place] |= !mask[place],
            // Octets FF, which are no wild card here.
            3 => {
                value.fill(0xFF);
                if self.dice.chance(500) {
                    mask.fill(0xFF);
                }
            }
            _ => (),
        }
        let mut triples = vec![(IDENTITY, value), (MASK, mask)];
        if self.dice.chance(100) {
            // No scan any more.
            let (kind, vendor) = self.dice.pick(&[(Wild, Absent), (Absent, Wild), (Wild, Wild)]);
            triples.extend(self.type_and_vendor(device, kind, vendor));
        }
        self.spoil_triples(&mut triples, 120);
        self.payload_of(BUS_GROUP, &triples)
    }

    fn mask(&mut self, length: usize) -> Vec<u8> {
        let bits = self.dice.below(8 * length + 1);
        match self.dice.below(5) {
            0 => vec![0xFF; length],
            1 => vec![0x00; length],
            2 => (0..length).map(|_| self.dice.octet()).collect(),
            _ => (0..length)
                .map(|place| {
                    let ones = bits.saturating_sub(8 * place).min(8);
                    (0xFF00_u16 >> ones) as u8
                })
                .collect(),
        }
    }

    /// An assignment for a device; wrong so many times of a thousand.
    pub(super) fn assignment(&mut self, device: usize, wrong: usize) -> Vec<u8> {
        let identity = self.bench.devices[device].make.identity.clone();
        let names = [Absent, Absent, Absent, Absent, Own, Own, Own, Wild, Wild, Wild];
        let (kind, vendor) = (self.dice.pick(&names), self.dice.pick(&names));
        let mut triples = self.right_triples(device, kind, vendor, 700);
        if self.dice.chance(wrong) {
            self.wrong_value(&mut triples, identity.unpadded());
        }
        self.spoil_triples(&mut triples, wrong / 2);
        self.payload_of(BUS_GROUP, &triples)
    }

    /// An assignment that several devices may take: by a wild card or both,
    /// seldom with a part of one device's identity or with its vendor.
    pub(super) fn shared_assignment(&mut self, device: usize) -> Vec<u8> {
        let (kind, vendor) = self.dice.pick(&[
            (Wild, Absent),
            (Absent, Wild),
            (Wild, Wild),
            (Wild, Wild),
            (Own, Wild),
            (Wild, Own),
        ]);
        let mut triples = self.right_triples(device, kind, vendor, 150);
        self.dice.shuffle(&mut triples);
        self.payload_of(BUS_GROUP, &triples)
    }

    /// What an assignment must hold for a device to take it; so many times of
    /// a thousand with a part of its identity.
    fn right_triples(
        &mut self,
        device: usize,
        kind: Name,
        vendor: Name,
        identified: usize,
    ) -> Vec<Triple> {
        let address = match self.dice.below(8) {
            0 => self.dice.pick(&[1, 254]),
            1..=4 => self.dice.between(1, 12) as u8,
            _ => self.dice.between(1, 254) as u8,
        };
        let mut triples = vec![(ADDRESS, vec![address])];
        if self.dice.chance(identified) {
            let identity = self.bench.devices[device].make.identity.clone();
            triples.push((IDENTITY, self.right_part(identity.unpadded())));
        }
        triples.extend(self.type_and_vendor(device, kind, vendor));
        triples
    }

    fn type_and_vendor(&self, device: usize, kind: Name, vendor: Name) -> Vec<Triple> {
        let own = self.bench.devices[device].make.identity.vendor();
        let kind = kind.triple(TYPE, &[DEVICE_TYPE], &[ANY_TYPE]);
        let vendor = vendor.triple(VENDOR_CODE, own, &ANY_VENDOR);
        kind.into_iter().chain(vendor).collect()
    }

    fn right_part(&mut self, identity: &[u8]) -> Vec<u8> {
        let length = match self.dice.below(3) {
            0 => identity.len(),
            1 => self.dice.between(1, 3) as usize,
            _ => self.dice.between(1, identity.len() as i64) as usize,
        };
        identity[identity.len() - length..].to_vec()
    }

    /// One value that the device must not take.
    fn wrong_value(&mut self, triples: &mut Vec<Triple>, identity: &[u8]) {
        let mut set = |identifier: u8, value: Vec<u8>| {
            triples.retain(|(other, _)| *other != identifier);
            triples.push((identifier, value));
        };
        match self.dice.below(17) {
            0 => set(ADDRESS, vec![0]),
            1 => set(ADDRESS, vec![255]),
            2 => set(TYPE, vec![self.dice.pick(&[0x02, 0x11, 0x7F])]),
            3 => set(TYPE, vec![self.dice.pick(&[0x00, 0xFE])]),
            4 => set(VENDOR_CODE, vec![identity[1], identity[0]]),
            5 => set(VENDOR_CODE, vec![identity[0], identity[1] ^ 1]),
            // Half a wild card, beside the device's own octet or another.
            6 => set(VENDOR_CODE, vec![0xFF, self.dice.pick(&[identity[1], 0xFE, 0x00])]),
            7 => set(VENDOR_CODE, vec![self.dice.pick(&[identity[0], 0xFE, 0x00]), 0xFF]),
            // From the left, padded, longer, one octet turned, all FF.
            8 => set(IDENTITY, identity[..identity.len() - 1].to_vec()),
            9 => set(IDENTITY, identity[..2].to_vec()),
            10 => set(IDENTITY, [identity, b" "].concat()),
            11 => set(IDENTITY, [b" ", identity].concat()),
            12 => {
                let mut turned = identity.to_vec();
                let place = self.dice.below(turned.len());
                turned[place] ^= 1 << self.dice.below(7);
                set(IDENTITY, turned);
            }
            13 => set(IDENTITY, vec![0xFF; 1 + self.dice.below(identity.len())]),
            14 => set(MASK, vec![0xFF; identity.len()]),
            // A wild card too long or too short.
            15 => {
                let wrong = [(TYPE, 2), (TYPE, 2), (VENDOR_CODE, 1), (VENDOR_CODE, 3)];
                let (identifier, length) = self.dice.pick(&wrong);
                set(identifier, vec![0xFF; length]);
            }
            _ => triples.retain(|(identifier, _)| *identifier != ADDRESS),
        }
    }

    /// Order, repeats, unknown identifiers, wrong lengths.
    fn spoil_triples(&mut self, triples: &mut Vec<Triple>, spoilt: usize) {
        if self.dice.chance(500) {
            self.dice.shuffle(triples);
        }
        if !self.dice.chance(spoilt) || triples.is_empty() {
            return;
        }
        let place = self.dice.below(triples.len());
        match self.dice.below(8) {
            0 => triples.push(triples[place].clone()),
            1 => triples.push((self.dice.pick(&[0, 5, 7, 8, 0x81, 0xFF]), vec![1])),
            2 => triples[place].0 = self.dice.pick(&[0, 5, 7, 1, 2, 3, 4, 6]),
            3 => triples[place].1.clear(),
            4 => {
                let last = triples[place].1.last().copied().unwrap_or(0x20);
                triples[place].1.push(self.dice.pick(&[0x20, last]));
            }
            5 => {
                triples[place].1.pop();
            }
            6 => triples.push((TYPE, vec![self.dice.pick(&[DEVICE_TYPE, ANY_TYPE])])),
            _ => triples[place].1.resize(20, 0),
        }
    }

    /// The payload, its head and outer length wrong now and then.
    pub(super) fn payload_of(&mut self, group: u8, triples: &[Triple]) -> Vec<u8> {
        let triples: Vec<(u8, &[u8])> =
            triples.iter().map(|(identifier, value)| (*identifier, &value[..])).collect();
        let mut payload = written(group, &triples);
        if self.dice.chance(50) {
            match self.dice.below(9) {
                0 => payload[0] ^= 1,
                1 => payload[1] ^= 1,
                2 => payload[2] = payload[2].wrapping_add(1),
                3 => payload[2] = payload[2].wrapping_sub(1),
                4 => payload.push(self.dice.octet()),
                5 => {
                    // One octet more, and the length says so.
                    payload.push(self.dice.pick(&[0, 1, 2, 4]));
                    payload[2] = payload[2].wrapping_add(1);
                }
                6 => payload.truncate(self.dice.below(6)),
                7 => {
                    payload.pop();
                }
                // The group of the other address.
                _ => payload[1] = if group == BUS_GROUP { HDLC_GROUP } else { BUS_GROUP },
            }
        }
        payload
    }
}
