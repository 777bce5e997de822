//! XID to the device's own address: the frame limit negotiated (request (iv)).

use crate::frame::{longest_payload, LEAST_LIMIT, MOST_LIMIT};
use crate::record::Record;
use crate::xid::{triples, written, HDLC_GROUP};

/// "Identifiers: 5 and 6, the I-field length in bits, sent and received"
pub const LENGTH_SENT: u8 = 5;
pub const LENGTH_RECEIVED: u8 = 6;
/// "7 and 8, the windows, 1 octet"
pub const WINDOW_SENT: u8 = 7;
pub const WINDOW_RECEIVED: u8 = 8;

/// "Any value of a window is answered 1."
const WINDOW: u8 = 1;

/// What a negotiation asks.
#[derive(Debug, Default, PartialEq, Eq)]
struct Asked {
    /// The bits of 5 and of 6, where given.
    length_sent: Option<u32>,
    length_received: Option<u32>,
    /// 7 and 8 are given; their values say nothing.
    window_sent: bool,
    window_received: bool,
}

/// The payload of the answer to an XID frame at the own address, or silence.
/// The record's N becomes the one negotiated: "session numbers, the pending
/// answer and all else stay". Silence "now holds for other groups and
/// malformed ones".
pub fn answer(record: &mut Record, payload: &[u8]) -> Option<Vec<u8>> {
    let asked = Asked::read(payload)?;
    record.limit = asked.limit(record.limit);
    Some(asked.answered(record.limit))
}

impl Asked {
    /// "0x81, 0x80, a length of one octet equal to all that follows, then
    /// triples that fill it exactly." "No triple at all is well formed."
    fn read(payload: &[u8]) -> Option<Asked> {
        let mut asked = Asked::default();
        for (identifier, value) in triples(HDLC_GROUP, payload)? {
            asked.keep(identifier, value)?;
        }
        Some(asked)
    }

    /// "Any order. A repeat, another identifier (also one that ISO/IEC 13239
    /// knows and we do not), another length: malformed, so silence."
    fn keep(&mut self, identifier: u8, value: &[u8]) -> Option<()> {
        match identifier {
            LENGTH_SENT => keep_length(&mut self.length_sent, value),
            LENGTH_RECEIVED => keep_length(&mut self.length_received, value),
            WINDOW_SENT => keep_window(&mut self.window_sent, value),
            WINDOW_RECEIVED => keep_window(&mut self.window_received, value),
            _ => None,
        }
    }

    /// "5 and 6 where given, the smaller of them, in whole octets (bits / 8,
    /// rounded down), brought to at least 74 and at most 256; N is that plus
    /// 4. Where neither is given, N stays."
    fn limit(&self, present: usize) -> usize {
        match self.length_sent.into_iter().chain(self.length_received).min() {
            Some(bits) => {
                let octets = (bits / 8) as usize;
                octets.clamp(longest_payload(LEAST_LIMIT), longest_payload(MOST_LIMIT)) + 4
            }
            None => present,
        }
    }

    /// "0x81, 0x80, length, then each identifier that was asked, ascending: 5
    /// and 6 with two octets, (N - 4) · 8, highest first; 7 and 8 with one
    /// octet, 1."
    fn answered(&self, limit: usize) -> Vec<u8> {
        let bits = (8 * longest_payload(limit) as u16).to_be_bytes();
        let all: [(bool, (u8, &[u8])); 4] = [
            (self.length_sent.is_some(), (LENGTH_SENT, &bits)),
            (self.length_received.is_some(), (LENGTH_RECEIVED, &bits)),
            (self.window_sent, (WINDOW_SENT, &[WINDOW])),
            (self.window_received, (WINDOW_RECEIVED, &[WINDOW])),
        ];
        let asked: Vec<(u8, &[u8])> =
            all.into_iter().filter(|(asked, _)| *asked).map(|(_, triple)| triple).collect();
        written(HDLC_GROUP, &asked)
    }
}

/// "the I-field length in bits ..., 1 to 4 octets, highest octet first"
fn keep_length(place: &mut Option<u32>, value: &[u8]) -> Option<()> {
    if place.is_some() || !(1..=4).contains(&value.len()) {
        return None;
    }
    *place = Some(value.iter().fold(0, |bits, &octet| bits << 8 | u32::from(octet)));
    Some(())
}

/// A window is "1 octet".
fn keep_window(place: &mut bool, value: &[u8]) -> Option<()> {
    if *place || value.len() != 1 {
        return None;
    }
    *place = true;
    Some(())
}

#[cfg(test)]
mod tests {
    use super::*;

    fn payload(triples: &[(u8, &[u8])]) -> Vec<u8> {
        written(HDLC_GROUP, triples)
    }

    fn limit_of(triples: &[(u8, &[u8])]) -> usize {
        Asked::read(&payload(triples)).unwrap().limit(100)
    }

    #[test]
    fn the_field_is_filled_exactly() {
        let good = payload(&[(5, &[8, 0]), (8, &[7])]);
        assert_eq!(good, [0x81, 0x80, 7, 5, 2, 8, 0, 8, 1, 7]);
        assert!(Asked::read(&good).is_some());
        for end in 0..good.len() {
            assert_eq!(Asked::read(&good[..end]), None);
        }
        assert_eq!(Asked::read(&[0x81, 0x80, 8, 5, 2, 8, 0, 8, 1, 7, 0]), None);
        assert_eq!(Asked::read(&[0x81, 0x80, 8, 5, 2, 8, 0, 8, 1, 7, 6]), None);
        assert_eq!(Asked::read(&[0x80, 0x80, 7, 5, 2, 8, 0, 8, 1, 7]), None);
        assert_eq!(Asked::read(&[0x81, 0xF0, 7, 5, 2, 8, 0, 8, 1, 7]), None);
        assert_eq!(Asked::read(&[0x81, 0x80, 0]), Some(Asked::default()));
    }

    #[test]
    fn identifiers_and_their_lengths() {
        for identifier in 0..=255 {
            for length in 0..=6 {
                let value = vec![1; length];
                let known = match identifier {
                    5 | 6 => (1..=4).contains(&length),
                    7 | 8 => length == 1,
                    _ => false,
                };
                let read = Asked::read(&payload(&[(identifier, &value)]));
                assert_eq!(read.is_some(), known, "{identifier} {length}");
            }
        }
    }

    #[test]
    fn a_repeat_is_malformed() {
        for identifier in 5..=8 {
            assert!(Asked::read(&payload(&[(identifier, &[0])])).is_some());
            for value in [0, 1] {
                let twice = payload(&[(identifier, &[0]), (identifier, &[value])]);
                assert_eq!(Asked::read(&twice), None);
            }
        }
    }

    #[test]
    fn every_length_in_bits() {
        for bits in 0..=70_000_u32 {
            let octets = (bits / 8).clamp(74, 256) as usize;
            for identifier in [5, 6] {
                assert_eq!(limit_of(&[(identifier, &bits.to_be_bytes())]), octets + 4, "{bits}");
            }
        }
        assert_eq!(limit_of(&[(5, &[0xFF; 4])]), 260);
        assert_eq!(limit_of(&[(6, &[0xFF; 3])]), 260);
        assert_eq!(limit_of(&[(6, &[0x80, 0, 0, 0])]), 260);
    }

    #[test]
    fn the_smaller_of_two() {
        assert_eq!(limit_of(&[(5, &[3, 0]), (6, &[4, 0])]), 100);
        assert_eq!(limit_of(&[(6, &[3, 0]), (5, &[4, 0])]), 100);
        assert_eq!(limit_of(&[(5, &[0xFF]), (6, &[0, 1, 0, 0])]), 78);
        assert_eq!(limit_of(&[(5, &[3, 0]), (6, &[0, 0, 2, 255])]), 99);
        // 775 bits are 96 whole octets, 776 are 97.
        assert_eq!(limit_of(&[(5, &[3, 7]), (6, &[3, 8])]), 100);
        assert_eq!(limit_of(&[(5, &[3, 9]), (6, &[3, 8])]), 101);
    }

    #[test]
    fn none_given_keeps_the_limit() {
        for limit in [78, 79, 200, 260] {
            for given in [&[][..], &[(7, &[9][..])], &[(8, &[0])], &[(7, &[2]), (8, &[3])]] {
                assert_eq!(Asked::read(&payload(given)).unwrap().limit(limit), limit);
            }
        }
    }

    #[test]
    fn answers_ascend() {
        let asked = Asked::read(&payload(&[(8, &[9]), (6, &[1]), (7, &[0]), (5, &[2])])).unwrap();
        assert_eq!(
            asked.answered(78),
            payload(&[(5, &[2, 80]), (6, &[2, 80]), (7, &[1]), (8, &[1])])
        );
        assert_eq!(
            asked.answered(260),
            payload(&[(5, &[8, 0]), (6, &[8, 0]), (7, &[1]), (8, &[1])])
        );
        assert_eq!(Asked::default().answered(260), [0x81, 0x80, 0]);
    }
}
