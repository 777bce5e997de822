//! XID: the payload's form, which both groups share; and XID from address
//! 0xFF, the scan and the assignment. What is sent to the own address is in
//! `negotiation.rs`.

use crate::identity::{Identity, PADDED, VENDOR};
use crate::record::{Link, Record, DEVICE_TYPE};

/// "Payload: 0x81, 0xF0, ..."
const FORMAT: u8 = 0x81;
/// The group of scan and assignment.
pub const BUS_GROUP: u8 = 0xF0;
/// The group of "the HDLC parameters of ISO/IEC 13239".
pub const HDLC_GROUP: u8 = 0x80;

pub const IDENTITY: u8 = 1;
pub const ADDRESS: u8 = 2;
pub const MASK: u8 = 3;
pub const TYPE: u8 = 4;
pub const VENDOR_CODE: u8 = 6;

/// "In an assignment, type 0xFF and vendor 0xFF 0xFF match every device";
/// "one octet FF of two is no wild card; a scan has no such rule".
pub const ANY_TYPE: u8 = 0xFF;
pub const ANY_VENDOR: [u8; VENDOR] = [0xFF; VENDOR];

/// The values found in a payload, each at most once.
#[derive(Debug, Default, PartialEq, Eq)]
struct Parameters<'frame> {
    identity: Option<&'frame [u8]>,
    address: Option<&'frame [u8]>,
    mask: Option<&'frame [u8]>,
    device_type: Option<&'frame [u8]>,
    vendor: Option<&'frame [u8]>,
}

/// The payload of the answer to an XID frame, or silence. An assignment that
/// is meant for this device is carried out.
pub fn answer(record: &mut Record, payload: &[u8]) -> Option<Vec<u8>> {
    let parameters = Parameters::read(payload)?;
    if parameters.is_scan() {
        parameters.scan(record)
    } else {
        parameters.assign(record)
    }
}

/// The triples of a payload of this group: "a length equal to all that
/// follows, then triples of identifier, length, value that fill it exactly".
/// Nothing where the payload isn't of that form, or of another group.
pub fn triples(group: u8, payload: &[u8]) -> Option<Vec<(u8, &[u8])>> {
    let [FORMAT, of_group, length, field @ ..] = payload else {
        return None;
    };
    if *of_group != group || usize::from(*length) != field.len() {
        return None;
    }
    let mut triples = Vec::new();
    let mut rest = field;
    while !rest.is_empty() {
        let [identifier, length, following @ ..] = rest else {
            return None;
        };
        let (value, next) = following.split_at_checked(usize::from(*length))?;
        triples.push((*identifier, value));
        rest = next;
    }
    Some(triples)
}

impl<'frame> Parameters<'frame> {
    /// The payload's triples, each kept where it belongs. "At 0xFF the group
    /// 0x80 is malformed, as before."
    fn read(payload: &'frame [u8]) -> Option<Parameters<'frame>> {
        let mut parameters = Parameters::default();
        for (identifier, value) in triples(BUS_GROUP, payload)? {
            parameters.keep(identifier, value)?;
        }
        Some(parameters)
    }

    /// "Identifiers 1 (identity, 1 to 19), 2 (address, 1), 3 (mask, 1 to 19),
    /// 4 (type, 1), 6 (vendor, 2), any order. A repeat, another identifier,
    /// another length: silence."
    fn keep(&mut self, identifier: u8, value: &'frame [u8]) -> Option<()> {
        let (place, lengths) = match identifier {
            IDENTITY => (&mut self.identity, 1..=PADDED),
            ADDRESS => (&mut self.address, 1..=1),
            MASK => (&mut self.mask, 1..=PADDED),
            TYPE => (&mut self.device_type, 1..=1),
            VENDOR_CODE => (&mut self.vendor, VENDOR..=VENDOR),
            _ => return None,
        };
        if place.is_some() || !lengths.contains(&value.len()) {
            return None;
        }
        *place = Some(value);
        Some(())
    }

    /// "Scan: exactly 1 and 3."
    fn is_scan(&self) -> bool {
        self.identity.is_some()
            && self.mask.is_some()
            && self.address.is_none()
            && self.device_type.is_none()
            && self.vendor.is_none()
    }

    /// 1 and 3 "of equal length", then the comparison from the left. "Answer,
    /// in any state: 1 (unpadded, n octets), 2, 4 in that order."
    fn scan(&self, record: &Record) -> Option<Vec<u8>> {
        let identity = &record.make.identity;
        if !identity.left_matches(self.identity?, self.mask?) {
            return None;
        }
        let triples: [(u8, &[u8]); 3] =
            [(IDENTITY, identity.unpadded()), (ADDRESS, &[record.address]), (TYPE, &[DEVICE_TYPE])];
        Some(written(BUS_GROUP, &triples))
    }

    /// "Then any session ends, the address is taken, the state is
    /// AddressAssigned, and the answer from the new address has 1 and 4."
    fn assign(&self, record: &mut Record) -> Option<Vec<u8>> {
        let address = self.address_for(record)?;
        record.end_session(Link::AddressAssigned);
        record.address = address;
        let identity = record.make.identity.unpadded();
        Some(written(BUS_GROUP, &[(IDENTITY, identity), (TYPE, &[DEVICE_TYPE])]))
    }

    /// "Assignment: 2 present, 3 absent, value 1 to 254." What is given of 1,
    /// 4 and 6 must match this device, each by its own rule.
    fn address_for(&self, record: &Record) -> Option<u8> {
        let address = *self.address?.first()?;
        let identity = &record.make.identity;
        let meant = self.mask.is_none()
            && (1..=254).contains(&address)
            && self.identity.is_none_or(|value| identity.right_matches(value))
            && self.device_type.is_none_or(type_matches)
            && self.vendor.is_none_or(|value| vendor_matches(identity, value));
        meant.then_some(address)
    }
}

/// An assignment's 4: "If 4 or 6 is given, it is equal", or it is the wild
/// card. "From now on those two values match every device in an assignment."
fn type_matches(value: &[u8]) -> bool {
    value == [DEVICE_TYPE] || value == [ANY_TYPE]
}

/// The same for an assignment's 6.
fn vendor_matches(identity: &Identity, value: &[u8]) -> bool {
    value == identity.vendor() || value == ANY_VENDOR
}

/// A payload of 0x81, group, length and triples. What passes the length octet
/// can't be said; no caller's triples do.
pub fn written(group: u8, triples: &[(u8, &[u8])]) -> Vec<u8> {
    let mut field = Vec::new();
    for (identifier, value) in triples {
        field.extend([*identifier, value.len() as u8]);
        field.extend(*value);
    }
    let mut payload = vec![FORMAT, group, field.len() as u8];
    payload.extend(field);
    payload
}

#[cfg(test)]
mod tests {
    use super::*;

    const SCAN_ALL: [u8; 9] = [0x81, 0xF0, 6, 1, 1, 0, 3, 1, 0];

    #[test]
    fn the_field_is_filled_exactly() {
        assert!(Parameters::read(&SCAN_ALL).unwrap().is_scan());
        for end in 0..SCAN_ALL.len() {
            assert_eq!(Parameters::read(&SCAN_ALL[..end]), None);
        }
        assert_eq!(Parameters::read(&[0x81, 0xF0, 7, 1, 1, 0, 3, 1, 0, 0]), None);
        assert_eq!(Parameters::read(&[0x81, 0xF0, 7, 1, 1, 0, 3, 1, 0, 4]), None);
        assert_eq!(Parameters::read(&[0x80, 0xF0, 6, 1, 1, 0, 3, 1, 0]), None);
        assert_eq!(Parameters::read(&[0x81, 0xF1, 6, 1, 1, 0, 3, 1, 0]), None);
        assert_eq!(Parameters::read(&[0x81, 0x80, 6, 1, 1, 0, 3, 1, 0]), None);
        assert_eq!(Parameters::read(&[0x81, 0x80, 0]), None);
        assert_eq!(Parameters::read(&[0x81, 0xF0, 0]), Some(Parameters::default()));
    }

    #[test]
    fn identifiers_and_their_lengths() {
        for (identifier, lengths) in [(1, 1..=19), (2, 1..=1), (3, 1..=19), (4, 1..=1), (6, 2..=2)]
        {
            for length in 0..=25 {
                let value = vec![0x55; length];
                let read = written(BUS_GROUP, &[(identifier, &value)]);
                assert_eq!(Parameters::read(&read).is_some(), lengths.contains(&length));
            }
        }
        for identifier in [0, 5, 7, 0xFF] {
            assert_eq!(Parameters::read(&written(BUS_GROUP, &[(identifier, &[1])])), None);
        }
    }

    #[test]
    fn a_repeat_is_silence() {
        for (identifier, value) in [(1, &[1][..]), (2, &[1]), (3, &[1]), (4, &[1]), (6, &[1, 1])] {
            let triple = (identifier, value);
            assert!(Parameters::read(&written(BUS_GROUP, &[triple])).is_some());
            assert_eq!(Parameters::read(&written(BUS_GROUP, &[triple, triple])), None);
        }
    }

    #[test]
    fn an_assignment_names_the_own_type_or_any() {
        for octet in 0..=0xFF {
            assert_eq!(type_matches(&[octet]), octet == 0x01 || octet == 0xFF, "{octet:02x}");
        }
    }

    #[test]
    fn an_assignment_names_the_own_vendor_or_any() {
        let identity = Identity::new(b"KA1234");
        for first in 0..=0xFF {
            for second in 0..=0xFF {
                let vendor = [first, second];
                let matches = vendor == *b"KA" || vendor == [0xFF, 0xFF];
                assert_eq!(vendor_matches(&identity, &vendor), matches, "{vendor:02x?}");
            }
        }
    }
}
