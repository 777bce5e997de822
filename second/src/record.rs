//! The device record: who the device is, its link, drive and alarms, and
//! what of all this is allowed ("Who the device is").

use std::collections::BTreeSet;

use crate::frame::{is_limit, LEAST_LIMIT};
use crate::identity::Identity;
use crate::refusal::Refusal;

/// The alarms named in document 01: "0x02, 0x03, 0x0E, 0x0F, 0x11, 0x27".
pub const ALARMS: [u8; 6] = [0x02, 0x03, 0x0E, 0x0F, 0x11, 0x27];

/// "one single-antenna tilt device (type 0x01)"
pub const DEVICE_TYPE: u8 = 0x01;

/// "Product, hardware and software texts of at most 20, 14 and 14 octets."
pub const MOST_PRODUCT: usize = 20;
pub const MOST_HARDWARE: usize = 14;
pub const MOST_SOFTWARE: usize = 14;

/// "A pending answer stays at most 74 octets: no answer of ours is longer."
pub const MOST_PENDING: usize = 74;

/// What a device is made with, besides its present tilt.
#[derive(Clone, Debug, PartialEq, Eq)]
pub struct Make {
    pub identity: Identity,
    pub product: Vec<u8>,
    pub hardware: Vec<u8>,
    pub software: Vec<u8>,
    pub lowest: i16,
    pub highest: i16,
}

/// "A session has R ..., S ... and at most one pending answer."
#[derive(Clone, Debug, Default, PartialEq, Eq)]
pub struct Session {
    /// R, the "next number due from the master"
    pub due: u8,
    /// S, the "number of the next unacknowledged answer"
    pub unacknowledged: u8,
    pub pending: Option<Answer>,
}

/// An answer that is pending until the master acknowledges it.
#[derive(Clone, Debug, PartialEq, Eq)]
pub enum Answer {
    /// A message's answer or a tilt result: its payload.
    Message(Vec<u8>),
    /// An alarm indication: its pairs of alarm and raised or not.
    Indication(Vec<(u8, bool)>),
}

/// "The link is in one of three states."
#[derive(Clone, Debug, PartialEq, Eq)]
pub enum Link {
    NoAddress,
    AddressAssigned,
    Connected(Session),
}

/// The motor, and the tilt result it may owe to the master.
#[derive(Clone, Copy, Debug, PartialEq, Eq)]
pub enum Drive {
    Still,
    /// Moving, nothing owed (the session that asked has ended).
    Moving,
    /// Moving, with a result owed for this tilt.
    MovingTo(i16),
    /// Stopped, with a result that waits: a success or not.
    Stopped {
        success: bool,
    },
}

/// What moves and what is reported: tilt, drive, alarms, subscription.
#[derive(Clone, Debug, PartialEq, Eq)]
pub struct Unit {
    pub tilt: i16,
    pub drive: Drive,
    pub raised: BTreeSet<u8>,
    pub told: BTreeSet<u8>,
    pub subscribed: bool,
}

/// One device.
#[derive(Clone, Debug, PartialEq, Eq)]
pub struct Record {
    pub make: Make,
    pub address: u8,
    /// The frame limit N: "a number of the link, beside the address".
    pub limit: usize,
    pub link: Link,
    pub unit: Unit,
}

impl Make {
    /// The rules for device data, apart from the present tilt's.
    fn is_allowed(&self) -> bool {
        self.identity.is_allowed()
            && self.product.len() <= MOST_PRODUCT
            && self.hardware.len() <= MOST_HARDWARE
            && self.software.len() <= MOST_SOFTWARE
    }
}

impl Answer {
    /// The answer's payload. "An indication is code 0x07, length, then pairs
    /// alarm and 1 (raised) or 0."
    pub fn payload(&self) -> Vec<u8> {
        match self {
            Answer::Message(payload) => payload.clone(),
            Answer::Indication(pairs) => {
                let mut payload = vec![0x07];
                payload.extend((2 * pairs.len() as u16).to_le_bytes());
                payload.extend(pairs.iter().flat_map(|&(alarm, raised)| [alarm, u8::from(raised)]));
                payload
            }
        }
    }

    /// "a pending answer of at most 74 payload octets (an indication: as
    /// below)"; below: pairs, ascending, of alarms, sent only if "there is
    /// something to tell".
    fn is_allowed(&self) -> bool {
        match self {
            Answer::Message(payload) => payload.len() <= MOST_PENDING,
            Answer::Indication(pairs) => {
                !pairs.is_empty()
                    && pairs.iter().all(|(alarm, _)| ALARMS.contains(alarm))
                    && pairs.windows(2).all(|two| two[0].0 < two[1].0)
            }
        }
    }
}

impl Session {
    /// "session numbers of 0 to 7", and the pending answer's rule.
    fn is_allowed(&self) -> bool {
        self.due <= 7
            && self.unacknowledged <= 7
            && self.pending.as_ref().is_none_or(Answer::is_allowed)
    }

    /// "V(S) is S, or S+1 with an answer pending."
    pub fn next_to_send(&self) -> u8 {
        match self.pending {
            Some(_) => after(self.unacknowledged),
            None => self.unacknowledged,
        }
    }
}

impl Drive {
    /// A running movement.
    pub fn is_moving(self) -> bool {
        matches!(self, Drive::Moving | Drive::MovingTo(_))
    }

    /// "busy while moving or while a result waits"
    pub fn is_busy(self) -> bool {
        self != Drive::Still
    }

    /// A tilt result owed: of a movement that runs, or waiting.
    pub fn owes_result(self) -> bool {
        matches!(self, Drive::MovingTo(_) | Drive::Stopped { .. })
    }

    /// Drops "any tilt result owed"; "a running movement" stays.
    pub fn drop_result(&mut self) {
        *self = if self.is_moving() { Drive::Moving } else { Drive::Still };
    }
}

impl Unit {
    /// "pairs alarm and 1 (raised) or 0, ascending, for alarms whose present
    /// state differs from what was told"
    pub fn something_to_tell(&self) -> Vec<(u8, bool)> {
        self.raised
            .symmetric_difference(&self.told)
            .map(|&alarm| (alarm, self.raised.contains(&alarm)))
            .collect()
    }

    /// "Told is updated ... to what it said."
    pub fn tell(&mut self, said: &[(u8, bool)]) {
        for &(alarm, raised) in said {
            if raised {
                self.told.insert(alarm);
            } else {
                self.told.remove(&alarm);
            }
        }
    }

    /// "only alarms named below"
    fn alarms_are_named(&self) -> bool {
        self.raised.union(&self.told).all(|alarm| ALARMS.contains(alarm))
    }
}

impl Record {
    /// "A fresh device has address 0 and no alarms, subscription or movement";
    /// its N is "78 in a fresh device".
    pub fn fresh(make: Make, present: i16) -> Result<Record, Refusal> {
        let unit = Unit {
            tilt: present,
            drive: Drive::Still,
            raised: BTreeSet::new(),
            told: BTreeSet::new(),
            subscribed: false,
        };
        let record = Record { make, address: 0, limit: LEAST_LIMIT, link: Link::NoAddress, unit };
        if record.is_allowed() {
            Ok(record)
        } else {
            Err(Refusal::NotAllowed)
        }
    }

    /// Everything that "Who the device is" asks of device data and of "a
    /// record handed in". "Anything else is refusal 6."
    pub fn is_allowed(&self) -> bool {
        self.make.is_allowed()
            && self.in_range(self.unit.tilt)
            && self.address <= 254
            && is_limit(self.limit)
            && (self.address == 0) == (self.link == Link::NoAddress)
            && self.session().is_none_or(Session::is_allowed)
            && (self.session().is_some() || !self.unit.drive.owes_result())
            && self.unit.alarms_are_named()
    }

    /// "lowest ≤ present ≤ highest"
    pub fn in_range(&self, tilt: i16) -> bool {
        (self.make.lowest..=self.make.highest).contains(&tilt)
    }

    /// The session, in Connected.
    pub fn session(&self) -> Option<&Session> {
        match &self.link {
            Link::Connected(session) => Some(session),
            _ => None,
        }
    }

    /// "Ending a session drops the pending answer and any tilt result owed;
    /// alarms, subscription and a running movement stay." N is "78 again after
    /// an assignment or a session's end".
    pub fn end_session(&mut self, then: Link) {
        self.link = then;
        self.limit = LEAST_LIMIT;
        self.unit.drive.drop_result();
    }
}

/// "Numbers run 0 to 7 and round."
pub fn after(number: u8) -> u8 {
    (number + 1) % 8
}

#[cfg(test)]
mod tests {
    use super::*;

    fn make() -> Make {
        Make {
            identity: Identity::new(b"KA1234"),
            product: b"p".to_vec(),
            hardware: b"h".to_vec(),
            software: b"s".to_vec(),
            lowest: -20,
            highest: 100,
        }
    }

    fn connected() -> Record {
        let mut record = Record::fresh(make(), 0).unwrap();
        record.address = 7;
        record.link = Link::Connected(Session::default());
        record
    }

    fn spoilt(spoil: impl Fn(&mut Record)) -> bool {
        let mut record = connected();
        assert!(record.is_allowed());
        spoil(&mut record);
        !record.is_allowed()
    }

    fn pending(answer: Answer) -> Link {
        Link::Connected(Session { due: 0, unacknowledged: 0, pending: Some(answer) })
    }

    #[test]
    fn device_data_not_allowed() {
        let data = |spoil: fn(&mut Make), present| {
            let mut make = make();
            spoil(&mut make);
            Record::fresh(make, present).is_ok()
        };
        assert!(data(|_| (), -20) && data(|_| (), 100));
        assert!(!data(|_| (), -21) && !data(|_| (), 101));
        assert!(data(|make| make.product = vec![0; 20], 0));
        assert!(!data(|make| make.product = vec![0; 21], 0));
        assert!(data(|make| make.hardware = vec![0; 14], 0));
        assert!(!data(|make| make.hardware = vec![0; 15], 0));
        assert!(data(|make| make.software = vec![0; 14], 0));
        assert!(!data(|make| make.software = vec![0; 15], 0));
        assert!(!data(|make| make.lowest = 101, 101));
    }

    #[test]
    fn records_not_allowed() {
        assert!(spoilt(|record| record.address = 255));
        assert!(spoilt(|record| record.address = 0));
        assert!(spoilt(|record| record.link = Link::NoAddress));
        assert!(spoilt(|record| record.unit.tilt = 101));
        for limit in [0, 77, 261, 65_535, usize::MAX] {
            assert!(spoilt(|record| record.limit = limit));
        }
        for limit in [78, 79, 259, 260] {
            assert!(!spoilt(|record| record.limit = limit));
        }
        assert!(spoilt(|record| {
            record.unit.raised.insert(0x04);
        }));
        assert!(spoilt(|record| {
            record.unit.told.insert(0x12);
        }));
        for (due, unacknowledged) in [(8, 0), (0, 8)] {
            assert!(spoilt(|record| {
                record.link = Link::Connected(Session { due, unacknowledged, pending: None });
            }));
        }
    }

    #[test]
    fn pending_answers_not_allowed() {
        assert!(!spoilt(|record| record.link = pending(Answer::Message(vec![0; 74]))));
        assert!(spoilt(|record| record.link = pending(Answer::Message(vec![0; 75]))));
        // With a larger N too.
        for (length, refused) in [(74, false), (75, true), (256, true)] {
            assert_eq!(
                spoilt(|record| {
                    record.limit = 260;
                    record.link = pending(Answer::Message(vec![0; length]));
                }),
                refused
            );
        }
        assert!(!spoilt(
            |record| record.link = pending(Answer::Indication(vec![(2, true), (3, false)]))
        ));
        assert!(spoilt(
            |record| record.link = pending(Answer::Indication(vec![(3, true), (2, false)]))
        ));
        assert!(spoilt(|record| record.link = pending(Answer::Indication(vec![(4, true)]))));
        assert!(spoilt(|record| record.link = pending(Answer::Indication(vec![]))));
    }

    #[test]
    fn a_result_is_owed_only_in_connected() {
        for drive in [Drive::MovingTo(3), Drive::Stopped { success: true }] {
            assert!(!spoilt(|record| record.unit.drive = drive));
            assert!(spoilt(|record| {
                record.unit.drive = drive;
                record.link = Link::AddressAssigned;
            }));
        }
        assert!(!spoilt(|record| {
            record.unit.drive = Drive::Moving;
            record.link = Link::AddressAssigned;
        }));
    }
}
