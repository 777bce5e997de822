//! The bench: up to 32 devices on one cable, the scan record, the receiver, and
//! the scan of the bench from its start to its end.

use crate::device;
use crate::frame::{self, MOST_FRAME, MOST_WRITTEN};
use crate::receiver::Receiver;
use crate::record::Record;
use crate::refusal::Refusal;
use crate::scan::{Scan, PROBE};

/// "up to 32 tilt drives"
pub const MOST_DEVICES: usize = 32;

/// What the bench holds between two lines.
#[derive(Clone, Debug)]
pub struct Bench {
    pub devices: Vec<Record>,
    /// The scan by hand.
    pub scan: Scan,
    /// "the bench's one receiver"
    pub receiver: Receiver,
}

impl Default for Bench {
    /// "Before any `begin` the record is one made with limit 0." "Before any
    /// `listen` the receiver is a fresh one."
    fn default() -> Bench {
        Bench { devices: Vec::new(), scan: Scan::new(0), receiver: Receiver::default() }
    }
}

impl Bench {
    /// "a scan of the bench from its start to its end"; the record of the scan
    /// by hand is another one.
    pub fn scan_bench(&mut self, limit: u16) -> Result<Scan, Refusal> {
        let mut scan = Scan::new(limit);
        while scan.ending().is_none() {
            let heard = self.heard_by_someone(&scan)?;
            scan.report(heard)?;
        }
        Ok(scan)
    }

    /// "every probe goes, as a written line, to each device"; "any reply ...
    /// is 'heard'". All devices would decode the one line to the same frame,
    /// whatever their N, so it is decoded once. "A scan lends each device an
    /// answer buffer of 258 octets": room for every N.
    fn heard_by_someone(&mut self, scan: &Scan) -> Result<bool, Refusal> {
        let mut probe = [0; PROBE];
        scan.probe(&mut probe)?;
        let mut line = [0; MOST_WRITTEN];
        let length = frame::write(probe[0], probe[1], &probe[2..], &mut line)?;
        let mut heard_frame = [0; MOST_FRAME];
        let length = frame::decode(&line[1..length - 1], &mut heard_frame)?;
        let mut heard = false;
        for record in &mut self.devices {
            let mut answer = [0; MOST_FRAME];
            let answered = device::judge(record, &heard_frame[..length], &mut answer)?;
            heard |= answered.is_some();
        }
        Ok(heard)
    }
}

/// "the octets between two flags, as they come from the line: decoded, then
/// judged". "`hear` decodes with that N; a record whose N is outside gets 6
/// from the decoder at once, before its other numbers."
pub fn hear(record: &mut Record, line: &[u8], answer: &mut [u8]) -> Result<Option<usize>, Refusal> {
    let mut decoded = [0; MOST_FRAME];
    let length = frame::decode_n(record.limit, line, &mut decoded)?;
    device::judge(record, &decoded[..length], answer)
}
