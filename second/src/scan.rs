//! The master's scanner: beginnings, probes and the walk over them.

use crate::device::{EVERYONE, XID};
use crate::frame;
use crate::identity::PADDED;
use crate::refusal::Refusal;
use crate::xid;

/// "Identities are 152 bits."
pub const BITS: usize = 152;
/// "the list holds 32"
pub const LIST: usize = 32;
/// A probe is "47 octets unescaped".
pub const PROBE: usize = 47;

/// The first bits of an identity, "most significant bit of each octet first".
#[derive(Clone, Copy, Debug, PartialEq, Eq)]
pub struct Beginning {
    pub bits: usize,
    /// The bits, and zeros past them.
    pub octets: [u8; PADDED],
}

/// A beginning that is yet to be probed.
#[derive(Clone, Debug, PartialEq, Eq)]
struct Waiting {
    beginning: Beginning,
    /// This is a 1 half, and its 0 half was silent.
    other_half_silent: bool,
}

/// How a scan ends.
#[derive(Clone, Copy, Debug, PartialEq, Eq)]
pub enum Ending {
    Complete,
    Doubtful,
    /// "At 'limit' the scan names the next probe's beginning."
    Limit(Beginning),
    /// "at 'full' the 33rd identity"
    Full(Beginning),
}

/// The scan record.
#[derive(Clone, Debug, PartialEq, Eq)]
pub struct Scan {
    limit: u16,
    count: u16,
    list: Vec<[u8; PADDED]>,
    /// What remains, the next probe last.
    remaining: Vec<Waiting>,
    doubt: bool,
    ending: Option<Ending>,
}

impl Beginning {
    /// "The first probe is the empty beginning."
    pub const EMPTY: Beginning = Beginning { bits: 0, octets: [0; PADDED] };

    /// The beginning one bit longer: its 0 half.
    fn zero_half(self) -> Beginning {
        Beginning { bits: self.bits + 1, ..self }
    }

    /// The beginning one bit longer: its 1 half.
    fn one_half(self) -> Beginning {
        let mut half = self.zero_half();
        if let Some(octet) = half.octets.get_mut(self.bits / 8) {
            *octet |= 0x80 >> (self.bits % 8);
        }
        half
    }

    /// "ones over it in 3, zeros elsewhere"
    pub fn mask(self) -> [u8; PADDED] {
        let mut mask = [0; PADDED];
        for bit in 0..self.bits.min(BITS) {
            mask[bit / 8] |= 0x80 >> (bit % 8);
        }
        mask
    }
}

impl Scan {
    /// A scan from its start. With a limit of 0 it has ended: "limit 0:
    /// 'limit', 0 probes".
    pub fn new(limit: u16) -> Scan {
        let first = Waiting { beginning: Beginning::EMPTY, other_half_silent: false };
        let mut scan = Scan {
            limit,
            count: 0,
            list: Vec::new(),
            remaining: vec![first],
            doubt: false,
            ending: None,
        };
        scan.ending = scan.ending_now();
        scan
    }

    /// "The count is the number of probes answered."
    pub fn count(&self) -> u16 {
        self.count
    }

    pub fn limit(&self) -> u16 {
        self.limit
    }

    pub fn list(&self) -> &[[u8; PADDED]] {
        &self.list
    }

    pub fn ending(&self) -> Option<Ending> {
        self.ending
    }

    /// The beginning that is to be probed next. Refusal 7 for "a scan that has
    /// ended or a record whose count isn't below its limit, whose list passes
    /// 32 or whose beginning passes 152 bits".
    pub fn next(&self) -> Result<Beginning, Refusal> {
        let next = self.remaining.last().ok_or(Refusal::ScanEnded)?.beginning;
        let refused = self.ending.is_some()
            || self.count >= self.limit
            || self.list.len() > LIST
            || next.bits > BITS;
        if refused {
            Err(Refusal::ScanEnded)
        } else {
            Ok(next)
        }
    }

    /// "A probe is the XID scan from 0xFF with 19-octet values: a beginning in
    /// 1, ones over it in 3." "The scanner 7, then 5." "Asking changes nothing
    /// in the scan."
    pub fn probe(&self, output: &mut [u8]) -> Result<usize, Refusal> {
        let next = self.next()?;
        let mut octets = vec![EVERYONE, XID];
        let triples: [(u8, &[u8]); 2] = [(xid::IDENTITY, &next.octets), (xid::MASK, &next.mask())];
        octets.extend(xid::written(xid::BUS_GROUP, &triples));
        frame::put(&octets, output)
    }

    /// An answer to the next probe: heard or silent.
    pub fn report(&mut self, heard: bool) -> Result<Option<Ending>, Refusal> {
        self.next()?;
        let Some(probed) = self.remaining.pop() else {
            return Err(Refusal::ScanEnded);
        };
        self.count += 1;
        let mut full = None;
        if heard {
            full = self.heard(probed.beginning);
        } else {
            self.silent(&probed);
        }
        // "Full beats limit."
        self.ending = full.map(Ending::Full).or_else(|| self.ending_now());
        Ok(self.ending)
    }

    /// "A heard beginning under 152 bits is followed by its 0 half, then, that
    /// done, its 1 half. A heard one of 152 bits is listed." Gives the
    /// identity of "full": "a 33rd identity is heard (not listed)".
    fn heard(&mut self, beginning: Beginning) -> Option<Beginning> {
        if beginning.bits < BITS {
            for half in [beginning.one_half(), beginning.zero_half()] {
                self.remaining.push(Waiting { beginning: half, other_half_silent: false });
            }
        } else if self.list.len() < LIST {
            self.list.push(beginning.octets);
        } else {
            return Some(beginning);
        }
        None
    }

    /// A silent 0 half leaves a mark on its 1 half, which is the next probe;
    /// a silent 1 half with the mark is the doubt: "a heard beginning had both
    /// halves silent". What remains is 1 halves, each shorter than the one
    /// after it, so the next is the other half exactly if it is as long.
    fn silent(&mut self, probed: &Waiting) {
        self.doubt |= probed.other_half_silent;
        if let Some(next) = self.remaining.last_mut() {
            next.other_half_silent = next.beginning.bits == probed.beginning.bits;
        }
    }

    /// The scan ends "as 'limit' when limit probes are answered and more
    /// remain, else when none remain".
    fn ending_now(&self) -> Option<Ending> {
        match self.remaining.last() {
            None if self.doubt => Some(Ending::Doubtful),
            None => Some(Ending::Complete),
            Some(next) if self.count >= self.limit => Some(Ending::Limit(next.beginning)),
            Some(_) => None,
        }
    }
}
