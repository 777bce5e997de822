//! Salvage of damaged captures (request (vii)): which octets of a capture are
//! kept, which are dropped, and by which number.
//!
//! The whole capture lies in memory. It is cut at its flags, and the decoder is
//! asked about each stretch between two of them; nothing goes along the octets
//! with a state. That the receiver hands out the same is left to the tests.

use std::fmt;
use std::ops::Range;

use crate::frame::{decode_n, is_limit, FLAG, MOST_FRAME};
use crate::refusal::Refusal;

/// "or 0 for octets before the first flag or after the last"
const OUTSIDE: u8 = 0;

/// "Where each dropped stretch began, how long it was, and its refusal number."
#[derive(Clone, Copy, Debug, PartialEq, Eq)]
pub struct Dropped {
    /// "offsets from 0"
    pub offset: usize,
    pub length: usize,
    pub number: u8,
}

/// "Kept frame octets, flags and dropped octets add up to the length of the
/// capture, each counted by its place in the input."
#[derive(Clone, Copy, Debug, PartialEq, Eq)]
pub struct Totals {
    pub kept_frames: usize,
    pub kept_octets: usize,
    pub flags: usize,
    pub dropped_stretches: usize,
    pub dropped_octets: usize,
    /// The length of the capture.
    pub total: usize,
}

/// What is made of a capture.
#[derive(Clone, Debug, PartialEq, Eq)]
pub struct Salvaged {
    /// The places of each kept stretch, in order.
    pub kept: Vec<Range<usize>>,
    /// The list of what was left out, in order.
    pub dropped: Vec<Dropped>,
    /// The octets of GOOD.
    pub good: Vec<u8>,
    pub totals: Totals,
}

/// Some octets of the capture without a flag, at least one, and the number by
/// which they are dropped; none if they are kept.
struct Stretch {
    places: Range<usize>,
    number: Option<u8>,
}

/// The whole of it; 6 "for an N outside" 78 to 260.
pub fn salvage(limit: usize, capture: &[u8]) -> Result<Salvaged, Refusal> {
    if !is_limit(limit) {
        return Err(Refusal::NotAllowed);
    }
    let flags: Vec<usize> = (0..capture.len()).filter(|&place| capture[place] == FLAG).collect();
    let stretches = stretches(limit, capture, &flags);
    let kept: Vec<Range<usize>> = stretches
        .iter()
        .filter(|stretch| stretch.number.is_none())
        .map(|stretch| stretch.places.clone())
        .collect();
    let dropped: Vec<Dropped> = stretches.iter().filter_map(Stretch::dropped).collect();
    let totals = Totals {
        kept_frames: kept.len(),
        kept_octets: kept.iter().map(Range::len).sum(),
        flags: flags.len(),
        dropped_stretches: dropped.len(),
        dropped_octets: dropped.iter().map(|stretch| stretch.length).sum(),
        total: capture.len(),
    };
    Ok(Salvaged { good: good(capture, &kept), kept, dropped, totals })
}

/// The capture cut at its flags. "A stretch of no octets is never listed."
fn stretches(limit: usize, capture: &[u8], flags: &[usize]) -> Vec<Stretch> {
    let outside = |places| Stretch { places, number: Some(OUTSIDE) };
    let between = |flags: &[usize]| {
        let places = flags[0] + 1..flags[1];
        let number = refused(limit, &capture[places.clone()]);
        Stretch { places, number }
    };
    let mut stretches = match *flags {
        // "no flag at all: one stretch, the whole capture, if it has octets"
        [] => vec![outside(0..capture.len())],
        [first, ..] => vec![outside(0..first)],
    };
    stretches.extend(flags.windows(2).map(between));
    stretches.extend(flags.last().map(|last| outside(last + 1..capture.len())));
    stretches.retain(|stretch| !stretch.places.is_empty());
    stretches
}

/// The number by which the decoder refuses what lies between two flags. It
/// gets room for any frame, so 5 is never said.
fn refused(limit: usize, stretch: &[u8]) -> Option<u8> {
    decode_n(limit, stretch, &mut [0; MOST_FRAME]).err().map(Refusal::number)
}

/// "GOOD is one flag, then each kept stretch with a flag behind it; nothing
/// kept, an empty file." The octets are "exactly as they stood".
fn good(capture: &[u8], kept: &[Range<usize>]) -> Vec<u8> {
    if kept.is_empty() {
        return Vec::new();
    }
    let mut good = vec![FLAG];
    for places in kept {
        good.extend(&capture[places.clone()]);
        good.push(FLAG);
    }
    good
}

impl Stretch {
    fn dropped(&self) -> Option<Dropped> {
        self.number.map(|number| Dropped {
            offset: self.places.start,
            length: self.places.len(),
            number,
        })
    }
}

impl Salvaged {
    /// What is printed: the line of each dropped stretch, then the last line.
    pub fn list(&self) -> String {
        let mut list: String = self.dropped.iter().map(|stretch| format!("{stretch}\n")).collect();
        list.push_str(&format!("{}\n", self.totals));
        list
    }
}

/// "`OFFSET LENGTH NUMBER`"
impl fmt::Display for Dropped {
    fn fmt(&self, formatter: &mut fmt::Formatter) -> fmt::Result {
        write!(formatter, "{} {} {}", self.offset, self.length, self.number)
    }
}

/// "`kept FRAMES frames OCTETS octets, FLAGS flags, dropped STRETCHES stretches
/// OCTETS octets, of TOTAL`"
impl fmt::Display for Totals {
    fn fmt(&self, formatter: &mut fmt::Formatter) -> fmt::Result {
        let Totals { kept_frames, kept_octets, flags, dropped_stretches, dropped_octets, total } =
            self;
        write!(formatter, "kept {kept_frames} frames {kept_octets} octets, {flags} flags, ")?;
        write!(formatter, "dropped {dropped_stretches} stretches {dropped_octets} octets, ")?;
        write!(formatter, "of {total}")
    }
}
