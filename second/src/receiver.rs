//! The receiver: octets from the live line in runs, frames and refusals out
//! (request (i)).
//!
//! It keeps the raw octets since the last flag, all of them, and gives them to
//! the decoder when the closing flag comes: "what the decoder says of that
//! stretch with that N". So a cut between two runs can't be seen, wherever it
//! lies, and no store can be too small for what is said.

use crate::frame::{decode_n, is_limit, longest_frame, FLAG};
use crate::refusal::Refusal;

/// What the receiver holds between two calls.
#[derive(Clone, Debug, Default, PartialEq, Eq)]
pub struct Receiver {
    /// The raw octets since the last flag; none before the first flag.
    stretch: Option<Vec<u8>>,
}

/// "The answer tells how many octets were taken and what was handed out."
#[derive(Clone, Copy, Debug, PartialEq, Eq)]
pub struct Taken {
    pub octets: usize,
    /// The length of the frame at the start of the output, or its number.
    pub handed_out: Option<Result<usize, Refusal>>,
}

impl Receiver {
    /// One call. "N outside 78 to 260: 6." "Then an output shorter than N - 2:
    /// 5. Nothing is taken, nothing is changed." Else "octets are taken up to
    /// and with the first closing flag that hands something out, or to the end
    /// of the run".
    pub fn take(&mut self, limit: usize, run: &[u8], output: &mut [u8]) -> Result<Taken, Refusal> {
        if !is_limit(limit) {
            return Err(Refusal::NotAllowed);
        }
        if output.len() < longest_frame(limit) {
            return Err(Refusal::OutputTooShort);
        }
        for (place, &octet) in run.iter().enumerate() {
            if octet != FLAG {
                self.keep(octet);
                continue;
            }
            let closed = self.close();
            // "A flag right behind a flag hands out nothing", nor does the first.
            if !closed.is_empty() {
                let handed_out = Some(decode_n(limit, &closed, output));
                return Ok(Taken { octets: place + 1, handed_out });
            }
        }
        Ok(Taken { octets: run.len(), handed_out: None })
    }

    /// "Octets before the first flag are dropped."
    fn keep(&mut self, octet: u8) {
        if let Some(stretch) = &mut self.stretch {
            stretch.push(octet);
        }
    }

    /// A flag: the octets of the stretch that it closes, if there was one. "It
    /// also opens the next stretch."
    fn close(&mut self) -> Vec<u8> {
        self.stretch.replace(Vec::new()).unwrap_or_default()
    }
}

#[cfg(test)]
mod tests {
    use super::*;

    #[test]
    fn what_is_held_between_two_calls() {
        let mut receiver = Receiver::default();
        let mut output = [0xA5; 76];
        let mut call = |run: &[u8]| {
            let taken = receiver.take(78, run, &mut output).unwrap();
            (taken.octets, taken.handed_out, receiver.stretch.clone())
        };
        assert_eq!(call(&[1, 2, 0x7D]), (3, None, None));
        assert_eq!(call(&[0x7E]), (1, None, Some(vec![])));
        assert_eq!(call(&[0x7E, 0x7E]), (2, None, Some(vec![])));
        assert_eq!(call(&[1, 0x7D]), (2, None, Some(vec![1, 0x7D])));
        assert_eq!(call(&[]), (0, None, Some(vec![1, 0x7D])));
        let refused = Some(Err(Refusal::BadLine));
        assert_eq!(call(&[0x7E, 5, 6]), (1, refused, Some(vec![])));
        assert_eq!(call(&[0x01, 0x3F]), (2, None, Some(vec![0x01, 0x3F])));
        assert_eq!(call(&[0xEB, 0xDF, 0x7E, 9]), (3, Some(Ok(2)), Some(vec![])));
        assert_eq!(output[..3], [0x01, 0x3F, 0xA5]);
    }
}
