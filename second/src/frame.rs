//! The frame codec: the decoder and the writer ("Octets on the line").

use crate::check;
use crate::refusal::Refusal;

pub const FLAG: u8 = 0x7E;
pub const ESCAPE: u8 = 0x7D;
/// What an escaped octet "has exclusive-ored in".
pub const TURN: u8 = 0x20;

/// Address, control and two check octets: a frame has no fewer.
pub const FEWEST_DECODED: usize = 4;
/// "The frame limit N, one for both ways, is a number of the link, 78 to 260."
pub const LEAST_LIMIT: usize = 78;
pub const MOST_LIMIT: usize = 260;
/// Address, control and the longest payload of the largest limit: the decoder
/// never gives more.
pub const MOST_FRAME: usize = longest_frame(MOST_LIMIT);
/// The most that the writer writes, with the largest limit.
pub const MOST_WRITTEN: usize = longest_line(MOST_LIMIT);

/// "Decoder, receiver and writer take N (outside 78 to 260: refusal 6 first)";
/// the same N in a record: "78 to 260, else the record is not allowed".
pub const fn is_limit(limit: usize) -> bool {
    LEAST_LIMIT <= limit && limit <= MOST_LIMIT
}

/// "9 more than N - 4"
pub const fn longest_payload(limit: usize) -> usize {
    limit.saturating_sub(4)
}

/// Address, control and the longest payload: "76 and 158 become N - 2 and
/// 2N + 2".
pub const fn longest_frame(limit: usize) -> usize {
    limit.saturating_sub(2)
}

/// "It needs exactly the octets it writes", at most 2N + 2.
pub const fn longest_line(limit: usize) -> usize {
    2 * limit + 2
}

/// 01's decoder: the case N = 78.
pub fn decode(line: &[u8], output: &mut [u8]) -> Result<usize, Refusal> {
    decode_n(LEAST_LIMIT, line, output)
}

/// "The decoder gets what lies between two flags." "Decoder and writer take N:
/// outside 78 to 260, 6 first; then 01's order": it "tests 4, 1, 2, 3, 5".
/// Gives the number of octets that now stand at the start of the lent output.
pub fn decode_n(limit: usize, line: &[u8], output: &mut [u8]) -> Result<usize, Refusal> {
    if !is_limit(limit) {
        return Err(Refusal::NotAllowed);
    }
    if line.contains(&FLAG) || line.last() == Some(&ESCAPE) {
        return Err(Refusal::BadLine);
    }
    let decoded = without_escapes(line);
    if decoded.len() < FEWEST_DECODED {
        return Err(Refusal::TooFew);
    }
    // "refusal 2 means more than N"
    if decoded.len() > limit {
        return Err(Refusal::TooMany);
    }
    let (frame, told_check) = decoded.split_at(decoded.len() - 2);
    if check::check_octets(frame) != told_check {
        return Err(Refusal::CheckWrong);
    }
    put(frame, output)
}

/// "0x7D is removed and the next octet has 0x20 exclusive-ored in, whatever
/// it was": the octet after an escape is never itself read as an escape.
fn without_escapes(line: &[u8]) -> Vec<u8> {
    let mut decoded = Vec::with_capacity(line.len());
    let mut octets = line.iter();
    while let Some(&octet) = octets.next() {
        if octet != ESCAPE {
            decoded.push(octet);
        } else if let Some(&next) = octets.next() {
            decoded.push(next ^ TURN);
        }
    }
    decoded
}

/// 01's writer: the case N = 78.
pub fn write(
    address: u8,
    control: u8,
    payload: &[u8],
    output: &mut [u8],
) -> Result<usize, Refusal> {
    write_n(LEAST_LIMIT, address, control, payload, output)
}

/// "The writer gives flag, frame, flag." It tests 6, then "9, then 5".
/// Gives the number of octets written.
pub fn write_n(
    limit: usize,
    address: u8,
    control: u8,
    payload: &[u8],
    output: &mut [u8],
) -> Result<usize, Refusal> {
    if !is_limit(limit) {
        return Err(Refusal::NotAllowed);
    }
    if payload.len() > longest_payload(limit) {
        return Err(Refusal::PayloadTooLong);
    }
    put(&line_of(address, control, payload), output)
}

/// The written line, flags included.
fn line_of(address: u8, control: u8, payload: &[u8]) -> Vec<u8> {
    let mut frame = vec![address, control];
    frame.extend(payload);
    let check_octets = check::check_octets(&frame);
    frame.extend(check_octets);
    let mut line = vec![FLAG];
    for octet in frame {
        escape_into(&mut line, octet);
    }
    line.push(FLAG);
    line
}

/// "escaping exactly 0x7E and 0x7D, check octets included"
fn escape_into(line: &mut Vec<u8>, octet: u8) {
    if octet == FLAG || octet == ESCAPE {
        line.extend([ESCAPE, octet ^ TURN]);
    } else {
        line.push(octet);
    }
}

/// Octets to the start of the lent output, "the rest unchanged; refusal 5 if
/// it is shorter than they are".
pub fn put(octets: &[u8], output: &mut [u8]) -> Result<usize, Refusal> {
    match output.get_mut(..octets.len()) {
        Some(start) => {
            start.copy_from_slice(octets);
            Ok(octets.len())
        }
        None => Err(Refusal::OutputTooShort),
    }
}

#[cfg(test)]
mod tests {
    use super::*;

    fn decoded(line: &[u8], room: usize) -> (Result<usize, Refusal>, Vec<u8>) {
        let mut output = vec![0xA5; room];
        let result = decode(line, &mut output);
        (result, output)
    }

    #[test]
    fn published_frames_decode() {
        for line in [[0x01, 0x3F, 0xEB, 0xDF], [0x01, 0x73, 0x83, 0x57], [0x03, 0x3F, 0x5B, 0xEC]] {
            let (result, output) = decoded(&line, 4);
            assert_eq!(result, Ok(2));
            assert_eq!(output, [line[0], line[1], 0xA5, 0xA5]);
        }
    }

    #[test]
    fn the_order_of_the_decoder() {
        // 4 before 1, 1 before 5, 3 before 5.
        assert_eq!(decoded(&[0x7E], 0).0, Err(Refusal::BadLine));
        assert_eq!(decoded(&[0x7D], 0).0, Err(Refusal::BadLine));
        assert_eq!(decoded(&[1, 0x7D, 0x7D], 0).0, Err(Refusal::BadLine));
        assert_eq!(decoded(&[], 0).0, Err(Refusal::TooFew));
        assert_eq!(decoded(&[0x7D, 1, 0x7D, 2, 0x7D, 3], 0).0, Err(Refusal::TooFew));
        assert_eq!(decoded(&[0; 79], 0).0, Err(Refusal::TooMany));
        assert_eq!(decoded(&[0; 78], 0).0, Err(Refusal::CheckWrong));
        assert_eq!(decoded(&[0x01, 0x3F, 0xEB, 0xDF], 1).0, Err(Refusal::OutputTooShort));
        assert_eq!(decoded(&[0x01, 0x3F, 0xEB, 0xDF], 2).0, Ok(2));
    }

    #[test]
    fn an_escape_takes_any_next_octet() {
        // 7D 7D in the middle is 5D; 7D 21 is a needless escape of 01.
        assert_eq!(without_escapes(&[0x7D, 0x7D, 0x7D, 0x5E, 0x7D, 0x21]), [0x5D, 0x7E, 0x01]);
        assert_eq!(decoded(&[0x7D, 0x21, 0x3F, 0xEB, 0xDF], 2).0, Ok(2));
    }

    #[test]
    fn a_refusal_leaves_the_output() {
        for line in [&[0x7E][..], &[], &[0; 79], &[0; 78]] {
            assert_eq!(decoded(line, 90).1, [0xA5; 90]);
        }
        assert_eq!(decoded(&[0x01, 0x3F, 0xEB, 0xDF], 1).1, [0xA5]);
    }

    /// The longest line of all payloads of 7D and 7E that are as long as the
    /// limit allows: all octets are escaped but perhaps the check, so some
    /// payload must escape that too.
    fn longest_found(limit: usize) -> usize {
        let mut most = 0;
        for turn in 0..1 << 16 {
            let payload: Vec<u8> = (0..longest_payload(limit))
                .map(|place| 0x7D + u8::from(turn >> (place % 16) & 1 == 1))
                .collect();
            let mut output = [0xA5; 600];
            most = most.max(write_n(limit, 0x7E, 0x7D, &payload, &mut output).unwrap());
            if most == longest_line(limit) {
                break;
            }
        }
        most
    }

    #[test]
    fn the_longest_line_is_reached() {
        assert_eq!((longest_line(78), longest_line(260)), (158, 522));
        assert_eq!(longest_found(78), 158);
        assert_eq!(longest_found(79), 160);
        assert_eq!(longest_found(260), 522);
    }

    #[test]
    fn limits() {
        for limit in 0..=65_535 {
            assert_eq!(is_limit(limit), (78..=260).contains(&limit), "{limit}");
        }
        assert_eq!((longest_payload(78), longest_payload(260)), (74, 256));
        assert_eq!((longest_frame(78), longest_frame(260)), (76, 258));
    }

    #[test]
    fn a_limit_outside_comes_first() {
        for limit in [0, 1, 4, 77, 261, 262, 65_535] {
            let mut output = [0xA5; 600];
            for line in [&[0x7E][..], &[0x7D], &[], &[0; 300], &[0; 78], &[0x01, 0x3F, 0xEB, 0xDF]]
            {
                assert_eq!(decode_n(limit, line, &mut output), Err(Refusal::NotAllowed));
                assert_eq!(decode_n(limit, line, &mut []), Err(Refusal::NotAllowed));
            }
            for length in [0, 73, 74, 75, 256, 257] {
                let payload = vec![0; length];
                assert_eq!(write_n(limit, 1, 2, &payload, &mut output), Err(Refusal::NotAllowed));
                assert_eq!(write_n(limit, 1, 2, &payload, &mut []), Err(Refusal::NotAllowed));
            }
            assert_eq!(output, [0xA5; 600]);
        }
    }

    #[test]
    fn both_sides_of_every_limit() {
        for limit in LEAST_LIMIT..=MOST_LIMIT {
            // What lies between two flags for so many decoded octets.
            let between = |decoded: usize| {
                let line = line_of(1, 2, &vec![0x33; decoded - 4]);
                line[1..line.len() - 1].to_vec()
            };
            let mut output = [0xA5; 300];
            assert_eq!(decode_n(limit, &between(limit), &mut output), Ok(limit - 2));
            assert_eq!(output[..2], [1, 2]);
            assert!(output[2..limit - 2].iter().all(|&octet| octet == 0x33));
            assert!(output[limit - 2..].iter().all(|&octet| octet == 0xA5));
            assert_eq!(decode_n(limit, &between(limit), &mut output[2..limit]), Ok(limit - 2));
            let short = &mut output[3..limit];
            assert_eq!(decode_n(limit, &between(limit), short), Err(Refusal::OutputTooShort));
            assert_eq!(decode_n(limit, &between(limit + 1), &mut []), Err(Refusal::TooMany));
            assert_eq!(decode_n(limit, &vec![0; limit + 1], &mut []), Err(Refusal::TooMany));
            assert_eq!(decode_n(limit, &vec![0; limit], &mut []), Err(Refusal::CheckWrong));
            assert_eq!(decode_n(limit, &[0; 3], &mut []), Err(Refusal::TooFew));
            let flag = [&vec![0; limit + 1][..], &[FLAG]].concat();
            assert_eq!(decode_n(limit, &flag, &mut []), Err(Refusal::BadLine));

            let payload = vec![0x33; limit - 3];
            let mut line = [0xA5; 600];
            assert_eq!(write_n(limit, 1, 2, &payload, &mut line), Err(Refusal::PayloadTooLong));
            assert_eq!(write_n(limit, 1, 2, &payload, &mut []), Err(Refusal::PayloadTooLong));
            assert_eq!(line, [0xA5; 600]);
            let payload = &payload[1..];
            assert_eq!(write_n(limit, 1, 2, payload, &mut []), Err(Refusal::OutputTooShort));
            let written = write_n(limit, 1, 2, payload, &mut line).unwrap();
            assert!(written >= limit + 2 && written <= longest_line(limit));
            let decoded = decode_n(limit, &line[1..written - 1], &mut output);
            assert_eq!(decoded, Ok(limit - 2));
            assert_eq!(output[2..limit - 2], *payload);
        }
    }

    #[test]
    fn the_order_of_the_writer() {
        assert_eq!(write(1, 2, &[0; 75], &mut []), Err(Refusal::PayloadTooLong));
        assert_eq!(write(1, 2, &[0; 74], &mut []), Err(Refusal::OutputTooShort));
    }

    #[test]
    fn the_writer_needs_exactly_what_it_writes() {
        let need = write(0x7E, 0x7D, &[0x7E, 1], &mut [0; MOST_WRITTEN]).unwrap();
        let mut short = vec![0xA5; need - 1];
        assert_eq!(write(0x7E, 0x7D, &[0x7E, 1], &mut short), Err(Refusal::OutputTooShort));
        assert!(short.iter().all(|&octet| octet == 0xA5));
        let mut more = vec![0xA5; need + 1];
        assert_eq!(write(0x7E, 0x7D, &[0x7E, 1], &mut more), Ok(need));
        assert_eq!(&more[..8], [0x7E, 0x7D, 0x5E, 0x7D, 0x5D, 0x7D, 0x5E, 1]);
        assert_eq!(more[need - 1..], [0x7E, 0xA5]);
    }
}
