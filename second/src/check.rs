//! The frame check, worked bit by bit, without a table.

/// "x^16 + x^12 + x^5 + 1, least significant bit first": the divisor without
/// its leading term, written with the highest power in the lowest bit.
const DIVISOR: u16 = 0x8408;

/// "start 0xFFFF"
const START: u16 = 0xFFFF;

/// What the register holds after a frame and its right check octets (RFC 1662).
pub const GOOD_RESIDUE: u16 = 0xF0B8;

/// One bit of the division.
fn take_bit(register: u16, bit: u16) -> u16 {
    let leaving = (register ^ bit) & 1;
    let shifted = register >> 1;
    if leaving == 1 {
        shifted ^ DIVISOR
    } else {
        shifted
    }
}

/// One octet, "least significant bit first".
fn take_octet(register: u16, octet: u8) -> u16 {
    (0..8).fold(register, |register, place| take_bit(register, u16::from(octet >> place) & 1))
}

/// The register after all octets, not complemented.
pub fn residue(octets: &[u8]) -> u16 {
    octets.iter().fold(START, |register, &octet| take_octet(register, octet))
}

/// The check of a frame's octets: the register "complemented".
pub fn check(octets: &[u8]) -> u16 {
    !residue(octets)
}

/// The "two check octets, low one first".
pub fn check_octets(octets: &[u8]) -> [u8; 2] {
    check(octets).to_le_bytes()
}

#[cfg(test)]
mod tests {
    use super::*;

    #[test]
    fn published_check_value() {
        assert_eq!(check(b"123456789"), 0x906E);
    }

    #[test]
    fn published_lapb_frames() {
        for frame in [[0x01, 0x3F, 0xEB, 0xDF], [0x01, 0x73, 0x83, 0x57], [0x03, 0x3F, 0x5B, 0xEC]]
        {
            assert_eq!(check_octets(&frame[..2]), frame[2..]);
            assert_eq!(residue(&frame), GOOD_RESIDUE);
        }
    }

    #[test]
    fn nothing_taken_leaves_the_start() {
        assert_eq!(residue(&[]), 0xFFFF);
        assert_eq!(check(&[]), 0x0000);
    }

    #[test]
    fn a_good_frame_leaves_the_published_residue() {
        let mut frame = b"any octets whatever \x00\x7e\x7d\xff".to_vec();
        let octets = check_octets(&frame);
        frame.extend(octets);
        assert_eq!(residue(&frame), GOOD_RESIDUE);
        frame[3] ^= 0x10;
        assert_ne!(residue(&frame), GOOD_RESIDUE);
    }
}
