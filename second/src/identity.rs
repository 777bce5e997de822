//! The identity of a device: vendor and serial, padded and compared.

/// An identity padded to its full length.
pub const PADDED: usize = 19;
/// "2 vendor octets"
pub const VENDOR: usize = 2;
const PADDING: u8 = 0x20;

/// "Identity: 2 vendor octets and 1 to 17 serial octets."
#[derive(Clone, Debug, PartialEq, Eq)]
pub struct Identity {
    octets: Vec<u8>,
}

impl Identity {
    /// An identity as it was handed in, allowed or not.
    pub fn new(octets: &[u8]) -> Identity {
        Identity { octets: octets.to_vec() }
    }

    /// "2 vendor octets and 1 to 17 serial octets, all 0x20 to 0x7E, the last
    /// not 0x20."
    pub fn is_allowed(&self) -> bool {
        (VENDOR + 1..=PADDED).contains(&self.octets.len())
            && self.octets.iter().all(|octet| (0x20..=0x7E).contains(octet))
            && self.octets.last() != Some(&PADDING)
    }

    /// "unpadded, n octets"
    pub fn unpadded(&self) -> &[u8] {
        &self.octets
    }

    pub fn vendor(&self) -> &[u8] {
        self.octets.get(..VENDOR).unwrap_or_default()
    }

    pub fn serial(&self) -> &[u8] {
        self.octets.get(VENDOR..).unwrap_or_default()
    }

    /// "The identity is padded with 0x20 to 19."
    pub fn padded(&self) -> [u8; PADDED] {
        let mut padded = [PADDING; PADDED];
        for (place, &octet) in padded.iter_mut().zip(&self.octets) {
            *place = octet;
        }
        padded
    }

    /// The scan's comparison: "its left-most octets are masked and must equal
    /// the value of 1, which isn't masked". Value and mask have equal length.
    pub fn left_matches(&self, value: &[u8], mask: &[u8]) -> bool {
        value.len() == mask.len()
            && value.len() <= PADDED
            && self
                .padded()
                .iter()
                .zip(mask)
                .zip(value)
                .all(|((own, mask), value)| own & mask == *value)
    }

    /// The assignment's comparison: "it isn't longer than the unpadded
    /// identity and equals its right-most octets".
    pub fn right_matches(&self, value: &[u8]) -> bool {
        self.octets.ends_with(value)
    }
}

#[cfg(test)]
mod tests {
    use super::*;

    #[test]
    fn allowed_identities() {
        assert!(Identity::new(b"AB1").is_allowed());
        assert!(Identity::new(b"AB12345678901234567").is_allowed());
        assert!(Identity::new(b"   ~").is_allowed());
        assert!(!Identity::new(b"AB").is_allowed());
        assert!(!Identity::new(b"").is_allowed());
        assert!(!Identity::new(b"AB123456789012345678").is_allowed());
        assert!(!Identity::new(b"AB1 ").is_allowed());
        assert!(!Identity::new(b"AB\x1f1").is_allowed());
        assert!(!Identity::new(b"AB1\x7f").is_allowed());
    }

    #[test]
    fn the_scan_compares_from_the_left_with_padding() {
        let identity = Identity::new(b"AB1");
        assert!(identity.left_matches(b"AB1 ", &[0xFF; 4]));
        assert!(identity.left_matches(&[0x40], &[0xC0]));
        assert!(!identity.left_matches(&[0x41], &[0xC0]));
        assert!(!identity.left_matches(b"B1", &[0xFF; 2]));
    }

    #[test]
    fn the_assignment_compares_from_the_right_without_padding() {
        let identity = Identity::new(b"AB1");
        assert!(identity.right_matches(b"B1"));
        assert!(identity.right_matches(b"AB1"));
        assert!(!identity.right_matches(b"AB"));
        assert!(!identity.right_matches(b" AB1"));
        assert!(!identity.right_matches(b"AB1 "));
    }
}
