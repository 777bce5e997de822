//! The numbers for "no": document 01's table of refusals.

/// One row of the table "Numbers for 'no'".
#[derive(Clone, Copy, Debug, PartialEq, Eq)]
pub enum Refusal {
    /// 1: "decoded octets fewer than 4"
    TooFew,
    /// 2: "decoded octets more than 78"; from (iv) on "more than N"
    TooMany,
    /// 3: "frame check wrong"
    CheckWrong,
    /// 4: "0x7E inside, or 0x7D as the last octet"
    BadLine,
    /// 5: "the lent output is too short"; for the receiver "shorter than N - 2"
    OutputTooShort,
    /// 6: "device data, or a device record handed in, not allowed"; from (iv)
    /// on a frame limit N "outside 78 to 260" too
    NotAllowed,
    /// 7: "a probe asked of, or an answer reported to, a scan that has ended ..."
    ScanEnded,
    /// 8: "a device event that can't be"
    EventCannotBe,
    /// 9: "payload to be written longer than 74 octets"; from (iv) on "more
    /// than N - 4"
    PayloadTooLong,
}

impl Refusal {
    /// "The caller gets the number alone."
    pub fn number(self) -> u8 {
        match self {
            Refusal::TooFew => 1,
            Refusal::TooMany => 2,
            Refusal::CheckWrong => 3,
            Refusal::BadLine => 4,
            Refusal::OutputTooShort => 5,
            Refusal::NotAllowed => 6,
            Refusal::ScanEnded => 7,
            Refusal::EventCannotBe => 8,
            Refusal::PayloadTooLong => 9,
        }
    }
}
