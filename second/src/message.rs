//! The messages that an accepted I-frame carries ("Messages").

use crate::record::{Drive, Make, Unit};

const ALARM_STATUS: u8 = 0x04;
const INFORMATION: u8 = 0x05;
const CLEAR_ALARMS: u8 = 0x06;
const SUBSCRIBE: u8 = 0x12;
const SET_TILT: u8 = 0x33;
const GET_TILT: u8 = 0x34;

/// "code one of 0x03, 0x0A, ..., then 0x25"
pub const UNSUPPORTED: [u8; 12] =
    [0x03, 0x0A, 0x0E, 0x0F, 0x10, 0x11, 0x31, 0x32, 0x40, 0x41, 0x42, 0x90];

/// The table's codes.
pub const KNOWN: [u8; 6] = [ALARM_STATUS, INFORMATION, CLEAR_ALARMS, SUBSCRIBE, SET_TILT, GET_TILT];

/// "A failure answers code, 2, 0, 0x0B, return code."
const FAILURE: u8 = 0x0B;
const SUCCESS: u8 = 0x00;

/// The return codes of document 01.
#[derive(Clone, Copy, Debug, PartialEq, Eq)]
enum Return {
    Jam = 0x02,
    Busy = 0x05,
    OutOfRange = 0x13,
    UnknownCode = 0x19,
    WrongLength = 0x24,
    Unsupported = 0x25,
}

/// What a message that was carried out leads to.
enum Outcome {
    /// An answer at once, with these octets after 0x00.
    DataOut(Vec<u8>),
    /// "sent when the movement ends"
    Later,
}

/// Carries a message out and gives the payload of its answer, or nothing
/// where "RR is sent".
pub fn carry_out(make: &Make, unit: &mut Unit, message: &[u8]) -> Option<Vec<u8>> {
    // "shorter than 3, no answer (RR is sent)"
    let [code, low, high, data @ ..] = message else {
        return None;
    };
    let length = u16::from_le_bytes([*low, *high]);
    let outcome =
        checked(unit, *code, length, data).and_then(|()| performed(make, unit, *code, data));
    match outcome {
        Ok(Outcome::DataOut(data_out)) => Some(success(*code, &data_out)),
        Ok(Outcome::Later) => None,
        Err(why) => Some(failure(*code, why)),
    }
}

/// The tilt result's payload: "success exactly if t is the tilt asked, else
/// failure 0x02".
pub fn tilt_result(succeeded: bool) -> Vec<u8> {
    if succeeded {
        success(SET_TILT, &[])
    } else {
        failure(SET_TILT, Return::Jam)
    }
}

/// The checks before a message is performed, "in this order"; the last one,
/// the range, is set tilt's own.
fn checked(unit: &Unit, code: u8, length: u16, data: &[u8]) -> Result<(), Return> {
    if usize::from(length) != data.len() {
        return Err(Return::WrongLength);
    }
    if UNSUPPORTED.contains(&code) {
        return Err(Return::Unsupported);
    }
    let defined = data_length(code).ok_or(Return::UnknownCode)?;
    if data.len() != defined {
        return Err(Return::WrongLength);
    }
    // "Set and get tilt are busy while moving or while a result waits."
    if matches!(code, SET_TILT | GET_TILT) && unit.drive.is_busy() {
        return Err(Return::Busy);
    }
    Ok(())
}

/// The table's column "Data in": the defined data length of each code in it.
fn data_length(code: u8) -> Option<usize> {
    match code {
        ALARM_STATUS | INFORMATION | CLEAR_ALARMS | SUBSCRIBE | GET_TILT => Some(0),
        SET_TILT => Some(2),
        _ => None,
    }
}

/// The table's rows.
fn performed(make: &Make, unit: &mut Unit, code: u8, data: &[u8]) -> Result<Outcome, Return> {
    match (code, data) {
        (ALARM_STATUS, []) => Ok(Outcome::DataOut(unit.raised.iter().copied().collect())),
        (INFORMATION, []) => Ok(Outcome::DataOut(information(make))),
        (CLEAR_ALARMS, []) => {
            // "raised and told become empty"
            unit.raised.clear();
            unit.told.clear();
            Ok(Outcome::DataOut(Vec::new()))
        }
        (SUBSCRIBE, []) => {
            unit.subscribed = true;
            Ok(Outcome::DataOut(Vec::new()))
        }
        (GET_TILT, []) => Ok(Outcome::DataOut(unit.tilt.to_le_bytes().to_vec())),
        // "2 octets, low first, signed"
        (SET_TILT, &[low, high]) => set_tilt(make, unit, i16::from_le_bytes([low, high])),
        _ => Err(Return::UnknownCode),
    }
}

/// "out of range, 0x13"; else the movement begins and its result is owed.
fn set_tilt(make: &Make, unit: &mut Unit, asked: i16) -> Result<Outcome, Return> {
    if !(make.lowest..=make.highest).contains(&asked) {
        return Err(Return::OutOfRange);
    }
    unit.drive = Drive::MovingTo(asked);
    Ok(Outcome::Later)
}

/// "product, serial, hardware, software, each after its length"
fn information(make: &Make) -> Vec<u8> {
    let mut data_out = Vec::new();
    for text in [&make.product, make.identity.serial(), &make.hardware, &make.software] {
        data_out.push(text.len() as u8);
        data_out.extend(text);
    }
    data_out
}

/// Code, length, 0x00 and the data out.
fn success(code: u8, data_out: &[u8]) -> Vec<u8> {
    let mut payload = vec![code];
    payload.extend((1 + data_out.len() as u16).to_le_bytes());
    payload.push(SUCCESS);
    payload.extend(data_out);
    payload
}

fn failure(code: u8, why: Return) -> Vec<u8> {
    vec![code, 2, 0, FAILURE, why as u8]
}

#[cfg(test)]
mod tests {
    use super::*;
    use crate::identity::Identity;
    use crate::record::Record;

    fn make() -> Make {
        Make {
            identity: Identity::new(b"KA1234"),
            product: b"prod".to_vec(),
            hardware: b"h".to_vec(),
            software: Vec::new(),
            lowest: -20,
            highest: 100,
        }
    }

    fn unit() -> Unit {
        Record::fresh(make(), -15).unwrap().unit
    }

    fn carried_out(unit: &mut Unit, message: &[u8]) -> Option<Vec<u8>> {
        carry_out(&make(), unit, message)
    }

    fn return_code(unit: &mut Unit, message: &[u8]) -> u8 {
        let payload = carried_out(unit, message).unwrap();
        assert_eq!(payload[..4], [message[0], 2, 0, 0x0B]);
        payload[4]
    }

    #[test]
    fn shorter_than_three_gets_no_answer() {
        for message in [&[][..], &[0x34], &[0x34, 0]] {
            assert_eq!(carried_out(&mut unit(), message), None);
        }
    }

    #[test]
    fn the_order_of_the_checks() {
        let unit = &mut unit();
        // The length field comes before the code's own faults.
        assert_eq!(return_code(unit, &[0x03, 1, 0]), 0x24);
        assert_eq!(return_code(unit, &[0x99, 0, 0, 0]), 0x24);
        assert_eq!(return_code(unit, &[0x34, 0, 1]), 0x24);
        for code in UNSUPPORTED {
            assert_eq!(return_code(unit, &[code, 0, 0]), 0x25);
            assert_eq!(return_code(unit, &[code, 1, 0, 0]), 0x25);
        }
        assert_eq!(return_code(unit, &[0x99, 1, 0, 0]), 0x19);
        assert_eq!(return_code(unit, &[0x07, 0, 0]), 0x19);
        unit.drive = Drive::Moving;
        // The data length comes before busy, busy before the range.
        assert_eq!(return_code(unit, &[0x34, 1, 0, 0]), 0x24);
        assert_eq!(return_code(unit, &[0x33, 1, 0, 0]), 0x24);
        assert_eq!(return_code(unit, &[0x34, 0, 0]), 0x05);
        assert_eq!(return_code(unit, &[0x33, 2, 0, 0xFF, 0x7F]), 0x05);
        unit.drive = Drive::Still;
        assert_eq!(return_code(unit, &[0x33, 2, 0, 0xFF, 0x7F]), 0x13);
        assert_eq!(return_code(unit, &[0x33, 2, 0, 101, 0]), 0x13);
        assert_eq!(return_code(unit, &[0x33, 2, 0, 0xEB, 0xFF]), 0x13);
        assert_eq!(unit.drive, Drive::Still);
    }

    #[test]
    fn every_code_has_its_answer() {
        for code in 0..=255 {
            let unit = &mut unit();
            let expected = match code {
                0x04 | 0x06 | 0x12 => vec![code, 1, 0, 0],
                0x05 => b"\x05\x0e\x00\x00\x04prod\x041234\x01h\x00".to_vec(),
                0x34 => vec![0x34, 3, 0, 0, 0xF1, 0xFF],
                0x33 => failure(code, Return::WrongLength),
                _ if UNSUPPORTED.contains(&code) => failure(code, Return::Unsupported),
                _ => failure(code, Return::UnknownCode),
            };
            assert_eq!(carried_out(unit, &[code, 0, 0]), Some(expected));
        }
    }

    #[test]
    fn set_tilt_at_the_ends_of_the_range() {
        for (low, high, asked) in [(100, 0, 100), (0xEC, 0xFF, -20), (0xF1, 0xFF, -15)] {
            let unit = &mut unit();
            assert_eq!(carried_out(unit, &[0x33, 2, 0, low, high]), None);
            assert_eq!(unit.drive, Drive::MovingTo(asked));
            assert_eq!(unit.tilt, -15);
        }
    }

    #[test]
    fn alarms_read_and_cleared() {
        let unit = &mut unit();
        unit.raised.extend([0x27, 0x02]);
        unit.told.extend([0x27]);
        assert_eq!(carried_out(unit, &[0x04, 0, 0]).unwrap(), [0x04, 3, 0, 0, 0x02, 0x27]);
        assert_eq!(unit.told.len(), 1);
        assert_eq!(carried_out(unit, &[0x06, 0, 0]).unwrap(), [0x06, 1, 0, 0]);
        assert!(unit.raised.is_empty() && unit.told.is_empty());
    }

    #[test]
    fn the_longest_information_fits() {
        let make = Make {
            identity: Identity::new(&[b'x'; 19]),
            product: vec![0; 20],
            hardware: vec![0; 14],
            software: vec![0; 14],
            ..make()
        };
        assert_eq!(carry_out(&make, &mut unit(), &[0x05, 0, 0]).unwrap().len(), 73);
    }
}
