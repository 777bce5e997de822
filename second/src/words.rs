//! The words of a script line: HEX, numbers, rooms, and what is wrong with
//! them. Also the writing of HEX.

/// The word after `error`.
#[derive(Clone, Copy, Debug, PartialEq, Eq)]
pub enum Fault {
    Long,
    Command,
    Words,
    Hex,
    Number,
    Room,
    Device,
    Full,
}

impl Fault {
    pub fn word(self) -> &'static str {
        match self {
            Fault::Long => "long",
            Fault::Command => "command",
            Fault::Words => "words",
            Fault::Hex => "hex",
            Fault::Number => "number",
            Fault::Room => "room",
            Fault::Device => "device",
            Fault::Full => "full",
        }
    }
}

/// Larger than any number that is used; larger ones are read as this.
const HUGE: i64 = 1_000_000_000;

/// "`HEX` is an even number of digits `0-9a-f` (upper case is read ...), or
/// `-` for no octets." "An empty word is bad as a number and as HEX."
pub fn hex(word: &[u8]) -> Result<Vec<u8>, Fault> {
    if word == b"-" {
        return Ok(Vec::new());
    }
    if word.is_empty() || !word.len().is_multiple_of(2) {
        return Err(Fault::Hex);
    }
    word.chunks_exact(2).map(octet).collect()
}

/// "ADDRESS and CONTROL are exactly two hex digits, else `error hex`."
pub fn octet(word: &[u8]) -> Result<u8, Fault> {
    match word {
        &[high, low] => Ok(16 * digit(high)? + digit(low)?),
        _ => Err(Fault::Hex),
    }
}

fn digit(character: u8) -> Result<u8, Fault> {
    match character {
        b'0'..=b'9' => Ok(character - b'0'),
        b'a'..=b'f' => Ok(character - b'a' + 10),
        b'A'..=b'F' => Ok(character - b'A' + 10),
        _ => Err(Fault::Hex),
    }
}

/// "A number is one or more digits, leading zeros read, with at most one `-`
/// in front; anything else is `error number`."
pub fn number(word: &[u8]) -> Result<i64, Fault> {
    let (sign, digits) = match word {
        [b'-', digits @ ..] => (-1, digits),
        digits => (1, digits),
    };
    if digits.is_empty() || !digits.iter().all(u8::is_ascii_digit) {
        return Err(Fault::Number);
    }
    let size = digits.iter().fold(0, |size, digit| (10 * size + i64::from(digit - b'0')).min(HUGE));
    Ok(sign * size)
}

/// "`ROOM` is the length of the lent output, 0 to 600"; "a ROOM outside 0 to
/// 600 is `error room`".
pub fn room(word: &[u8]) -> Result<usize, Fault> {
    match usize::try_from(number(word)?) {
        Ok(room) if room <= 600 => Ok(room),
        _ => Err(Fault::Room),
    }
}

/// "a tilt outside 16 bits signed ... `error number`"
pub fn tilt(word: &[u8]) -> Result<i16, Fault> {
    i16::try_from(number(word)?).map_err(|_| Fault::Number)
}

/// "an alarm outside 0 to 255 ... `error number`"
pub fn alarm(word: &[u8]) -> Result<u8, Fault> {
    u8::try_from(number(word)?).map_err(|_| Fault::Number)
}

/// "a limit outside 0 to 65,535 ... `error number`"
pub fn limit(word: &[u8]) -> Result<u16, Fault> {
    u16::try_from(number(word)?).map_err(|_| Fault::Number)
}

/// "N is a frame limit as it is given, any number from 0 to 65,535 (else
/// `error number`)." Whether it is one of 78 to 260 is not asked here.
pub fn frame_limit(word: &[u8]) -> Result<usize, Fault> {
    limit(word).map(usize::from)
}

/// "A K that is a number but no device of the bench, negative ones too, is
/// `error device`." Gives the device's place from 0.
pub fn device(word: &[u8], devices: usize) -> Result<usize, Fault> {
    match usize::try_from(number(word)?) {
        Ok(k) if (1..=devices).contains(&k) => Ok(k - 1),
        _ => Err(Fault::Device),
    }
}

/// HEX as it is written: lower case, `-` for no octets.
pub fn written(octets: &[u8]) -> String {
    const DIGITS: &[u8; 16] = b"0123456789abcdef";
    if octets.is_empty() {
        return "-".to_string();
    }
    let mut text = String::with_capacity(2 * octets.len());
    for octet in octets {
        text.push(char::from(DIGITS[usize::from(octet >> 4)]));
        text.push(char::from(DIGITS[usize::from(octet & 0x0F)]));
    }
    text
}

#[cfg(test)]
mod tests {
    use super::*;

    #[test]
    fn numbers() {
        for (word, value) in
            [("0", 0), ("-0", 0), ("007", 7), ("-12", -12), ("00000000000000000000000600", 600)]
        {
            assert_eq!(number(word.as_bytes()), Ok(value));
        }
        for word in ["", "-", "--1", "+1", "1a", "1-", " 1", "1\r", "0x1", "1.0"] {
            assert_eq!(number(word.as_bytes()), Err(Fault::Number));
        }
        let huge = "9".repeat(1_000);
        assert_eq!(room(huge.as_bytes()), Err(Fault::Room));
        assert_eq!(device(huge.as_bytes(), 32), Err(Fault::Device));
        assert_eq!(limit(huge.as_bytes()), Err(Fault::Number));
    }

    #[test]
    fn numbers_in_their_ranges() {
        assert_eq!(
            (room(b"600"), room(b"601"), room(b"-1")),
            (Ok(600), Err(Fault::Room), Err(Fault::Room))
        );
        assert_eq!((tilt(b"32767"), tilt(b"32768")), (Ok(32767), Err(Fault::Number)));
        assert_eq!((tilt(b"-32768"), tilt(b"-32769")), (Ok(-32768), Err(Fault::Number)));
        assert_eq!(
            (alarm(b"255"), alarm(b"256"), alarm(b"-1")),
            (Ok(255), Err(Fault::Number), Err(Fault::Number))
        );
        assert_eq!(
            (limit(b"65535"), limit(b"65536"), limit(b"-1")),
            (Ok(65535), Err(Fault::Number), Err(Fault::Number))
        );
        assert_eq!((frame_limit(b"65535"), frame_limit(b"-0")), (Ok(65535), Ok(0)));
        assert_eq!(
            (frame_limit(b"65536"), frame_limit(b"-1"), frame_limit(b"")),
            (Err(Fault::Number), Err(Fault::Number), Err(Fault::Number))
        );
        assert_eq!((device(b"1", 1), device(b"2", 1)), (Ok(0), Err(Fault::Device)));
        assert_eq!((device(b"0", 1), device(b"-1", 1)), (Err(Fault::Device), Err(Fault::Device)));
        assert_eq!(device(b"x", 1), Err(Fault::Number));
    }

    #[test]
    fn hex_words() {
        assert_eq!(hex(b"-"), Ok(vec![]));
        assert_eq!(hex(b"00fFAb"), Ok(vec![0x00, 0xFF, 0xAB]));
        for word in ["", "0", "000", "0g", "--", "-0", "0x"] {
            assert_eq!(hex(word.as_bytes()), Err(Fault::Hex));
        }
        for word in ["-", "", "0", "000", "gg"] {
            assert_eq!(octet(word.as_bytes()), Err(Fault::Hex));
        }
        assert_eq!(written(&[0x0A, 0xF0]), "0af0");
        assert_eq!(written(&[]), "-");
    }
}
