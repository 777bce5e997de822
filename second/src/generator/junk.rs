//! Lines that are no commands: good lines spoilt, words of the wrong kind,
//! lines about and past the greatest length.

use std::io;

use super::Generator;

/// Words that are no numbers, or numbers outside some range.
const BAD_NUMBERS: [&str; 26] = [
    "",
    "-",
    "--1",
    "+1",
    "1a",
    "1-",
    "0x10",
    "1.5",
    "-1",
    "-0",
    "601",
    "600",
    "256",
    "255",
    "-129",
    "32768",
    "-32769",
    "65536",
    "65535",
    "77",
    "78",
    "260",
    "261",
    "33",
    "007",
    "99999999999999999999999999",
];

/// Words that are no HEX, or just so.
const BAD_HEX: [&str; 12] =
    ["", "0", "000", "0g", "g0", "--", "0x00", "7e7", "-00", "FF", "ff-", "+0"];

impl Generator<'_> {
    pub(super) fn junk(&mut self) -> io::Result<()> {
        match self.dice.weighed(&[40, 25, 12, 12, 5, 3, 8]) {
            0 => self.spoilt_line(),
            1 => self.line_with_bad_word(),
            2 => self.no_device(),
            3 => self.near_command(),
            4 => self.long_line(),
            5 => self.binary_line(),
            _ => self.bare_words(),
        }
    }

    /// A recent good line, or `show 1` before there is one.
    fn recent_line(&mut self) -> Vec<u8> {
        match self.dice.below(self.recent.len()) {
            _ if self.recent.is_empty() => b"show 1".to_vec(),
            place => self.recent[place].clone(),
        }
    }

    /// A recent line with one octet or space put in, taken out or turned.
    fn spoilt_line(&mut self) -> io::Result<()> {
        let mut line = self.recent_line();
        let place = self.dice.below(line.len());
        let space = line.iter().position(|&octet| octet == b' ').unwrap_or(place);
        match self.dice.below(12) {
            0 => line.insert(space, b' '),
            1 => line.insert(0, b' '),
            2 => line.push(b' '),
            3 => line[space] = b'\t',
            4 => line.extend(b" 1"),
            5 => line.truncate(line.iter().rposition(|&octet| octet == b' ').unwrap_or(0)),
            6 => {
                line.remove(place);
            }
            7 => line[place] = self.dice.pick(b"gG-+ \r\x00\xff#zZ0"),
            8 => line.insert(place, self.dice.pick(b"0f- \t")),
            9 => line[0] = line[0].to_ascii_uppercase(),
            10 => line.truncate(place),
            _ => line.push(b'\r'),
        }
        self.emit(&line)
    }

    /// A recent line with one word, not the first, that is wrong there.
    fn line_with_bad_word(&mut self) -> io::Result<()> {
        let line = self.recent_line();
        let mut words: Vec<&[u8]> = line.split(|&octet| octet == b' ').collect();
        for _ in 0..self.dice.between(1, 2) {
            let bad = if self.dice.chance(600) {
                self.dice.pick(&BAD_NUMBERS)
            } else {
                self.dice.pick(&BAD_HEX)
            };
            if words.len() > 1 {
                let place = 1 + self.dice.below(words.len() - 1);
                words[place] = bad.as_bytes();
            }
        }
        let line = words.join(&b' ');
        self.emit(&line)
    }

    /// A device number that is none, before other faults or alone.
    fn no_device(&mut self) -> io::Result<()> {
        let next = (self.bench.devices.len() + 1).to_string();
        let k = match self.dice.below(4) {
            0 => "0",
            1 => "-1",
            2 => "4000000000",
            _ => &next,
        };
        let line = match self.dice.below(9) {
            0 => format!("show {k}"),
            1 => format!("frame {k} - 76"),
            2 => format!("hear {k} zz 76"),
            3 => format!("stopped {k} 40000"),
            4 => format!("raise {k} 2"),
            5 => format!("clear {k} 256"),
            6 => format!("frame {k} 0 601"),
            7 => format!("limit {k}"),
            _ => format!("hear {k} 013febdf 0"),
        };
        self.emit(line.as_bytes())
    }

    fn near_command(&mut self) -> io::Result<()> {
        let line = self.dice.pick(&[
            "DECODE 00 1",
            "decoder 00 1",
            "decod",
            "Show 1",
            "shows 1",
            "limit",
            "limits 1",
            "limit 1 1",
            "limit x",
            "decode-N 78 00 1",
            "decode-n 00 1",
            "decode-n 65536 zz x",
            "decode-n 77 zz x",
            "decode-n 78 00 601",
            "write-n 05 10 00 80",
            "write-n 65536 zz zz zz x",
            "write-n -1 05 10 - 80",
            "write-n 0 5 10 - 80",
            "listen 1",
            "listen ",
            "Listen",
            "listens",
            "octets",
            "octets 78 7e",
            "octets 7e 76",
            "octet 78 7e 76",
            "octets 65536 zz x",
            "octets -1 7e 76",
            "octets 77 zz x",
            "octets 77 7e x",
            "octets 261 7e 601",
            "octets 78 - 76 ",
            "quit",
            "help",
            " ",
            "  ",
            "\t",
            "-",
            "0",
            "report",
            "report Heard",
            "report heard ",
            "report silently",
            "report heard silent",
            "report ",
            " report heard",
            "scan",
            "scan ",
            "begin",
            "probe",
            "probe 47 47",
            "begin -1",
            "begin 65536",
            "scan 65536",
            "scan -1",
            "probe -1",
            "probe 601",
            "scan x",
            " # no remark",
            "\r",
        ]);
        self.emit(line.as_bytes())
    }

    /// Lines of about 2,000 octets; comments of more.
    fn long_line(&mut self) -> io::Result<()> {
        let length = self.dice.pick(&[1_998, 1_999, 2_000, 2_001, 2_002, 2_003, 5_000]);
        let start = self.dice.pick(&[
            "decode ",
            "#",
            "frame 1 ",
            "nonsense",
            "hear 1 ",
            "show 1",
            "write 01 93 ",
            "decode-n 260 ",
            "write-n 261 01 93 ",
            "octets 78 ",
        ]);
        let end = if start.contains("code") { " 80" } else { " 76" };
        let fill = length - start.len() - end.len();
        let mut line = start.as_bytes().to_vec();
        line.extend(vec![self.dice.pick(b"07f "); fill]);
        line.extend(end.as_bytes());
        if self.dice.chance(200) {
            line.push(b'\r');
        }
        self.emit(&line)
    }

    /// Any octets but 0x0A.
    fn binary_line(&mut self) -> io::Result<()> {
        let length = self.dice.below(60);
        let mut line: Vec<u8> = (0..length).map(|_| self.dice.octet()).collect();
        line.retain(|&octet| octet != b'\n');
        self.emit(&line)
    }

    /// Commands with words of no meaning.
    fn bare_words(&mut self) -> io::Result<()> {
        let commands = [
            "decode", "write", "device", "frame", "hear", "stopped", "raise", "clear", "show",
            "scan", "begin", "probe", "report", "decode-n", "write-n", "limit", "listen", "octets",
        ];
        let mut line = self.dice.pick(&commands).to_string();
        for _ in 0..self.dice.below(9) {
            line.push(' ');
            line.push_str(self.dice.pick(&["0", "1", "-", "00", "-5", "x", "", "2", "4142", "76"]));
        }
        self.emit(line.as_bytes())
    }
}
