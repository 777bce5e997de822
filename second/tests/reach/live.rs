//! What the random scripts reach on the live line (request (i)), followed from
//! commands and answers alone.

use second::frame::{self, ESCAPE, FLAG};
use second::words;

use super::{decoded_octets, size};

/// The stretch that lies open, as far as the answers said it was taken.
#[derive(Default)]
struct Stretch {
    octets: Vec<u8>,
    /// Where calls ended within it.
    cuts: Vec<usize>,
    /// The frame limits of the calls before the present one.
    limits: Vec<usize>,
    /// The flag that opened it closed another one that was handed out.
    shared: bool,
    call_refused: bool,
    other_command: bool,
}

/// The line as a script has left it.
#[derive(Default)]
pub struct Live {
    /// None before the first flag.
    open: Option<Stretch>,
    dropped: Vec<u8>,
    /// What the last call did not take.
    left: Vec<u8>,
    /// What was handed out last.
    last: String,
    kinds: Vec<String>,
}

impl Live {
    fn count(&mut self, kind: impl Into<String>) {
        self.kinds.push(kind.into());
    }

    /// The kinds that a line and its answer belong to.
    pub fn line(&mut self, asked: &[&str], given: &[&str]) -> Vec<String> {
        match (asked[0], given[0]) {
            ("octets", "took") => self.call(asked, given),
            ("octets", "refused") => self.refused_call(asked, given[1]),
            ("listen", "listening") => self.listen(),
            _ => {
                if let Some(stretch) = &mut self.open {
                    stretch.other_command = true;
                }
            }
        }
        std::mem::take(&mut self.kinds)
    }

    fn listen(&mut self) {
        let open = match &self.open {
            None => "before a flag",
            Some(stretch) if stretch.octets.is_empty() => "behind a flag",
            Some(_) => "in a stretch",
        };
        *self = Live::default();
        self.count(format!("listen {open}"));
    }

    fn refused_call(&mut self, asked: &[&str], number: &str) {
        let limit = number_of(asked[1]);
        let room = number_of(asked[3]);
        let lies = match (number, room) {
            ("6", _) => "",
            (_, 0) => ", room 0",
            (_, room) if room + 3 == limit => ", room N - 3",
            _ => ", room less",
        };
        self.count(format!("call refused {number}{lies}, {}", size(limit)));
        if [0, 77, 261, 65_535].contains(&limit) {
            self.count(format!("call refused {number} at {limit}"));
        }
        if asked[2] == "-" {
            self.count(format!("call refused {number}, no octets"));
        }
        if let Some(stretch) = &mut self.open {
            stretch.call_refused = true;
        }
    }

    fn call(&mut self, asked: &[&str], given: &[&str]) {
        let limit = number_of(asked[1]);
        let room = number_of(asked[3]);
        let run = words::hex(asked[2].as_bytes()).unwrap();
        let taken: usize = given[1].parse().unwrap();
        let said = match given[2] {
            "refused" => format!("refused {}", given[3]),
            word => word.to_string(),
        };
        self.count(format!("{said}, {}", size(limit)));
        let lies = if room + 2 == limit { "N - 2" } else { "more" };
        self.count(format!("{said}, room {lies}"));
        self.sent_again(&run);
        self.left = run[taken..].to_vec();
        let (octets, last) = run[..taken].split_at(taken - usize::from(said != "nothing"));
        for (place, &octet) in octets.iter().enumerate() {
            self.octet(octet, place);
        }
        match last {
            [_] => self.handed_out(&said, limit),
            _ => self.nothing(&run, limit),
        }
    }

    /// What the last call left is in this one, or is lost.
    fn sent_again(&mut self, run: &[u8]) {
        if !self.left.is_empty() && !run.is_empty() {
            let again = run.starts_with(&self.left) || self.left.starts_with(run);
            self.count(if again { "left, sent again" } else { "left, forgotten" });
        }
    }

    /// An octet that was taken and handed nothing out.
    fn octet(&mut self, octet: u8, place: usize) {
        match &mut self.open {
            Some(stretch) if octet != FLAG => stretch.octets.push(octet),
            Some(stretch) => {
                assert!(stretch.octets.is_empty());
                stretch.shared = false;
                let stands = if place == 0 { "first in its run" } else { "within a run" };
                self.count(format!("flag behind a flag, {stands}"));
            }
            None if octet != FLAG => self.dropped.push(octet),
            None => self.first_flag(),
        }
    }

    fn first_flag(&mut self) {
        let dropped = std::mem::take(&mut self.dropped);
        let what = match decoded(260, &dropped) {
            _ if dropped.is_empty() => "nothing",
            Some(_) => "a good frame",
            None if dropped.last() == Some(&ESCAPE) => "7D",
            None => "noise",
        };
        self.count(format!("{what} before the first flag"));
        self.open = Some(Stretch::default());
    }

    /// A call that ended with its run.
    fn nothing(&mut self, run: &[u8], limit: usize) {
        let what = match &mut self.open {
            _ if run.is_empty() => "no octets",
            None => "before the first flag",
            Some(stretch) if stretch.octets.is_empty() => "behind a flag",
            Some(stretch) => {
                stretch.cuts.push(stretch.octets.len());
                stretch.limits.push(limit);
                "in a stretch"
            }
        };
        self.count(format!("nothing, {what}"));
    }

    fn handed_out(&mut self, said: &str, limit: usize) {
        let next = Stretch { shared: true, ..Stretch::default() };
        let stretch = self.open.replace(next).unwrap();
        self.kinds.extend(stretch.kinds(said, limit));
        let behind = if self.last.starts_with("refused") { "a refused one" } else { "a frame" };
        if !self.last.is_empty() {
            let shared = if stretch.shared { "flag shared" } else { "flag not shared" };
            self.count(format!("{said} behind {behind}, {shared}"));
        }
        self.last = said.to_string();
    }
}

impl Stretch {
    /// The kinds of a stretch that was handed out.
    fn kinds(&self, said: &str, limit: usize) -> Vec<String> {
        let mut kinds = self.by_its_octets(said, limit);
        kinds.extend(self.by_its_cuts(said));
        let count = decoded_octets(&words::written(&self.octets));
        if said == "frame" && self.limits.iter().any(|&earlier| earlier < count) {
            kinds.push("frame of more than an earlier N".into());
        }
        if said == "refused 2" && self.limits.iter().any(|&earlier| earlier >= count) {
            kinds.push("refused 2 of no more than an earlier N".into());
        }
        if self.call_refused {
            kinds.push(format!("{said}, a call refused within"));
        }
        if self.other_command && !self.cuts.is_empty() {
            kinds.push(format!("{said}, another command within"));
        }
        kinds
    }

    fn by_its_octets(&self, said: &str, limit: usize) -> Vec<String> {
        let count = decoded_octets(&words::written(&self.octets));
        let mut kinds = Vec::new();
        if [3, 4, 78, 79, 259, 260, 261].contains(&count) {
            kinds.push(format!("{said}, {count} octets"));
        }
        if count == limit || count == limit + 1 {
            let lies = if count == limit { "N" } else { "N + 1" };
            kinds.push(format!("{said}, {lies} octets, {}", size(limit)));
        }
        match count {
            0..=260 => (),
            261..=65_535 => kinds.push(format!("{said}, more than 260 octets")),
            _ => kinds.push(format!("{said}, more than 65535 octets")),
        }
        if said == "refused 2" {
            for (first, name) in [(limit, "N"), (260, "260")] {
                if count > first && good_start(&self.octets, first) {
                    kinds.push(format!("refused 2, a good frame in the first {name}"));
                }
            }
        }
        kinds.extend(match self.octets[..] {
            [ESCAPE] => Some("7D alone".into()),
            [ESCAPE, ESCAPE] => Some("7D 7D alone".into()),
            [.., ESCAPE, ESCAPE] => Some(format!("7D 7D at the end, {said}")),
            [ref before @ .., ESCAPE] if decoded(limit, before).is_some() => {
                Some(format!("7D behind a good frame, {said}"))
            }
            [.., ESCAPE] => Some(format!("7D at the end, {said}")),
            _ => None,
        });
        if self.octets.windows(2).any(|two| two == [ESCAPE, ESCAPE]) {
            kinds.push(format!("{said}, 7D 7D in it"));
        }
        kinds
    }

    fn by_its_cuts(&self, said: &str) -> Vec<String> {
        let calls = match self.cuts.len() {
            0 => "one call",
            1 => "two calls",
            2..=9 => "some calls",
            _ => "many calls",
        };
        let mut kinds = vec![format!("{said} in {calls}")];
        for &cut in &self.cuts {
            let (before, behind) = self.octets.split_at(cut);
            let lies = match (before.last(), behind.first()) {
                (Some(&ESCAPE), None) => "7D and the flag",
                (Some(_), None) => "an octet and the flag",
                (Some(&ESCAPE), Some(&ESCAPE)) => "7D and 7D",
                (Some(&ESCAPE), Some(_)) if open_escape(before) => "7D and its octet",
                (Some(&ESCAPE), Some(_)) => "7D 7D and an octet",
                _ => continue,
            };
            kinds.push(format!("{said}, cut between {lies}"));
        }
        kinds
    }
}

fn number_of(word: &str) -> usize {
    word.parse::<i64>().unwrap() as usize
}

/// The frame that lies between two flags.
fn decoded(limit: usize, stretch: &[u8]) -> Option<usize> {
    frame::decode_n(limit, stretch, &mut [0; 258]).ok()
}

/// Octets that end with a 7D whose next octet is still to come.
fn open_escape(octets: &[u8]) -> bool {
    octets.iter().fold(false, |open, &octet| !open && octet == ESCAPE)
}

/// So many decoded octets at the start of a stretch are a good frame.
fn good_start(stretch: &[u8], count: usize) -> bool {
    let mut end = 0;
    for _ in 0..count {
        match stretch.get(end) {
            Some(&ESCAPE) => end += 2,
            Some(_) => end += 1,
            None => return false,
        }
    }
    stretch.get(..end).is_some_and(|start| decoded(260, start).is_some())
}

/// Kinds that must come at least so often in all the scripts together.
pub const OFTEN: [(&str, usize); 164] = [
    ("listen before a flag", 5),
    ("listen behind a flag", 200),
    ("listen in a stretch", 50),
    ("nothing before the first flag", 200),
    ("nothing, N 260", 2_000),
    ("nothing, N 78", 2_000),
    ("nothing, N between", 5_000),
    ("nothing, before the first flag", 200),
    ("nothing, behind a flag", 1_000),
    ("nothing, in a stretch", 10_000),
    ("nothing, no octets", 500),
    ("nothing, room N - 2", 10_000),
    ("nothing, room more", 2_000),
    ("noise before the first flag", 50),
    ("a good frame before the first flag", 20),
    ("7D before the first flag", 5),
    ("call refused 5, no octets", 50),
    ("call refused 5, room 0, N 260", 20),
    ("call refused 5, room 0, N 78", 50),
    ("call refused 5, room 0, N between", 50),
    ("call refused 5, room N - 3, N 260", 100),
    ("call refused 5, room N - 3, N 78", 100),
    ("call refused 5, room N - 3, N between", 200),
    ("call refused 5, room less, N 260", 200),
    ("call refused 5, room less, N 78", 200),
    ("call refused 5, room less, N between", 500),
    ("call refused 6 at 0", 20),
    ("call refused 6 at 261", 50),
    ("call refused 6 at 65535", 10),
    ("call refused 6 at 77", 50),
    ("call refused 6, N past 260", 100),
    ("call refused 6, N under 78", 100),
    ("call refused 6, no octets", 10),
    ("frame behind a frame, flag not shared", 500),
    ("frame behind a frame, flag shared", 200),
    ("frame behind a refused one, flag not shared", 500),
    ("frame behind a refused one, flag shared", 500),
    ("frame in many calls", 20),
    ("frame in one call", 1_000),
    ("frame in some calls", 500),
    ("frame in two calls", 500),
    ("frame of more than an earlier N", 50),
    ("frame, 259 octets", 50),
    ("frame, 260 octets", 50),
    ("frame, 4 octets", 100),
    ("frame, 78 octets", 100),
    ("frame, 79 octets", 50),
    ("frame, 7D 7D in it", 200),
    ("frame, N 260", 500),
    ("frame, N 78", 500),
    ("frame, N between", 1_000),
    ("frame, N octets, N 260", 50),
    ("frame, N octets, N 78", 50),
    ("frame, N octets, N between", 100),
    ("frame, a call refused within", 500),
    ("frame, another command within", 200),
    ("frame, cut between 7D 7D and an octet", 10),
    ("frame, cut between 7D and 7D", 20),
    ("frame, cut between 7D and its octet", 500),
    ("frame, cut between an octet and the flag", 200),
    ("frame, room N - 2", 2_000),
    ("frame, room more", 500),
    ("flag behind a flag, first in its run", 2_000),
    ("flag behind a flag, within a run", 1_000),
    ("left, forgotten", 200),
    ("left, sent again", 5_000),
    ("refused 1 behind a frame, flag not shared", 50),
    ("refused 1 behind a frame, flag shared", 50),
    ("refused 1 behind a refused one, flag not shared", 200),
    ("refused 1 behind a refused one, flag shared", 200),
    ("refused 1 in one call", 500),
    ("refused 1 in some calls", 20),
    ("refused 1 in two calls", 100),
    ("refused 1, 3 octets", 200),
    ("refused 1, 7D 7D in it", 20),
    ("refused 1, N 260", 100),
    ("refused 1, N 78", 100),
    ("refused 1, N between", 200),
    ("refused 1, a call refused within", 100),
    ("refused 1, another command within", 20),
    ("refused 1, cut between 7D 7D and an octet", 2),
    ("refused 1, cut between 7D and 7D", 5),
    ("refused 1, cut between 7D and its octet", 20),
    ("refused 1, cut between an octet and the flag", 50),
    ("refused 2 behind a frame, flag not shared", 200),
    ("refused 2 behind a frame, flag shared", 200),
    ("refused 2 behind a refused one, flag not shared", 200),
    ("refused 2 behind a refused one, flag shared", 200),
    ("refused 2 in many calls", 50),
    ("refused 2 in one call", 200),
    ("refused 2 in some calls", 500),
    ("refused 2 in two calls", 200),
    ("refused 2 of no more than an earlier N", 100),
    ("refused 2, 259 octets", 20),
    ("refused 2, 260 octets", 50),
    ("refused 2, 261 octets", 100),
    ("refused 2, 79 octets", 50),
    ("refused 2, 7D 7D in it", 200),
    ("refused 2, N + 1 octets, N 260", 100),
    ("refused 2, N + 1 octets, N 78", 50),
    ("refused 2, N + 1 octets, N between", 100),
    ("refused 2, N 260", 200),
    ("refused 2, N 78", 200),
    ("refused 2, N between", 500),
    ("refused 2, a call refused within", 200),
    ("refused 2, a good frame in the first 260", 100),
    ("refused 2, a good frame in the first N", 100),
    ("refused 2, another command within", 200),
    ("refused 2, cut between 7D 7D and an octet", 20),
    ("refused 2, cut between 7D and 7D", 20),
    ("refused 2, cut between 7D and its octet", 1_000),
    ("refused 2, cut between an octet and the flag", 200),
    ("refused 2, more than 260 octets", 500),
    ("refused 2, more than 65535 octets", 5),
    ("refused 3 behind a frame, flag not shared", 200),
    ("refused 3 behind a frame, flag shared", 200),
    ("refused 3 behind a refused one, flag not shared", 200),
    ("refused 3 behind a refused one, flag shared", 500),
    ("refused 3 in many calls", 20),
    ("refused 3 in one call", 1_000),
    ("refused 3 in some calls", 200),
    ("refused 3 in two calls", 200),
    ("refused 3, 259 octets", 10),
    ("refused 3, 260 octets", 10),
    ("refused 3, 4 octets", 100),
    ("refused 3, 78 octets", 10),
    ("refused 3, 79 octets", 20),
    ("refused 3, 7D 7D in it", 200),
    ("refused 3, N 260", 200),
    ("refused 3, N 78", 200),
    ("refused 3, N between", 500),
    ("refused 3, N octets, N 260", 10),
    ("refused 3, N octets, N 78", 5),
    ("refused 3, N octets, N between", 10),
    ("refused 3, a call refused within", 200),
    ("refused 3, another command within", 200),
    ("refused 3, cut between 7D 7D and an octet", 20),
    ("refused 3, cut between 7D and 7D", 20),
    ("refused 3, cut between 7D and its octet", 200),
    ("refused 3, cut between an octet and the flag", 200),
    ("refused 4 behind a frame, flag not shared", 100),
    ("refused 4 behind a frame, flag shared", 100),
    ("refused 4 behind a refused one, flag not shared", 200),
    ("refused 4 behind a refused one, flag shared", 200),
    ("refused 4 in many calls", 5),
    ("refused 4 in one call", 500),
    ("refused 4 in some calls", 100),
    ("refused 4 in two calls", 100),
    ("refused 4, 7D 7D in it", 200),
    ("refused 4, N 260", 200),
    ("refused 4, N 78", 100),
    ("refused 4, N between", 200),
    ("refused 4, a call refused within", 100),
    ("refused 4, another command within", 50),
    ("refused 4, cut between 7D 7D and an octet", 2),
    ("refused 4, cut between 7D and 7D", 50),
    ("refused 4, cut between 7D and its octet", 100),
    ("refused 4, cut between 7D and the flag", 200),
    ("refused 4, more than 260 octets", 50),
    ("7D 7D alone", 50),
    ("7D 7D at the end, refused 4", 200),
    ("7D alone", 200),
    ("7D at the end, refused 4", 200),
    ("7D behind a good frame, refused 4", 50),
];
