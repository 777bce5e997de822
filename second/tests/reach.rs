//! What the generator's scripts reach: every kind of state and answer is
//! counted and must come often enough. `--nocapture` shows the counts.

#[path = "reach/live.rs"]
mod live;
use live::Live;

use std::collections::{BTreeMap, BTreeSet};
use std::thread;

use second::bench::Bench;
use second::generator::generate;
use second::lines::Lines;
use second::record::{after, Answer, Drive, Link, Record, Session};
use second::{frame, script, words};

const SEEDS: u64 = 20;
const LINES: usize = 23_000;

#[derive(Default)]
struct Tally {
    counts: BTreeMap<String, usize>,
    codes: BTreeSet<u8>,
    controls: BTreeSet<u8>,
    numbers: BTreeSet<(u8, u8)>,
    shared: Shared,
    live: Live,
}

/// The last assignment that was taken by wild card, in this script, and who
/// took it.
#[derive(Default)]
struct Shared {
    frame: Vec<u8>,
    /// Those that have the address still.
    devices: BTreeSet<String>,
}

impl Shared {
    /// The device has its address together with another one.
    fn holds(&self, k: &str) -> bool {
        self.devices.len() > 1 && self.devices.contains(k)
    }
}

impl Tally {
    fn count(&mut self, kind: impl Into<String>) {
        *self.counts.entry(kind.into()).or_default() += 1;
    }

    fn add(&mut self, other: Tally) {
        for (kind, count) in other.counts {
            *self.counts.entry(kind).or_default() += count;
        }
        self.codes.extend(other.codes);
        self.controls.extend(other.controls);
        self.numbers.extend(other.numbers);
    }

    fn script(&mut self, seed: u64, lines: usize) {
        let mut text = Vec::new();
        generate(seed, lines, &mut text).unwrap();
        let mut bench = Bench::default();
        let mut source = Lines::new(&text[..]);
        let mut line = Vec::new();
        let mut seen = 0;
        self.shared = Shared::default();
        self.live = Live::default();
        while source.next(&mut line).unwrap() {
            seen += 1;
            let before = device_of(&bench, &line).cloned();
            match script::answer(&mut bench, &line) {
                Some(answer) => self.line(before.as_ref(), &bench, &line, &answer),
                None => self.count("no answer"),
            }
        }
        assert_eq!(seen, lines);
        self.count(format!("devices {}", bench.devices.len()));
    }

    fn line(&mut self, before: Option<&Record>, bench: &Bench, line: &[u8], answer: &str) {
        let now = device_of(bench, line);
        let line = String::from_utf8_lossy(line);
        let asked: Vec<&str> = line.split(' ').collect();
        let given: Vec<&str> = answer.split(' ').collect();
        for kind in self.live.line(&asked, &given) {
            self.count(format!("live: {kind}"));
        }
        if given[0] != "error" {
            self.about_limits(before, bench, &asked, &given);
        }
        match (asked[0], given[0], before, now) {
            (_, "error", _, _) => self.count(answer),
            (command, "refused", _, _) => self.count(format!("{command} refused {}", given[1])),
            ("scan" | "report", _, _, _) => self.scan(asked[0], &given, bench.scan.limit()),
            ("frame" | "hear", _, Some(before), Some(now)) => {
                self.frame(before, now, &asked, &given)
            }
            ("stopped", "done", Some(before), _) => self.stopped(before),
            ("raise" | "clear", "done", Some(before), Some(now)) => self.alarm(before, now),
            (command, word, _, _) => self.count(format!("{command} {word}")),
        }
    }

    /// What the frame limit has to do with a line without a fault.
    fn about_limits(
        &mut self,
        before: Option<&Record>,
        bench: &Bench,
        asked: &[&str],
        given: &[&str],
    ) {
        let word =
            if given[0] == "refused" { format!("refused {}", given[1]) } else { given[0].into() };
        match (asked[0], before) {
            ("limit", _) => self.count(format!("limit, {}", size(given[1].parse().unwrap()))),
            ("decode-n", _) => self.with_limit(asked, &word, decoded_octets(asked[2])),
            ("write-n", _) => self.with_limit(asked, &word, octets_of(asked[4]) + 4),
            ("frame" | "hear", Some(before)) => self.room(before, asked, &word),
            ("scan", _) if bench.devices.iter().any(|record| record.limit > 78) => {
                let some = bench.devices.iter().any(|record| record.limit == 78);
                self.count(format!("scan with N larger, N 78 too {some}, {}", given[0]));
            }
            _ => (),
        }
        if asked[0] == "write-n" && word == "line" {
            let length: usize = given[1].parse().unwrap();
            let written = match length {
                0..=158 => "up to 158 octets",
                159..=400 => "more than 158 octets",
                _ => "more than 400 octets",
            };
            self.count(format!("write-n {written}"));
        }
    }

    /// A line for the codec with a limit: how the decoded octets lie to it.
    fn with_limit(&mut self, asked: &[&str], word: &str, octets: usize) {
        let limit: usize = asked[1].parse::<i64>().unwrap() as usize;
        let command = asked[0];
        self.count(format!("{command} {word}, {}", size(limit)));
        if [0, 77, 78, 79, 259, 260, 261, 65_535].contains(&limit) {
            self.count(format!("{command} at {limit}"));
        }
        if octets == limit {
            self.count(format!("{command} {word}, N octets, {}", size(limit)));
        }
        if octets == limit + 1 {
            self.count(format!("{command} {word}, N + 1 octets, {}", size(limit)));
        }
    }

    /// A frame for a device: how the room lies to N - 2.
    fn room(&mut self, before: &Record, asked: &[&str], word: &str) {
        let room: usize = asked[3].parse::<i64>().unwrap() as usize;
        let least = before.limit - 2;
        let lies = match room {
            _ if room == least => "N - 2",
            _ if room + 1 == least => "N - 3",
            _ if room < 76 => "under 76",
            _ if room < least => "76 to N - 4",
            _ => "more",
        };
        if matches!(word, "answer" | "silence" | "refused 5") {
            self.count(format!("{word}, room {lies}, {}", size(before.limit)));
        } else {
            self.count(format!("hear {word}, {}", size(before.limit)));
        }
    }

    fn scan(&mut self, command: &str, given: &[&str], limit: u16) {
        let listed = match given.get(2) {
            None | Some(&"-") => 0,
            Some(list) => list.split(',').count(),
        };
        let size = match listed {
            0 => "none",
            1 => "one",
            2..=31 => "some",
            _ => "32",
        };
        if given[0] == "going" {
            return self.count("report going");
        }
        self.count(format!("{command} {} {size}", given[0]));
        if command == "report" && given[0] != "limit" && given[1] == limit.to_string() {
            self.count(format!("by hand {} at the limit", given[0]));
        }
    }

    fn stopped(&mut self, before: &Record) {
        match (before.unit.drive, &before.link) {
            (Drive::MovingTo(_), _) => self.count("stopped with a result owed"),
            (_, Link::Connected(_)) => self.count("stopped with nothing owed, connected"),
            _ => self.count("stopped with nothing owed, not connected"),
        }
    }

    fn alarm(&mut self, before: &Record, now: &Record) {
        let changed = before.unit.raised != now.unit.raised;
        let pending = before.session().and_then(|session| session.pending.as_ref());
        if changed && matches!(pending, Some(Answer::Indication(_))) {
            self.count("alarm changed while an indication is pending");
        }
        self.count(if changed { "alarm changed" } else { "alarm unchanged" });
    }

    fn frame(&mut self, before: &Record, now: &Record, asked: &[&str], given: &[&str]) {
        let octets = words::hex(asked[2].as_bytes()).unwrap();
        let mut output = [0; 258];
        let octets = match asked[0] {
            "hear" => {
                let length = frame::decode_n(before.limit, &octets, &mut output).unwrap();
                &output[..length]
            }
            _ => &octets[..],
        };
        let answered = match given {
            ["answer", length, buffer] => {
                &words::hex(buffer.as_bytes()).unwrap()[..length.parse().unwrap()]
            }
            _ => &[],
        };
        self.answered(before, answered);
        self.frame_size(before, octets, answered);
        self.limit_after(before, now, octets, answered);
        if answered.is_empty() {
            let reason = reason(before, octets);
            if has_wild_card(octets) {
                self.count(format!("wild card, {reason}"));
            }
            self.count(format!("silence, {reason}"));
        }
        match octets {
            [0xFF, 0xBF, payload @ ..] if !answered.is_empty() => {
                self.assigned(before, asked[1], octets, payload)
            }
            [_, 0xBF, payload @ ..] if !answered.is_empty() => {
                self.negotiated(before, now, payload)
            }
            _ => (),
        }
        match octets {
            [0xFF, ..] => (),
            [address, _, ..] if *address == before.address && self.shared.holds(asked[1]) => {
                self.count(format!("address shared, {}", kind(answered)))
            }
            _ => (),
        }
        self.ended(before, now, answered);
        if let (Some(session), [address, control, payload @ ..]) = (before.session(), octets) {
            if *address == before.address && octets.len() <= before.limit - 2 {
                self.controls.insert(*control);
                if *control == 0xBF {
                    return;
                }
                self.in_session(session, now, before, *control, payload, answered);
            }
        }
    }

    fn answered(&mut self, before: &Record, answer: &[u8]) {
        let link = link(before);
        let pending = before.session().is_some_and(|session| session.pending.is_some());
        match answer {
            [] => self.count(format!("silence in {link}")),
            [_, 0x73] => self.count(format!("UA in {link}")),
            [_, 0x1F] => self.count(format!("DM in {link}")),
            [_, 0x97, _, _, cause] => self.count(format!("FRMR {cause} pending {pending}")),
            [_, 0xBF, 0x81, 0x80, ..] => self.count(format!("XID negotiation in {link}")),
            [_, 0xBF, .., 2, 1, _, 4, 1, 1] => self.count(format!("XID scan in {link}")),
            [_, 0xBF, ..] => self.count(format!("XID assignment in {link}")),
            [_, control] if control & 0x1F == 0x11 => self.count("RR"),
            [_, control, ..] if control & 1 == 0 => self.count("I"),
            _ => panic!("{answer:?}"),
        }
    }

    /// Frames about the longest that are read.
    fn frame_size(&mut self, before: &Record, octets: &[u8], answer: &[u8]) {
        let longest = before.limit - 2;
        let lies = match octets.len() {
            length if length == longest => "N - 2 octets",
            length if length == longest + 1 => "N - 1 octets",
            length if length > longest => "more octets",
            length if length > 76 => "77 to N - 3 octets",
            _ => return,
        };
        self.count(format!("{}, {lies}, {}", kind(answer), size(before.limit)));
    }

    /// What became of a limit that was larger than 78.
    fn limit_after(&mut self, before: &Record, now: &Record, octets: &[u8], answer: &[u8]) {
        if before.limit == 78 || octets.len() < 2 || kind(answer) == "negotiation" {
            return;
        }
        let control = octets[1];
        let by = match (control, kind(answer)) {
            (_, "silence") => "silence",
            (0xBF, _) if now.address == before.address && now == before => "a scan",
            (0xBF, _) => "an assignment",
            (0x93, "UA") => "SNRM",
            (0x53, _) => "DISC",
            (_, "DM") => "another that gets DM",
            (_, "FRMR") => "a frame reject",
            _ => "a frame of the session",
        };
        let what = if now.limit == 78 { "N back to 78 by" } else { "N kept by" };
        self.count(format!("{what} {by} in {}", link(before)));
        assert!(now.limit == 78 || now.limit == before.limit);
    }

    /// What a negotiation asked and what it changed.
    fn negotiated(&mut self, before: &Record, now: &Record, payload: &[u8]) {
        let order = walked(payload, 0x80).unwrap();
        let values: BTreeMap<u8, &[u8]> = order.iter().copied().collect();
        let identifiers: Vec<u8> = values.keys().copied().collect();
        self.count(format!("negotiated {identifiers:?}"));
        if !order.is_sorted() {
            self.count("negotiated in another order");
        }
        let pending = before.session().and_then(|session| session.pending.as_ref());
        match pending {
            Some(Answer::Indication(_)) => self.count("negotiated with an indication pending"),
            Some(Answer::Message(_)) => self.count("negotiated with a message pending"),
            None => self.count("negotiated with nothing pending"),
        }
        match before.unit.drive {
            Drive::MovingTo(_) => self.count("negotiated moving, a result owed"),
            Drive::Moving => self.count("negotiated moving, nothing owed"),
            Drive::Stopped { .. } => self.count("negotiated with a result waiting"),
            Drive::Still => (),
        }
        let number = |identifier: u8| {
            values.get(&identifier).map(|value| {
                value.iter().fold(0_u64, |number, &octet| 256 * number + u64::from(octet))
            })
        };
        for identifier in [5, 6] {
            if let Some(value) = values.get(&identifier) {
                self.count(format!("negotiated {identifier} in {} octets", value.len()));
            }
        }
        let (sent, received) = (number(5), number(6));
        if let (Some(sent), Some(received)) = (sent, received) {
            self.count(format!("negotiated, 5 to 6 {:?}", sent.cmp(&received)));
        }
        let change = format!("{:?}", now.limit.cmp(&before.limit));
        match sent.into_iter().chain(received).min() {
            None => {
                assert_eq!(now.limit, before.limit);
                self.count(format!("negotiated nothing, {}", size(before.limit)));
            }
            Some(bits) => {
                let kind = match bits {
                    0..=591 => "under 592 bits",
                    592..=599 => "592 to 599 bits",
                    600..=2_039 => "600 to 2039 bits",
                    2_040..=2_047 => "2040 to 2047 bits",
                    2_048..=2_055 => "2048 to 2055 bits",
                    _ => "more than 2055 bits",
                };
                self.count(format!("negotiated {kind}, N {change} from {}", size(before.limit)));
                if [0, 591, 592, 599, 600, 2_047, 2_048].contains(&bits) {
                    self.count(format!("negotiated exactly {bits} bits"));
                }
            }
        }
    }

    /// By which triples an assignment was taken, and by whom: the same by
    /// wild card makes devices share an address.
    fn assigned(&mut self, before: &Record, k: &str, octets: &[u8], payload: &[u8]) {
        let values = triples(payload).unwrap();
        if !values.contains_key(&2) {
            return;
        }
        let name = |identifier: u8| match values.get(&identifier) {
            None => "absent",
            Some([0xFF] | [0xFF, 0xFF]) => "FF",
            Some(_) => "own",
        };
        let identity = if values.contains_key(&1) { "with" } else { "without" };
        self.count(format!("taken by type {}, vendor {}, {identity} 1", name(4), name(6)));
        if self.shared.frame != octets {
            self.shared.devices.remove(k);
        }
        if !has_wild_card(octets) {
            return;
        }
        self.count(format!("taken by wild card in {}", link(before)));
        if self.shared.frame != octets {
            self.shared = Shared { frame: octets.to_vec(), devices: BTreeSet::new() };
        }
        self.shared.devices.insert(k.to_string());
        if self.shared.devices.len() > 1 {
            self.count("taken by wild card, and by another device before");
        }
    }

    /// What the end of a session drops.
    fn ended(&mut self, before: &Record, now: &Record, answer: &[u8]) {
        let Some(session) = before.session() else {
            return;
        };
        if now.session().is_some() && answer.get(1) != Some(&0x73) {
            return;
        }
        match (&session.pending, before.unit.drive) {
            (Some(Answer::Indication(_)), _) => self.count("ended with an indication pending"),
            (Some(Answer::Message(_)), _) => self.count("ended with a message pending"),
            _ => (),
        }
        match before.unit.drive {
            Drive::MovingTo(_) => self.count("ended with a result owed, moving"),
            Drive::Stopped { .. } => self.count("ended with a result waiting"),
            Drive::Moving => self.count("ended moving, nothing owed"),
            Drive::Still => self.count("ended still"),
        }
    }

    fn in_session(
        &mut self,
        session: &Session,
        now: &Record,
        before: &Record,
        control: u8,
        payload: &[u8],
        answer: &[u8],
    ) {
        let Some(later) = now.session().filter(|_| !answer.is_empty() && answer[1] != 0x73) else {
            return;
        };
        self.numbers.insert((later.due, later.unacknowledged));
        let acknowledged = later.unacknowledged != session.unacknowledged;
        if acknowledged {
            match session.pending {
                Some(Answer::Indication(_)) => self.count("indication acknowledged"),
                _ => self.count("message acknowledged"),
            }
        }
        let i_frame = control & 1 == 0;
        if i_frame && later.due == after(session.due) {
            self.accepted(before, payload, answer, acknowledged);
        } else if i_frame {
            let again = if answer.len() > 2 { "pending answer again" } else { "RR" };
            self.count(format!("I not accepted, {again}, acknowledging {acknowledged}"));
        } else if control & 0x0F == 0x05 {
            self.count(format!(
                "RNR pending {} acknowledging {acknowledged}",
                session.pending.is_some()
            ));
        } else if answer.len() > 2 {
            self.sent_at_rr(session, later, acknowledged);
        }
    }

    fn accepted(&mut self, before: &Record, message: &[u8], answer: &[u8], acknowledged: bool) {
        self.count(format!("I accepted, acknowledging {acknowledged}"));
        let Some(&code) = message.first() else {
            return self.count("message of 0 octets");
        };
        self.codes.insert(code);
        let known = if matches!(code, 4 | 5 | 6 | 0x12 | 0x33 | 0x34) {
            format!("{code:02x}")
        } else {
            "other".into()
        };
        match answer {
            [_, _] if message.len() < 3 => self.count("message shorter than 3"),
            [_, _] => self.count(format!("message {known} RR")),
            [_, _, _, 2, 0, 0x0B, why] => {
                self.count(format!("message {known} failure {why:02x}"));
                if *why == 5 {
                    self.count(format!(
                        "busy {}",
                        format!("{:?}", before.unit.drive).split(['(', ' ']).next().unwrap()
                    ));
                }
            }
            _ => self.count(format!("message {known} success")),
        }
    }

    fn sent_at_rr(&mut self, session: &Session, later: &Session, acknowledged: bool) {
        let again = session.pending.is_some() && !acknowledged;
        match later.pending.as_ref().unwrap() {
            _ if again => self.count("answer again at RR"),
            Answer::Indication(pairs) => self.count(format!("indication of {}", pairs.len())),
            Answer::Message(result) if result.len() == 4 => self.count("result success"),
            Answer::Message(_) => self.count("result failure 02"),
        }
    }
}

/// The state of a device's link, in the words of `show`.
fn link(record: &Record) -> &'static str {
    match record.link {
        Link::NoAddress => "none",
        Link::AddressAssigned => "assigned",
        Link::Connected(_) => "connected",
    }
}

/// Where a frame limit lies.
fn size(limit: usize) -> &'static str {
    match limit {
        0..=77 => "N under 78",
        78 => "N 78",
        79..=259 => "N between",
        260 => "N 260",
        _ => "N past 260",
    }
}

/// How many octets a word of HEX has.
fn octets_of(word: &str) -> usize {
    words::hex(word.as_bytes()).unwrap().len()
}

/// How many octets remain of a line without its escapes.
fn decoded_octets(word: &str) -> usize {
    let line = words::hex(word.as_bytes()).unwrap();
    let mut octets = line.iter();
    let mut count = 0;
    while let Some(&octet) = octets.next() {
        if octet == 0x7D {
            octets.next();
        }
        count += 1;
    }
    count
}

/// The kind of an answer.
fn kind(answer: &[u8]) -> &'static str {
    match answer {
        [] => "silence",
        [_, 0xBF, 0x81, 0x80, ..] => "negotiation",
        [_, 0xBF, ..] => "XID",
        [_, 0x73] => "UA",
        [_, 0x1F] => "DM",
        [_, 0x97, ..] => "FRMR",
        [_, control] if control & 0x1F == 0x11 => "RR",
        _ => "I",
    }
}

/// Why a frame gets silence: the first reason, going by 01 from the top.
fn reason(before: &Record, octets: &[u8]) -> String {
    let [address, control, payload @ ..] = octets else {
        return "shorter than 2".into();
    };
    let number_r = control >> 5;
    match (address, control) {
        _ if octets.len() > before.limit - 2 => "longer than N - 2".into(),
        (_, 0xAF) if negotiates(payload) => "poll bit clear, a negotiation".into(),
        (_, control) if control & 0x10 == 0 => "poll bit clear".into(),
        (0xFF, 0xBF) => xid_reason(before, payload),
        (0xFF, _) => "no XID to everyone".into(),
        (address, 0xBF) if *address != before.address && negotiates(payload) => {
            "another address, a negotiation".into()
        }
        (0, _) => "address 0".into(),
        (address, _) if *address != before.address => "another address".into(),
        (_, 0xBF) => negotiation_reason(payload),
        (_, 0x93) => "SNRM with payload".into(),
        (_, 0x53) => "DISC with payload".into(),
        _ => match before.session() {
            None => "RR or RNR with payload, assigned".into(),
            Some(session) => {
                let good = number_r == session.unacknowledged
                    || session.pending.is_some() && number_r == after(session.unacknowledged);
                format!("RR or RNR with payload, N(R) good {good}")
            }
        },
    }
}

/// Identifiers and values of a payload of this group, in their order, or what
/// is wrong with it.
fn walked(payload: &[u8], group: u8) -> Result<Vec<(u8, &[u8])>, String> {
    let (field, length) = match payload {
        [0x81, of_group, length, field @ ..] if *of_group == group => (field, *length),
        [0x81, 0x80 | 0xF0, ..] => return Err("XID of the other group".into()),
        _ => return Err("XID head".into()),
    };
    if usize::from(length) != field.len() {
        return Err("XID outer length".into());
    }
    let mut triples = Vec::new();
    let mut rest = field;
    while !rest.is_empty() {
        let [identifier, length, more @ ..] = rest else {
            return Err("XID triple cut short".into());
        };
        let Some((value, next)) = more.split_at_checked(usize::from(*length)) else {
            return Err("XID triple cut short".into());
        };
        triples.push((*identifier, value));
        rest = next;
    }
    Ok(triples)
}

/// The triples of an XID payload to everyone, or what is wrong with it.
fn triples(payload: &[u8]) -> Result<BTreeMap<u8, &[u8]>, String> {
    let mut values: BTreeMap<u8, &[u8]> = BTreeMap::new();
    for (identifier, value) in walked(payload, 0xF0)? {
        let lengths = match (identifier, value) {
            (4, [0xFF, 0xFF]) => return Err("XID type FF FF".into()),
            (6, [0xFF]) => return Err("XID vendor FF".into()),
            (1 | 3, _) => 1..=19,
            (2 | 4, _) => 1..=1,
            (6, _) => 2..=2,
            _ => return Err("XID identifier".into()),
        };
        if !lengths.contains(&value.len()) {
            return Err(format!("XID length of {identifier}"));
        }
        if values.insert(identifier, value).is_some() {
            return Err(format!("XID repeat of {identifier}"));
        }
    }
    Ok(values)
}

/// Why an XID frame to the own address gets silence.
fn negotiation_reason(payload: &[u8]) -> String {
    let mut seen = BTreeSet::new();
    let triples = match walked(payload, 0x80) {
        Ok(triples) => triples,
        Err(reason) => {
            // What would be answered by everyone.
            let would = if self::triples(payload).is_ok() { ", well formed" } else { "" };
            return format!("own {reason}{would}");
        }
    };
    for (identifier, value) in triples {
        let most = match identifier {
            5 | 6 => 4,
            7 | 8 => 1,
            1..=4 => return "own XID identifier of the other group".into(),
            _ => return "own XID identifier".into(),
        };
        match value.len() {
            0 => return format!("own XID {identifier} empty"),
            length if length > most => return format!("own XID {identifier} too long"),
            _ if !seen.insert(identifier) => return format!("own XID repeat of {identifier}"),
            _ => (),
        }
    }
    panic!("{payload:02x?} is answered");
}

/// An XID frame to everyone, well formed, that names a wild card.
fn has_wild_card(octets: &[u8]) -> bool {
    let [0xFF, 0xBF, payload @ ..] = octets else {
        return false;
    };
    let values = triples(payload).unwrap_or_default();
    values.get(&4) == Some(&&[0xFF][..]) || values.get(&6) == Some(&&[0xFF, 0xFF][..])
}

/// The payload of a negotiation that is well formed, whatever its address.
fn negotiates(payload: &[u8]) -> bool {
    let mut seen = BTreeSet::new();
    walked(payload, 0x80).is_ok_and(|triples| {
        triples.iter().all(|(identifier, value)| {
            let most = if *identifier < 7 { 4 } else { 1 };
            (5..=8).contains(identifier)
                && (1..=most).contains(&value.len())
                && seen.insert(*identifier)
        })
    })
}

/// The same for an XID frame to everyone.
fn xid_reason(before: &Record, payload: &[u8]) -> String {
    let values = match triples(payload) {
        Ok(values) => values,
        Err(reason) if negotiates(payload) => return format!("{reason}, a negotiation"),
        Err(reason) => return reason,
    };
    let identity = &before.make.identity;
    match (values.get(&1), values.get(&2), values.get(&3)) {
        (Some(value), None, Some(mask)) if values.len() == 2 => {
            let outside = value.iter().zip(*mask).any(|(value, mask)| value & !mask != 0);
            let all_ones = value.iter().all(|octet| *octet == 0xFF);
            match outside {
                _ if value.len() != mask.len() => "scan of unequal lengths".into(),
                true if all_ones => "scan of FF outside its mask".into(),
                true => "scan value outside its mask".into(),
                false if all_ones => "scan of FF".into(),
                false => "scan of others".into(),
            }
        }
        (Some(_), None, Some(_)) => match (values.get(&4), values.get(&6)) {
            (Some([0xFF]), None) => "scan with type FF".into(),
            (None, Some([0xFF, 0xFF])) => "scan with vendor FF FF".into(),
            (Some([0xFF]), Some([0xFF, 0xFF])) => "scan with both wild cards".into(),
            _ => "scan with type or vendor".into(),
        },
        (_, Some([0]), None) => "assignment of 0".into(),
        (_, Some([255]), None) => "assignment of 255".into(),
        (Some(value), Some(_), None) if value.len() > identity.unpadded().len() => {
            "assignment, identity too long".into()
        }
        (Some(value), Some(_), None) if !identity.unpadded().ends_with(value) => {
            let left = identity.unpadded().starts_with(value);
            format!("assignment, other identity, from the left {left}")
        }
        (_, Some(_), None) => match (values.get(&4), values.get(&6)) {
            (Some([0x00]), _) => "assignment, type 00".into(),
            (Some([0xFE]), _) => "assignment, type FE".into(),
            (Some([kind]), _) if ![0x01, 0xFF].contains(kind) => "assignment, other type".into(),
            (_, Some([0xFF, _])) => "assignment, vendor FF and another".into(),
            (_, Some([_, 0xFF])) => "assignment, vendor another and FF".into(),
            _ => "assignment, other vendor".into(),
        },
        _ => "XID neither".into(),
    }
}

/// The device that a line's second word names.
fn device_of<'bench>(bench: &'bench Bench, line: &[u8]) -> Option<&'bench Record> {
    let k = line.split(|&octet| octet == b' ').nth(1)?;
    bench.devices.get(words::device(k, bench.devices.len()).ok()?)
}

/// Kinds that must come at least so often in all the scripts together.
const OFTEN: [(&str, usize); 188] = [
    ("no answer", 1_000),
    ("devices 0", 1),
    ("devices 1", 1),
    ("devices 32", 2),
    ("error command", 500),
    ("error words", 500),
    ("error hex", 500),
    ("error number", 500),
    ("error room", 200),
    ("error device", 500),
    ("error long", 100),
    ("error full", 100),
    ("decode frame", 1_000),
    ("decode refused 1", 200),
    ("decode refused 2", 200),
    ("decode refused 3", 200),
    ("decode refused 4", 200),
    ("decode refused 5", 200),
    ("write line", 1_000),
    ("write refused 5", 200),
    ("write refused 9", 200),
    ("device device", 200),
    ("device refused 6", 500),
    ("frame refused 5", 1_000),
    ("hear refused 1", 200),
    ("hear refused 2", 200),
    ("hear refused 3", 500),
    ("hear refused 4", 200),
    ("hear refused 5", 500),
    ("stopped refused 8", 500),
    ("raise refused 8", 500),
    ("clear refused 8", 200),
    ("probe probe", 1_000),
    ("probe refused 5", 500),
    ("probe refused 7", 20),
    ("report refused 7", 200),
    ("report going", 10_000),
    ("report complete none", 20),
    ("report complete one", 10),
    ("report complete some", 10),
    ("report complete 32", 10),
    ("report doubtful none", 20),
    ("report doubtful one", 10),
    ("report doubtful some", 10),
    ("report limit none", 20),
    ("report limit one", 10),
    ("report limit some", 10),
    ("report full 32", 20),
    ("by hand full at the limit", 5),
    ("by hand doubtful at the limit", 5),
    ("by hand complete at the limit", 5),
    ("scan complete none", 20),
    ("scan complete one", 20),
    ("scan complete some", 20),
    ("scan complete 32", 5),
    ("scan limit none", 20),
    ("scan limit one", 20),
    ("scan limit some", 20),
    ("show state", 1_000),
    ("stopped with a result owed", 1_000),
    ("stopped with nothing owed, connected", 200),
    ("stopped with nothing owed, not connected", 50),
    ("alarm changed while an indication is pending", 200),
    ("silence in none", 200),
    ("silence in assigned", 500),
    ("silence in connected", 1_000),
    ("silence, shorter than 2", 200),
    ("silence, longer than N - 2", 1_000),
    ("silence, poll bit clear", 1_000),
    ("silence, address 0", 50),
    ("silence, another address", 1_000),
    ("silence, no XID to everyone", 500),
    ("silence, SNRM with payload", 500),
    ("silence, DISC with payload", 500),
    ("silence, RR or RNR with payload, assigned", 50),
    ("silence, RR or RNR with payload, N(R) good true", 500),
    ("silence, RR or RNR with payload, N(R) good false", 500),
    ("silence, XID head", 100),
    ("silence, XID outer length", 100),
    ("silence, XID triple cut short", 20),
    ("silence, XID identifier", 100),
    ("silence, XID length of 1", 100),
    ("silence, XID length of 2", 100),
    ("silence, XID length of 3", 50),
    ("silence, XID length of 4", 50),
    ("silence, XID length of 6", 50),
    ("silence, XID type FF FF", 50),
    ("silence, XID vendor FF", 50),
    ("silence, XID repeat of 1", 50),
    ("silence, XID repeat of 2", 50),
    ("silence, XID repeat of 3", 20),
    ("silence, XID repeat of 4", 20),
    ("silence, XID repeat of 6", 20),
    ("silence, XID neither", 200),
    ("silence, scan of unequal lengths", 50),
    ("silence, scan of others", 200),
    ("silence, scan value outside its mask", 200),
    ("silence, scan of FF", 100),
    ("silence, scan of FF outside its mask", 50),
    ("silence, scan with type FF", 100),
    ("silence, scan with vendor FF FF", 100),
    ("silence, scan with both wild cards", 100),
    ("silence, scan with type or vendor", 20),
    ("silence, assignment of 0", 100),
    ("silence, assignment of 255", 100),
    ("silence, assignment, identity too long", 100),
    ("silence, assignment, other identity, from the left true", 100),
    ("silence, assignment, other identity, from the left false", 100),
    ("silence, assignment, other type", 100),
    ("silence, assignment, other vendor", 100),
    ("silence, assignment, type 00", 50),
    ("silence, assignment, type FE", 50),
    ("silence, assignment, vendor FF and another", 50),
    ("silence, assignment, vendor another and FF", 50),
    ("wild card, XID neither", 50),
    ("wild card, assignment of 0", 20),
    ("wild card, assignment of 255", 20),
    ("wild card, assignment, identity too long", 50),
    ("wild card, assignment, other identity, from the left true", 50),
    ("wild card, assignment, other identity, from the left false", 100),
    ("wild card, assignment, other type", 20),
    ("wild card, assignment, other vendor", 50),
    ("wild card, assignment, type 00", 10),
    ("wild card, assignment, type FE", 10),
    ("wild card, assignment, vendor FF and another", 20),
    ("wild card, assignment, vendor another and FF", 20),
    ("UA in assigned", 1_000),
    ("UA in connected", 500),
    ("DM in assigned", 500),
    ("FRMR 1 pending false", 50),
    ("FRMR 1 pending true", 200),
    ("FRMR 8 pending false", 50),
    ("FRMR 8 pending true", 200),
    ("XID scan in none", 20),
    ("XID scan in assigned", 50),
    ("XID scan in connected", 500),
    ("XID assignment in none", 100),
    ("XID assignment in assigned", 50),
    ("XID assignment in connected", 200),
    ("taken by type absent, vendor absent, with 1", 20),
    ("taken by type absent, vendor absent, without 1", 10),
    ("taken by type own, vendor own, with 1", 20),
    ("taken by type own, vendor own, without 1", 10),
    ("taken by type FF, vendor absent, with 1", 30),
    ("taken by type FF, vendor absent, without 1", 30),
    ("taken by type FF, vendor own, with 1", 30),
    ("taken by type FF, vendor own, without 1", 30),
    ("taken by type absent, vendor FF, with 1", 30),
    ("taken by type absent, vendor FF, without 1", 30),
    ("taken by type own, vendor FF, with 1", 30),
    ("taken by type own, vendor FF, without 1", 30),
    ("taken by type FF, vendor FF, with 1", 30),
    ("taken by type FF, vendor FF, without 1", 30),
    ("taken by wild card in none", 50),
    ("taken by wild card in assigned", 50),
    ("taken by wild card in connected", 200),
    ("taken by wild card, and by another device before", 100),
    ("address shared, UA", 200),
    ("address shared, DM", 100),
    ("address shared, I", 1_000),
    ("address shared, RR", 1_000),
    ("address shared, FRMR", 50),
    ("address shared, silence", 200),
    ("ended with an indication pending", 100),
    ("ended with a message pending", 200),
    ("ended with a result owed, moving", 200),
    ("ended with a result waiting", 100),
    ("ended moving, nothing owed", 100),
    ("indication acknowledged", 1_000),
    ("message acknowledged", 1_000),
    ("I accepted, acknowledging true", 1_000),
    ("I accepted, acknowledging false", 1_000),
    ("I not accepted, pending answer again, acknowledging false", 1_000),
    ("I not accepted, RR, acknowledging true", 500),
    ("I not accepted, RR, acknowledging false", 500),
    ("RNR pending true acknowledging true", 500),
    ("RNR pending true acknowledging false", 200),
    ("RNR pending false acknowledging false", 500),
    ("answer again at RR", 1_000),
    ("indication of 1", 1_000),
    ("indication of 3", 100),
    ("indication of 6", 20),
    ("result success", 500),
    ("result failure 02", 500),
    ("busy Moving", 200),
    ("busy MovingTo", 1_000),
    ("busy Stopped", 500),
    ("message shorter than 3", 200),
];

/// The same for what request (iv) added.
const OFTEN_WITH_LIMITS: [(&str, usize); 184] = [
    ("silence, poll bit clear, a negotiation", 50),
    ("silence, another address, a negotiation", 50),
    ("silence, XID of the other group", 50),
    ("silence, XID of the other group, a negotiation", 200),
    ("silence, own XID of the other group", 100),
    ("silence, own XID of the other group, well formed", 500),
    ("silence, own XID head", 50),
    ("silence, own XID outer length", 50),
    ("silence, own XID triple cut short", 20),
    ("silence, own XID identifier", 50),
    ("silence, own XID identifier of the other group", 50),
    ("silence, own XID 5 empty", 20),
    ("silence, own XID 6 empty", 20),
    ("silence, own XID 7 empty", 20),
    ("silence, own XID 8 empty", 20),
    ("silence, own XID 5 too long", 20),
    ("silence, own XID 6 too long", 20),
    ("silence, own XID 7 too long", 20),
    ("silence, own XID 8 too long", 20),
    ("silence, own XID repeat of 5", 20),
    ("silence, own XID repeat of 6", 20),
    ("silence, own XID repeat of 7", 20),
    ("silence, own XID repeat of 8", 20),
    ("XID negotiation in assigned", 200),
    ("XID negotiation in connected", 2_000),
    ("address shared, negotiation", 200),
    ("negotiated []", 100),
    ("negotiated [5]", 100),
    ("negotiated [6]", 100),
    ("negotiated [7]", 100),
    ("negotiated [8]", 100),
    ("negotiated [5, 6]", 100),
    ("negotiated [5, 7]", 100),
    ("negotiated [5, 8]", 100),
    ("negotiated [6, 7]", 100),
    ("negotiated [6, 8]", 100),
    ("negotiated [7, 8]", 100),
    ("negotiated [5, 6, 7]", 100),
    ("negotiated [5, 6, 8]", 100),
    ("negotiated [5, 7, 8]", 100),
    ("negotiated [6, 7, 8]", 100),
    ("negotiated [5, 6, 7, 8]", 100),
    ("negotiated in another order", 500),
    ("negotiated 5 in 1 octets", 20),
    ("negotiated 5 in 2 octets", 500),
    ("negotiated 5 in 3 octets", 100),
    ("negotiated 5 in 4 octets", 100),
    ("negotiated 6 in 1 octets", 20),
    ("negotiated 6 in 2 octets", 500),
    ("negotiated 6 in 3 octets", 100),
    ("negotiated 6 in 4 octets", 100),
    ("negotiated, 5 to 6 Less", 200),
    ("negotiated, 5 to 6 Equal", 50),
    ("negotiated, 5 to 6 Greater", 200),
    ("negotiated exactly 0 bits", 20),
    ("negotiated exactly 591 bits", 20),
    ("negotiated exactly 592 bits", 20),
    ("negotiated exactly 599 bits", 20),
    ("negotiated exactly 600 bits", 20),
    ("negotiated exactly 2047 bits", 20),
    ("negotiated exactly 2048 bits", 20),
    ("negotiated nothing, N 78", 200),
    ("negotiated nothing, N between", 100),
    ("negotiated nothing, N 260", 50),
    ("negotiated under 592 bits, N Equal from N 78", 100),
    ("negotiated under 592 bits, N Less from N between", 50),
    ("negotiated under 592 bits, N Less from N 260", 20),
    ("negotiated 592 to 599 bits, N Equal from N 78", 20),
    ("negotiated 592 to 599 bits, N Less from N between", 10),
    ("negotiated 592 to 599 bits, N Less from N 260", 5),
    ("negotiated 600 to 2039 bits, N Greater from N 78", 500),
    ("negotiated 600 to 2039 bits, N Greater from N between", 100),
    ("negotiated 600 to 2039 bits, N Equal from N between", 20),
    ("negotiated 600 to 2039 bits, N Less from N between", 100),
    ("negotiated 600 to 2039 bits, N Less from N 260", 100),
    ("negotiated 2040 to 2047 bits, N Greater from N 78", 50),
    ("negotiated 2040 to 2047 bits, N Less from N 260", 5),
    ("negotiated 2048 to 2055 bits, N Greater from N 78", 50),
    ("negotiated 2048 to 2055 bits, N Equal from N 260", 10),
    ("negotiated more than 2055 bits, N Greater from N 78", 100),
    ("negotiated more than 2055 bits, N Greater from N between", 50),
    ("negotiated more than 2055 bits, N Equal from N 260", 20),
    ("negotiated with nothing pending", 500),
    ("negotiated with a message pending", 500),
    ("negotiated with an indication pending", 100),
    ("negotiated moving, a result owed", 200),
    ("negotiated moving, nothing owed", 100),
    ("negotiated with a result waiting", 200),
    ("N back to 78 by SNRM in connected", 100),
    ("N back to 78 by DISC in connected", 50),
    ("N back to 78 by a frame reject in connected", 200),
    ("N back to 78 by an assignment in connected", 100),
    ("N back to 78 by an assignment in assigned", 20),
    ("N kept by SNRM in assigned", 100),
    ("N kept by DISC in assigned", 50),
    ("N kept by another that gets DM in assigned", 100),
    ("N kept by silence in assigned", 100),
    ("N kept by silence in connected", 1_000),
    ("N kept by a scan in connected", 500),
    ("N kept by a scan in assigned", 5),
    ("N kept by a frame of the session in connected", 10_000),
    ("I, N - 2 octets, N 78", 100),
    ("I, N - 2 octets, N between", 200),
    ("I, N - 2 octets, N 260", 100),
    ("I, 77 to N - 3 octets, N between", 100),
    ("I, 77 to N - 3 octets, N 260", 50),
    ("FRMR, N - 2 octets, N 78", 10),
    ("FRMR, N - 2 octets, N between", 10),
    ("FRMR, N - 2 octets, N 260", 5),
    ("DM, N - 2 octets, N 78", 10),
    ("DM, N - 2 octets, N between", 10),
    ("DM, N - 2 octets, N 260", 5),
    ("silence, N - 2 octets, N between", 50),
    ("silence, N - 1 octets, N 78", 100),
    ("silence, N - 1 octets, N between", 200),
    ("silence, N - 1 octets, N 260", 100),
    ("silence, more octets, N between", 100),
    ("silence, more octets, N 260", 50),
    ("answer, room N - 2, N 78", 10_000),
    ("answer, room N - 2, N between", 10_000),
    ("answer, room N - 2, N 260", 2_000),
    ("answer, room more, N between", 1_000),
    ("answer, room more, N 260", 500),
    ("silence, room N - 2, N between", 1_000),
    ("silence, room N - 2, N 260", 500),
    ("refused 5, room N - 3, N 78", 500),
    ("refused 5, room N - 3, N between", 200),
    ("refused 5, room N - 3, N 260", 100),
    ("refused 5, room 76 to N - 4, N between", 200),
    ("refused 5, room 76 to N - 4, N 260", 100),
    ("refused 5, room under 76, N 260", 50),
    ("hear refused 1, N 260", 20),
    ("hear refused 2, N 78", 100),
    ("hear refused 2, N between", 100),
    ("hear refused 2, N 260", 50),
    ("hear refused 3, N 260", 50),
    ("hear refused 4, N 260", 20),
    ("limit, N 78", 1_000),
    ("limit, N between", 500),
    ("limit, N 260", 200),
    ("scan with N larger, N 78 too false, complete", 20),
    ("scan with N larger, N 78 too false, limit", 20),
    ("scan with N larger, N 78 too true, complete", 50),
    ("scan with N larger, N 78 too true, limit", 50),
    ("decode-n at 0", 10),
    ("decode-n at 77", 100),
    ("decode-n at 78", 500),
    ("decode-n at 79", 200),
    ("decode-n at 259", 200),
    ("decode-n at 260", 500),
    ("decode-n at 261", 100),
    ("decode-n at 65535", 10),
    ("decode-n frame, N octets, N 78", 10),
    ("decode-n frame, N octets, N between", 20),
    ("decode-n frame, N octets, N 260", 10),
    ("decode-n refused 1, N 260", 20),
    ("decode-n refused 2, N + 1 octets, N 78", 20),
    ("decode-n refused 2, N + 1 octets, N between", 50),
    ("decode-n refused 2, N + 1 octets, N 260", 20),
    ("decode-n refused 3, N 260", 50),
    ("decode-n refused 4, N 260", 50),
    ("decode-n refused 5, N 260", 50),
    ("decode-n refused 6, N under 78", 100),
    ("decode-n refused 6, N past 260", 100),
    ("write-n at 0", 10),
    ("write-n at 77", 50),
    ("write-n at 78", 200),
    ("write-n at 79", 100),
    ("write-n at 259", 100),
    ("write-n at 260", 200),
    ("write-n at 261", 50),
    ("write-n at 65535", 5),
    ("write-n line, N octets, N 78", 10),
    ("write-n line, N octets, N between", 20),
    ("write-n line, N octets, N 260", 10),
    ("write-n refused 5, N 260", 50),
    ("write-n refused 9, N + 1 octets, N 78", 20),
    ("write-n refused 9, N + 1 octets, N between", 50),
    ("write-n refused 9, N + 1 octets, N 260", 20),
    ("write-n refused 6, N under 78", 100),
    ("write-n refused 6, N past 260", 100),
    ("write-n up to 158 octets", 500),
    ("write-n more than 158 octets", 100),
    ("write-n more than 400 octets", 10),
];

/// The messages' outcomes that must come at least a hundred times.
const OUTCOMES: [&str; 17] = [
    "04 success",
    "04 failure 24",
    "05 success",
    "05 failure 24",
    "06 success",
    "06 failure 24",
    "12 success",
    "12 failure 24",
    "33 RR",
    "33 failure 05",
    "33 failure 13",
    "33 failure 24",
    "34 success",
    "34 failure 05",
    "34 failure 24",
    "other failure 19",
    "other failure 25",
];

/// The scripts of all seeds, on as many cores as there are.
fn all_scripts() -> Tally {
    let workers = thread::available_parallelism().map_or(1, |n| n.get() as u64);
    let part = |first: u64| {
        let mut tally = Tally::default();
        for seed in (first..SEEDS).step_by(workers as usize) {
            tally.script(seed, LINES);
        }
        tally
    };
    let mut all = Tally::default();
    thread::scope(|scope| {
        let parts: Vec<_> = (0..workers).map(|first| scope.spawn(move || part(first))).collect();
        for part in parts {
            all.add(part.join().unwrap());
        }
    });
    all
}

#[test]
fn everything_is_reached() {
    let tally = all_scripts();
    for (kind, count) in &tally.counts {
        println!("{count:8} {kind}");
    }
    println!("{:8} message codes", tally.codes.len());
    println!("{:8} controls to a connected device", tally.controls.len());
    println!("{:8} pairs of R and S", tally.numbers.len());
    let mut rare = Vec::new();
    for (kind, least) in OFTEN.into_iter().chain(OFTEN_WITH_LIMITS) {
        if tally.counts.get(kind).copied().unwrap_or(0) < least {
            rare.push(kind.to_string());
        }
    }
    for outcome in OUTCOMES {
        let kind = format!("message {outcome}");
        if tally.counts.get(&kind).copied().unwrap_or(0) < 100 {
            rare.push(kind);
        }
    }
    for (kind, least) in live::OFTEN {
        let kind = format!("live: {kind}");
        if tally.counts.get(&kind).copied().unwrap_or(0) < least {
            rare.push(kind);
        }
    }
    assert!(rare.is_empty(), "too rare: {rare:#?}");
    assert_eq!(tally.codes.len(), 256);
    assert_eq!(tally.controls.len(), 256);
    assert_eq!(tally.numbers.len(), 64);
}

#[test]
fn a_seed_determines_its_script() {
    let script = |seed, lines| {
        let mut text = Vec::new();
        generate(seed, lines, &mut text).unwrap();
        text
    };
    assert_eq!(script(5, 3_000), script(5, 3_000));
    assert_ne!(script(5, 3_000), script(15, 3_000));
    assert_eq!(script(5, 0), b"");
}
