//! The script: one command line in, one answer line out.

use crate::bench::{self, Bench, MOST_DEVICES};
use crate::device;
use crate::frame::{self, LEAST_LIMIT};
use crate::identity::Identity;
use crate::lines::LONGEST;
use crate::receiver::Receiver;
use crate::record::{Answer, Drive, Link, Make, Record};
use crate::refusal::Refusal;
use crate::scan::{Beginning, Ending, Scan};
use crate::words::{self, written, Fault};

/// "Each lent output is filled with 0xa5 before the call."
const FILL: u8 = 0xA5;

/// The answer to a line whose end is already cut off. "A line that is empty
/// or begins with `#` gets no answer."
pub fn answer(bench: &mut Bench, line: &[u8]) -> Option<String> {
    if line.is_empty() || line.starts_with(b"#") {
        return None;
    }
    Some(match obey(bench, line) {
        Ok(answer) => answer,
        Err(fault) => format!("error {}", fault.word()),
    })
}

/// "A line's faults are looked for in this order: `long`, `command` (the first
/// word), `words` (their number), then each word from the left."
fn obey(bench: &mut Bench, line: &[u8]) -> Result<String, Fault> {
    if line.len() > LONGEST {
        return Err(Fault::Long);
    }
    // "Words are parted by one space each." Two in a row make an empty word.
    let words: Vec<&[u8]> = line.split(|&octet| octet == b' ').collect();
    match words[..] {
        [b"decode", line, room] => decode(LEAST_LIMIT, line, room),
        [b"decode-n", n, line, room] => decode(words::frame_limit(n)?, line, room),
        [b"write", ref words @ ..] if words.len() == 4 => write(LEAST_LIMIT, words),
        [b"write-n", n, ref words @ ..] if words.len() == 4 => write(words::frame_limit(n)?, words),
        [b"device", ref words @ ..] if words.len() == 7 => make_device(bench, words),
        [b"frame", k, frame, room] => give(bench, k, frame, room, device::judge),
        [b"hear", k, line, room] => give(bench, k, line, room, bench::hear),
        [b"stopped", k, tilt] => stopped(bench, k, tilt),
        [b"raise", k, alarm] => alarm_event(bench, k, alarm, device::raise),
        [b"clear", k, alarm] => alarm_event(bench, k, alarm, device::clear),
        [b"show", k] => show(bench, k),
        [b"limit", k] => limit(bench, k),
        [b"scan", limit] => scan(bench, limit),
        [b"begin", limit] => begin(bench, limit),
        [b"probe", room] => probe(bench, room),
        [b"report", b"heard"] => Ok(report(bench, true)),
        [b"report", b"silent"] => Ok(report(bench, false)),
        [b"listen"] => Ok(listen(bench)),
        [b"octets", n, run, room] => octets(bench, n, run, room),
        [command, ..] if is_command(command) => Err(Fault::Words),
        _ => Err(Fault::Command),
    }
}

fn is_command(word: &[u8]) -> bool {
    const COMMANDS: [&[u8]; 18] = [
        b"decode",
        b"decode-n",
        b"write",
        b"write-n",
        b"device",
        b"frame",
        b"hear",
        b"stopped",
        b"raise",
        b"clear",
        b"show",
        b"limit",
        b"scan",
        b"begin",
        b"probe",
        b"report",
        b"listen",
        b"octets",
    ];
    COMMANDS.contains(&word)
}

/// `decode HEX ROOM`, the case 78 of `decode-n N HEX ROOM`
fn decode(limit: usize, line: &[u8], room: &[u8]) -> Result<String, Fault> {
    let line = words::hex(line)?;
    let mut output = vec![FILL; words::room(room)?];
    let result = frame::decode_n(limit, &line, &mut output);
    Ok(length_answer("frame", result, &output))
}

/// `write ADDRESS CONTROL HEX ROOM`, the case 78 of `write-n N ADDRESS CONTROL
/// HEX ROOM`
fn write(limit: usize, words: &[&[u8]]) -> Result<String, Fault> {
    let &[address, control, payload, room] = words else {
        return Err(Fault::Words);
    };
    let address = words::octet(address)?;
    let control = words::octet(control)?;
    let payload = words::hex(payload)?;
    let mut output = vec![FILL; words::room(room)?];
    let result = frame::write_n(limit, address, control, &payload, &mut output);
    Ok(length_answer("line", result, &output))
}

/// `device IDENTITY PRODUCT HARDWARE SOFTWARE LOWEST HIGHEST PRESENT`. "Its
/// own faults first, then `error full` for a 33rd, then `refused 6`."
fn make_device(bench: &mut Bench, words: &[&[u8]]) -> Result<String, Fault> {
    let &[identity, product, hardware, software, lowest, highest, present] = words else {
        return Err(Fault::Words);
    };
    let make = Make {
        identity: Identity::new(&words::hex(identity)?),
        product: words::hex(product)?,
        hardware: words::hex(hardware)?,
        software: words::hex(software)?,
        lowest: words::tilt(lowest)?,
        highest: words::tilt(highest)?,
    };
    let present = words::tilt(present)?;
    if bench.devices.len() >= MOST_DEVICES {
        return Err(Fault::Full);
    }
    // "A refused device takes no number."
    Ok(match Record::fresh(make, present) {
        Ok(record) => {
            bench.devices.push(record);
            format!("device {}", bench.devices.len())
        }
        Err(refusal) => refused(refusal),
    })
}

/// `frame K HEX ROOM` and `hear K HEX ROOM`
fn give(
    bench: &mut Bench,
    k: &[u8],
    octets: &[u8],
    room: &[u8],
    to: impl Fn(&mut Record, &[u8], &mut [u8]) -> Result<Option<usize>, Refusal>,
) -> Result<String, Fault> {
    let place = words::device(k, bench.devices.len())?;
    let octets = words::hex(octets)?;
    let mut output = vec![FILL; words::room(room)?];
    let record = bench.devices.get_mut(place).ok_or(Fault::Device)?;
    Ok(match to(record, &octets, &mut output) {
        Ok(Some(length)) => format!("answer {length} {}", written(&output)),
        Ok(None) => format!("silence {}", written(&output)),
        Err(refusal) => format!("{} {}", refused(refusal), written(&output)),
    })
}

/// `stopped K T`
fn stopped(bench: &mut Bench, k: &[u8], tilt: &[u8]) -> Result<String, Fault> {
    let place = words::device(k, bench.devices.len())?;
    let tilt = words::tilt(tilt)?;
    let record = bench.devices.get_mut(place).ok_or(Fault::Device)?;
    Ok(done(device::stopped(record, tilt)))
}

/// `raise K A` and `clear K A`
fn alarm_event(
    bench: &mut Bench,
    k: &[u8],
    alarm: &[u8],
    event: impl Fn(&mut Record, u8) -> Result<(), Refusal>,
) -> Result<String, Fault> {
    let place = words::device(k, bench.devices.len())?;
    let alarm = words::alarm(alarm)?;
    let record = bench.devices.get_mut(place).ok_or(Fault::Device)?;
    Ok(done(event(record, alarm)))
}

/// `show K`: "`state LINK ADDRESS PENDING DRIVE TILT RAISED TOLD SUBSCRIBED`"
fn show(bench: &Bench, k: &[u8]) -> Result<String, Fault> {
    let place = words::device(k, bench.devices.len())?;
    let record = bench.devices.get(place).ok_or(Fault::Device)?;
    let alarms =
        |set: &std::collections::BTreeSet<u8>| written(&set.iter().copied().collect::<Vec<u8>>());
    Ok(format!(
        "state {} {} {} {} {} {} {} {}",
        link(record),
        record.address,
        pending(record),
        drive(record),
        record.unit.tilt,
        alarms(&record.unit.raised),
        alarms(&record.unit.told),
        u8::from(record.unit.subscribed),
    ))
}

/// `limit K`: "the frame limit of the link of device K"
fn limit(bench: &Bench, k: &[u8]) -> Result<String, Fault> {
    let place = words::device(k, bench.devices.len())?;
    let record = bench.devices.get(place).ok_or(Fault::Device)?;
    Ok(format!("limit {}", record.limit))
}

/// "LINK is `none`, `assigned` or `connected:R:S`"
fn link(record: &Record) -> String {
    match &record.link {
        Link::NoAddress => "none".to_string(),
        Link::AddressAssigned => "assigned".to_string(),
        Link::Connected(session) => format!("connected:{}:{}", session.due, session.unacknowledged),
    }
}

/// "PENDING `-`, or the payload of the pending answer in HEX, with `i:` in
/// front where it is an indication"
fn pending(record: &Record) -> String {
    match record.session().and_then(|session| session.pending.as_ref()) {
        None => "-".to_string(),
        Some(answer @ Answer::Message(_)) => written(&answer.payload()),
        Some(answer @ Answer::Indication(_)) => format!("i:{}", written(&answer.payload())),
    }
}

/// "DRIVE `still`, `moving` (nothing owed), `moving:ASKED` (a result owed) or
/// `stopped:ok` / `stopped:jam` (a result that waits)"
fn drive(record: &Record) -> String {
    match record.unit.drive {
        Drive::Still => "still".to_string(),
        Drive::Moving => "moving".to_string(),
        Drive::MovingTo(asked) => format!("moving:{asked}"),
        Drive::Stopped { success: true } => "stopped:ok".to_string(),
        Drive::Stopped { success: false } => "stopped:jam".to_string(),
    }
}

/// `scan LIMIT`
fn scan(bench: &mut Bench, limit: &[u8]) -> Result<String, Fault> {
    Ok(match bench.scan_bench(words::limit(limit)?) {
        Ok(scan) => progress(&scan),
        Err(refusal) => refused(refusal),
    })
}

/// `begin LIMIT`: "the bench's one scan record is made anew"
fn begin(bench: &mut Bench, limit: &[u8]) -> Result<String, Fault> {
    bench.scan = Scan::new(words::limit(limit)?);
    Ok("begun".to_string())
}

/// `probe ROOM`
fn probe(bench: &Bench, room: &[u8]) -> Result<String, Fault> {
    let mut output = vec![FILL; words::room(room)?];
    let result = bench.scan.probe(&mut output);
    Ok(length_answer("probe", result, &output))
}

/// `report heard`, `report silent`
fn report(bench: &mut Bench, heard: bool) -> String {
    match bench.scan.report(heard) {
        Ok(_) => progress(&bench.scan),
        Err(refusal) => refused(refusal),
    }
}

/// `listen`: "the bench's one receiver is made anew"
fn listen(bench: &mut Bench) -> String {
    bench.receiver = Receiver::default();
    "listening".to_string()
}

/// `octets N HEX ROOM`: "one call: the octets are lent to the receiver". Those
/// it "did not take are forgotten".
fn octets(bench: &mut Bench, n: &[u8], run: &[u8], room: &[u8]) -> Result<String, Fault> {
    let limit = words::frame_limit(n)?;
    let run = words::hex(run)?;
    let mut output = vec![FILL; words::room(room)?];
    let call = bench.receiver.take(limit, &run, &mut output);
    let buffer = written(&output);
    let taken = match call {
        Ok(taken) => taken,
        Err(refusal) => return Ok(format!("{} {buffer}", refused(refusal))),
    };
    let handed_out = match taken.handed_out {
        Some(Ok(length)) => format!("frame {length}"),
        Some(Err(refusal)) => refused(refusal),
        None => "nothing".to_string(),
    };
    Ok(format!("took {} {handed_out} {buffer}", taken.octets))
}

/// `going COUNT` or one of the four ends.
fn progress(scan: &Scan) -> String {
    let count = scan.count();
    let list = list(scan);
    match scan.ending() {
        None => format!("going {count}"),
        Some(Ending::Complete) => format!("complete {count} {list}"),
        Some(Ending::Doubtful) => format!("doubtful {count} {list}"),
        Some(Ending::Limit(next)) => format!("limit {count} {list} {}", beginning(&next)),
        Some(Ending::Full(next)) => format!("full {count} {list} {}", beginning(&next)),
    }
}

/// "LIST is the identities, 38 hex digits each, parted by `,`, or `-`"
fn list(scan: &Scan) -> String {
    if scan.list().is_empty() {
        return "-".to_string();
    }
    let identities: Vec<String> = scan.list().iter().map(|identity| written(identity)).collect();
    identities.join(",")
}

/// "`BITS:HEX` with 19 octets, zeros past the bits"
fn beginning(beginning: &Beginning) -> String {
    format!("{}:{}", beginning.bits, written(&beginning.octets))
}

fn done(result: Result<(), Refusal>) -> String {
    match result {
        Ok(()) => "done".to_string(),
        Err(refusal) => refused(refusal),
    }
}

fn refused(refusal: Refusal) -> String {
    format!("refused {}", refusal.number())
}

/// `WORD LEN BUFFER` or `refused N BUFFER`; "the whole of it, all ROOM octets,
/// is printed after the call".
fn length_answer(word: &str, result: Result<usize, Refusal>, output: &[u8]) -> String {
    match result {
        Ok(length) => format!("{word} {length} {}", written(output)),
        Err(refusal) => format!("{} {}", refused(refusal), written(output)),
    }
}
