//! The tilt device: frames judged and events taken ("The link", "Messages").

use crate::frame;
use crate::message;
use crate::negotiation;
use crate::record::{after, Answer, Drive, Link, Make, Record, Session, Unit, ALARMS};
use crate::refusal::Refusal;
use crate::xid;

/// "Address 0xFF: only XID (0xBF) is read."
pub const EVERYONE: u8 = 0xFF;
/// "Control octets below have the poll bit set."
pub const POLL: u8 = 0x10;

pub const XID: u8 = 0xBF;
pub const SNRM: u8 = 0x93;
pub const DISC: u8 = 0x53;
pub const UA: u8 = 0x73;
pub const DM: u8 = 0x1F;
pub const FRMR: u8 = 0x97;
/// "I is 0x10 + 2·N(S) + 32·N(R), RR 0x11 + 32·N(R), RNR 0x15 + 32·N(R)."
pub const I: u8 = 0x10;
pub const RR: u8 = 0x11;
pub const RNR: u8 = 0x15;

/// A control octet with the poll bit set, taken apart.
#[derive(Clone, Copy, Debug, PartialEq, Eq)]
enum Control {
    Xid,
    Snrm,
    Disc,
    /// I with N(S) and N(R)
    I(u8, u8),
    /// RR with N(R)
    Rr(u8),
    /// RNR with N(R)
    Rnr(u8),
    Unknown,
}

impl Control {
    fn read(octet: u8) -> Control {
        let number_r = octet >> 5;
        match octet {
            XID => Control::Xid,
            SNRM => Control::Snrm,
            DISC => Control::Disc,
            _ if octet & 0x11 == I => Control::I(octet >> 1 & 7, number_r),
            _ if octet & 0x1F == RR => Control::Rr(number_r),
            _ if octet & 0x1F == RNR => Control::Rnr(number_r),
            _ => Control::Unknown,
        }
    }

    /// "SNRM, DISC, RR or RNR with payload: silence."
    fn bears_no_payload(self) -> bool {
        matches!(self, Control::Snrm | Control::Disc | Control::Rr(_) | Control::Rnr(_))
    }
}

/// The control and payload of an answer.
struct Reply {
    control: u8,
    payload: Vec<u8>,
}

impl Reply {
    fn bare(control: u8) -> Reply {
        Reply { control, payload: Vec::new() }
    }
}

/// FRMR's third octet: "8 for a bad N(R) or 1 for an unknown control".
#[derive(Clone, Copy)]
enum Fault {
    BadNumber = 8,
    UnknownControl = 1,
}

/// Gives a decoded frame to the device: the length of its answer, which now
/// stands at the start of the answer buffer, or nothing for silence.
/// "The device 6, then 5 for a frame."
pub fn judge(
    record: &mut Record,
    frame: &[u8],
    answer: &mut [u8],
) -> Result<Option<usize>, Refusal> {
    if !record.is_allowed() {
        return Err(Refusal::NotAllowed);
    }
    // "Refusal 5 of a judged frame is 'an answer buffer shorter than N - 2',
    // silence 'more than N - 2 octets', with the N of the record handed in."
    let longest = frame::longest_frame(record.limit);
    if answer.len() < longest {
        return Err(Refusal::OutputTooShort);
    }
    // "fewer than 2 ... octets, silence"
    let [address, control, payload @ ..] = frame else {
        return Ok(None);
    };
    if frame.len() > longest {
        return Ok(None);
    }
    match reply(record, *address, *control, payload) {
        Some(reply) => put_reply(record.address, &reply, answer).map(Some),
        None => Ok(None),
    }
}

/// "Answers carry the device's address (0 in NoAddress)", which after an
/// assignment is the new one.
fn put_reply(address: u8, reply: &Reply, answer: &mut [u8]) -> Result<usize, Refusal> {
    let mut octets = vec![address, reply.control];
    octets.extend(&reply.payload);
    frame::put(&octets, answer)
}

/// The link's list of rules, from the top.
fn reply(record: &mut Record, address: u8, control: u8, payload: &[u8]) -> Option<Reply> {
    // "with it clear, silence"
    if control & POLL == 0 {
        return None;
    }
    if address == EVERYONE {
        return reply_to_everyone(record, control, payload);
    }
    // "Any other address than the device's own nonzero one: silence."
    if address == 0 || address != record.address {
        return None;
    }
    let read = Control::read(control);
    if read == Control::Xid {
        return reply_to_negotiation(record, payload);
    }
    // "SNRM, DISC, RR or RNR with payload: silence."
    if read.bears_no_payload() && !payload.is_empty() {
        return None;
    }
    match record.link {
        Link::NoAddress => None,
        Link::AddressAssigned => Some(reply_when_assigned(record, read)),
        Link::Connected(_) => Some(reply_when_connected(record, read, control, payload)),
    }
}

fn reply_to_everyone(record: &mut Record, control: u8, payload: &[u8]) -> Option<Reply> {
    if control != XID {
        return None;
    }
    let payload = xid::answer(record, payload)?;
    Some(Reply { control: XID, payload })
}

/// "XID, poll bit set, to the device's own nonzero address, in AddressAssigned
/// and in Connected": a device without an address has none of its own.
fn reply_to_negotiation(record: &mut Record, payload: &[u8]) -> Option<Reply> {
    let payload = negotiation::answer(record, payload)?;
    Some(Reply { control: XID, payload })
}

/// "AddressAssigned: SNRM 0x93 gets UA 0x73 and Connected; anything else gets
/// DM 0x1F." "An SNRM in AddressAssigned ends nothing and keeps N, and so does
/// a DISC there."
fn reply_when_assigned(record: &mut Record, read: Control) -> Reply {
    if read == Control::Snrm {
        record.link = Link::Connected(Session::default());
        Reply::bare(UA)
    } else {
        Reply::bare(DM)
    }
}

/// "Connected: SNRM gets UA and starts a new session; DISC 0x53 gets UA and
/// AddressAssigned." The rest goes to the session. N is 78 "after a DISC, a
/// frame reject or an SNRM in Connected".
fn reply_when_connected(record: &mut Record, read: Control, control: u8, payload: &[u8]) -> Reply {
    match (read, &mut record.link) {
        (Control::Snrm, _) => {
            record.end_session(Link::Connected(Session::default()));
            Reply::bare(UA)
        }
        (Control::Disc, _) => {
            record.end_session(Link::AddressAssigned);
            Reply::bare(UA)
        }
        (_, Link::Connected(session)) => {
            match reply_in_session(session, &record.make, &mut record.unit, read, payload) {
                Ok(reply) => reply,
                Err(fault) => {
                    let reply = frame_reject(session, control, fault);
                    // "The link falls to AddressAssigned (house rule)."
                    record.end_session(Link::AddressAssigned);
                    reply
                }
            }
        }
        (_, _) => Reply::bare(DM),
    }
}

/// "FRMR 0x97 with three payload octets: the control; 2·V(S) + 32·R; 8 for a
/// bad N(R) or 1 for an unknown control."
fn frame_reject(session: &Session, control: u8, fault: Fault) -> Reply {
    let numbers = 2 * session.next_to_send() + 32 * session.due;
    Reply { control: FRMR, payload: vec![control, numbers, fault as u8] }
}

fn reply_in_session(
    session: &mut Session,
    make: &Make,
    unit: &mut Unit,
    read: Control,
    payload: &[u8],
) -> Result<Reply, Fault> {
    match read {
        Control::I(number_s, number_r) => {
            acknowledge(session, unit, number_r)?;
            Ok(reply_to_i(session, make, unit, number_s, payload))
        }
        Control::Rr(number_r) => {
            acknowledge(session, unit, number_r)?;
            Ok(reply_to_rr(session, unit))
        }
        Control::Rnr(number_r) => {
            acknowledge(session, unit, number_r)?;
            // "RNR gets RR."
            Ok(ready(session))
        }
        _ => Err(Fault::UnknownControl),
    }
}

/// "N(R) must be S, or S+1 where an answer is pending, which removes it and
/// moves S on." "Told is updated when the indication is acknowledged."
fn acknowledge(session: &mut Session, unit: &mut Unit, number_r: u8) -> Result<(), Fault> {
    if number_r == session.unacknowledged {
        return Ok(());
    }
    if number_r != after(session.unacknowledged) {
        return Err(Fault::BadNumber);
    }
    let Some(answer) = session.pending.take() else {
        return Err(Fault::BadNumber);
    };
    session.unacknowledged = number_r;
    if let Answer::Indication(said) = answer {
        unit.tell(&said);
    }
    Ok(())
}

/// "an I-frame with N(S) = R and nothing pending is accepted: R moves on and
/// its message is carried out. Any other isn't carried out and moves nothing;
/// it gets the pending answer again, else RR with N(R) = R."
fn reply_to_i(
    session: &mut Session,
    make: &Make,
    unit: &mut Unit,
    number_s: u8,
    message: &[u8],
) -> Reply {
    if number_s == session.due && session.pending.is_none() {
        session.due = after(session.due);
        session.pending = message::carry_out(make, unit, message).map(Answer::Message);
    }
    pending_or_ready(session)
}

/// "RR gets the pending answer; else a waiting tilt result; else, if
/// subscribed and there is something to tell, an alarm indication; else RR."
fn reply_to_rr(session: &mut Session, unit: &mut Unit) -> Reply {
    if session.pending.is_none() {
        session.pending = next_answer(unit);
    }
    pending_or_ready(session)
}

/// A tilt result that is sent waits no longer: it is the pending answer now.
fn next_answer(unit: &mut Unit) -> Option<Answer> {
    if let Drive::Stopped { success } = unit.drive {
        unit.drive = Drive::Still;
        return Some(Answer::Message(message::tilt_result(success)));
    }
    let pairs = unit.something_to_tell();
    (unit.subscribed && !pairs.is_empty()).then_some(Answer::Indication(pairs))
}

/// "Answers are I-frames, N(S) = S, N(R) = the present R."
fn pending_or_ready(session: &Session) -> Reply {
    match &session.pending {
        Some(answer) => Reply {
            control: I + 2 * session.unacknowledged + 32 * session.due,
            payload: answer.payload(),
        },
        None => ready(session),
    }
}

/// "RR with N(R) = R"
fn ready(session: &Session) -> Reply {
    Reply::bare(RR + 32 * session.due)
}

/// "When the motor event 'stopped at t' comes, the tilt is t and the waiting
/// result, if still owed, is success exactly if t is the tilt asked."
pub fn stopped(record: &mut Record, tilt: i16) -> Result<(), Refusal> {
    if !record.is_allowed() {
        return Err(Refusal::NotAllowed);
    }
    // "Refusal 8: a stop with no movement, t outside lowest to highest"
    if !record.unit.drive.is_moving() || !record.in_range(tilt) {
        return Err(Refusal::EventCannotBe);
    }
    record.unit.tilt = tilt;
    record.unit.drive = match record.unit.drive {
        Drive::MovingTo(asked) => Drive::Stopped { success: tilt == asked },
        _ => Drive::Still,
    };
    Ok(())
}

/// "Alarm events raise or clear one."
pub fn raise(record: &mut Record, alarm: u8) -> Result<(), Refusal> {
    alarm_event(record, alarm)?;
    record.unit.raised.insert(alarm);
    Ok(())
}

pub fn clear(record: &mut Record, alarm: u8) -> Result<(), Refusal> {
    alarm_event(record, alarm)?;
    record.unit.raised.remove(&alarm);
    Ok(())
}

/// "Refusal 8: ... an alarm not among 0x02, 0x03, 0x0E, 0x0F, 0x11, 0x27."
fn alarm_event(record: &Record, alarm: u8) -> Result<(), Refusal> {
    if !record.is_allowed() {
        return Err(Refusal::NotAllowed);
    }
    if !ALARMS.contains(&alarm) {
        return Err(Refusal::EventCannotBe);
    }
    Ok(())
}
