//! Talk with one device: frames that fit its state and frames that don't,
//! events of its motor and its alarms.

use std::io;

use super::Generator;
use crate::device::{DISC, EVERYONE, I, POLL, RNR, RR, SNRM, XID};
use crate::frame::{longest_frame, longest_payload, LEAST_LIMIT};
use crate::record::{after, Drive, Link, Record, Session, ALARMS};

/// What the generator looks at in a Connected device.
struct Numbers {
    due: u8,
    unacknowledged: u8,
    pending: bool,
}

impl Numbers {
    fn of(session: &Session) -> Numbers {
        Numbers {
            due: session.due,
            unacknowledged: session.unacknowledged,
            pending: session.pending.is_some(),
        }
    }
}

impl Generator<'_> {
    /// Some steps with one device; now and then with several.
    pub(super) fn talk(&mut self) -> io::Result<()> {
        let devices = self.bench.devices.len();
        if devices == 0 {
            return if self.plan.devices == 0 { self.codec() } else { self.another_device() };
        }
        if devices > 1 && self.dice.chance(30) {
            return self.talk_with_several();
        }
        // The first devices are talked to more often, so that they get deep.
        let device = self.dice.below(devices).min(self.dice.below(devices));
        for _ in 0..self.dice.between(3, 40) {
            self.step(device)?;
        }
        Ok(())
    }

    /// The same assignment, by wild card, for some devices, which share an
    /// address then; steps with each of them, and frames that all of them get.
    fn talk_with_several(&mut self) -> io::Result<()> {
        let mut devices: Vec<usize> = (0..self.bench.devices.len()).collect();
        self.dice.shuffle(&mut devices);
        devices.truncate(self.dice.between(2, 6) as usize);
        let payload = self.shared_assignment(devices[0]);
        for &device in &devices {
            self.give(device, EVERYONE, XID, &payload)?;
        }
        for _ in 0..self.dice.between(3, 40) {
            let device = self.dice.pick(&devices);
            self.step(device)?;
            if self.dice.chance(250) {
                let frame = self.last_frames[device].clone();
                for &other in devices.iter().filter(|&&other| other != device) {
                    self.give(other, frame[0], frame[1], &frame[2..])?;
                }
            }
        }
        Ok(())
    }

    fn step(&mut self, device: usize) -> io::Result<()> {
        let record = self.record(device);
        let moving = if record.unit.drive.is_moving() { 120 } else { 15 };
        let negotiating = if record.address == 0 { 4 } else { 55 };
        let long = if record.limit == LEAST_LIMIT { 10 } else { 45 };
        let weights = [60, 90, moving, 30, 25, 25, 15, 760, negotiating, long, 25];
        match self.dice.weighed(&weights) {
            0 => self.say(format!("show {}", device + 1)),
            1 => self.alarm_event(device),
            2 => self.stop_event(device),
            3 => {
                let payload = self.xid_scan(device);
                self.give(device, EVERYONE, XID, &payload)
            }
            4 => {
                // Wrong nearly always, so that it seldom ends a session.
                let payload = self.assignment(device, 970);
                self.give(device, EVERYONE, XID, &payload)
            }
            5 => self.say_again(device),
            6 => self.any_frame(device),
            7 => self.frame_for_state(device),
            8 => self.negotiate(device),
            9 => self.at_the_edge(device),
            _ => self.say(format!("limit {}", device + 1)),
        }
    }

    pub(super) fn record(&self, device: usize) -> &Record {
        &self.bench.devices[device]
    }

    fn frame_for_state(&mut self, device: usize) -> io::Result<()> {
        let numbers = match &self.record(device).link {
            Link::NoAddress => return self.say_when_unassigned(device),
            Link::AddressAssigned => return self.say_when_assigned(device),
            Link::Connected(session) => Numbers::of(session),
        };
        self.say_when_connected(device, &numbers)
    }

    fn say_when_unassigned(&mut self, device: usize) -> io::Result<()> {
        match self.dice.weighed(&[40, 35, 25]) {
            0 => {
                let payload = self.assignment(device, 400);
                self.give(device, EVERYONE, XID, &payload)
            }
            1 => {
                let payload = self.xid_scan(device);
                self.give(device, EVERYONE, XID, &payload)
            }
            _ => {
                let control = self.control();
                let address = self.dice.pick(&[0, 0, EVERYONE, 1, 7]);
                self.give(device, address, control, &[])
            }
        }
    }

    fn say_when_assigned(&mut self, device: usize) -> io::Result<()> {
        let own = self.record(device).address;
        // With a negotiated limit the session is put off a little.
        let weights = if self.record(device).limit == LEAST_LIMIT {
            [600, 60, 120, 40, 60, 60, 110, 0]
        } else {
            [300, 100, 120, 40, 90, 60, 80, 80]
        };
        match self.dice.weighed(&weights) {
            0 => self.give(device, own, SNRM, &[]),
            1 => self.give(device, own, DISC, &[]),
            2 => {
                let control = self.control();
                let payload = self.payload_now_and_then(device);
                self.give(device, own, control, &payload)
            }
            3 => self.give(device, own, SNRM, &[0]),
            4 => {
                let payload = self.assignment(device, 400);
                self.give(device, EVERYONE, XID, &payload)
            }
            5 => {
                let message = self.message(device);
                self.give(device, own, I, &message)
            }
            6 => self.negotiate(device),
            _ => self.at_the_edge(device),
        }
    }

    /// The right numbers mostly; what ends the session is rationed by the plan.
    fn say_when_connected(&mut self, device: usize, numbers: &Numbers) -> io::Result<()> {
        let own = self.record(device).address;
        if self.dice.chance(self.plan.rudeness) {
            return self.rude(device, numbers);
        }
        let number_r = self.good_number(numbers);
        match self.dice.weighed(&[500, 260, 50, 60, 85]) {
            0 => {
                let message = self.message(device);
                self.give(device, own, I + 2 * numbers.due + 32 * number_r, &message)
            }
            1 => self.give(device, own, RR + 32 * number_r, &[]),
            2 => self.give(device, own, RNR + 32 * number_r, &[]),
            3 => {
                // Another N(S): the last one again most of all.
                let number_s = (numbers.due + self.dice.pick(&[7, 7, 1, 4])) % 8;
                let message = self.message(device);
                self.give(device, own, I + 2 * number_s + 32 * number_r, &message)
            }
            _ => self.unanswered(device, numbers, number_r),
        }
    }

    /// What gets silence and leaves the session: payload where none belongs,
    /// the poll bit clear, another address, XID to the own one, other controls
    /// to everyone.
    fn unanswered(&mut self, device: usize, numbers: &Numbers, number_r: u8) -> io::Result<()> {
        let own = self.record(device).address;
        let (address, control, payload) = match self.dice.weighed(&[25, 20, 15, 12, 6, 10]) {
            0 => {
                let any = self.dice.below(8) as u8;
                let numbered = self.dice.pick(&[RR, RNR]) + 32 * self.dice.pick(&[number_r, any]);
                let control = self.dice.pick(&[SNRM, DISC, numbered, numbered]);
                (own, control, self.octets_up_to(4))
            }
            1 => (own, self.control() & !POLL, self.payload_now_and_then(device)),
            2 => {
                let control = I + 2 * numbers.due + 32 * number_r;
                (self.dice.octet(), control, self.message(device))
            }
            // The group of scan and assignment, at the own address.
            3 => (own, XID, self.xid_scan(device)),
            4 => (own, XID, self.assignment(device, 300)),
            _ => (EVERYONE, self.control(), self.payload_now_and_then(device)),
        };
        self.give(device, address, control, &payload)
    }

    /// N(R) that is good: an acknowledgement mostly where one is due.
    fn good_number(&mut self, numbers: &Numbers) -> u8 {
        if numbers.pending && self.dice.chance(750) {
            after(numbers.unacknowledged)
        } else {
            numbers.unacknowledged
        }
    }

    /// What ends a session: a bad N(R), an unknown control, SNRM, DISC, an
    /// assignment.
    fn rude(&mut self, device: usize, numbers: &Numbers) -> io::Result<()> {
        let own = self.record(device).address;
        match self.dice.weighed(&[4, 3, 3, 2, 2]) {
            0 => {
                // Any N(R) past the good ones.
                let good = 1 + u8::from(numbers.pending);
                let past = self.dice.below(8 - usize::from(good)) as u8;
                let bad = (numbers.unacknowledged + good + past) % 8;
                let number_s =
                    if self.dice.chance(700) { numbers.due } else { self.dice.below(8) as u8 };
                let control = self.dice.pick(&[I + 2 * number_s, RR, RNR]) + 32 * bad;
                let payload = if control & 1 == 0 { self.message(device) } else { Vec::new() };
                self.give(device, own, control, &payload)
            }
            1 => {
                let control = self.unknown_control();
                let payload = self.payload_now_and_then(device);
                self.give(device, own, control, &payload)
            }
            2 => self.give(device, own, SNRM, &[]),
            3 => self.give(device, own, DISC, &[]),
            _ => {
                let payload = self.assignment(device, 200);
                self.give(device, EVERYONE, XID, &payload)
            }
        }
    }

    fn unknown_control(&mut self) -> u8 {
        match self.dice.below(3) {
            0 => self.dice.pick(&[0x73, 0x1F, 0x97, 0x19, 0x1D, 0x39, 0xDD, 0x13, 0x33, 0xFF]),
            _ => self.dice.octet() | POLL | 1,
        }
    }

    /// An unknown control so many times of a thousand, else RR's first.
    pub(super) fn unknown_control_if(&mut self, rudeness: usize) -> u8 {
        if self.dice.chance(rudeness) {
            self.unknown_control()
        } else {
            RR
        }
    }

    /// Any control: the named ones, and each of the 256.
    pub(super) fn control(&mut self) -> u8 {
        match self.dice.below(4) {
            0 => self.dice.pick(&[SNRM, DISC, XID, RR, RNR, I, 0x73, 0x1F, 0x97]),
            1 => self.dice.pick(&[I, RR, RNR]) + 32 * self.dice.below(8) as u8,
            _ => self.dice.octet(),
        }
    }

    /// Some octets; seldom as many as the link takes, or one more.
    fn payload_now_and_then(&mut self, device: usize) -> Vec<u8> {
        if self.dice.chance(40) {
            let length = longest_payload(self.record(device).limit) + self.dice.below(2);
            self.dice.octets(length)
        } else if self.dice.chance(400) {
            self.octets_up_to(8)
        } else {
            Vec::new()
        }
    }

    pub(super) fn octets_up_to(&mut self, most: usize) -> Vec<u8> {
        let length = 1 + self.dice.below(most);
        self.dice.octets(length)
    }

    /// The motor stops: at the tilt asked, elsewhere, where it can't.
    fn stop_event(&mut self, device: usize) -> io::Result<()> {
        let drive = self.record(device).unit.drive;
        let tilt = match drive {
            Drive::MovingTo(asked) if self.dice.chance(550) => asked,
            Drive::MovingTo(asked) if self.dice.chance(200) => asked.wrapping_add(1),
            _ => self.tilt(device),
        };
        self.say(format!("stopped {} {tilt}", device + 1))
    }

    /// One alarm rises or falls; now and then nearly all at once.
    fn alarm_event(&mut self, device: usize) -> io::Result<()> {
        let event = if self.dice.chance(600) { "raise" } else { "clear" };
        if self.dice.chance(50) {
            for alarm in ALARMS {
                self.say(format!("{event} {} {alarm}", device + 1))?;
            }
        }
        let alarm = if self.dice.chance(900) { self.dice.pick(&ALARMS) } else { self.dice.octet() };
        self.say(format!("{event} {} {alarm}", device + 1))
    }

    /// The last frame once more.
    fn say_again(&mut self, device: usize) -> io::Result<()> {
        match self.last_frames.get(device) {
            Some(frame) if frame.len() >= 2 => {
                let frame = frame.clone();
                self.give(device, frame[0], frame[1], &frame[2..])
            }
            _ => Ok(()),
        }
    }

    /// A frame of any octets and any length.
    fn any_frame(&mut self, device: usize) -> io::Result<()> {
        let own = self.record(device).address;
        let longest = longest_frame(self.record(device).limit);
        let length = match self.dice.below(5) {
            0 => self.dice.below(3),
            1 => longest - 2 + self.dice.below(7),
            2 => self.dice.below(20),
            3 => self.dice.below(longest + 44),
            _ => self.dice.pick(&[76, 77, 256, 258, 259, 300]),
        };
        let mut frame = self.dice.octets(length);
        if let Some(address) = frame.first_mut() {
            *address = self.dice.pick(&[own, own, EVERYONE, *address]);
        }
        let room = self.room(device);
        let word = self.hex(&frame);
        self.say(format!("frame {} {word} {room}", device + 1))
    }

    /// A frame to a device, decoded or over the line; a question for its limit
    /// where that has changed.
    pub(super) fn give(
        &mut self,
        device: usize,
        address: u8,
        control: u8,
        payload: &[u8],
    ) -> io::Result<()> {
        let mut frame = vec![address, control];
        frame.extend(payload);
        if self.last_frames.len() <= device {
            self.last_frames.resize(device + 1, Vec::new());
        }
        self.last_frames[device] = frame.clone();
        let limit = self.record(device).limit;
        let room = self.room(device);
        if self.dice.chance(600) {
            let word = self.hex(&frame);
            self.say(format!("frame {} {word} {room}", device + 1))?;
        } else {
            let line = self.line_for(&frame, 50);
            let word = self.hex(&line);
            self.say(format!("hear {} {word} {room}", device + 1))?;
        }
        self.ask_limit(device, limit)
    }

    /// A room for the device's answer: N - 2 is the least.
    fn room(&mut self, device: usize) -> usize {
        let least = longest_frame(self.record(device).limit);
        match self.dice.below(60) {
            0 => least - 1,
            1 => self.dice.below(least),
            2 => self.dice.below(601),
            3 => self.dice.pick(&[0, 600, 75, 76, 77, 78, 257, 258, 260]),
            4..=8 => least + 1,
            _ => least,
        }
    }
}
