//! Longer frames by negotiation: request (iv), rule by rule and both sides of
//! each edge.

mod common;
use common::{assigned, connected, fresh, hex, negotiation, Table};

use second::frame::{self, MOST_WRITTEN};
use second::record::{Answer, Drive, Link, Session};
use second::refusal::Refusal;
use second::{bench, device};

/// Everything that can be asked about device 1.
fn state(table: &mut Table) -> (String, usize) {
    (table.ask("show 1"), table.limit())
}

/// A device with address 5 in each state that has one.
fn with_an_address() -> [Table; 2] {
    [assigned(0), connected(0)]
}

#[test]
fn answers_ascend_whatever_the_order() {
    for (asked, answered) in [
        ("", ""),
        ("05020800", "05020800"),
        ("06020800", "06020800"),
        ("070107", "070101"),
        ("080107", "080101"),
        ("05020800 06020800", "05020800 06020800"),
        ("06020800 05020800", "05020800 06020800"),
        ("05020800 070107", "05020800 070101"),
        ("070107 05020800", "05020800 070101"),
        ("05020800 080107", "05020800 080101"),
        ("080107 05020800", "05020800 080101"),
        ("06020800 070107", "06020800 070101"),
        ("070107 06020800", "06020800 070101"),
        ("06020800 080107", "06020800 080101"),
        ("080107 06020800", "06020800 080101"),
        ("070107 080107", "070101 080101"),
        ("080107 070107", "070101 080101"),
        ("05020800 06020800 070107", "05020800 06020800 070101"),
        ("070107 06020800 05020800", "05020800 06020800 070101"),
        ("080107 05020800 06020800", "05020800 06020800 080101"),
        ("080107 070107 05020800", "05020800 070101 080101"),
        ("080107 06020800 070107", "06020800 070101 080101"),
        ("05020800 06020800 070107 080107", "05020800 06020800 070101 080101"),
        ("080107 070107 06020800 05020800", "05020800 06020800 070101 080101"),
        ("070107 05020800 080107 06020800", "05020800 06020800 070101 080101"),
    ] {
        for mut table in with_an_address() {
            let shown = table.ask("show 1");
            assert_eq!(table.negotiate(asked), answered.replace(' ', ""), "{asked}");
            let longer = asked.contains("0800");
            assert_eq!(state(&mut table), (shown, if longer { 260 } else { 78 }), "{asked}");
        }
    }
}

#[test]
fn the_whole_answer() {
    let mut table = assigned(0);
    assert_eq!(
        table.ask("frame 1 05bf81801005020640060205de07010708010305 76"),
        format!("silence {}", "a5".repeat(76))
    );
    let a5 = "a5".repeat(76 - 19);
    assert_eq!(
        table.ask("frame 1 05bf81800e05020640060205de070107080103 76"),
        format!("answer 19 05bf81800e050205d8060205d8070101080101{a5}")
    );
    assert_eq!(table.limit(), 191);
    let a5 = "a5".repeat(189 - 5);
    assert_eq!(table.ask("frame 1 05bf818000 189"), format!("answer 5 05bf818000{a5}"));
}

#[test]
fn the_limit_at_its_edges() {
    for (bits, limit) in [
        (0_u32, 78),
        (1, 78),
        (7, 78),
        (8, 78),
        (255, 78),
        (584, 78),
        (591, 78),
        (592, 78),
        (599, 78),
        (600, 79),
        (607, 79),
        (608, 80),
        (1_000, 129),
        (2_039, 258),
        (2_040, 259),
        (2_047, 259),
        (2_048, 260),
        (2_055, 260),
        (2_056, 260),
        (65_535, 260),
        (65_536, 260),
        (65_536 + 592, 260),
        (0x00FF_FFFF, 260),
        (0x0100_0000, 260),
        (0x8000_0000, 260),
        (0xFFFF_FFFF, 260),
    ] {
        let answered = format!("02{:04x}", 8 * (limit - 4));
        let octets = bits.to_be_bytes();
        for length in 1..=4 {
            let (left_out, value) = octets.split_at(4 - length);
            if left_out.iter().any(|&octet| octet != 0) {
                continue;
            }
            let value = format!("{length:02x}{}", hex(value));
            for mut table in with_an_address() {
                assert_eq!(table.negotiate(&format!("05{value}")), format!("05{answered}"));
                assert_eq!(table.limit(), limit, "{bits}");
            }
            for mut table in with_an_address() {
                assert_eq!(table.negotiate(&format!("06{value}")), format!("06{answered}"));
                assert_eq!(table.limit(), limit, "{bits}");
            }
        }
    }
}

#[test]
fn the_smaller_of_two_lengths() {
    for (sent, received, limit) in [
        ("0800", "0320", 104),
        ("0320", "0800", 104),
        ("0320", "0320", 104),
        ("0800", "0250", 78),
        ("0258", "0800", 79),
        ("00", "ffffffff", 78),
        ("ffffffff", "0320", 104),
        ("000320", "00000321", 104),
        ("0327", "0328", 104),
        ("0329", "0328", 105),
        ("0900", "ffff", 260),
    ] {
        let mut table = connected(0);
        let asked =
            format!("05{:02x}{sent} 06{:02x}{received}", sent.len() / 2, received.len() / 2);
        let bits = format!("{:04x}", 8 * (limit - 4));
        assert_eq!(table.negotiate(&asked), format!("0502{bits}0602{bits}"), "{asked}");
        assert_eq!(table.limit(), limit, "{asked}");
    }
}

#[test]
fn the_limit_goes_up_and_down() {
    let mut table = connected(0);
    for limit in [260, 78, 79, 260, 259, 100, 101, 78, 260] {
        table.agree(limit);
        // "None asked keeps N."
        assert_eq!(table.negotiate(""), "");
        assert_eq!(table.negotiate("070105 080100"), "070101080101");
        assert_eq!(table.limit(), limit);
    }
    assert_eq!(table.ask("show 1"), "state connected:0:0 5 - still 0 - - 0");
}

#[test]
fn windows_are_answered_one() {
    for value in 0..=255 {
        let mut table = assigned(0);
        assert_eq!(table.negotiate(&format!("0701{value:02x}")), "070101");
        assert_eq!(table.negotiate(&format!("0801{value:02x}")), "080101");
        assert_eq!(table.limit(), 78);
    }
}

/// The frame gets silence in both states, with N at 78 and larger, and
/// changes nothing.
fn silent(frame: &str) {
    for limit in [78, 120] {
        for mut table in with_an_address() {
            table.agree(limit);
            let before = state(&mut table);
            assert_eq!(table.give(frame), "silence", "{frame}");
            assert_eq!(state(&mut table), before, "{frame}");
        }
    }
}

#[test]
fn malformed_ones() {
    for triples in [
        // Repeats, also with the same value, also of a window.
        "05020800 05020800",
        "05020800 05020320",
        "06020800 0601ff",
        "070101 070101",
        "080101 080102",
        "05020800 06020800 05020800",
        "05020800 06020800 070101 080101 080101",
        // Other identifiers: none of ours, and those of the other group.
        "000101",
        "010101",
        "020107",
        "0301ff",
        "040101",
        "090101",
        "0a0101",
        "0b0101",
        "800101",
        "ff0101",
        "05020800 090101",
        "0200 05020800",
        "05020800 06020800 070101 080101 0901ff",
        // Other lengths.
        "0500",
        "0600",
        "0700",
        "0800",
        "05050000000800",
        "0605ffffffffff",
        "07020101",
        "08020001",
        "080400000001",
        "05020800 0700",
        "0600 05020800",
        // Triples that don't fill the length.
        "05",
        "0502",
        "050208",
        "05020800 07",
        "05020800 0701",
        "05020800 00",
        "05ff0800",
        "0802 01",
    ] {
        silent(&negotiation("05", triples));
    }
}

#[test]
fn other_lengths_of_the_field() {
    for frame in [
        "05bf",
        "05bf81",
        "05bf8180",
        "05bf81800405020800ff",
        "05bf818003050208",
        "05bf81800305020800",
        "05bf81800505020800",
        "05bf8180ff05020800",
        "05bf81800005020800",
        "05bf818001",
        "05bf818000ff",
        // A length of two octets, as ISO/IEC 13239 has it.
        "05bf8180000405020800",
        "05bf8180040005020800",
    ] {
        silent(frame);
    }
}

#[test]
fn other_groups_at_the_own_address() {
    for group in (0..=255).filter(|&group| group != 0x80) {
        silent(&format!("05bf81{group:02x}0405020800"));
    }
    for format in (0..=255).filter(|&format| format != 0x81) {
        silent(&format!("05bf{format:02x}800405020800"));
    }
    // The group 0xF0: a scan, an assignment, nothing, the negotiation's triples.
    for payload in
        ["81f006010100030100", "81f003020107", "81f000", "81f0070601ff05020800", "81f0030601ff"]
    {
        silent(&format!("05bf{payload}"));
    }
}

#[test]
fn other_addresses_and_controls() {
    for triples in ["", "05020800", "06020320 070101"] {
        for address in ["ff", "00", "04", "06", "fe"] {
            silent(&negotiation(address, triples));
        }
        let well_formed = negotiation("05", triples);
        // The poll bit clear.
        silent(&well_formed.replace("05bf", "05af"));
        // SNRM, DISC, RR and RNR have no payload.
        for control in ["93", "53", "11", "15"] {
            silent(&well_formed.replace("05bf", &format!("05{control}")));
        }
    }
    // In NoAddress no address is its own.
    for address in ["00", "05", "ff"] {
        let mut table = fresh(0);
        assert_eq!(table.give(&negotiation(address, "05020800")), "silence");
        assert_eq!(table.give(&negotiation(address, "")), "silence");
        assert_eq!(state(&mut table), ("state none 0 - still 0 - - 0".into(), 78));
    }
}

#[test]
fn at_every_address() {
    for address in 1..=254 {
        let mut table = assigned(0);
        table.give(&format!("ffbf81f0030201{address:02x}"));
        for other in 1..=254 {
            let answer = table.give(&negotiation(&format!("{other:02x}"), "05020800"));
            if other == address {
                assert_eq!(answer, format!("{other:02x}bf81800405020800"));
            } else {
                assert_eq!(answer, "silence");
            }
        }
        assert_eq!(table.limit(), 260);
    }
}

#[test]
fn a_negotiation_changes_the_limit_alone() {
    // A message pending.
    let mut table = connected(7);
    assert_eq!(table.give("0510340000"), "0530340300000700");
    let before = table.bench.devices[0].clone();
    table.agree(150);
    let mut after = table.bench.devices[0].clone();
    assert_ne!(after, before);
    after.limit = 78;
    assert_eq!(after, before);
    assert_eq!(table.ask("show 1"), "state connected:1:0 5 340300000700 still 7 - - 0");
    assert_eq!(table.give("0511"), "0530340300000700");
    table.agree(90);
    assert_eq!(table.give("0510340000"), "0530340300000700");
    // An indication pending, a result owed, then one that waits.
    table.give("0532120000");
    table.give("05543302003200");
    table.ask("raise 1 39");
    assert_eq!(table.give("0551"), "05740702002701");
    let shown = "state connected:3:2 5 i:0702002701 moving:50 7 27 - 1";
    assert_eq!(state(&mut table), (shown.into(), 90));
    table.agree(260);
    assert_eq!(table.ask("show 1"), shown);
    table.ask("stopped 1 49");
    table.agree(100);
    let shown = "state connected:3:2 5 i:0702002701 stopped:jam 49 27 - 1";
    assert_eq!(state(&mut table), (shown.into(), 100));
    assert_eq!(table.give("0571"), "05763302000b02");
    // A movement that runs on, in AddressAssigned.
    let mut table = connected(0);
    table.give("05103302003200");
    table.give("0553");
    table.agree(200);
    assert_eq!(state(&mut table), ("state assigned 5 - moving 0 - - 0".into(), 200));
    assert_eq!(table.ask("stopped 1 50"), "done");
    assert_eq!(table.limit(), 200);
}

#[test]
fn no_acknowledgement_and_no_poll() {
    // XID isn't numbered: it gets neither the pending answer nor a result.
    let mut table = connected(0);
    table.give("05103302003200");
    table.ask("stopped 1 50");
    assert_eq!(table.negotiate("070101"), "070101");
    assert_eq!(table.ask("show 1"), "state connected:1:0 5 - stopped:ok 50 - - 0");
    assert_eq!(table.give("0511"), "053033010000");
    assert_eq!(table.negotiate(""), "");
    assert_eq!(table.ask("show 1"), "state connected:1:0 5 33010000 still 50 - - 0");
}

/// What the limit is after these frames, from 260 in Connected.
fn limit_after(frames: &[&str]) -> usize {
    let mut table = connected(0);
    table.agree(260);
    for frame in frames {
        table.give(frame);
    }
    table.limit()
}

#[test]
fn a_session_that_ends_takes_the_limit_with_it() {
    for (ending, link) in [
        ("0593", "connected:0:0 5"),
        ("0553", "assigned 5"),
        // Frame rejects: a bad N(R) of I, RR and RNR, an unknown control.
        ("0571", "assigned 5"),
        ("0575", "assigned 5"),
        ("0570", "assigned 5"),
        ("05ff", "assigned 5"),
        ("0573", "assigned 5"),
        // Assignments: another address, the same, wild cards.
        ("ffbf81f003020109", "assigned 9"),
        ("ffbf81f003020105", "assigned 5"),
        ("ffbf81f00d0602ffff0401ff010134020109", "assigned 9"),
    ] {
        let mut table = connected(0);
        table.agree(260);
        assert_ne!(table.give(ending), "silence");
        let expected = (format!("state {link} - still 0 - - 0"), 78);
        assert_eq!(state(&mut table), expected, "{ending}");
        // With an answer pending and a movement.
        let mut table = connected(0);
        table.give("05103302003200");
        table.give("0512340000");
        table.agree(79);
        assert_ne!(table.give(ending), "silence");
        let expected = (format!("state {link} - moving 0 - - 0"), 78);
        assert_eq!(state(&mut table), expected, "{ending}");
    }
}

#[test]
fn an_assignment_without_a_session_takes_the_limit_too() {
    for address in ["05", "09"] {
        let mut table = assigned(0);
        table.agree(260);
        assert_ne!(table.give(&format!("ffbf81f0030201{address}")), "silence");
        assert_eq!(table.limit(), 78);
    }
    // One that isn't taken keeps it.
    let mut table = assigned(0);
    table.agree(260);
    for frame in ["ffbf81f003020100", "ffbf81f0060201090401fe", "ffbf81f0060101350201aa"] {
        assert_eq!(table.give(frame), "silence");
        assert_eq!(table.limit(), 260);
    }
}

#[test]
fn what_ends_nothing_keeps_the_limit() {
    // SNRM and DISC in AddressAssigned, and what else gets DM.
    let mut table = assigned(0);
    table.agree(260);
    for frame in ["0553", "0511", "0515", "0510340000", "0573", "05ff", "0571"] {
        assert_eq!(table.give(frame), "051f");
        assert_eq!(state(&mut table), ("state assigned 5 - still 0 - - 0".into(), 260));
    }
    assert_eq!(table.give("0593"), "0573");
    assert_eq!(state(&mut table), ("state connected:0:0 5 - still 0 - - 0".into(), 260));
    // In Connected: frames of the session, silence, scans, events.
    for frame in
        ["0510340000", "0510340000", "0531", "0535", "059300", "055300", "0583", "0543", "0493"]
    {
        table.give(frame);
        assert_eq!(table.limit(), 260, "{frame}");
    }
    assert_ne!(table.give("ffbf81f006010100030100"), "silence");
    table.run(&["raise 1 2", "clear 1 2", "raise 1 1", "stopped 1 0", "show 1", "scan 65535"]);
    assert_eq!(table.limit(), 260);
    // A session's end, an SNRM that begins the next one, a new negotiation.
    assert_eq!(limit_after(&["0553", "0593"]), 78);
    assert_eq!(limit_after(&["0553", &negotiation("05", "05020800"), "0593"]), 260);
    assert_eq!(limit_after(&["0553", &negotiation("05", "05020800"), "0593", "0593"]), 78);
    assert_eq!(limit_after(&["0553", &negotiation("05", "05020800"), "0553"]), 260);
    assert_eq!(limit_after(&["05ff", &negotiation("05", "05020320")]), 104);
    assert_eq!(limit_after(&["05ff", "05ff", "0593", "0593"]), 78);
}

const LIMITS: [usize; 8] = [78, 79, 80, 100, 177, 258, 259, 260];

#[test]
fn the_answer_buffer() {
    for limit in LIMITS {
        for mut table in with_an_address() {
            table.agree(limit);
            let before = state(&mut table);
            // Refusal 5 comes before silence, whatever the frame.
            for frame in ["-", "05", "0593", "0553", "0511", "ffbf81f003020109", "05bf818000"] {
                for room in [0, 75.min(limit - 3), limit - 3] {
                    let refused = match room {
                        0 => "refused 5 -".to_string(),
                        _ => format!("refused 5 {}", "a5".repeat(room)),
                    };
                    assert_eq!(table.ask(&format!("frame 1 {frame} {room}")), refused);
                    assert_eq!(state(&mut table), before);
                }
            }
            let room = limit - 2;
            assert_eq!(
                table.ask(&format!("frame 1 - {room}")),
                format!("silence {}", "a5".repeat(room))
            );
            assert_eq!(
                table.ask(&format!("frame 1 0593 {room}")),
                format!("answer 2 0573{}", "a5".repeat(room - 2))
            );
        }
    }
}

#[test]
fn the_buffer_is_that_of_the_record_handed_in() {
    // Up: 76 is enough for the frame that raises N, not for the next one.
    let mut table = connected(0);
    let rest = "a5".repeat(76 - 9);
    assert_eq!(
        table.ask("frame 1 05bf81800405020800 76"),
        format!("answer 9 05bf81800405020800{rest}")
    );
    assert_eq!(table.ask("frame 1 0511 76"), format!("refused 5 {}", "a5".repeat(76)));
    // Down: 258 are needed for the frame that lowers it.
    assert_eq!(
        table.ask("frame 1 05bf81800405020250 257"),
        format!("refused 5 {}", "a5".repeat(257))
    );
    assert_eq!(table.limit(), 260);
    assert!(table
        .ask("frame 1 05bf81800405020250 258")
        .starts_with("answer 9 05bf81800405020250a5"));
    assert!(table.ask("frame 1 0511 76").starts_with("answer 2 0511a5"));
    // The same with what ends the session.
    for ending in ["0593", "0553", "0571", "ffbf81f003020105"] {
        let mut table = connected(0);
        table.agree(260);
        assert!(table.ask(&format!("frame 1 {ending} 257")).starts_with("refused 5 a5"));
        assert_eq!(state(&mut table), ("state connected:0:0 5 - still 0 - - 0".into(), 260));
        assert!(table.ask(&format!("frame 1 {ending} 258")).starts_with("answer "));
        assert_eq!(table.limit(), 78);
        assert!(table.ask("frame 1 0593 76").starts_with("answer 2 0573"));
    }
}

#[test]
fn the_longest_frames_judged() {
    for limit in LIMITS {
        // An I-frame: the message's length is wrong.
        let i_frame = |octets: usize| format!("0510{}", "00".repeat(octets - 2));
        let mut table = connected(0);
        table.agree(limit);
        let before = state(&mut table);
        assert_eq!(table.give(&i_frame(limit - 1)), "silence");
        assert_eq!(table.give(&i_frame(260)), "silence");
        assert_eq!(state(&mut table), before);
        assert_eq!(table.give(&i_frame(limit - 2)), "05300002000b24");
        assert_eq!(state(&mut table).1, limit);
        // An unknown control: FRMR, and DM in AddressAssigned.
        let unknown = |octets: usize| format!("05ff{}", "00".repeat(octets - 2));
        let mut table = connected(0);
        table.agree(limit);
        assert_eq!(table.give(&unknown(limit - 1)), "silence");
        assert_eq!(state(&mut table), before);
        assert_eq!(table.give(&unknown(limit - 2)), "0597ff0001");
        assert_eq!(table.limit(), 78);
        table.agree(limit);
        assert_eq!(table.give(&unknown(limit - 1)), "silence");
        assert_eq!(table.give(&unknown(limit - 2)), "051f");
        assert_eq!(table.limit(), limit);
    }
    // Without a negotiation: 76 and 77, in NoAddress too.
    let mut table = fresh(0);
    assert_eq!(table.give(&format!("ffbf{}", "00".repeat(75))), "silence");
    assert_eq!(table.limit(), 78);
}

#[test]
fn long_messages() {
    // The code, its data's true length, and the data.
    let message = |code: &str, octets: usize| {
        let data = octets - 3;
        format!("{code}{:02x}{:02x}{}", data % 256, data / 256, "11".repeat(data))
    };
    for octets in [74, 75, 76, 100, 255, 256] {
        for (code, why) in
            [("99", "19"), ("03", "25"), ("34", "24"), ("33", "24"), ("05", "24"), ("07", "19")]
        {
            let mut table = connected(0);
            table.agree(260);
            let answer = table.give(&format!("0510{}", message(code, octets)));
            assert_eq!(answer, format!("0530{code}02000b{why}"), "{octets}");
            // Sent again, it isn't carried out again.
            assert_eq!(table.give(&format!("0510{}", message(code, octets))), answer);
        }
        // The length field is wrong by 256.
        let mut table = connected(0);
        table.agree(octets + 4);
        let wrong = message("99", octets).replacen("00", "01", 1);
        assert_eq!(table.give(&format!("0510{wrong}")), "05309902000b24");
    }
}

#[test]
fn hear_decodes_with_the_limit_of_the_link() {
    for limit in LIMITS {
        for payload in [vec![0x00; limit - 4], vec![0x7E; limit - 4], vec![0x7D; limit - 4]] {
            let mut line = [0; MOST_WRITTEN];
            let written = frame::write_n(limit, 5, 0x10, &payload, &mut line).unwrap();
            let line = hex(&line[1..written - 1]);
            let mut table = connected(0);
            // Still 78: refused, but for a limit of 78.
            if limit > 78 {
                assert_eq!(table.ask(&format!("hear 1 {line} 1")), "refused 2 a5");
                table.agree(limit - 1);
                assert_eq!(table.ask(&format!("hear 1 {line} 0")), "refused 2 -");
            }
            table.agree(limit);
            assert_eq!(table.ask(&format!("hear 1 {line} 0")), "refused 5 -");
            let room = limit - 3;
            let a5 = "a5".repeat(room);
            assert_eq!(table.ask(&format!("hear 1 {line} {room}")), format!("refused 5 {a5}"));
            let answer = table.ask(&format!("hear 1 {line} {}", limit - 2));
            assert!(answer.starts_with(&format!("answer 7 0530{:02x}02000b24a5", payload[0])));
        }
        // One octet more than the limit: 2, before the room; a wrong check: 3.
        let mut long = vec![5, 0x10];
        long.resize(limit - 1, 0);
        long.extend([0xFF, 0xFF]);
        let mut table = connected(0);
        table.agree(limit);
        assert_eq!(table.ask(&format!("hear 1 {} 2", hex(&long))), "refused 2 a5a5");
        assert_eq!(table.ask(&format!("hear 1 {} 2", hex(&long[1..]))), "refused 3 a5a5");
        assert_eq!(table.ask(&format!("hear 1 7e{} 0", hex(&long))), "refused 4 -");
        assert_eq!(table.ask("hear 1 - 0"), "refused 1 -");
    }
}

#[test]
fn a_master_and_a_device_agree() {
    // A frame written with N by the master is heard by the device with that N.
    for limit in 78..=260 {
        let mut table = connected(0);
        table.agree(limit);
        let mut line = [0; MOST_WRITTEN];
        let payload = vec![0x99; limit - 4];
        let written = frame::write_n(limit, 5, 0x10, &payload, &mut line).unwrap();
        let record = &mut table.bench.devices[0];
        let mut answer = vec![0; limit - 2];
        assert_eq!(bench::hear(record, &line[1..written - 1], &mut answer), Ok(Some(7)));
        assert_eq!(answer[..7], [5, 0x30, 0x99, 2, 0, 0x0B, 0x24]);
    }
}

#[test]
fn a_record_with_another_limit_is_not_allowed() {
    for limit in [0, 2, 77, 261, 262, 65_535] {
        for mut table in [fresh(0), assigned(0), connected(0)] {
            let record = &mut table.bench.devices[0];
            record.limit = limit;
            let before = record.clone();
            let answer = &mut [0xA5; 300];
            assert_eq!(device::judge(record, &[5, 0x93], answer), Err(Refusal::NotAllowed));
            assert_eq!(device::judge(record, &[], &mut []), Err(Refusal::NotAllowed));
            let lower = [5, 0xBF, 0x81, 0x80, 4, 5, 2, 2, 0x50];
            assert_eq!(device::judge(record, &lower, answer), Err(Refusal::NotAllowed));
            let assignment = [0xFF, 0xBF, 0x81, 0xF0, 3, 2, 1, 9];
            assert_eq!(device::judge(record, &assignment, answer), Err(Refusal::NotAllowed));
            assert_eq!(device::stopped(record, 0), Err(Refusal::NotAllowed));
            assert_eq!(device::raise(record, 2), Err(Refusal::NotAllowed));
            assert_eq!(device::clear(record, 1), Err(Refusal::NotAllowed));
            // "6 from the decoder at once, before its other numbers"
            for line in [&[0x7E][..], &[0x7D], &[], &[0; 300], &[1, 2, 3, 4]] {
                assert_eq!(bench::hear(record, line, answer), Err(Refusal::NotAllowed));
            }
            assert_eq!(*record, before);
            assert_eq!(*answer, [0xA5; 300]);
        }
    }
    // A record refused for another reason: the decoder's numbers come first.
    let mut table = connected(0);
    let record = &mut table.bench.devices[0];
    record.limit = 260;
    record.unit.drive = Drive::MovingTo(3);
    record.link = Link::AddressAssigned;
    assert_eq!(bench::hear(record, &[0x7E], &mut []), Err(Refusal::BadLine));
    assert_eq!(bench::hear(record, &[0; 261], &mut []), Err(Refusal::TooMany));
    assert_eq!(bench::hear(record, &[0; 260], &mut []), Err(Refusal::CheckWrong));
    assert_eq!(bench::hear(record, &[1, 0x3F, 0xEB, 0xDF], &mut []), Err(Refusal::NotAllowed));
}

#[test]
fn a_pending_answer_stays_at_most_74() {
    let mut table = connected(0);
    table.agree(260);
    let record = &mut table.bench.devices[0];
    for (length, allowed) in [(74, true), (75, false), (256, false)] {
        record.link = Link::Connected(Session {
            due: 1,
            unacknowledged: 0,
            pending: Some(Answer::Message(vec![0x55; length])),
        });
        let answered = device::judge(record, &[5, 0x11], &mut [0; 258]);
        assert_eq!(answered, if allowed { Ok(Some(76)) } else { Err(Refusal::NotAllowed) });
    }
}

#[test]
fn the_longest_answer_fits_the_least_limit() {
    // Information of 73 octets, asked with N at 78 and at 260.
    let mut table = Table::default();
    let texts = [&[b'x'; 19][..], &[1; 20], &[2; 14], &[3; 14]].map(hex).join(" ");
    assert_eq!(table.ask(&format!("device {texts} 0 0 0")), "device 1");
    table.give("ffbf81f003020105");
    table.give("0593");
    let answer = table.ask("frame 1 0510050000 76");
    assert!(answer.starts_with("answer 75 05300546000014"), "{answer}");
    table.agree(260);
    assert_eq!(table.ask("frame 1 0511 258"), format!("{}{}", answer, "a5".repeat(258 - 76)));
}

/// The identities that `scan` finds, with its count.
fn scanned(table: &mut Table) -> String {
    table.ask("scan 65535")
}

#[test]
fn a_scan_hears_devices_of_every_limit() {
    let padded = hex(b"KA1234             ");
    for limit in LIMITS {
        for mut table in with_an_address() {
            table.agree(limit);
            let before = state(&mut table);
            assert_eq!(scanned(&mut table), format!("complete 305 {padded}"));
            assert_eq!(
                table.ask("scan 304"),
                format!("limit 304 {padded} 1:80{}", "00".repeat(18))
            );
            assert_eq!(state(&mut table), before);
        }
    }
    // Three on one bench, of different limits.
    let mut table = Table::default();
    for (k, identity) in (1..).zip([b"KA1234", b"KA1235", b"zz9994"]) {
        table.ask(&format!("device {} - - - -20 100 0", hex(identity)));
        table.give_to(k, &format!("ffbf81f0030201{k:02x}"));
    }
    let all = scanned(&mut table);
    assert!(all.starts_with("complete "));
    assert_eq!(all.matches(',').count(), 2);
    table.give_to(1, "01bf81800405020800");
    assert_eq!(scanned(&mut table), all);
    table.give_to(3, "03bf8180040602025f");
    table.give_to(3, "0393");
    assert_eq!(scanned(&mut table), all);
    assert_eq!(
        table.run(&["limit 1", "limit 2", "limit 3"]),
        ["limit 260", "limit 78", "limit 79"]
    );
}

#[test]
fn decode_and_write_are_the_case_78() {
    let mut table = Table::default();
    for payload in [0, 1, 73, 74, 75, 76, 255, 256, 257] {
        for octets in [0x00, 0x7D, 0x7E] {
            let payload = hex(&vec![octets; payload]);
            for room in [0, 1, 79, 80, 157, 158, 600] {
                let written = table.ask(&format!("write 7e 10 {payload} {room}"));
                assert_eq!(table.ask(&format!("write-n 78 7e 10 {payload} {room}")), written);
                let decoded = table.ask(&format!("decode {payload} {room}"));
                assert_eq!(table.ask(&format!("decode-n 78 {payload} {room}")), decoded);
            }
        }
    }
    // Whole frames: what a larger limit writes, 78 decodes up to 78 octets.
    for (payload, decoded) in [(74, "frame 76 0510"), (75, "refused 2 a5")] {
        let mut line = [0; MOST_WRITTEN];
        let written = frame::write_n(260, 5, 0x10, &vec![0x11; payload], &mut line).unwrap();
        let line = hex(&line[1..written - 1]);
        assert!(table.ask(&format!("decode {line} 100")).starts_with(decoded));
        assert!(table.ask(&format!("decode-n 78 {line} 100")).starts_with(decoded));
        assert!(table.ask(&format!("decode-n 79 {line} 100")).starts_with("frame 7"));
    }
}

#[test]
fn decode_n_and_write_n_at_their_edges() {
    let mut table = Table::default();
    for limit in [0, 1, 4, 77, 261, 300, 65_535] {
        for rest in ["- 0", "7e 3", "013febdf 0", "013febdf 2"] {
            let room = rest.split(' ').nth(1).unwrap().parse().unwrap();
            let refused = format!("refused 6 {}", hex(&vec![0xA5; room]));
            assert_eq!(table.ask(&format!("decode-n {limit} {rest}")), refused);
            if !rest.starts_with("7e") {
                assert_eq!(table.ask(&format!("write-n {limit} 05 10 {rest}")), refused);
            }
        }
    }
    for limit in LIMITS {
        let payload = |octets: usize| "11".repeat(octets);
        let longest = limit - 4;
        let line = table.ask(&format!("write-n {limit} 05 10 {} 600", payload(longest)));
        let words: Vec<&str> = line.split(' ').collect();
        let need: usize = words[1].parse().unwrap();
        assert_eq!(words[0], "line");
        assert!((limit + 2..=limit + 4).contains(&need));
        assert_eq!(
            table.ask(&format!("write-n {limit} 05 10 {} {}", payload(longest), need - 1)),
            format!("refused 5 {}", "a5".repeat(need - 1))
        );
        for room in [0, 600] {
            assert_eq!(
                table.ask(&format!("write-n {limit} 05 10 {} {room}", payload(longest + 1))),
                format!("refused 9 {}", hex(&vec![0xA5; room]))
            );
        }
        // Between its flags, with this limit and the one below.
        let between = &words[2][2..2 * need - 2];
        assert_eq!(
            table.ask(&format!("decode-n {limit} {between} {}", limit - 2)),
            format!("frame {} 0510{}", limit - 2, payload(longest))
        );
        assert_eq!(
            table.ask(&format!("decode-n {limit} {between} {}", limit - 3)),
            format!("refused 5 {}", "a5".repeat(limit - 3))
        );
        let below = table.ask(&format!("decode-n {} {between} 1", limit - 1));
        assert_eq!(below, if limit == 78 { "refused 6 a5" } else { "refused 2 a5" });
    }
}

#[test]
fn the_longest_line() {
    // 260 octets, all of them escaped, and 522 octets of room for them.
    let mut table = Table::default();
    for turn in 0..1_u32 << 16 {
        let payload: Vec<u8> =
            (0..256).map(|place| 0x7D + u8::from(turn >> (place % 16) & 1 == 1)).collect();
        let check_octets = {
            let mut frame = vec![0x7E, 0x7D];
            frame.extend(&payload);
            second::check::check_octets(&frame)
        };
        if check_octets.iter().any(|octet| ![0x7D, 0x7E].contains(octet)) {
            continue;
        }
        let asked = format!("write-n 260 7e 7d {}", hex(&payload));
        let line = table.ask(&format!("{asked} 522"));
        assert!(line.starts_with("line 522 7e7d5e7d5d7d"));
        assert_eq!(table.ask(&format!("{asked} 521")), format!("refused 5 {}", "a5".repeat(521)));
        let between = &line["line 522 7e".len()..line.len() - 2];
        assert_eq!(
            table.ask(&format!("decode-n 260 {between} 258")),
            format!("frame 258 7e7d{}", hex(&payload))
        );
        return;
    }
    panic!("no payload found");
}
