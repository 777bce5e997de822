//! The link, its sessions and its messages, rule by rule.

mod common;
use common::{assigned, connected, fresh, hex, Table};

fn shown(table: &mut Table) -> String {
    table.ask("show 1")
}

/// An XID frame to everyone with these triples.
fn xid(triples: &str) -> String {
    let field = triples.replace(' ', "");
    format!("ffbf81f0{:02x}{field}", field.len() / 2)
}

/// The answer of the device KA1234 to an assignment of address 7.
const TAKEN: &str = "07bf81f00b01064b4131323334040101";

/// Gives an XID frame in each state of the link: an assignment of 7 that is
/// taken, or one that gets silence and changes nothing.
fn in_every_state(triples: &str, taken: bool) {
    for mut table in [fresh(0), assigned(0), connected(0)] {
        let before = shown(&mut table);
        let (answer, after) = if taken {
            (TAKEN, "state assigned 7 - still 0 - - 0")
        } else {
            ("silence", &before[..])
        };
        assert_eq!(table.give(&xid(triples)), answer, "{triples}, {before}");
        assert_eq!(shown(&mut table), after, "{triples}, {before}");
    }
}

#[test]
fn who_is_not_answered() {
    let mut table = connected(0);
    let before = shown(&mut table);
    for frame in [
        "-",
        "05",
        "0600",
        "0093",
        "0693",
        "fe93", // too short, other addresses
        "0583",
        "0543",
        "0501",
        "0505",
        "0500",
        "05af",
        "05ef", // the poll bit clear
        "ff93",
        "ff53",
        "ff11",
        "ff10",
        "ffaf",
        "ff97", // everyone, but not XID
        "05bf",
        "05bf81f003020107", // own address, XID
        "059300",
        "055300",
        "051100",
        "0515ff",
        "057100", // payload where none belongs
    ] {
        assert_eq!(table.give(frame), "silence", "{frame}");
    }
    assert_eq!(table.give(&format!("0510{}", "00".repeat(75))), "silence");
    assert_eq!(shown(&mut table), before);
    // 76 octets are read: the message is carried out, its length is wrong.
    assert_eq!(table.give(&format!("0510{}", "00".repeat(74))), "05300002000b24");
}

#[test]
fn without_an_address() {
    let mut table = fresh(0);
    for frame in ["0093", "0011", "0010340000", "0593", "00bf81f003020105"] {
        assert_eq!(table.give(frame), "silence", "{frame}");
    }
    assert_eq!(shown(&mut table), "state none 0 - still 0 - - 0");
}

#[test]
fn with_an_address_only() {
    let mut table = assigned(0);
    for frame in
        ["0553", "0511", "0515", "0510340000", "0573", "051f", "0597", "05ff", "0510", "057312"]
    {
        assert_eq!(table.give(frame), "051f", "{frame}");
    }
    for frame in ["0503", "0583", "059301", "055301", "051101", "051501", "05bf"] {
        assert_eq!(table.give(frame), "silence", "{frame}");
    }
    assert_eq!(shown(&mut table), "state assigned 5 - still 0 - - 0");
    assert_eq!(table.give("0593"), "0573");
    assert_eq!(shown(&mut table), "state connected:0:0 5 - still 0 - - 0");
    assert_eq!(table.give("0553"), "0573");
    assert_eq!(shown(&mut table), "state assigned 5 - still 0 - - 0");
}

#[test]
fn an_answer_is_sent_until_acknowledged() {
    let mut table = connected(7);
    assert_eq!(table.give("0510340000"), "0530340300000700");
    assert_eq!(shown(&mut table), "state connected:1:0 5 340300000700 still 7 - - 0");
    // Again by RR, by the repeated I-frame, by a new one that doesn't acknowledge.
    assert_eq!(table.give("0511"), "0530340300000700");
    assert_eq!(table.give("0510340000"), "0530340300000700");
    assert_eq!(table.give("0512040000"), "0530340300000700");
    assert_eq!(table.give("0515"), "0531");
    assert_eq!(shown(&mut table), "state connected:1:0 5 340300000700 still 7 - - 0");
    // Acknowledged by the next I-frame, which is carried out.
    assert_eq!(table.give("0532040000"), "055204010000");
    assert_eq!(shown(&mut table), "state connected:2:1 5 04010000 still 7 - - 0");
    // Acknowledged by RNR.
    assert_eq!(table.give("0555"), "0551");
    assert_eq!(shown(&mut table), "state connected:2:2 5 - still 7 - - 0");
}

#[test]
fn an_i_frame_out_of_order_acknowledges_and_does_nothing_else() {
    let mut table = connected(0);
    assert_eq!(table.give("0510120000"), "053012010000");
    assert_eq!(table.give("0534060000"), "0531");
    assert_eq!(shown(&mut table), "state connected:1:1 5 - still 0 - - 1");
}

#[test]
fn numbers_run_round() {
    let mut table = connected(0);
    for turn in 0..20_u8 {
        let (number, next) = (turn % 8, (turn + 1) % 8);
        let asked = format!("05{:02x}040000", 0x10 + 2 * number + 32 * number);
        let answer = format!("05{:02x}04010000", 0x10 + 2 * number + 32 * next);
        assert_eq!(table.give(&asked), answer);
        assert_eq!(
            table.give(&format!("05{:02x}", 0x11 + 32 * next)),
            format!("05{:02x}", 0x11 + 32 * next)
        );
    }
}

#[test]
fn messages_without_an_answer() {
    let mut table = connected(0);
    assert_eq!(table.give("0510"), "0531");
    assert_eq!(table.give("051234"), "0551");
    assert_eq!(table.give("05143400"), "0571");
    assert_eq!(shown(&mut table), "state connected:3:0 5 - still 0 - - 0");
}

#[test]
fn frame_rejects() {
    // Nothing pending: S+1 is bad too.
    for control in ["31", "51", "f1", "35", "30", "fe"] {
        let mut table = connected(0);
        assert_eq!(table.give(&format!("05{control}")), format!("0597{control}0008"));
        assert_eq!(table.give("0511"), "051f");
    }
    // With an answer pending V(S) is S+1, and S+2 is bad.
    for control in ["51", "f1", "55", "52"] {
        let mut table = connected(0);
        table.give("0510340000");
        assert_eq!(table.give(&format!("05{control}")), format!("0597{control}2208"));
    }
    for control in ["73", "1f", "97", "19", "1d", "13", "33", "d3", "ff", "9f"] {
        let mut table = connected(0);
        assert_eq!(table.give(&format!("05{control}0102")), format!("0597{control}0001"));
        let mut table = connected(0);
        table.give("0510340000");
        assert_eq!(table.give(&format!("05{control}")), format!("0597{control}2201"));
        assert_eq!(shown(&mut table), "state assigned 5 - still 0 - - 0");
    }
    // V(S) runs round: S is 7 with an answer pending.
    let mut table = connected(0);
    for turn in 0..7_u8 {
        table.give(&format!("05{:02x}040000", 0x10 + 34 * turn));
        table.give(&format!("05{:02x}", 0x11 + 32 * (turn + 1)));
    }
    table.give("05fe040000");
    assert_eq!(shown(&mut table), "state connected:0:7 5 04010000 still 0 - - 0");
    assert_eq!(table.give("0531"), "0597310008");
}

#[test]
fn what_ends_a_session() {
    for (ending, link) in [
        ("0593", "connected:0:0 5"),
        ("0553", "assigned 5"),
        ("0571", "assigned 5"),
        ("05ff", "assigned 5"),
        ("ffbf81f003020109", "assigned 9"),
        ("ffbf81f003020105", "assigned 5"),
        ("ffbf81f0060201090401ff", "assigned 9"),
        ("ffbf81f0070201050602ffff", "assigned 5"),
        ("ffbf81f00d0602ffff0401ff010134020109", "assigned 9"),
    ] {
        // A result owed by a movement that runs on.
        let mut table = connected(0);
        table.give("05103302003200");
        table.ask("raise 1 2");
        table.give(ending);
        assert_eq!(shown(&mut table), format!("state {link} - moving 0 02 - 0"));
        assert_eq!(table.ask("stopped 1 50"), "done");
        assert_eq!(shown(&mut table), format!("state {link} - still 50 02 - 0"));
        // A result that waits.
        let mut table = connected(0);
        table.give("05103302003200");
        table.ask("stopped 1 49");
        assert_eq!(shown(&mut table), "state connected:1:0 5 - stopped:jam 49 - - 0");
        table.give(ending);
        assert_eq!(shown(&mut table), format!("state {link} - still 49 - - 0"));
        // A result that is sent.
        let mut table = connected(0);
        table.give("05103302003200");
        table.ask("stopped 1 50");
        assert_eq!(shown(&mut table), "state connected:1:0 5 - stopped:ok 50 - - 0");
        assert_eq!(table.give("0511"), "053033010000");
        assert_eq!(shown(&mut table), "state connected:1:0 5 33010000 still 50 - - 0");
        table.give(ending);
        assert_eq!(shown(&mut table), format!("state {link} - still 50 - - 0"));
    }
}

#[test]
fn busy_in_the_next_session_too() {
    let mut table = connected(0);
    table.give("05103302003200");
    table.give("0593");
    assert_eq!(table.give("0510340000"), "05303402000b05");
    assert_eq!(table.give("053233020064ff"), "05523302000b05");
    table.ask("stopped 1 3");
    assert_eq!(table.give("0554340000"), "0574340300000300");
    // While a result waits.
    assert_eq!(table.give("05763302000000"), "0591");
    table.ask("stopped 1 0");
    assert_eq!(table.give("0578340000"), "05b63402000b05");
    assert_eq!(table.give("0591"), "05b833010000");
}

#[test]
fn indications_are_told_when_acknowledged() {
    let mut table = connected(0);
    table.run(&["raise 1 39", "raise 1 2"]);
    assert_eq!(table.give("0511"), "0511");
    assert_eq!(table.give("0510120000"), "053012010000");
    assert_eq!(table.give("0531"), "053207040002012701");
    assert_eq!(shown(&mut table), "state connected:1:1 5 i:07040002012701 still 0 0227 - 1");
    // A change meanwhile alters neither the pending indication nor what is told by it.
    table.run(&["clear 1 2", "raise 1 17"]);
    assert_eq!(table.give("0531"), "053207040002012701");
    assert_eq!(table.give("0551"), "053407040002001101");
    assert_eq!(shown(&mut table), "state connected:1:2 5 i:07040002001101 still 0 1127 0227 1");
    // Lost at SNRM: told again.
    assert_eq!(table.give("0593"), "0573");
    assert_eq!(shown(&mut table), "state connected:0:0 5 - still 0 1127 0227 1");
    assert_eq!(table.give("0511"), "051007040002001101");
    assert_eq!(table.give("0535"), "0511");
    assert_eq!(shown(&mut table), "state connected:0:1 5 - still 0 1127 1127 1");
    assert_eq!(table.give("0531"), "0511");
}

#[test]
fn the_order_of_answers_to_rr() {
    let mut table = connected(0);
    table.give("0510120000");
    assert_eq!(table.give("05323302003200"), "0551");
    table.run(&["raise 1 3", "stopped 1 50"]);
    assert_eq!(table.give("0531"), "055233010000");
    assert_eq!(table.give("0531"), "055233010000");
    assert_eq!(table.give("0551"), "05540702000301");
    assert_eq!(table.give("0571"), "0551");
}

#[test]
fn clear_alarms_empties_both() {
    let mut table = connected(0);
    table.give("0510120000");
    table.ask("raise 1 3");
    assert_eq!(table.give("0531"), "05320702000301");
    // The same frame acknowledges the indication and clears.
    assert_eq!(table.give("0552060000"), "055406010000");
    assert_eq!(shown(&mut table), "state connected:2:2 5 06010000 still 0 - - 1");
    assert_eq!(table.give("0571"), "0551");
}

#[test]
fn information() {
    assert_eq!(connected(0).give("0510050000"), "0530050c00000170043132333401680173");
}

#[test]
fn scans_in_any_state() {
    for (mut table, address) in [(fresh(0), "00"), (assigned(0), "05"), (connected(0), "05")] {
        let all = format!("{address}bf81f00e01064b41313233340201{address}040101");
        let before = shown(&mut table);
        assert_eq!(table.give("ffbf81f006010100030100"), all);
        assert_eq!(table.give("ffbf81f006030100010100"), all);
        // The padding is seen by the scan.
        assert_eq!(table.give("ffbf81f01201074b4131323334200307ffffffffffffff"), all);
        assert_eq!(table.give("ffbf81f01201074b4131323334210307ffffffffffffff"), "silence");
        // Lengths differ; a third parameter; the mask alone; the identity alone.
        assert_eq!(table.give("ffbf81f00701010003020000"), "silence");
        assert_eq!(table.give("ffbf81f009010100030100040101"), "silence");
        assert_eq!(table.give("ffbf81f003030100"), "silence");
        assert_eq!(table.give("ffbf81f003010100"), "silence");
        assert_eq!(table.give("ffbf81f000"), "silence");
        assert_eq!(shown(&mut table), before);
    }
}

#[test]
fn assignments() {
    for (field, taken) in [
        ("020107", true),
        ("020107 010134", true),
        ("010134 020107", true),
        ("01064b4131323334 020107", true),
        ("01044b413132 020107", false),
        ("0107204b4131323334 020107", false),
        ("01074b413132333420 020107", false),
        ("020107 040101", true),
        ("020107 040102", false),
        ("020107 06024b41", true),
        ("020107 0602414b", false),
        ("06024b41 040101 01023334 020107", true),
        ("020107 010134 0301ff", false),
        ("020107 020107", false),
        ("020107 050101", false),
        ("02020707", false),
        ("020107 0100", false),
        ("040101", false),
    ] {
        in_every_state(field, taken);
    }
}

#[test]
fn wild_cards_match_every_device() {
    for field in [
        "020107 0401ff",
        "020107 0602ffff",
        "020107 0401ff 0602ffff",
        // Beside the device's own type and vendor.
        "020107 0401ff 06024b41",
        "020107 040101 0602ffff",
        // With a part of the identity, with the whole of it.
        "020107 010134 0401ff",
        "020107 010134 0602ffff",
        "020107 010134 0401ff 0602ffff",
        "020107 01064b4131323334 0401ff 0602ffff",
        "020107 01054131323334 0401ff 06024b41",
        "020107 0103323334 040101 0602ffff",
    ] {
        in_every_state(field, true);
    }
}

/// The triples in every order.
fn orders(triples: &[&str]) -> Vec<String> {
    if triples.is_empty() {
        return vec![String::new()];
    }
    let mut all = Vec::new();
    for place in 0..triples.len() {
        let mut rest = triples.to_vec();
        let first = rest.remove(place);
        all.extend(orders(&rest).iter().map(|others| format!("{first} {others}")));
    }
    all
}

#[test]
fn wild_cards_in_any_order() {
    let orders = orders(&["010134", "020107", "0401ff", "0602ffff"]);
    assert_eq!(orders.len(), 24);
    for triples in orders {
        in_every_state(&triples, true);
    }
}

#[test]
fn a_wild_card_stands_for_its_own_triple_alone() {
    for others in ["0401ff", "0602ffff", "0401ff 0602ffff"] {
        // The identity is still compared: another one, from the left, padded,
        // too long, of octets FF.
        for identity in [
            "010133",
            "01054b41313233",
            "01024b41",
            "01074b413132333420",
            "0107204b4131323334",
            "0101ff",
            "0102ffff",
            "0106ffffffffffff",
        ] {
            in_every_state(&format!("020107 {identity} {others}"), false);
            in_every_state(&format!("{others} {identity} 020107"), false);
        }
        // The address value is still 1 to 254.
        for address in ["020100", "0201ff"] {
            in_every_state(&format!("{address} {others}"), false);
            in_every_state(&format!("{others} 010134 {address}"), false);
        }
        // 2 is still present, 3 absent.
        in_every_state(others, false);
        in_every_state(&format!("010134 {others}"), false);
        in_every_state(&format!("020107 0301ff {others}"), false);
        in_every_state(&format!("020107 010134 0301ff {others}"), false);
    }
    // The other of the two is still compared.
    in_every_state("020107 0401ff 0602414b", false);
    in_every_state("020107 0401ff 06024b42", false);
    in_every_state("020107 040102 0602ffff", false);
    in_every_state("040111 010134 0602ffff 020107", false);
}

#[test]
fn addresses_given_by_wild_card() {
    for address in 0..=255 {
        let mut table = connected(0);
        let answer = table.give(&xid(&format!("0201{address:02x} 0401ff 0602ffff")));
        if (1..=254).contains(&address) {
            assert_eq!(answer, format!("{address:02x}{}", &TAKEN[2..]));
            assert_eq!(shown(&mut table), format!("state assigned {address} - still 0 - - 0"));
        } else {
            assert_eq!(answer, "silence");
            assert_eq!(shown(&mut table), "state connected:0:0 5 - still 0 - - 0");
        }
    }
}

#[test]
fn other_types_are_no_wild_card() {
    for kind in (0x00..=0xFF).filter(|kind| ![0x01, 0xFF].contains(kind)) {
        in_every_state(&format!("020107 0401{kind:02x}"), false);
    }
    for kind in ["00", "fe", "7f", "11"] {
        in_every_state(&format!("020107 010134 0401{kind} 06024b41"), false);
        in_every_state(&format!("020107 0401{kind} 0602ffff"), false);
    }
}

#[test]
fn half_a_wild_card_is_none() {
    for vendor in ["ff41", "4bff", "fffe", "feff", "ff00", "00ff", "0000", "fefe"] {
        let vendor = format!("06{:02x}{vendor}", vendor.len() / 2);
        in_every_state(&format!("020107 {vendor}"), false);
        in_every_state(&format!("{vendor} 01064b4131323334 020107"), false);
        in_every_state(&format!("020107 {vendor} 0401ff"), false);
    }
}

#[test]
fn wild_cards_of_another_length() {
    for spoilt in ["0400", "0402ffff", "0403ffffff", "0600", "0601ff", "0603ffffff", "0604ffffffff"]
    {
        in_every_state(&format!("020107 {spoilt}"), false);
        in_every_state(&format!("{spoilt} 010134 020107"), false);
    }
    // A repeat, also of the wild card beside the device's own.
    for twice in ["0401ff 0401ff", "0401ff 040101", "0602ffff 0602ffff", "06024b41 0602ffff"] {
        in_every_state(&format!("020107 {twice}"), false);
    }
    // FF and FF FF under other identifiers.
    for other in ["0501ff", "0702ffff", "ff01ff"] {
        in_every_state(&format!("020107 {other}"), false);
    }
}

#[test]
fn a_scan_has_no_wild_cards() {
    // Octets FF in the value are plain octets, whatever the mask.
    for scan in [
        "0101ff 0301ff",
        "0102ffff 0302ffff",
        "0102ffff 03020000",
        "0106ffffffffffff 0306ffffffffffff",
        "0102ff41 0302ffff",
        "01024bff 0302ffff",
        "0102ffff 03027f7f",
    ] {
        in_every_state(scan, false);
    }
    let whole = "ff".repeat(19);
    in_every_state(&format!("0113{whole} 0313{whole}"), false);
    // 1, 3 and a wild card are neither scan nor assignment, though 1 and 3
    // alone are a scan that is answered.
    for scan in ["010100 030100", "01024b41 0302ffff", "01064b4131323334 0306ffffffffffff"] {
        let answer = "00bf81f00e01064b4131323334020100040101";
        assert_eq!(fresh(0).give(&xid(scan)), answer);
        for third in ["0401ff", "0602ffff", "0401ff 0602ffff", "040101", "06024b41"] {
            in_every_state(&format!("{scan} {third}"), false);
            in_every_state(&format!("{third} {scan}"), false);
        }
    }
}

/// Devices of three vendors.
fn of_three_vendors() -> Table {
    let mut table = Table::default();
    for (k, identity) in [(1, b"KA1234"), (2, b"AK1234"), (3, b"zz9994")] {
        let line = format!("device {} - - - -20 100 0", hex(identity));
        assert_eq!(table.ask(&line), format!("device {k}"));
    }
    table
}

#[test]
fn devices_share_the_address_of_a_wild_card() {
    for triples in
        ["020107 0401ff", "020107 0602ffff", "0602ffff 0401ff 020107", "010134 0602ffff 020107"]
    {
        let mut table = of_three_vendors();
        for (k, identity) in [(1, "4b4131323334"), (2, "414b31323334"), (3, "7a7a39393934")] {
            // "the answer from the new address has 1 and 4": the device's own.
            let answer = format!("07bf81f00b0106{identity}040101");
            assert_eq!(table.give_to(k, &xid(triples)), answer);
            assert_eq!(table.ask(&format!("show {k}")), "state assigned 7 - still 0 - - 0");
        }
        // Each has a link of its own under the one address.
        assert_eq!(table.give_to(1, "0793"), "0773");
        assert_eq!(table.give_to(2, "0711"), "071f");
        assert_eq!(table.give_to(2, "0793"), "0773");
        assert_eq!(table.give_to(1, "07103302003200"), "0731");
        assert_eq!(table.ask("show 1"), "state connected:1:0 7 - moving:50 0 - - 0");
        assert_eq!(table.ask("show 2"), "state connected:0:0 7 - still 0 - - 0");
        assert_eq!(table.ask("show 3"), "state assigned 7 - still 0 - - 0");
        // One of them is told apart by its vendor or its identity.
        assert_eq!(table.give_to(1, &xid("020109 0602414b 0401ff")), "silence");
        let moved = "09bf81f00b0106414b31323334040101";
        assert_eq!(table.give_to(2, &xid("020109 0602414b 0401ff")), moved);
        assert_eq!(table.give_to(2, "0711"), "silence");
        assert_eq!(table.ask("show 1"), "state connected:1:0 7 - moving:50 0 - - 0");
    }
}

#[test]
fn a_wild_card_beside_an_identity_of_some() {
    for (triples, takers) in [
        ("020107 0401ff 0106414b31323334", [false, true, false]),
        ("010431323334 0602ffff 020107", [true, true, false]),
        ("0602ffff 020107 0401ff 01023934", [false, false, true]),
    ] {
        let mut table = of_three_vendors();
        for (k, taken) in (1..).zip(takers) {
            assert_eq!(table.give_to(k, &xid(triples)) != "silence", taken);
            let state = if taken { "assigned 7" } else { "none 0" };
            assert_eq!(table.ask(&format!("show {k}")), format!("state {state} - still 0 - - 0"));
        }
    }
}
