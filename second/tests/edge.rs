//! Every case of document 01's section "Both sides of the edge".

mod common;
use common::{assigned, connected, fresh, hex, Table};

fn with_identities(identities: &[&[u8]]) -> Table {
    let mut table = Table::default();
    for identity in identities {
        assert!(table.ask(&format!("device {} - - - 0 0 0", hex(identity))).starts_with("device "));
    }
    table
}

#[test]
fn no_device() {
    let mut table = Table::default();
    assert_eq!(table.ask("scan 1"), "complete 1 -");
    assert_eq!(table.ask("scan 0"), format!("limit 0 - 0:{}", "00".repeat(19)));
}

#[test]
fn one_device() {
    let mut table = fresh(0);
    let padded = hex(b"KA1234             ");
    assert_eq!(table.ask("scan 305"), format!("complete 305 {padded}"));
    assert_eq!(table.ask("scan 65535"), format!("complete 305 {padded}"));
    // The 305th probe is the 1 half of the first bit.
    assert_eq!(table.ask("scan 304"), format!("limit 304 {padded} 1:80{}", "00".repeat(18)));
}

#[test]
fn two_identities() {
    let mut last = with_identities(&[b"AB34567890123456789", b"AB34567890123456788"]);
    assert!(last.ask("scan 65535").starts_with("complete 305 "));
    let mut second_bit = with_identities(&[b"aB3", b"!B3"]);
    assert!(second_bit.ask("scan 65535").starts_with("complete 605 2142"));
    assert!(second_bit.ask("scan 605").starts_with("complete 605 "));
    assert!(second_bit.ask("scan 604").starts_with("limit 604 "));
}

#[test]
fn the_longest_frames() {
    let mut table = Table::default();
    let written = table.ask(&format!("write 01 02 {} 158", "00".repeat(74)));
    assert!(written.starts_with("line 80 7e0102"));
    assert_eq!(
        table.ask(&format!("write 01 02 {} 158", "00".repeat(75))),
        format!("refused 9 {}", "a5".repeat(158))
    );
    for (payload, answer) in [(74, "frame 76 0102"), (75, "refused 2 a5")] {
        let mut frame = vec![1, 2];
        frame.resize(2 + payload, 0);
        frame.extend(second::check::check_octets(&frame));
        assert_eq!(frame.len(), payload + 4);
        assert!(table.ask(&format!("decode {} 100", hex(&frame))).starts_with(answer));
    }
}

#[test]
fn a_movement_to_the_tilt_asked() {
    let mut table = connected(0);
    assert_eq!(table.give("05103302003200"), "0531");
    assert_eq!(table.give("05103302003200"), "0531");
    assert_eq!(table.ask("stopped 1 50"), "done");
    assert_eq!(table.ask("stopped 1 50"), "refused 8");
    assert_eq!(table.give("0511"), "053033010000");
}

#[test]
fn a_movement_that_stops_elsewhere() {
    let mut table = connected(0);
    assert_eq!(table.give("05103302003200"), "0531");
    assert_eq!(table.ask("stopped 1 49"), "done");
    assert_eq!(table.give("0511"), "05303302000b02");
}

#[test]
fn a_negative_tilt() {
    assert_eq!(connected(-15).give("0510340000"), "053034030000f1ff");
}

#[test]
fn a_bad_number() {
    let mut table = connected(0);
    assert_eq!(table.give("0571"), "0597710008");
    assert_eq!(table.ask("show 1"), "state assigned 5 - still 0 - - 0");
}

#[test]
fn addresses_that_are_none() {
    for mut table in [fresh(0), assigned(0), connected(0)] {
        let before = table.ask("show 1");
        assert_eq!(table.give("ffbf81f003020100"), "silence");
        assert_eq!(table.give("ffbf81f0030201ff"), "silence");
        assert_eq!(table.ask("show 1"), before);
        assert_ne!(table.give("ffbf81f0030201fe"), "silence");
    }
}

#[test]
fn a_scan_value_with_a_bit_outside_its_mask() {
    let mut table = fresh(0);
    // K is 4b: its first nibble, then with one bit more in the value.
    assert_eq!(table.give("ffbf81f0060101400301f0"), "00bf81f00e01064b4131323334020100040101");
    assert_eq!(table.give("ffbf81f00601014b0301f0"), "silence");
}
