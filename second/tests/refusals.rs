//! Each refusal number, reached on purpose, and the octets it leaves.

mod common;
use common::{connected, fresh, hex, Table};

use second::record::{Drive, Link};
use second::refusal::Refusal;
use second::{bench, device};

#[test]
fn each_number_from_the_script() {
    let mut table = fresh(0);
    let a5 = "a5".repeat(80);
    assert_eq!(table.ask("decode 013feb 80"), format!("refused 1 {a5}"));
    assert_eq!(table.ask(&format!("decode {} 80", "00".repeat(79))), format!("refused 2 {a5}"));
    assert_eq!(table.ask("decode 013febde 80"), format!("refused 3 {a5}"));
    assert_eq!(table.ask("decode 013f7eebdf 80"), format!("refused 4 {a5}"));
    assert_eq!(table.ask("decode 013febdf7d 80"), format!("refused 4 {a5}"));
    assert_eq!(table.ask("decode 013febdf7d7d 80"), format!("refused 4 {a5}"));
    assert_eq!(table.ask("decode 013febdf 1"), "refused 5 a5");
    assert_eq!(table.ask("decode 013febdf 2"), "frame 2 013f");
    assert_eq!(table.ask("write 01 3f - 5"), "refused 5 a5a5a5a5a5");
    assert_eq!(table.ask("write 01 3f - 6"), "line 6 7e013febdf7e");
    assert_eq!(table.ask("frame 1 - 75"), format!("refused 5 {}", "a5".repeat(75)));
    assert_eq!(table.ask("frame 1 - 76"), format!("silence {}", "a5".repeat(76)));
    assert_eq!(table.ask("device 4142 - - - 0 0 0"), "refused 6");
    assert_eq!(table.ask("probe 80"), format!("refused 7 {a5}"));
    assert_eq!(table.ask("probe 0"), "refused 7 -");
    assert_eq!(table.ask("report heard"), "refused 7");
    assert_eq!(table.ask("begin 1"), "begun");
    assert_eq!(table.ask("probe 46"), format!("refused 5 {}", "a5".repeat(46)));
    assert_eq!(table.ask("stopped 1 0"), "refused 8");
    assert_eq!(table.ask("raise 1 1"), "refused 8");
    assert_eq!(table.ask("clear 1 18"), "refused 8");
    assert_eq!(
        table.ask(&format!("write 01 3f {} 80", "00".repeat(75))),
        format!("refused 9 {a5}")
    );
}

#[test]
fn each_number_with_a_frame_limit() {
    let mut table = Table::default();
    let a5 = "a5".repeat(80);
    for limit in [78, 79, 200, 259, 260] {
        let long = "00".repeat(limit + 1);
        let whole = "00".repeat(limit);
        assert_eq!(table.ask(&format!("decode-n {limit} 013feb 80")), format!("refused 1 {a5}"));
        assert_eq!(table.ask(&format!("decode-n {limit} {long} 80")), format!("refused 2 {a5}"));
        assert_eq!(table.ask(&format!("decode-n {limit} {whole} 80")), format!("refused 3 {a5}"));
        assert_eq!(table.ask(&format!("decode-n {limit} {long}7e 80")), format!("refused 4 {a5}"));
        assert_eq!(table.ask(&format!("decode-n {limit} {long}7d 80")), format!("refused 4 {a5}"));
        assert_eq!(table.ask(&format!("decode-n {limit} 013febdf 1")), "refused 5 a5");
        let payload = "00".repeat(limit - 3);
        assert_eq!(
            table.ask(&format!("write-n {limit} 01 3f {payload} 80")),
            format!("refused 9 {a5}")
        );
        assert_eq!(table.ask(&format!("write-n {limit} 01 3f {payload} 0")), "refused 9 -");
        assert_eq!(table.ask(&format!("write-n {limit} 01 3f - 5")), "refused 5 a5a5a5a5a5");
    }
    for limit in ["77", "261", "0", "65535"] {
        for line in ["7e", "7d", "-", "013feb", "013febde", "013febdf"] {
            let refused = format!("refused 6 {a5}");
            assert_eq!(table.ask(&format!("decode-n {limit} {line} 80")), refused);
            assert_eq!(table.ask(&format!("write-n {limit} 01 3f {line} 80")), refused);
        }
    }
}

#[test]
fn device_data() {
    let mut table = Table::default();
    let mut data =
        |identity: &[u8], product: usize, hardware: usize, software: usize, tilts: &str| {
            table.ask(&format!(
                "device {} {} {} {} {tilts}",
                hex(identity),
                hex(&vec![0xFF; product]),
                hex(&vec![0; hardware]),
                hex(&vec![0x0A; software]),
            ))
        };
    assert_eq!(data(b"AB", 0, 0, 0, "0 0 0"), "refused 6");
    assert_eq!(data(b"AB1", 0, 0, 0, "0 0 0"), "device 1");
    assert_eq!(data(b"AB345678901234567890", 0, 0, 0, "0 0 0"), "refused 6");
    assert_eq!(data(b"AB34567890123456789", 20, 14, 14, "-32768 32767 32767"), "device 2");
    assert_eq!(data(b"AB1 ", 0, 0, 0, "0 0 0"), "refused 6");
    assert_eq!(data(b" B~", 0, 0, 0, "0 0 0"), "device 3");
    assert_eq!(data(b"AB\x7f", 0, 0, 0, "0 0 0"), "refused 6");
    assert_eq!(data(b"\x1fB1", 0, 0, 0, "0 0 0"), "refused 6");
    assert_eq!(data(b"AB1", 21, 0, 0, "0 0 0"), "refused 6");
    assert_eq!(data(b"AB1", 0, 15, 0, "0 0 0"), "refused 6");
    assert_eq!(data(b"AB1", 0, 0, 15, "0 0 0"), "refused 6");
    assert_eq!(data(b"AB1", 0, 0, 0, "1 0 0"), "refused 6");
    assert_eq!(data(b"AB1", 0, 0, 0, "0 5 6"), "refused 6");
    assert_eq!(data(b"AB1", 0, 0, 0, "0 5 -1"), "refused 6");
    assert_eq!(data(b"", 0, 0, 0, "0 5 0"), "refused 6");
    assert_eq!(data(b"AB1", 0, 0, 0, "0 5 5"), "device 4");
}

#[test]
fn a_record_that_is_not_allowed() {
    // "The device 6, then 5 for a frame or 8 for an event."
    let mut table = connected(0);
    let record = &mut table.bench.devices[0];
    record.unit.drive = Drive::Stopped { success: true };
    record.link = Link::AddressAssigned;
    let before = record.clone();
    assert_eq!(device::judge(record, &[5, 0x93], &mut []), Err(Refusal::NotAllowed));
    assert_eq!(device::judge(record, &[5, 0x93], &mut [0; 76]), Err(Refusal::NotAllowed));
    assert_eq!(device::stopped(record, 9_999), Err(Refusal::NotAllowed));
    assert_eq!(device::raise(record, 1), Err(Refusal::NotAllowed));
    assert_eq!(device::clear(record, 2), Err(Refusal::NotAllowed));
    assert_eq!(*record, before);
}

#[test]
fn hear_decodes_first() {
    let mut table = fresh(0);
    assert_eq!(table.ask("hear 1 7e 0"), "refused 4 -");
    assert_eq!(table.ask("hear 1 - 0"), "refused 1 -");
    assert_eq!(table.ask("hear 1 013febde 3"), "refused 3 a5a5a5");
    assert_eq!(table.ask(&format!("hear 1 {} 3", "00".repeat(79))), "refused 2 a5a5a5");
    assert_eq!(table.ask("hear 1 013febdf 3"), "refused 5 a5a5a5");
    assert_eq!(table.ask("hear 1 013febdf 76"), format!("silence {}", "a5".repeat(76)));
    let record = &mut table.bench.devices[0];
    assert_eq!(bench::hear(record, &[0x7D], &mut []), Err(Refusal::BadLine));
}

#[test]
fn a_refused_event_changes_nothing() {
    let mut table = connected(0);
    assert_eq!(table.give("05103302003200"), "0531");
    let before = table.ask("show 1");
    assert_eq!(before, "state connected:1:0 5 - moving:50 0 - - 0");
    for event in ["stopped 1 101", "stopped 1 -21", "raise 1 0", "clear 1 255"] {
        assert_eq!(table.ask(event), "refused 8");
        assert_eq!(table.ask("show 1"), before);
    }
}
