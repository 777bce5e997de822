//! The script's fine print.

mod common;
use common::{fresh, Table};

use std::io::Write;
use std::process::{Command, Stdio};

#[test]
fn the_order_of_faults() {
    let mut table = fresh(0);
    for (line, fault) in [
        ("nonsense", "command"),
        ("Decode 00 1", "command"),
        (" decode 00 1", "command"),
        (" ", "command"),
        ("decode\t00 1", "command"),
        (" # no remark", "command"),
        ("decode", "words"),
        ("decode  00 1", "words"),
        ("decode 00 1 ", "words"),
        ("decode zz", "words"),
        ("decode  1", "hex"),
        ("decode 0 x", "hex"),
        ("decode 00 ", "number"),
        ("decode 00 x", "number"),
        ("decode 00 601", "room"),
        ("decode 00 -1", "room"),
        ("decode 00 99999999999999999999", "room"),
        ("write 1 zz 0 x", "hex"),
        ("write - 00 00 1", "hex"),
        ("write 000 00 00 1", "hex"),
        ("write 01 02 00 601", "room"),
        ("decode-n", "words"),
        ("decode-n 78 00", "words"),
        ("decode-n 78 00 1 1", "words"),
        ("decode-n 013febdf 2", "words"),
        ("decode-n 78 013febdf 2 ", "words"),
        ("decode-n  00 1", "number"),
        ("decode-n x zz x", "number"),
        ("decode-n 65536 zz x", "number"),
        ("decode-n -1 00 1", "number"),
        ("decode-n 7e 00 1", "number"),
        ("decode-n 99999999999999999999 00 1", "number"),
        ("decode-n 77 zz x", "hex"),
        ("decode-n 0 000 601", "hex"),
        ("decode-n 78  1", "hex"),
        ("decode-n 65535 00 x", "number"),
        ("decode-n 261 00 601", "room"),
        ("decode-n 260 - -1", "room"),
        ("write-n", "words"),
        ("write-n 05 10 00 80", "words"),
        ("write-n 78 05 10 00 80 80", "words"),
        ("write-n x zz zz zz x", "number"),
        ("write-n 65536 zz zz zz x", "number"),
        ("write-n 0 zz zz zz x", "hex"),
        ("write-n 0 05 1 zz x", "hex"),
        ("write-n 0 05 10 0 x", "hex"),
        ("write-n 0 05 10 00 x", "number"),
        ("write-n 0 05 10 00 601", "room"),
        ("limit", "words"),
        ("limit 1 1", "words"),
        ("limit 1 ", "words"),
        ("limit ", "number"),
        ("limit x", "number"),
        ("limit 0", "device"),
        ("limit -0", "device"),
        ("limit 2", "device"),
        ("limit -1", "device"),
        ("decode-N 78 00 1", "command"),
        ("decode_n 78 00 1", "command"),
        ("decoden 78 00 1", "command"),
        ("write- 05 10 00 80", "command"),
        ("limits 1", "command"),
        ("Limit 1", "command"),
        ("listen 1", "words"),
        ("listen ", "words"),
        ("Listen", "command"),
        ("listening", "command"),
        (" listen", "command"),
        ("octets", "words"),
        ("octets 78 7e", "words"),
        ("octets 7e 76", "words"),
        ("octets 78 7e 76 ", "words"),
        ("octets 78 7e 76 1", "words"),
        ("octets  7e 76", "number"),
        ("octets x zz x", "number"),
        ("octets - zz x", "number"),
        ("octets 65536 zz x", "number"),
        ("octets -1 7e 76", "number"),
        ("octets 99999999999999999999 7e 76", "number"),
        ("octets 77 zz x", "hex"),
        ("octets 65535 7e7 601", "hex"),
        ("octets 78  76", "hex"),
        ("octets 78 7e x", "number"),
        ("octets 78 7e ", "number"),
        ("octets 261 7e 601", "room"),
        ("octets 78 - -1", "room"),
        ("octet 78 7e 76", "command"),
        ("OCTETS 78 7e 76", "command"),
        ("frame 2 zz x", "device"),
        ("frame x zz x", "number"),
        ("frame 1 zz x", "hex"),
        ("frame 1 00 x", "number"),
        ("frame 1 00 601", "room"),
        ("hear 0 00 76", "device"),
        ("hear -1 00 76", "device"),
        ("hear -0 00 76", "device"),
        ("hear  00 76", "number"),
        ("stopped 1 32768", "number"),
        ("stopped 1 -32769", "number"),
        ("stopped 2 32768", "device"),
        ("raise 1 256", "number"),
        ("raise 1 -1", "number"),
        ("clear 1 1a", "number"),
        ("show", "words"),
        ("show 2", "device"),
        ("show 1 1", "words"),
        ("scan 65536", "number"),
        ("scan -1", "number"),
        ("scan x", "number"),
        ("begin 65536", "number"),
        ("begin +1", "number"),
        ("probe 601", "room"),
        ("probe --1", "number"),
        ("report", "words"),
        ("report loud", "words"),
        ("report Heard", "words"),
        ("report heard silent", "words"),
        ("report ", "words"),
        ("device 414231 - - - 0 0", "words"),
        ("device 414231 - - - 0 0 40000", "number"),
        ("device 414231 - - 0 x 0 0", "hex"),
        ("device  - - - 0 0 0", "hex"),
    ] {
        assert_eq!(table.ask(line), format!("error {fault}"), "{line}");
    }
}

#[test]
fn what_is_read_all_the_same() {
    let mut table = fresh(0);
    assert_eq!(table.ask("decode 013FEBDF 0002"), "frame 2 013f");
    assert_eq!(table.ask("decode - -0"), "refused 1 -");
    assert!(table.ask("show 0000000000000000000001").starts_with("state none"));
    assert_eq!(table.ask("raise 1 002"), "done");
    assert_eq!(table.ask("raise 1 -0"), "refused 8");
    assert_eq!(table.ask("write 7E 7d - 0"), "refused 5 -");
    assert_eq!(table.ask("decode-n 00078 013FEBDF 0002"), "frame 2 013f");
    assert_eq!(table.ask("decode-n -0 013FEBDF 2"), "refused 6 a5a5");
    assert_eq!(table.ask("decode-n 65535 - -0"), "refused 6 -");
    assert_eq!(table.ask("write-n 0000000000000000000260 01 3f - 6"), "line 6 7e013febdf7e");
    assert_eq!(table.ask("limit 0000000000000000000001"), "limit 78");
    assert_eq!(table.ask("octets -0 7E -0"), "refused 6 -");
    assert_eq!(
        table.ask("octets 00078 7Ebd7D 0076"),
        format!("took 3 nothing {}", "a5".repeat(76))
    );
}

#[test]
fn a_33rd_device() {
    let mut table = Table::default();
    assert_eq!(table.ask("device 4142 - - - 0 0 0"), "refused 6");
    for k in 1..=32 {
        assert_eq!(table.ask("device 414231 - - - 0 0 0"), format!("device {k}"));
    }
    assert_eq!(table.ask("device 414231 - - - 0 0 0"), "error full");
    assert_eq!(table.ask("device 4142 - - - 0 0 0"), "error full");
    assert_eq!(table.ask("device 4142 - - - 0 0 x"), "error number");
    assert_eq!(table.ask("device 414 - - - 0 0 0"), "error hex");
    assert_eq!(table.ask("show 33"), "error device");
    assert!(table.ask("scan 65535").starts_with("complete 305 "));
}

#[test]
fn a_scan_by_hand() {
    let mut table = fresh(0);
    assert_eq!(table.ask("report silent"), "refused 7");
    assert_eq!(table.ask("begin 0"), "begun");
    assert_eq!(table.ask("probe 47"), format!("refused 7 {}", "a5".repeat(47)));
    assert_eq!(table.ask("begin 3"), "begun");
    let first = format!("ffbf81f02a0113{}0313{}", "00".repeat(19), "00".repeat(19));
    assert_eq!(table.ask("probe 47"), format!("probe 47 {first}"));
    assert_eq!(table.ask("probe 48"), format!("probe 47 {first}a5"));
    assert_eq!(table.ask("report heard"), "going 1");
    assert_eq!(
        table.ask("probe 47"),
        format!("probe 47 {}", first.replace("0313", "0313;").replace(";00", "80"))
    );
    assert_eq!(table.ask("report silent"), "going 2");
    // A scan of the bench leaves the scan by hand alone.
    assert!(table.ask("scan 65535").starts_with("complete 305 "));
    assert_eq!(table.ask("report silent"), "doubtful 3 -");
    assert_eq!(table.ask("report silent"), "refused 7");
    assert_eq!(table.ask("begin 1"), "begun");
    assert_eq!(table.ask("report heard"), format!("limit 1 - 1:{}", "00".repeat(19)));
    assert_eq!(table.ask("begin 1"), "begun");
    assert_eq!(table.ask("report silent"), "complete 1 -");
}

#[test]
fn commands_of_other_requests() {
    // "Each comes with its request, not before."
    let mut table = fresh(0);
    for line in ["why 1 0593", "under - 1", "begin-under - 1", "row -", "open-book", "book"] {
        assert_eq!(table.ask(line), "error command");
    }
}

/// The binary's answer to a whole script.
fn whole(script: &[u8]) -> String {
    let mut child = Command::new(env!("CARGO_BIN_EXE_second"))
        .stdin(Stdio::piped())
        .stdout(Stdio::piped())
        .spawn()
        .unwrap();
    child.stdin.take().unwrap().write_all(script).unwrap();
    let output = child.wait_with_output().unwrap();
    assert!(output.status.success());
    String::from_utf8(output.stdout).unwrap()
}

#[test]
fn lines_of_a_whole_script() {
    assert_eq!(whole(b""), "");
    assert_eq!(whole(b"\n\r\n#\n# x\r\n"), "");
    assert_eq!(
        whole(b"show 1\r\nshow 1\r\r\nshow 1"),
        "error device\nerror number\nerror device\n"
    );
    assert_eq!(whole(b"\r\r\n\xff\x00\n\0"), "error command\nerror command\nerror command\n");
    assert_eq!(whole(b"decode 013febdf 2\n\ndecode - 0"), "frame 2 013f\nrefused 1 -\n");
}

#[test]
fn lines_about_the_greatest_length() {
    let line = |length: usize, end: &str| {
        let digits = "0".repeat(length - "decode  00".len());
        format!("decode {digits} 00{end}")
    };
    // The even number of digits fits an even length of the line.
    assert_eq!(whole(line(2_000, "\n").as_bytes()), "refused 2 -\n");
    assert_eq!(whole(line(2_000, "\r\n").as_bytes()), "refused 2 -\n");
    assert_eq!(whole(line(2_000, "").as_bytes()), "refused 2 -\n");
    assert_eq!(whole(line(1_999, "\n").as_bytes()), "error hex\n");
    assert_eq!(whole(line(2_001, "\n").as_bytes()), "error long\n");
    assert_eq!(whole(line(2_000, "\r\r\n").as_bytes()), "error long\n");
    // Octets far past the largest limit still fit a line.
    let digits = "0".repeat(2_000 - "decode-n 260  0".len() - 1);
    assert_eq!(whole(format!("decode-n 260 {digits} 0").as_bytes()), "refused 2 -\n");
    assert_eq!(whole(format!("decode-n 261 {digits} 0").as_bytes()), "refused 6 -\n");
    assert_eq!(whole(format!("write-n 260 0 {digits} 0").as_bytes()), "error words\n");
    assert_eq!(whole(format!("decode-n 260 {digits} 000").as_bytes()), "error long\n");
    assert_eq!(whole("x".repeat(2_001).as_bytes()), "error long\n");
    assert_eq!(whole("x".repeat(2_000).as_bytes()), "error command\n");
    assert_eq!(whole(format!("#{}\n", "x".repeat(100_000)).as_bytes()), "");
    assert_eq!(
        whole(format!("{}\nshow 1\n", "\0".repeat(1_000_000)).as_bytes()),
        "error long\nerror device\n"
    );
}
