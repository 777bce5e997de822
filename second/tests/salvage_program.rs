//! The binaries `second-salvage` and `captures`: words, files, statuses.

use std::fs;
use std::os::unix::fs::symlink;
use std::path::PathBuf;
use std::process::{Command, Output};

use second::generator::capture::capture;
use second::salvage::salvage;

/// 7E, a good frame, 7E, one octet, 7E.
const CAPTURE: [u8; 8] = [0x7E, 0x01, 0x3F, 0xEB, 0xDF, 0x7E, 0x33, 0x7E];
const GOOD: [u8; 6] = [0x7E, 0x01, 0x3F, 0xEB, 0xDF, 0x7E];
const LIST: &str = "6 1 1\nkept 1 frames 4 octets, 3 flags, dropped 1 stretches 1 octets, of 8\n";

/// An empty folder for one test, with a capture in it.
fn folder(name: &str) -> PathBuf {
    let folder = PathBuf::from(env!("CARGO_TARGET_TMPDIR")).join(name);
    let _ = fs::remove_dir_all(&folder);
    fs::create_dir_all(&folder).unwrap();
    fs::write(folder.join("capture"), CAPTURE).unwrap();
    folder
}

/// The program, called in a folder.
fn call(folder: &PathBuf, words: &[&str]) -> Output {
    let program = env!("CARGO_BIN_EXE_second-salvage");
    Command::new(program).current_dir(folder).args(words).output().unwrap()
}

/// It ends so, with a sentence and without a list; neither GOOD nor CAPTURE
/// is another than before.
fn fails(folder: &PathBuf, words: &[&str], status: i32) {
    let before = fs::read(folder.join("good")).ok();
    let output = call(folder, words);
    assert_eq!(output.status.code(), Some(status), "{words:?}");
    assert_eq!(output.stdout, b"", "{words:?}");
    let sentence = String::from_utf8(output.stderr).unwrap();
    assert!(sentence.starts_with("second-salvage: ") && sentence.ends_with('\n'), "{sentence}");
    assert_eq!(sentence.lines().count(), 1);
    assert_eq!(fs::read(folder.join("capture")).unwrap(), CAPTURE);
    assert_eq!(fs::read(folder.join("good")).ok(), before);
}

fn works(folder: &PathBuf, words: &[&str], list: &str, good: &[u8]) {
    let output = call(folder, words);
    assert_eq!(output.status.code(), Some(0), "{words:?}");
    assert_eq!(String::from_utf8(output.stdout).unwrap(), list);
    assert_eq!(output.stderr, b"");
    assert_eq!(fs::read(folder.join(words[1])).unwrap(), good);
}

#[test]
fn good_and_the_list() {
    let folder = folder("good-and-the-list");
    works(&folder, &["capture", "good"], LIST, &GOOD);
    // What was in GOOD before is gone.
    fs::write(folder.join("good"), [0x33; 1_000]).unwrap();
    works(&folder, &["capture", "good", "78"], LIST, &GOOD);
    works(&folder, &["capture", "good", "0260"], LIST, &GOOD);
    let again = "kept 1 frames 4 octets, 2 flags, dropped 0 stretches 0 octets, of 6\n";
    works(&folder, &["good", "again"], again, &GOOD);
    fs::write(folder.join("capture"), [0x33]).unwrap();
    let nothing = "0 1 0\nkept 0 frames 0 octets, 0 flags, dropped 1 stretches 1 octets, of 1\n";
    works(&folder, &["capture", "good"], nothing, &[]);
}

#[test]
fn the_limit_is_260_where_it_is_not_given() {
    let folder = folder("the-limit");
    let whole = (0..).map(capture).find(|one| {
        let with = |limit| salvage(limit, &one.octets).unwrap();
        with(260) != with(259) && with(260) != with(78)
    });
    let octets = whole.unwrap().octets;
    fs::write(folder.join("capture"), &octets).unwrap();
    for (limit, words) in [
        (260, &["capture", "good"][..]),
        (260, &["capture", "good", "260"]),
        (259, &["capture", "good", "259"]),
        (78, &["capture", "good", "78"]),
    ] {
        let salvaged = salvage(limit, &octets).unwrap();
        works(&folder, words, &salvaged.list(), &salvaged.good);
    }
}

#[test]
fn bad_words() {
    let folder = folder("bad-words");
    for words in [&[][..], &["capture"], &["capture", "good", "78", "78"]] {
        fails(&folder, words, 2);
    }
    for n in ["", "77", "261", "0", "-78", "-", "+78", "78.0", "0x78", "seventy", " 78", "78 "] {
        fails(&folder, &["capture", "good", n], 2);
    }
    fails(&folder, &["capture", "good", &"9".repeat(100)], 2);
    // The words first: nothing is said of the file.
    fails(&folder, &["nowhere", "good", "77"], 2);
    fs::write(folder.join("good"), b"before").unwrap();
    fails(&folder, &["capture", "good", "77"], 2);
}

#[test]
fn a_capture_that_is_not_there() {
    let folder = folder("not-there");
    fs::write(folder.join("good"), b"before").unwrap();
    for capture in ["nowhere", "nowhere/capture", "capture/capture", "", "."] {
        fails(&folder, &[capture, "good"], 2);
    }
    assert!(!folder.join("nowhere").exists());
}

#[test]
fn good_the_same_file_as_the_capture() {
    let folder = folder("the-same");
    symlink("capture", folder.join("link")).unwrap();
    fs::hard_link(folder.join("capture"), folder.join("other-name")).unwrap();
    for good in ["capture", "./capture", "link", "other-name"] {
        fails(&folder, &["capture", good], 2);
        fails(&folder, &[good, "capture"], 2);
    }
    // The same octets in another file are no matter.
    fs::write(folder.join("copy"), CAPTURE).unwrap();
    works(&folder, &["capture", "copy"], LIST, &GOOD);
    // `rt ci` takes no link in the checkout, where this folder may be.
    fs::remove_file(folder.join("link")).unwrap();
}

#[test]
fn a_good_that_cannot_be_written() {
    let folder = folder("cannot-write");
    fs::create_dir(folder.join("a-folder")).unwrap();
    fails(&folder, &["capture", "a-folder"], 1);
    fails(&folder, &["capture", "nowhere/good"], 1);
    fails(&folder, &["capture", ""], 1);
}

#[test]
fn the_captures_of_a_seed() {
    let program = env!("CARGO_BIN_EXE_captures");
    let call = |words: &[&str]| Command::new(program).args(words).output().unwrap();
    for seed in 0..20 {
        let expected = capture(seed);
        let word = seed.to_string();
        assert_eq!(call(&[&word]).stdout, expected.octets);
        assert_eq!(call(&[&word, "limit"]).stdout, format!("{}\n", expected.limit).as_bytes());
    }
    for words in [&[][..], &["x"], &["1", "x"], &["1", "limit", "x"], &["-1"]] {
        let output = call(words);
        assert_eq!((output.status.code(), &output.stdout[..]), (Some(2), &b""[..]), "{words:?}");
    }
}
