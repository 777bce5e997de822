//! The binary `second-salvage CAPTURE GOOD [N]`: the good frames of the file
//! CAPTURE to the file GOOD, the list of what was left out to standard output.

use std::ffi::OsString;
use std::fs::{self, File};
use std::io::{self, ErrorKind, Read, Write};
use std::os::unix::fs::MetadataExt;
use std::path::{Path, PathBuf};

use second::frame::{is_limit, LEAST_LIMIT, MOST_LIMIT};
use second::salvage::salvage;
use second::words;

/// "a sentence that says so"
enum Fault {
    /// "Bad words ..., a file that is not there, GOOD the same file as CAPTURE:
    /// ... nothing written, status 2".
    Asked(String),
    /// "a fault while it works: status 1"
    Working(String),
}

struct Asked {
    capture: PathBuf,
    good: PathBuf,
    limit: usize,
}

/// The words of the command line. "N is 260 where it is not given."
fn words(words: &[OsString]) -> Result<Asked, Fault> {
    let (capture, good, limit) = match words {
        [capture, good] => (capture, good, MOST_LIMIT),
        [capture, good, n] => (capture, good, limit_of(n)?),
        _ => return Err(Fault::Asked("usage: second-salvage CAPTURE GOOD [N]".to_string())),
    };
    Ok(Asked { capture: capture.into(), good: good.into(), limit })
}

/// "an N outside 78 to 260 is one" of the bad words.
fn limit_of(word: &OsString) -> Result<usize, Fault> {
    match words::number(word.as_encoded_bytes()).map(usize::try_from) {
        Ok(Ok(limit)) if is_limit(limit) => Ok(limit),
        _ => {
            let word = word.to_string_lossy();
            Err(Fault::Asked(format!("N is {LEAST_LIMIT} to {MOST_LIMIT}, not `{word}`.")))
        }
    }
}

/// The octets of CAPTURE, if it is there and another file than GOOD.
fn read(asked: &Asked) -> Result<Vec<u8>, Fault> {
    let name = asked.capture.display();
    let cannot = |error: io::Error| match error.kind() {
        ErrorKind::NotFound | ErrorKind::NotADirectory | ErrorKind::IsADirectory => {
            Fault::Asked(format!("the file {name} is not there."))
        }
        _ => Fault::Working(format!("{name} can't be read: {error}.")),
    };
    let mut file = File::open(&asked.capture).map_err(cannot)?;
    if same(&file, &asked.good).map_err(cannot)? {
        let good = asked.good.display();
        return Err(Fault::Asked(format!("{good} is the same file as {name}.")));
    }
    let mut capture = Vec::new();
    file.read_to_end(&mut capture).map_err(cannot)?;
    Ok(capture)
}

/// Whether GOOD is this file, under whatever name. One that isn't there yet
/// is another.
fn same(file: &File, good: &Path) -> io::Result<bool> {
    let capture = file.metadata()?;
    let same = |good: fs::Metadata| (good.dev(), good.ino()) == (capture.dev(), capture.ino());
    Ok(fs::metadata(good).is_ok_and(same))
}

fn run(asked: &Asked) -> Result<(), Fault> {
    let capture = read(asked)?;
    let salvaged = salvage(asked.limit, &capture)
        .map_err(|refusal| Fault::Working(format!("refused with {}.", refusal.number())))?;
    let good = asked.good.display();
    fs::write(&asked.good, &salvaged.good)
        .map_err(|error| Fault::Working(format!("{good} can't be written: {error}.")))?;
    let mut output = io::stdout().lock();
    output
        .write_all(salvaged.list().as_bytes())
        .and_then(|()| output.flush())
        .map_err(|error| Fault::Working(format!("the list can't be written: {error}.")))
}

fn main() {
    let given: Vec<OsString> = std::env::args_os().skip(1).collect();
    let (sentence, status) = match words(&given).and_then(|asked| run(&asked)) {
        Ok(()) => return,
        Err(Fault::Asked(sentence)) => (sentence, 2),
        Err(Fault::Working(sentence)) => (sentence, 1),
    };
    eprintln!("second-salvage: {sentence}");
    std::process::exit(status);
}
