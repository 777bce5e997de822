//! The scanner's walk against the definition of its beginnings.

use std::collections::BTreeSet;

use second::generator::random::Random;
use second::scan::{Ending, Scan, BITS};

type Padded = [u8; 19];

/// The bits of an identity, most significant first.
fn bits(identity: &Padded) -> Vec<u8> {
    (0..BITS).map(|bit| identity[bit / 8] >> (7 - bit % 8) & 1).collect()
}

/// Who is present, as bits.
struct Cable {
    identities: BTreeSet<Vec<u8>>,
}

impl Cable {
    fn hears(&self, beginning: &[u8]) -> bool {
        self.identities.iter().any(|identity| identity.starts_with(beginning))
    }

    /// Every beginning that is probed, in the order of the definition.
    fn walk(&self, beginning: &mut Vec<u8>, probed: &mut Vec<Vec<u8>>) {
        probed.push(beginning.clone());
        if beginning.len() < BITS && self.hears(beginning) {
            for half in [0, 1] {
                beginning.push(half);
                self.walk(beginning, probed);
                beginning.pop();
            }
        }
    }
}

fn thrown(random: &mut Random, count: usize) -> Cable {
    let shared = random.below(20);
    let first: Padded = std::array::from_fn(|_| random.octet());
    let identities = (0..count)
        .map(|_| {
            bits(&std::array::from_fn(
                |place| if place < shared { first[place] } else { random.octet() },
            ))
        })
        .collect();
    Cable { identities }
}

fn octets(bits: &[u8]) -> Padded {
    let mut octets = [0; 19];
    for (place, bit) in bits.iter().enumerate() {
        octets[place / 8] |= bit << (7 - place % 8);
    }
    octets
}

/// Scans a cable and checks every probe and the end against the definition.
fn checked_scan(cable: &Cable, limit: u16) {
    let mut probed = Vec::new();
    cable.walk(&mut Vec::new(), &mut probed);
    let place_of_33rd = cable
        .identities
        .iter()
        .nth(32)
        .map(|identity| probed.iter().position(|beginning| beginning == identity).unwrap());
    let mut scan = Scan::new(limit);
    while scan.ending().is_none() {
        let expected = &probed[usize::from(scan.count())];
        let mut probe = [0; 47];
        assert_eq!(scan.probe(&mut probe), Ok(47));
        assert_eq!(probe[..7], [0xFF, 0xBF, 0x81, 0xF0, 0x2A, 1, 19]);
        assert_eq!(probe[7..26], octets(expected));
        assert_eq!(probe[26..28], [3, 19]);
        assert_eq!(probe[28..], octets(&vec![1; expected.len()]));
        scan.report(cable.hears(expected)).unwrap();
    }
    let count = usize::from(scan.count());
    let below = |beginning: &[u8]| -> Vec<Padded> {
        let filled = octets(beginning);
        cable
            .identities
            .iter()
            .map(|identity| octets(identity))
            .filter(|identity| *identity < filled)
            .collect()
    };
    match (scan.ending().unwrap(), place_of_33rd) {
        (Ending::Full(beginning), Some(place)) => {
            assert_eq!((count, beginning.bits), (place + 1, BITS));
            assert_eq!(beginning.octets, octets(&probed[place]));
            assert_eq!(scan.list(), below(&probed[place]));
            assert_eq!(scan.list().len(), 32);
        }
        (Ending::Limit(beginning), place) => {
            assert_eq!(count, usize::from(limit));
            assert!(place.is_none_or(|place| count <= place));
            assert_eq!(beginning.bits, probed[count].len());
            assert_eq!(beginning.octets, octets(&probed[count]));
            assert_eq!(scan.list(), below(&probed[count]));
        }
        (Ending::Complete, None) => {
            assert_eq!(count, probed.len());
            let all: Vec<Padded> =
                cable.identities.iter().map(|identity| octets(identity)).collect();
            assert_eq!(scan.list(), all);
        }
        (ending, _) => panic!("{ending:?}"),
    }
}

#[test]
fn thrown_cables_at_thrown_limits() {
    let mut random = Random::new(3);
    for _ in 0..60 {
        let count = random.pick(&[0, 1, 2, 3, 31, 32, 33, 34, 40]);
        let cable = thrown(&mut random, count);
        let mut probed = Vec::new();
        cable.walk(&mut Vec::new(), &mut probed);
        let exact = probed.len() as u16;
        let thrown_limit = random.below(probed.len() + 2) as u16;
        for limit in [0, 1, exact - 1, exact, exact + 1, thrown_limit, u16::MAX] {
            checked_scan(&cable, limit);
        }
        if let Some(identity) = cable.identities.iter().nth(32) {
            let place = probed.iter().position(|beginning| beginning == identity).unwrap() as u16;
            // "Full beats limit": the limit at the 33rd, before it, after it.
            for limit in [place, place + 1, place + 2] {
                checked_scan(&cable, limit);
            }
        }
    }
}

/// Reports the letters h and s; the last one ends the scan.
fn end_of(limit: u16, reports: &str) -> Option<Ending> {
    let mut scan = Scan::new(limit);
    for letter in reports.chars() {
        assert_eq!(scan.ending(), None);
        scan.report(letter == 'h').unwrap();
    }
    assert_eq!(usize::from(scan.count()), reports.len());
    scan.ending()
}

#[test]
fn doubt() {
    assert_eq!(end_of(9, "s"), Some(Ending::Complete));
    assert_eq!(end_of(9, "hss"), Some(Ending::Doubtful));
    assert_eq!(end_of(3, "hss"), Some(Ending::Doubtful));
    assert!(
        matches!(end_of(2, "hs"), Some(Ending::Limit(next)) if next.bits == 1 && next.octets[0] == 0x80)
    );
    assert_eq!(end_of(9, "hs"), None);
    assert_eq!(end_of(9, "hhsss"), Some(Ending::Doubtful));
    assert_eq!(end_of(9, "hshss"), Some(Ending::Doubtful));
    // Down the 0 halves to the end, then silence: nothing doubtful.
    let clean = "h".repeat(153) + &"s".repeat(152);
    assert_eq!(end_of(305, &clean), Some(Ending::Complete));
    // The same with the last bit's halves both silent.
    let doubtful = "h".repeat(152) + &"s".repeat(153);
    assert_eq!(end_of(305, &doubtful), Some(Ending::Doubtful));
    // A 0 half that was heard at 152 bits, then its 1 half silent; a doubt elsewhere stays.
    let mixed = "h".repeat(153) + &"s".repeat(151) + "hss";
    assert_eq!(end_of(1_000, &mixed), Some(Ending::Doubtful));
}

#[test]
fn full_by_hearing_everything() {
    let mut scan = Scan::new(u16::MAX);
    let ending = loop {
        if let Some(ending) = scan.report(true).unwrap() {
            break ending;
        }
    };
    let mut octets = [0; 19];
    octets[18] = 32;
    assert!(matches!(ending, Ending::Full(next) if next.bits == BITS && next.octets == octets));
    assert_eq!(scan.list().len(), 32);
    assert!(scan.report(true).is_err());
    assert!(scan.probe(&mut [0; 47]).is_err());
}
