//! Salvage of damaged captures: request (vii), sentence by sentence and both
//! sides of each edge.

use second::check;
use second::frame::{self, ESCAPE, FLAG};
use second::generator::capture::capture;
use second::generator::random::Random;
use second::receiver::{Receiver, Taken};
use second::refusal::Refusal;
use second::salvage::{salvage, Dropped, Salvaged};

/// Published frames, as they lie between two flags.
const A: [u8; 4] = [0x01, 0x3F, 0xEB, 0xDF];
const B: [u8; 4] = [0x01, 0x73, 0x83, 0x57];
/// The flag alone, to be put among stretches.
const F: [u8; 1] = [FLAG];

fn salvaged(limit: usize, parts: &[&[u8]]) -> Salvaged {
    salvage(limit, &parts.concat()).unwrap()
}

/// Offset, length and number of each dropped stretch.
fn list_of(salvaged: &Salvaged) -> Vec<(usize, usize, u8)> {
    salvaged
        .dropped
        .iter()
        .map(|&Dropped { offset, length, number }| (offset, length, number))
        .collect()
}

/// The list and GOOD, with the largest limit.
fn both(parts: &[&[u8]]) -> (Vec<(usize, usize, u8)>, Vec<u8>) {
    let salvaged = salvaged(260, parts);
    (list_of(&salvaged), salvaged.good)
}

/// A stretch of so many decoded octets with a right check.
fn right(count: usize) -> Vec<u8> {
    let octets = vec![0x33; count - 2];
    let whole = [&octets[..], &check::check_octets(&octets)].concat();
    whole
        .into_iter()
        .flat_map(|octet| match octet {
            FLAG | ESCAPE => vec![ESCAPE, octet ^ 0x20],
            _ => vec![octet],
        })
        .collect()
}

/// The same, each octet escaped.
fn all_escaped(count: usize) -> Vec<u8> {
    for octet in 0..0x5E {
        let octets = vec![octet; count - 2];
        let whole = [&octets[..], &check::check_octets(&octets)].concat();
        // 0x5E can't be escaped, and 0x5D at the very end is refused.
        if !whole.contains(&0x5E) && whole.last() != Some(&0x5D) {
            return whole.into_iter().flat_map(|octet| [ESCAPE, octet ^ 0x20]).collect();
        }
    }
    panic!("{count}");
}

/// What the receiver hands out of the whole capture, in order: none for a
/// frame, else its number.
fn by_the_receiver(limit: usize, capture: &[u8]) -> Vec<Option<u8>> {
    let mut receiver = Receiver::default();
    let mut handed_out = Vec::new();
    let mut rest = capture;
    while !rest.is_empty() {
        let Taken { octets, handed_out: said } = receiver.take(limit, rest, &mut [0; 258]).unwrap();
        handed_out.extend(said.map(|said| said.err().map(Refusal::number)));
        rest = &rest[octets..];
    }
    handed_out
}

/// Everything that holds of every capture.
fn holds(limit: usize, capture: &[u8]) {
    let salvaged = salvage(limit, capture).unwrap();
    // "every place of the capture is exactly one of a kept octet, a flag, a
    // dropped octet, so the three counts add up to its length"
    let mut places = vec![0; capture.len()];
    let dropped = salvaged.dropped.iter().map(|one| one.offset..one.offset + one.length);
    for stretch in salvaged.kept.iter().cloned().chain(dropped) {
        assert!(!stretch.is_empty());
        places[stretch].iter_mut().for_each(|times| *times += 1);
    }
    for (place, &octet) in capture.iter().enumerate() {
        assert_eq!(places[place], usize::from(octet != FLAG), "{place}");
    }
    let totals = salvaged.totals;
    assert_eq!(totals.kept_octets + totals.flags + totals.dropped_octets, capture.len());
    assert_eq!(totals.total, capture.len());
    assert_eq!(totals.flags, capture.iter().filter(|&&octet| octet == FLAG).count());
    assert_eq!(totals.kept_frames, salvaged.kept.len());
    assert_eq!(totals.dropped_stretches, salvaged.dropped.len());
    // "with the receiver's numbers", in order
    let mut stretches: Vec<(usize, Option<u8>)> =
        salvaged.kept.iter().map(|kept| (kept.start, None)).collect();
    let inside = salvaged.dropped.iter().filter(|one| one.number != 0);
    stretches.extend(inside.map(|one| (one.offset, Some(one.number))));
    stretches.sort();
    let said: Vec<Option<u8>> = stretches.into_iter().map(|(_, number)| number).collect();
    assert_eq!(said, by_the_receiver(limit, capture));
    assert!(salvaged.dropped.windows(2).all(|two| two[0].offset + two[0].length < two[1].offset));
    // 0 is for the first and the last alone.
    let last = salvaged.dropped.len().saturating_sub(1);
    for (place, one) in salvaged.dropped.iter().enumerate() {
        let outside = place == 0 && one.offset == 0
            || place == last && one.offset + one.length == capture.len();
        assert_eq!(one.number == 0, outside);
    }
    // "read again with the same N or a larger one, GOOD hands out exactly the
    // frames kept, in order, and drops nothing"
    for larger in [limit, (limit + 1).min(260), (limit + 260) / 2, 260] {
        let again = salvage(larger, &salvaged.good).unwrap();
        assert_eq!(again.good, salvaged.good);
        assert_eq!(again.dropped, []);
        assert_eq!(again.totals.kept_frames, totals.kept_frames);
        assert_eq!(again.totals.kept_octets, totals.kept_octets);
        assert_eq!(by_the_receiver(larger, &salvaged.good), vec![None; totals.kept_frames]);
    }
    let flags = if totals.kept_frames == 0 { 0 } else { totals.kept_frames + 1 };
    assert_eq!(salvaged.good.len(), totals.kept_octets + flags);
}

#[test]
fn good_is_one_flag_then_each_kept_stretch_with_a_flag_behind_it() {
    let good = [&F[..], &A, &F].concat();
    assert_eq!(both(&[&F, &A, &F]), (vec![], good.clone()));
    assert_eq!(both(&[&F, &F, &F, &A, &F, &F]), (vec![], good));
    let good = [&F[..], &A, &F, &B, &F, &A, &F].concat();
    assert_eq!(both(&[&F, &A, &F, &B, &F, &A, &F]), (vec![], good.clone()));
    assert_eq!(both(&[&F, &A, &F, &F, &B, &F, &F, &F, &A, &F]), (vec![], good));
}

#[test]
fn nothing_kept_makes_an_empty_file() {
    let nothing = || (vec![], vec![]);
    assert_eq!(both(&[]), nothing());
    assert_eq!(both(&[&F]), nothing());
    assert_eq!(both(&[&F, &F]), nothing());
    assert_eq!(both(&[&[FLAG; 5_000]]), nothing());
    assert_eq!(both(&[&F, &[1], &F]), (vec![(1, 1, 1)], vec![]));
}

#[test]
fn kept_octets_are_exactly_as_they_stood() {
    // A needless escape stays.
    let needless = [ESCAPE, 0x21, 0x3F, 0xEB, 0xDF];
    let good = [&F[..], &needless, &F].concat();
    assert_eq!(both(&[&[9], &F, &needless, &F, &[9]]), (vec![(0, 1, 0), (8, 1, 0)], good));
}

#[test]
fn outside_the_flags_is_0() {
    let good = [&F[..], &A, &F].concat();
    assert_eq!(both(&[&[1, 2, 3], &F, &A, &F]), (vec![(0, 3, 0)], good.clone()));
    assert_eq!(both(&[&F, &A, &F, &[1, 2]]), (vec![(6, 2, 0)], good));
    // A whole frame too, and 0x7D: the decoder isn't asked.
    assert_eq!(both(&[&A, &F, &B]), (vec![(0, 4, 0), (5, 4, 0)], vec![]));
    assert_eq!(both(&[&F, &A, &[ESCAPE]]), (vec![(1, 5, 0)], vec![]));
    assert_eq!(both(&[&[ESCAPE], &F, &[ESCAPE]]), (vec![(0, 1, 0), (2, 1, 0)], vec![]));
    // A flag behind 0x7D is a flag all the same.
    assert_eq!(both(&[&[ESCAPE], &F, &A, &F]).0, [(0, 1, 0)]);
    assert_eq!(both(&[&A, &F]), (vec![(0, 4, 0)], vec![]));
    assert_eq!(both(&[&F, &A]), (vec![(1, 4, 0)], vec![]));
}

#[test]
fn without_a_flag_the_whole_capture_is_one_stretch() {
    assert_eq!(both(&[&[0x33]]), (vec![(0, 1, 0)], vec![]));
    assert_eq!(both(&[&[ESCAPE]]), (vec![(0, 1, 0)], vec![]));
    assert_eq!(both(&[&A]), (vec![(0, 4, 0)], vec![]));
    assert_eq!(both(&[&[0; 200_000]]), (vec![(0, 200_000, 0)], vec![]));
}

#[test]
fn a_refused_stretch_has_the_decoders_number() {
    for (stretch, number) in [
        (&[0x33][..], 1),
        (&[1, 2], 1),
        (&[1, 2, 3], 1),
        (&[ESCAPE, 1, ESCAPE, 2, ESCAPE, 3], 1),
        (&[0; 4], 3),
        (&[0; 260], 3),
        (&[0; 261], 2),
        (&[0; 100_000], 2),
        (&[ESCAPE], 4),
        (&[ESCAPE, ESCAPE], 4),
        (&[1, 2, 3, 4, 5, ESCAPE], 4),
        (&[1, 2, 3, 4, 5, ESCAPE, ESCAPE], 4),
        (&[ESCAPE; 521], 4),
        (&[&[0; 300][..], &[ESCAPE]].concat(), 4),
        (&[&A[..], &[ESCAPE]].concat(), 4),
        (&[&A[..], &B].concat(), 3),
    ] {
        let expected = vec![(1, stretch.len(), number)];
        assert_eq!(both(&[&F, stretch, &F]), (expected, vec![]), "{stretch:?}");
        // Between good ones, too; they are kept.
        let (list, good) = both(&[&F, &A, &F, stretch, &F, &F, &B, &F]);
        assert_eq!(list, [(6, stretch.len(), number)]);
        assert_eq!(good, [&F[..], &A, &F, &B, &F].concat());
    }
}

#[test]
fn both_sides_of_every_limit() {
    for limit in 78..=260 {
        let (at, past) = (right(limit), right(limit + 1));
        let behind = 2 + at.len();
        let both = salvaged(limit, &[&F, &at, &F, &past, &F]);
        assert_eq!(list_of(&both), [(behind, past.len(), 2)]);
        assert_eq!(both.good, [&F[..], &at, &F].concat());
        let mut wrong = at.clone();
        wrong[0] ^= 1;
        let both = salvaged(limit, &[&F, &wrong, &F, &at, &F]);
        assert_eq!(list_of(&both), [(1, wrong.len(), 3)]);
    }
}

#[test]
fn a_frame_in_which_every_octet_is_escaped_is_kept() {
    for limit in [78, 79, 100, 259, 260] {
        let (at, past) = (all_escaped(limit), all_escaped(limit + 1));
        assert_eq!((at.len(), past.len()), (2 * limit, 2 * limit + 2));
        let both = salvaged(limit, &[&F, &at, &F, &past, &F]);
        assert_eq!(list_of(&both), [(2 * limit + 2, 2 * limit + 2, 2)]);
        assert_eq!(both.good, [&F[..], &at, &F].concat());
        // One octet more behind it.
        let both = salvaged(limit, &[&F, &at, &[ESCAPE], &F, &at, &[0x33], &F]);
        let more = 2 * limit + 1;
        assert_eq!(list_of(&both), [(1, more, 4), (more + 2, more, 2)]);
    }
}

#[test]
fn a_limit_outside_is_refused() {
    for limit in [0, 1, 77, 261, 65_535] {
        assert_eq!(salvage(limit, &[]), Err(Refusal::NotAllowed));
        assert_eq!(salvage(limit, &[FLAG]), Err(Refusal::NotAllowed));
    }
}

#[test]
fn what_is_printed() {
    assert_eq!(
        salvaged(260, &[]).list(),
        "kept 0 frames 0 octets, 0 flags, dropped 0 stretches 0 octets, of 0\n"
    );
    assert_eq!(
        salvaged(260, &[&F, &A, &F]).list(),
        "kept 1 frames 4 octets, 2 flags, dropped 0 stretches 0 octets, of 6\n"
    );
    assert_eq!(
        salvaged(78, &[&[1, 2], &F, &A, &F, &[3], &F, &F, &right(79), &F, &B, &F, &[7]]).list(),
        "0 2 0\n8 1 1\n11 79 2\n96 1 0\n\
         kept 2 frames 8 octets, 6 flags, dropped 4 stretches 83 octets, of 97\n"
    );
}

#[test]
fn a_capture_without_damage_comes_out_with_the_same_frames() {
    let mut random = Random::new(7);
    for turn in 0..2_000 {
        let limit = 78 + turn % 183;
        let flags = |random: &mut Random| vec![FLAG; random.pick(&[1, 1, 1, 2, 2, 3, 9])];
        let mut capture = flags(&mut random);
        let mut good = Vec::new();
        for _ in 0..random.below(8) {
            let length = if random.chance(200) { limit - 4 } else { random.below(limit - 3) };
            let payload = random.octets(length);
            let mut line = [0; frame::MOST_WRITTEN];
            let written =
                frame::write_n(limit, random.octet(), random.octet(), &payload, &mut line).unwrap();
            let stretch = &line[1..written - 1];
            capture.extend(stretch);
            capture.extend(flags(&mut random));
            good.extend(if good.is_empty() { &F[..] } else { &[] });
            good.extend(stretch);
            good.push(FLAG);
        }
        let salvaged = salvage(limit, &capture).unwrap();
        assert_eq!((salvaged.good, salvaged.dropped), (good, vec![]));
        holds(limit, &capture);
    }
}

#[test]
fn all_short_captures() {
    // Each capture of up to six octets out of these, so every order of flags,
    // escapes and others at both ends.
    let octets = [FLAG, ESCAPE, 0x5E, 0x33];
    for length in 0..=6 {
        for turn in 0..4_usize.pow(length) {
            let capture: Vec<u8> =
                (0..length).map(|place| octets[turn / 4_usize.pow(place) % 4]).collect();
            holds(78, &capture);
        }
    }
}

#[test]
fn what_holds_of_every_capture_holds_of_random_ones() {
    for seed in 0..600 {
        let capture = capture(seed);
        holds(capture.limit, &capture.octets);
        holds(78 + seed as usize % 183, &capture.octets);
    }
}
