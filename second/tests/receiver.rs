//! Read the live line: request (i), sentence by sentence and both sides of
//! each edge.

mod common;
use common::{fresh, hex, Table};

use second::check;
use second::frame::{self, ESCAPE, FLAG, MOST_WRITTEN};
use second::generator::random::Random;
use second::receiver::{Receiver, Taken};
use second::refusal::Refusal;

/// What a closing flag hands out: the frame's octets or the number.
type HandedOut = Result<Vec<u8>, Refusal>;

/// One call with an output of so many octets; the output must be as it was
/// past a frame, and all of it where there is none.
fn call_with(
    receiver: &mut Receiver,
    limit: usize,
    run: &[u8],
    room: usize,
) -> Result<(usize, Option<HandedOut>), Refusal> {
    let mut output = vec![0xA5; room];
    let result = receiver.take(limit, run, &mut output);
    let length = match result {
        Ok(Taken { handed_out: Some(Ok(length)), .. }) => length,
        _ => 0,
    };
    assert!(output[length..].iter().all(|&octet| octet == 0xA5));
    let taken = result?;
    let handed_out = taken.handed_out.map(|said| said.map(|length| output[..length].to_vec()));
    Ok((taken.octets, handed_out))
}

/// One call with the shortest output that is lent for this limit.
fn call(receiver: &mut Receiver, limit: usize, run: &[u8]) -> (usize, Option<HandedOut>) {
    call_with(receiver, limit, run, limit - 2).unwrap()
}

/// "to call again with what was left": all hand-outs of a run.
fn all(receiver: &mut Receiver, limit: usize, run: &[u8]) -> Vec<HandedOut> {
    let mut handed_out = Vec::new();
    let mut rest = run;
    loop {
        let (taken, said) = call(receiver, limit, rest);
        // "A call that is not refused and has octets takes at least one."
        assert!(taken > 0 || rest.is_empty());
        // It stops only where something is handed out, or at the end.
        assert!(said.is_none() || rest[taken - 1] == FLAG);
        assert!(said.is_some() || taken == rest.len());
        rest = &rest[taken..];
        match said {
            Some(said) => handed_out.push(said),
            None => return handed_out,
        }
    }
}

/// The same of a fresh receiver.
fn all_fresh(limit: usize, octets: &[u8]) -> Vec<HandedOut> {
    all(&mut Receiver::default(), limit, octets)
}

/// What the decoder says of the octets between two flags.
fn decoded(limit: usize, stretch: &[u8]) -> HandedOut {
    let mut output = vec![0; limit - 2];
    let length = frame::decode_n(limit, stretch, &mut output)?;
    output.truncate(length);
    Ok(output)
}

/// "in order, what `decoded N` says of each nonempty stretch between two
/// flags": what stands before the first flag and behind the last is none.
fn by_the_decoder(limit: usize, octets: &[u8]) -> Vec<HandedOut> {
    let parts: Vec<&[u8]> = octets.split(|&octet| octet == FLAG).collect();
    let between = if parts.len() > 2 { &parts[1..parts.len() - 1] } else { &[] };
    between
        .iter()
        .filter(|stretch| !stretch.is_empty())
        .map(|stretch| decoded(limit, stretch))
        .collect()
}

/// A written line, its flags with it.
fn line_of(frame: &[u8]) -> Vec<u8> {
    let mut line = [0; MOST_WRITTEN];
    let length = frame::write_n(260, frame[0], frame[1], &frame[2..], &mut line).unwrap();
    line[..length].to_vec()
}

/// Octets as they go on the line.
fn escaped(octets: &[u8]) -> Vec<u8> {
    octets
        .iter()
        .flat_map(|&octet| match octet {
            FLAG | ESCAPE => vec![ESCAPE, octet ^ 0x20],
            _ => vec![octet],
        })
        .collect()
}

/// A stretch of so many decoded octets with a good check, also where they are
/// more than the writer writes.
fn good(decoded: usize) -> Vec<u8> {
    let octets = vec![0x33; decoded - 2];
    escaped(&[&octets[..], &check::check_octets(&octets)].concat())
}

fn flagged(stretch: &[u8]) -> Vec<u8> {
    [&[FLAG], stretch, &[FLAG]].concat()
}

/// A frame with a payload that fits the limit.
fn any_frame(random: &mut Random, limit: usize) -> Vec<u8> {
    let length = match random.below(4) {
        0 => limit - 4,
        1 => random.below(limit - 3),
        _ => random.below(9),
    };
    [vec![random.octet(), random.octet()], random.octets(length)].concat()
}

/// A line as it may come: frames, damaged ones, noise, flags.
fn any_line(random: &mut Random, limit: usize) -> Vec<u8> {
    let mut line = Vec::new();
    for _ in 0..random.below(9) {
        match random.below(8) {
            0 => {
                let length = random.below(40);
                line.extend(random.octets(length));
            }
            1 => line.extend(vec![FLAG; random.below(4)]),
            2 => line.extend(vec![ESCAPE; random.below(4)]),
            3 => {
                let length = random.between(250, 330) as usize;
                line.extend(random.octets(length));
            }
            4 => {
                let mut damaged = line_of(&any_frame(random, 260));
                let place = random.below(damaged.len());
                damaged[place] ^= 1 << random.below(8);
                line.extend(damaged);
            }
            5 => {
                let mut cut = line_of(&any_frame(random, limit));
                cut.remove(random.below(cut.len()));
                line.extend(cut);
            }
            6 => {
                line.pop();
                line.extend(line_of(&any_frame(random, limit)));
            }
            _ => line.extend(line_of(&any_frame(random, limit))),
        }
    }
    line
}

fn any_limit(random: &mut Random) -> usize {
    match random.below(4) {
        0 => 78,
        1 => 260,
        _ => random.between(78, 260) as usize,
    }
}

/// Cuts octets into runs at random places, empty ones too.
fn cut<'line>(random: &mut Random, line: &'line [u8]) -> Vec<&'line [u8]> {
    let mut runs = Vec::new();
    let mut rest = line;
    let most = random.pick(&[1, 2, 5, 30, 200, 2_000]);
    while !rest.is_empty() {
        let (run, left) = rest.split_at(random.below(most + 1).min(rest.len()));
        runs.push(run);
        rest = left;
    }
    if random.chance(300) {
        runs.push(&[]);
    }
    runs
}

#[test]
fn it_is_the_decoder() {
    let mut random = Random::new(1);
    let (mut frames, mut numbers) = (0, [0; 10]);
    for _ in 0..6_000 {
        let limit = any_limit(&mut random);
        let line = any_line(&mut random, limit);
        let handed_out = all_fresh(limit, &line);
        assert_eq!(handed_out, by_the_decoder(limit, &line), "{limit} {line:02x?}");
        for said in handed_out {
            match said {
                Ok(_) => frames += 1,
                Err(refusal) => numbers[usize::from(refusal.number())] += 1,
            }
        }
    }
    // The lines were worth it; no other number is handed out.
    assert!(frames > 1_000 && numbers[1..=4].iter().all(|&count| count > 200), "{numbers:?}");
    assert_eq!((numbers[0], &numbers[5..]), (0, &[0; 5][..]));
}

#[test]
fn it_is_the_decoder_for_every_limit() {
    for limit in 78..=260 {
        let line = [
            flagged(&good(limit)),
            flagged(&good(limit + 1)),
            flagged(&good(4)),
            flagged(&[0; 3]),
            flagged(&vec![0; limit]),
            flagged(&vec![0; limit + 1]),
            flagged(&[ESCAPE]),
        ]
        .concat();
        let handed_out = all_fresh(limit, &line);
        assert_eq!(handed_out, by_the_decoder(limit, &line));
        assert_eq!(
            handed_out,
            [
                Ok(vec![0x33; limit - 2]),
                Err(Refusal::TooMany),
                Ok(vec![0x33; 2]),
                Err(Refusal::TooFew),
                Err(Refusal::CheckWrong),
                Err(Refusal::TooMany),
                Err(Refusal::BadLine),
            ]
        );
    }
}

#[test]
fn cuts() {
    let mut random = Random::new(2);
    for _ in 0..4_000 {
        let limit = any_limit(&mut random);
        let line = any_line(&mut random, limit);
        let mut whole = Receiver::default();
        let at_once = all(&mut whole, limit, &line);
        for _ in 0..3 {
            let mut receiver = Receiver::default();
            let mut handed_out = Vec::new();
            for run in cut(&mut random, &line) {
                handed_out.extend(all(&mut receiver, limit, run));
            }
            assert_eq!(handed_out, at_once);
            assert_eq!(receiver, whole);
        }
    }
}

#[test]
fn every_cut_in_two() {
    let line = [
        &[0x01, ESCAPE, FLAG][..],
        &line_of(&[0x7E, 0x7D, 0x5E, 0x7D, 0x7E, 0x20]),
        &[ESCAPE, FLAG, ESCAPE, ESCAPE, FLAG, 1, ESCAPE, ESCAPE, 2, 3, FLAG],
        &line_of(&[0x01, 0x3F])[1..],
        &flagged(&good(79)),
        &[FLAG, FLAG, 0x01, ESCAPE],
    ]
    .concat();
    let mut whole = Receiver::default();
    let at_once = all(&mut whole, 78, &line);
    assert_eq!(
        at_once,
        [
            Ok(vec![0x7E, 0x7D, 0x5E, 0x7D, 0x7E, 0x20]),
            Err(Refusal::BadLine),
            Err(Refusal::BadLine),
            Err(Refusal::CheckWrong),
            Ok(vec![0x01, 0x3F]),
            Err(Refusal::TooMany),
        ]
    );
    for first in 0..=line.len() {
        for second in first..=line.len() {
            let mut receiver = Receiver::default();
            let mut handed_out = all(&mut receiver, 78, &line[..first]);
            handed_out.extend(all(&mut receiver, 78, &line[first..second]));
            handed_out.extend(all(&mut receiver, 78, &line[second..]));
            assert_eq!(handed_out, at_once);
            assert_eq!(receiver, whole);
        }
    }
}

#[test]
fn one_octet_at_a_time() {
    let mut random = Random::new(3);
    for limit in [78, 130, 260] {
        for _ in 0..200 {
            let line = any_line(&mut random, limit);
            let mut receiver = Receiver::default();
            let mut handed_out = Vec::new();
            for octet in line.chunks(1) {
                let (taken, said) = call(&mut receiver, limit, octet);
                assert_eq!(taken, 1);
                handed_out.extend(said);
                assert_eq!(call(&mut receiver, limit, &[]), (0, None));
            }
            assert_eq!(handed_out, by_the_decoder(limit, &line));
        }
    }
}

#[test]
fn resynchronisation() {
    let mut random = Random::new(4);
    let mut closed = [0; 2];
    for _ in 0..4_000 {
        let limit = any_limit(&mut random);
        let mut noisy = Receiver::default();
        let other = any_limit(&mut random);
        let noise = any_line(&mut random, other);
        all(&mut noisy, other, &noise);
        // "The next flag and what follows it are read as by a fresh receiver,
        // save that this flag may also close the noisy stretch."
        let (_, said) = call(&mut noisy, limit, &[FLAG]);
        closed[usize::from(said.is_some())] += 1;
        let mut fresh = Receiver::default();
        assert_eq!(call(&mut fresh, limit, &[FLAG]), (1, None));
        assert_eq!(noisy, fresh);
        let line = any_line(&mut random, limit);
        assert_eq!(all(&mut noisy, limit, &line), all(&mut fresh, limit, &line));
        assert_eq!(noisy, fresh);
    }
    assert!(closed.iter().all(|&count| count > 500), "{closed:?}");
}

#[test]
fn round_trip_on_the_line() {
    let mut random = Random::new(5);
    for _ in 0..3_000 {
        let limit = any_limit(&mut random);
        let frames: Vec<Vec<u8>> =
            (0..random.below(7)).map(|_| any_frame(&mut random, limit)).collect();
        let mut line = Vec::new();
        for frame in &frames {
            let written = line_of(frame);
            assert_eq!((written[0], written.last()), (FLAG, Some(&FLAG)));
            // "with or without shared flags"
            let shared = !line.is_empty() && random.chance(500);
            line.extend(&written[usize::from(shared)..]);
            if random.chance(200) {
                line.extend(vec![FLAG; random.below(4)]);
            }
        }
        let mut receiver = Receiver::default();
        let mut handed_out = Vec::new();
        for run in cut(&mut random, &line) {
            handed_out.extend(all(&mut receiver, limit, run));
        }
        let put_in: Vec<HandedOut> = frames.into_iter().map(Ok).collect();
        assert_eq!(handed_out, put_in);
    }
}

/// Receivers in all kinds of states.
fn receivers() -> Vec<Receiver> {
    let starts: [&[u8]; 8] = [
        &[],
        &[1, 2, ESCAPE],
        &[FLAG],
        &[FLAG, FLAG],
        &[FLAG, ESCAPE],
        &[FLAG, 1, 2, ESCAPE, ESCAPE],
        &[FLAG, 0x01, 0x3F, 0xEB, 0xDF],
        &[FLAG, 1, FLAG, 2],
    ];
    let mut receivers: Vec<Receiver> = Vec::new();
    for start in starts {
        let mut receiver = Receiver::default();
        all(&mut receiver, 78, start);
        receivers.push(receiver);
    }
    for length in [78, 79, 259, 260, 261, 3_000] {
        let mut receiver = Receiver::default();
        all(&mut receiver, 260, &[vec![FLAG], vec![7; length]].concat());
        receivers.push(receiver);
    }
    receivers
}

/// Runs of all kinds, with which a refused call must change nothing.
const RUNS: [&[u8]; 6] =
    [&[], &[FLAG], &[1, 2, 3], &[ESCAPE], &[FLAG, FLAG, 1], &[FLAG, 0x01, 0x3F, 0xEB, 0xDF, FLAG]];

#[test]
fn refused_6_exactly_for_a_limit_outside() {
    for limit in (0..300).chain([1_000, 65_535]) {
        let outside = !(78..=260).contains(&limit);
        for receiver in receivers() {
            for run in RUNS {
                let mut now = receiver.clone();
                let result = call_with(&mut now, limit, run, 600);
                assert_eq!(result == Err(Refusal::NotAllowed), outside, "{limit}");
                assert_eq!(result.is_err(), outside, "{limit}");
                if outside {
                    assert_eq!(now, receiver);
                    // 6 before 5.
                    let short = call_with(&mut now, limit, run, 0);
                    assert_eq!(short, Err(Refusal::NotAllowed));
                    assert_eq!(now, receiver);
                }
            }
        }
    }
}

#[test]
fn refused_5_exactly_for_a_short_output() {
    for limit in 78..=260 {
        for receiver in receivers() {
            for run in RUNS {
                for room in [0, 1, 75, limit - 4, limit - 3] {
                    let mut now = receiver.clone();
                    let result = call_with(&mut now, limit, run, room);
                    assert_eq!(result, Err(Refusal::OutputTooShort));
                    assert_eq!(now, receiver);
                }
                let result = call_with(&mut receiver.clone(), limit, run, limit - 2);
                assert!(result.is_ok());
                for room in [limit - 1, 258, 600] {
                    assert_eq!(call_with(&mut receiver.clone(), limit, run, room), result);
                }
            }
        }
    }
}

#[test]
fn a_refused_call_in_a_stretch_is_not_noticed() {
    let mut receiver = Receiver::default();
    let line = flagged(&good(78));
    assert_eq!(call(&mut receiver, 78, &line[..20]), (20, None));
    let rest = &line[20..];
    assert_eq!(call_with(&mut receiver, 77, rest, 600), Err(Refusal::NotAllowed));
    assert_eq!(call_with(&mut receiver, 261, rest, 600), Err(Refusal::NotAllowed));
    assert_eq!(call_with(&mut receiver, 78, rest, 75), Err(Refusal::OutputTooShort));
    assert_eq!(call_with(&mut receiver, 79, rest, 76), Err(Refusal::OutputTooShort));
    assert_eq!(call_with(&mut receiver, 260, rest, 257), Err(Refusal::OutputTooShort));
    let frame = Ok(vec![0x33; 76]);
    assert_eq!(call_with(&mut receiver, 78, rest, 76), Ok((rest.len(), Some(frame))));
}

#[test]
fn a_hand_out_goes_by_the_limit_of_its_own_call() {
    for (first, last) in [(78, 260), (260, 78), (78, 79), (79, 78), (100, 101), (260, 260)] {
        for octets in [4, 78, 79, 80, 100, 101, 102, 259, 260, 261, 300] {
            let stretch = good(octets);
            let expected = decoded(last, &stretch);
            assert_eq!(expected.is_ok(), octets <= last);
            let line = flagged(&stretch);
            let flag = line.len() - 1;
            for place in [0, 1, 2, 60, 79, 101, flag - 1, flag] {
                let place = place.min(flag);
                let mut receiver = Receiver::default();
                assert_eq!(call(&mut receiver, first, &line[..place]), (place, None));
                let rest = &line[place..];
                assert_eq!(
                    call(&mut receiver, last, rest),
                    (rest.len(), Some(expected.clone())),
                    "{first} {last} {octets} {place}"
                );
            }
        }
    }
}

#[test]
fn the_limit_may_change_at_every_call() {
    let mut random = Random::new(6);
    for _ in 0..2_000 {
        let line = any_line(&mut random, 260);
        let mut receiver = Receiver::default();
        let mut rest = &line[..];
        let mut stretch: Option<Vec<u8>> = None;
        while !rest.is_empty() {
            let limit = any_limit(&mut random);
            let run = &rest[..random.below(rest.len() + 1)];
            let (taken, said) = call(&mut receiver, limit, run);
            for &octet in &run[..taken] {
                match &mut stretch {
                    Some(open) if octet == FLAG => {
                        // Only the last octet taken hands something out.
                        let closed = std::mem::take(open);
                        if !closed.is_empty() {
                            assert_eq!(said, Some(decoded(limit, &closed)));
                        }
                    }
                    Some(open) => open.push(octet),
                    None if octet == FLAG => stretch = Some(Vec::new()),
                    None => (),
                }
            }
            rest = &rest[taken..];
        }
    }
}

#[test]
fn it_stops_behind_each_closing_flag_that_hands_something_out() {
    let mut receiver = Receiver::default();
    let line = [&line_of(&[0x01, 0x3F])[..], &[1, FLAG, FLAG, FLAG, ESCAPE, FLAG, 9]].concat();
    assert_eq!(call(&mut receiver, 78, &line), (6, Some(Ok(vec![0x01, 0x3F]))));
    assert_eq!(call(&mut receiver, 78, &line[6..]), (2, Some(Err(Refusal::TooFew))));
    assert_eq!(call(&mut receiver, 78, &line[8..]), (4, Some(Err(Refusal::BadLine))));
    assert_eq!(call(&mut receiver, 78, &line[12..]), (1, None));
    // The flag that handed out also opened: 9 is in a stretch.
    assert_eq!(call(&mut receiver, 78, &[FLAG]), (1, Some(Err(Refusal::TooFew))));
}

#[test]
fn what_was_left_may_be_forgotten() {
    let mut receiver = Receiver::default();
    let line = [line_of(&[0x01, 0x3F]), vec![1, 2, 3]].concat();
    assert_eq!(call(&mut receiver, 78, &line), (6, Some(Ok(vec![0x01, 0x3F]))));
    // 1, 2 and 3 were not taken: the flag is right behind a flag.
    assert_eq!(call(&mut receiver, 78, &[FLAG]), (1, None));
}

#[test]
fn a_flag_right_behind_a_flag_hands_out_nothing() {
    for flags in 0..600 {
        let mut receiver = Receiver::default();
        assert_eq!(call(&mut receiver, 78, &vec![FLAG; flags]), (flags, None));
        assert_eq!(call(&mut receiver, 78, &[]), (0, None));
        assert_eq!(call(&mut receiver, 78, &[FLAG]), (1, None));
        assert_eq!(call(&mut receiver, 78, &[FLAG]), (1, None));
    }
}

#[test]
fn octets_before_the_first_flag_are_dropped() {
    for noise in [&[1][..], &[ESCAPE], &[ESCAPE, ESCAPE], &good(4), &good(78), &[7; 400]] {
        // Dropped, but taken.
        let mut receiver = Receiver::default();
        assert_eq!(call(&mut receiver, 78, noise), (noise.len(), None));
        assert_eq!(receiver, Receiver::default());
        let line = [noise, &[FLAG], &good(4), &[FLAG]].concat();
        assert_eq!(call(&mut receiver, 78, &line), (line.len(), Some(Ok(vec![0x33; 2]))));
    }
}

#[test]
fn a_lone_escape_is_4() {
    let bad = Some(Err(Refusal::BadLine));
    for (stretch, said) in [
        (&[ESCAPE][..], bad.clone()),
        (&[ESCAPE, ESCAPE], bad.clone()),
        (&[ESCAPE, ESCAPE, ESCAPE], bad.clone()),
        (&[ESCAPE, 1], Some(Err(Refusal::TooFew))),
        (&[1, ESCAPE], bad.clone()),
        (&[1, 2, 3, ESCAPE], bad.clone()),
        (&[1, 2, 3, 4, ESCAPE, ESCAPE], bad),
        (&[], None),
    ] {
        let line = flagged(stretch);
        for place in 0..=line.len() {
            let mut receiver = Receiver::default();
            let (first, second) = line.split_at(place);
            let mut handed_out = call(&mut receiver, 78, first).1;
            if place < line.len() {
                assert_eq!(handed_out, None);
                handed_out = call(&mut receiver, 78, second).1;
            }
            assert_eq!(handed_out, said, "{stretch:02x?} {place}");
            // An escape at the end says nothing about the next stretch.
            let next = [&good(4), &[FLAG][..]].concat();
            assert_eq!(call(&mut receiver, 78, &next), (next.len(), Some(Ok(vec![0x33; 2]))));
        }
    }
}

#[test]
fn an_escape_takes_any_next_octet_but_a_flag() {
    for octet in 0..=255 {
        let frame = [octet ^ 0x20, 0x3F];
        let check = check::check_octets(&frame);
        let rest = escaped(&[0x3F, check[0], check[1]]);
        let line = [&[FLAG, ESCAPE, octet][..], &rest, &[FLAG]].concat();
        for place in 0..=line.len() {
            let mut receiver = Receiver::default();
            let mut handed_out = all(&mut receiver, 78, &line[..place]);
            handed_out.extend(all(&mut receiver, 78, &line[place..]));
            if octet == FLAG {
                // The flag closes the escape alone, and opens what follows.
                assert_eq!(handed_out[0], Err(Refusal::BadLine));
                assert_eq!(handed_out.len(), 2);
            } else {
                assert_eq!(handed_out, [Ok(frame.to_vec())], "{octet:02x} {place}");
            }
        }
    }
}

#[test]
fn far_more_octets_than_the_largest_limit() {
    for octets in [259, 260, 261, 262, 300, 520, 521, 522, 1_000, 65_536 + 4, 70_000] {
        for limit in [78, 259, 260] {
            let stretch = good(octets);
            let too_many = Err(Refusal::TooMany);
            let expected = if octets > limit { too_many } else { Ok(vec![0x33; octets - 2]) };
            assert_eq!(all_fresh(limit, &flagged(&stretch)), [expected]);
            // 4 comes before 2, wherever the last octet lies.
            for end in [&[ESCAPE][..], &[ESCAPE, ESCAPE], &[1, ESCAPE]] {
                let stretch = [&stretch, end].concat();
                assert_eq!(all_fresh(limit, &flagged(&stretch)), [Err(Refusal::BadLine)]);
            }
            // An escape that is closed by another octet is no 4.
            let stretch = [&stretch, &[ESCAPE, 0x13][..]].concat();
            let expected = if octets + 1 > limit { Refusal::TooMany } else { Refusal::CheckWrong };
            assert_eq!(all_fresh(limit, &flagged(&stretch)), [Err(expected)]);
        }
    }
}

#[test]
fn a_good_frame_with_more_behind_it() {
    // "Octets dropped past the store do not change what is said": a frame that
    // fills it is no frame once anything follows.
    for octets in [78, 259, 260] {
        for more in 1..400 {
            let stretch = [good(octets), vec![0x11; more]].concat();
            let expected = if octets + more > 260 { Refusal::TooMany } else { Refusal::CheckWrong };
            assert_eq!(all_fresh(260, &flagged(&stretch)), [Err(expected)]);
        }
    }
}

#[test]
fn all_octets_escaped() {
    let frame = vec![ESCAPE; 258];
    let line = line_of(&frame);
    assert!(line.len() > 516);
    assert_eq!(all_fresh(260, &line), [Ok(frame)]);
    assert_eq!(all_fresh(259, &line), [Err(Refusal::TooMany)]);
    // 7D 7D is one octet, 5D: 520 raw octets are 260 decoded ones.
    let pairs = [vec![ESCAPE; 2 * 259], vec![ESCAPE, 1]].concat();
    assert_eq!(all_fresh(260, &flagged(&pairs)), [Err(Refusal::CheckWrong)]);
    assert_eq!(all_fresh(259, &flagged(&pairs)), [Err(Refusal::TooMany)]);
    let one_more = [&pairs[..], &[2]].concat();
    assert_eq!(all_fresh(260, &flagged(&one_more)), [Err(Refusal::TooMany)]);
}

#[test]
fn a_frame_handed_out_has_the_right_check() {
    let mut random = Random::new(7);
    let mut frames = 0;
    for _ in 0..3_000 {
        let limit = any_limit(&mut random);
        let mut receiver = receivers()[random.below(14)].clone();
        let line = any_line(&mut random, limit);
        let flags: Vec<&[u8]> = line.split(|&octet| octet == FLAG).collect();
        for frame in all(&mut receiver, limit, &line).into_iter().flatten() {
            frames += 1;
            assert!((2..=limit - 2).contains(&frame.len()));
            let whole = [&frame[..], &check::check_octets(&frame)].concat();
            assert_eq!(check::residue(&whole), check::GOOD_RESIDUE);
            // It stood on the line, or began before it.
            let stood = flags.iter().any(|stretch| decoded(limit, stretch) == Ok(frame.clone()));
            assert!(stood || frame == [0x01, 0x3F], "{frame:02x?}");
        }
    }
    assert!(frames > 1_000);
}

#[test]
fn each_answer_of_the_script() {
    let mut table = Table::default();
    let a5 = "a5".repeat(76);
    let frame = format!("013f{}", "a5".repeat(74));
    // "Before any `listen` the receiver is a fresh one."
    assert_eq!(table.ask("octets 78 013febdf7e 76"), format!("took 5 nothing {a5}"));
    assert_eq!(table.ask("octets 78 013febdf7e 76"), format!("took 5 frame 2 {frame}"));
    assert_eq!(table.ask("octets 78 7e7e7e 76"), format!("took 3 nothing {a5}"));
    assert_eq!(table.ask("octets 78 - 76"), format!("took 0 nothing {a5}"));
    assert_eq!(table.ask("octets 78 7d 76"), format!("took 1 nothing {a5}"));
    assert_eq!(table.ask("octets 78 7e013f 76"), format!("took 1 refused 4 {a5}"));
    // 01 and 3f were not taken, and are forgotten.
    assert_eq!(table.ask("octets 78 7E 76"), format!("took 1 nothing {a5}"));
    assert_eq!(table.ask("octets 78 013feb7e 76"), format!("took 4 refused 1 {a5}"));
    let long = "00".repeat(79);
    assert_eq!(table.ask(&format!("octets 78 {long}7e 76")), format!("took 80 refused 2 {a5}"));
    assert_eq!(table.ask("octets 78 013febde7e7e7e 76"), format!("took 5 refused 3 {a5}"));
    assert_eq!(table.ask("octets 78 013feb 76"), format!("took 3 nothing {a5}"));
    assert_eq!(table.ask("octets 77 df7e 76"), format!("refused 6 {a5}"));
    assert_eq!(table.ask("octets 261 df7e 600"), format!("refused 6 {}", "a5".repeat(600)));
    assert_eq!(table.ask("octets 0 df7e 0"), "refused 6 -");
    assert_eq!(table.ask("octets 65535 df7e 0"), "refused 6 -");
    assert_eq!(table.ask("octets 78 df7e 75"), format!("refused 5 {}", "a5".repeat(75)));
    assert_eq!(table.ask("octets 260 df7e 257"), format!("refused 5 {}", "a5".repeat(257)));
    assert_eq!(table.ask("octets 78 df7e 0"), "refused 5 -");
    assert_eq!(table.ask("octets 78 - 0"), "refused 5 -");
    assert_eq!(
        table.ask("octets 260 df7eff 258"),
        format!("took 2 frame 2 013f{}", "a5".repeat(256))
    );
}

#[test]
fn listen_makes_the_receiver_anew() {
    let mut table = Table::default();
    let a5 = "a5".repeat(76);
    assert_eq!(table.ask("listen"), "listening");
    assert_eq!(table.ask("octets 78 7e01 76"), format!("took 2 nothing {a5}"));
    assert_eq!(table.ask("listen"), "listening");
    // The stretch is gone, and so is the flag before it.
    assert_eq!(table.ask("octets 78 3f7e 76"), format!("took 2 nothing {a5}"));
    assert_eq!(table.ask("listen"), "listening");
    assert_eq!(table.ask("listen"), "listening");
    assert_eq!(table.ask("octets 78 013febdf7e 76"), format!("took 5 nothing {a5}"));
    assert_eq!(table.bench.receiver, {
        let mut receiver = Receiver::default();
        call(&mut receiver, 78, &[FLAG]);
        receiver
    });
}

#[test]
fn the_longest_line_of_a_script() {
    let mut table = Table::default();
    let a5 = "a5".repeat(258);
    let line = |octets: usize| format!("octets 260 7e{} 258", "00".repeat(octets - 1));
    let most = (2_000 - "octets 260  258".len()) / 2;
    assert!(line(most).len() <= 2_000 && line(most + 1).len() > 2_000);
    assert_eq!(table.ask(&line(most)), format!("took {most} nothing {a5}"));
    assert_eq!(table.ask(&line(most + 1)), "error long");
    assert_eq!(table.ask("octets 260 7e 258"), format!("took 1 refused 2 {a5}"));
}

#[test]
fn other_commands_leave_the_receiver() {
    let mut table = fresh(0);
    let a5 = "a5".repeat(76);
    assert_eq!(table.ask("octets 78 7e013f 76"), format!("took 3 nothing {a5}"));
    let receiver = table.bench.receiver.clone();
    for line in [
        "decode 7e 5",
        "decode-n 260 013febdf 5",
        "write 01 93 - 80",
        "hear 1 013febdf 76",
        "frame 1 ffbf81f003020105 76",
        "scan 400",
        "begin 3",
        "probe 47",
        "report heard",
        "show 1",
        "limit 1",
        "octets 78 eb7e 75",
        "octets 77 eb7e 75",
        "octets 78 eb7 76",
        "octets 78 eb7e 601",
        "octets 65536 eb7e 76",
        "octets 78 eb7e",
        "listen ",
        "listen 1",
        "Listen",
    ] {
        table.ask(line);
        assert_eq!(table.bench.receiver, receiver, "{line}");
    }
    // Nor does the receiver touch the devices.
    let shown = table.ask("show 1");
    let answer = table.ask("octets 78 ebdf7e 76");
    assert_eq!(answer, format!("took 3 frame 2 013f{}", "a5".repeat(74)));
    assert_eq!(table.ask("show 1"), shown);
}

#[test]
fn a_random_line_through_the_script() {
    let mut random = Random::new(8);
    let mut table = Table::default();
    for _ in 0..1_500 {
        let limit = any_limit(&mut random);
        let room = random.pick(&[limit - 2, limit - 1, limit + 20, 600]);
        let line = [vec![FLAG], any_line(&mut random, limit)].concat();
        assert_eq!(table.ask("listen"), "listening");
        let mut rest = &line[..];
        let mut answers = Vec::new();
        while !rest.is_empty() {
            let run = &rest[..random.below(rest.len().min(950)) + 1];
            let answer = table.ask(&format!("octets {limit} {} {room}", hex(run)));
            let (taken, said) = answer.strip_prefix("took ").unwrap().split_once(' ').unwrap();
            rest = &rest[taken.parse().unwrap()..];
            if !said.starts_with("nothing") {
                answers.push(said.to_string());
            }
        }
        let expected: Vec<String> = by_the_decoder(limit, &line)
            .into_iter()
            .map(|said| {
                let mut buffer = vec![0xA5; room];
                match said {
                    Ok(frame) => {
                        buffer[..frame.len()].copy_from_slice(&frame);
                        format!("frame {} {}", frame.len(), hex(&buffer))
                    }
                    Err(refusal) => format!("refused {} {}", refusal.number(), hex(&buffer)),
                }
            })
            .collect();
        assert_eq!(answers, expected);
    }
}
