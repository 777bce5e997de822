//! Written frames decode to what was written, damaged ones don't.

use second::frame::{
    decode, decode_n, longest_frame, longest_line, longest_payload, write, write_n, ESCAPE, FLAG,
};
use second::generator::random::Random;
use second::refusal::Refusal;

#[test]
fn random_frames() {
    let mut random = Random::new(1);
    for _ in 0..50_000 {
        let length = random.below(75);
        let (address, control, payload) = (random.octet(), random.octet(), random.octets(length));
        let mut line = [0xA5; 160];
        let written = write(address, control, &payload, &mut line).unwrap();
        assert!(written <= 158);
        assert!(line[written..].iter().all(|&octet| octet == 0xA5));
        assert_eq!((line[0], line[written - 1]), (FLAG, FLAG));
        let between = &line[1..written - 1];
        assert!(!between.contains(&FLAG));
        let mut output = vec![0xA5; length + 3];
        assert_eq!(decode(between, &mut output), Ok(length + 2));
        assert_eq!(output[..2], [address, control]);
        assert_eq!(output[2..length + 2], payload);
        assert_eq!(output[length + 2], 0xA5);
    }
}

#[test]
fn random_frames_of_every_limit() {
    let mut random = Random::new(4);
    for turn in 0..40_000 {
        let limit = 78 + turn % (260 - 78 + 1);
        let longest = longest_payload(limit);
        let length = if random.chance(300) { longest } else { random.below(longest + 1) };
        let (address, control, payload) = (random.octet(), random.octet(), random.octets(length));
        let mut line = [0xA5; 600];
        let written = write_n(limit, address, control, &payload, &mut line).unwrap();
        assert!(written <= longest_line(limit));
        assert!(line[written..].iter().all(|&octet| octet == 0xA5));
        let between = &line[1..written - 1];
        assert!(!between.contains(&FLAG));
        let mut output = vec![0xA5; longest_frame(limit)];
        assert_eq!(decode_n(limit, between, &mut output), Ok(length + 2));
        assert_eq!(output[..2], [address, control]);
        assert_eq!(output[2..length + 2], payload);
        assert!(output[length + 2..].iter().all(|&octet| octet == 0xA5));
        // A larger limit says the same; a smaller one, if the frame is longer, 2.
        let mut larger = vec![0xA5; longest_frame(limit)];
        assert_eq!(decode_n(260, between, &mut larger), Ok(length + 2));
        assert_eq!(larger, output);
        let smaller = 78 + random.below(limit - 77);
        let expected = if length + 4 > smaller { Err(Refusal::TooMany) } else { Ok(length + 2) };
        assert_eq!(decode_n(smaller, between, &mut output), expected);
        // 01's decoder and writer are the case 78.
        assert_eq!(decode(between, &mut output), decode_n(78, between, &mut larger));
        let mut other = [0xA5; 600];
        let one = write(address, control, &payload, &mut other);
        assert_eq!(one, write_n(78, address, control, &payload, &mut line));
    }
}

#[test]
fn one_bit_turned_is_never_taken_for_the_frame() {
    let mut random = Random::new(2);
    for _ in 0..5_000 {
        let length = random.below(75);
        let payload = random.octets(length);
        let mut line = [0; 158];
        let written = write(1, 0x93, &payload, &mut line).unwrap();
        let place = 1 + random.below(written - 2);
        if line[place] == ESCAPE || line[place - 1] == ESCAPE {
            continue;
        }
        line[place] ^= 1 << random.below(8);
        if line[place] == ESCAPE || line[place] == FLAG {
            continue;
        }
        assert_eq!(decode(&line[1..written - 1], &mut [0; 76]), Err(Refusal::CheckWrong));
    }
}
