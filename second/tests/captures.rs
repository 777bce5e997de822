//! What the random captures reach: every kind of capture and stretch is
//! counted and must come often enough. `--nocapture` shows the counts.

use std::collections::BTreeMap;

use second::frame::{decode_n, ESCAPE, FLAG};
use second::generator::capture::{capture, Capture, LONGEST};
use second::salvage::{salvage, Salvaged};

const SEEDS: u64 = 300;

#[derive(Default)]
struct Tally {
    counts: BTreeMap<String, usize>,
}

impl Tally {
    fn count(&mut self, kind: impl Into<String>) {
        *self.counts.entry(kind.into()).or_default() += 1;
    }

    fn count_if(&mut self, holds: bool, kind: &str) {
        if holds {
            self.count(kind);
        }
    }

    fn capture(&mut self, Capture { limit, octets }: &Capture) {
        let salvaged = salvage(*limit, octets).unwrap();
        self.count(match limit {
            78 | 79 | 100 | 259 | 260 => format!("N {limit}"),
            _ => "N another".to_string(),
        });
        self.size(octets.len());
        self.whole(octets, &salvaged);
        for places in &salvaged.kept {
            self.stretch(*limit, "kept", &octets[places.clone()]);
            self.across_borders("kept", places.start, places.len());
        }
        for one in &salvaged.dropped {
            let stretch = &octets[one.offset..one.offset + one.length];
            let said = match one.number {
                0 if salvaged.totals.flags == 0 => "0, no flag at all".to_string(),
                0 if one.offset == 0 => "0, before the first flag".to_string(),
                0 => "0, after the last flag".to_string(),
                number => number.to_string(),
            };
            self.stretch(*limit, &said, stretch);
            self.across_borders("dropped", one.offset, one.length);
        }
        for run in [4_096, 65_536] {
            self.at_borders(octets, run);
        }
    }

    fn size(&mut self, length: usize) {
        assert!(length <= LONGEST);
        self.count(match length {
            0 => "length 0",
            1 => "length 1",
            2..=100 => "length to 100",
            101..=20_000 => "length to 20000",
            20_001..=100_000 => "length to 100000",
            _ => "length past 100000",
        });
        for run in [4_096, 65_536] {
            for (lies, name) in [(0, ""), (1, " + 1"), (run - 1, " - 1")] {
                let kind = format!("length a multiple of {run}{name}");
                self.count_if(length > run / 2 && length % run == lies, &kind);
            }
        }
    }

    fn whole(&mut self, octets: &[u8], salvaged: &Salvaged) {
        let totals = salvaged.totals;
        let some = totals.total > 0;
        self.count_if(some && totals.flags == totals.total, "only flags");
        self.count_if(some && totals.kept_frames == 0, "nothing kept");
        self.count_if(totals.kept_frames > 0 && totals.dropped_octets == 0, "nothing dropped");
        self.count_if(totals.kept_frames > 0 && totals.dropped_octets > 0, "both");
        self.count_if(octets.last() == Some(&ESCAPE), "ends with 7D");
        self.count_if(octets.windows(2).any(|two| two == [FLAG, FLAG]), "a flag behind a flag");
        let shared = salvaged.kept.windows(2).any(|two| two[0].end + 1 == two[1].start);
        self.count_if(shared, "two kept frames share a flag");
        let between = salvaged.dropped.windows(2).any(|two| {
            let frames = salvaged.kept.iter();
            frames.filter(|kept| two[0].offset < kept.start && kept.end < two[1].offset).count() > 0
        });
        self.count_if(between, "a kept frame between dropped ones");
    }

    fn stretch(&mut self, limit: usize, said: &str, stretch: &[u8]) {
        self.count(said);
        match stretch.len() {
            501..=518 => self.count(format!("{said}, 501 to 518 raw octets")),
            519..=522 => self.count(format!("{said}, {} raw octets", stretch.len())),
            4_096..=65_535 => self.count(format!("{said}, some thousand raw octets")),
            65_536.. => self.count(format!("{said}, past 65535 raw octets")),
            _ => (),
        }
        let decoded = decoded_octets(stretch);
        if decoded < 5 || decoded == limit || decoded == limit + 1 {
            let lies = if decoded == limit {
                "N".to_string()
            } else if decoded == limit + 1 {
                "N + 1".to_string()
            } else {
                decoded.to_string()
            };
            self.count(format!("{said}, {lies} decoded octets"));
            if [78, 79, 100, 259, 260].contains(&limit) && decoded >= limit {
                self.count(format!("{said}, {lies} decoded octets, N {limit}"));
            }
        }
        // A good frame with one limit, refused with the other.
        if said == "2" && decode_n(260, stretch, &mut [0; 258]).is_ok() {
            self.count("2, a frame that 260 reads");
        }
        self.count_if(stretch.len() > 20 && stretch.len() == 2 * decoded, "every octet escaped");
        match stretch {
            [ESCAPE] => self.count(format!("{said}, 7D alone")),
            [ESCAPE, ESCAPE] => self.count(format!("{said}, 7D 7D alone")),
            [.., ESCAPE, ESCAPE] => self.count(format!("{said}, 7D 7D last")),
            [.., ESCAPE] => self.count(format!("{said}, 7D last")),
            _ => (),
        }
    }

    fn across_borders(&mut self, said: &str, offset: usize, length: usize) {
        for run in [4_096, 65_536] {
            let across = offset / run != (offset + length - 1) / run;
            self.count_if(across, &format!("{said} across {run}"));
            let begins = offset > 0 && offset.is_multiple_of(run);
            self.count_if(begins, &format!("{said} from {run} on"));
            let ends = (offset + length).is_multiple_of(run);
            self.count_if(ends, &format!("{said} up to {run}"));
        }
    }

    fn at_borders(&mut self, octets: &[u8], run: usize) {
        for border in (run..octets.len()).step_by(run) {
            let what = |octet: u8| match octet {
                FLAG => "a flag",
                ESCAPE => "7D",
                _ => "an octet",
            };
            let (before, behind) = (what(octets[border - 1]), what(octets[border]));
            self.count(format!("{before}, then {behind}, about {run}"));
        }
        self.count_if(
            octets.len() >= run && octets.len().is_multiple_of(run) && octets.last() == Some(&FLAG),
            &format!("a flag last, and the end, at {run}"),
        );
    }
}

/// How many octets a stretch has once its escapes are out.
fn decoded_octets(stretch: &[u8]) -> usize {
    let mut octets = stretch.iter();
    let mut count = 0;
    while let Some(&octet) = octets.next() {
        count += usize::from(octet != ESCAPE || octets.next().is_some());
    }
    count
}

/// Kinds that must come at least so often in all the captures together.
const OFTEN: [(&str, usize); 124] = [
    ("0, after the last flag", 20),
    ("0, after the last flag, 520 raw octets", 1),
    ("0, after the last flag, 7D 7D last", 1),
    ("0, after the last flag, 7D alone", 5),
    ("0, after the last flag, 7D last", 10),
    ("0, after the last flag, N decoded octets", 2),
    ("0, after the last flag, some thousand raw octets", 1),
    ("0, before the first flag", 20),
    ("0, before the first flag, 7D 7D last", 1),
    ("0, before the first flag, 7D last", 2),
    ("0, before the first flag, N decoded octets", 1),
    ("0, no flag at all", 10),
    ("0, no flag at all, 7D alone", 1),
    ("0, no flag at all, 7D last", 2),
    ("0, no flag at all, N decoded octets", 2),
    ("1", 200),
    ("1, 1 decoded octets", 50),
    ("1, 2 decoded octets", 50),
    ("1, 3 decoded octets", 50),
    ("2", 500),
    ("2, 501 to 518 raw octets", 2),
    ("2, 519 raw octets", 5),
    ("2, 520 raw octets", 20),
    ("2, 521 raw octets", 20),
    ("2, 522 raw octets", 20),
    ("2, N + 1 decoded octets", 100),
    ("2, N + 1 decoded octets, N 100", 20),
    ("2, N + 1 decoded octets, N 259", 5),
    ("2, N + 1 decoded octets, N 260", 50),
    ("2, N + 1 decoded octets, N 78", 50),
    ("2, N + 1 decoded octets, N 79", 5),
    ("2, a frame that 260 reads", 100),
    ("2, past 65535 raw octets", 2),
    ("2, some thousand raw octets", 2),
    ("3", 500),
    ("3, 4 decoded octets", 20),
    ("3, 501 to 518 raw octets", 2),
    ("3, 519 raw octets", 2),
    ("3, 520 raw octets", 2),
    ("3, N decoded octets", 100),
    ("3, N decoded octets, N 100", 10),
    ("3, N decoded octets, N 259", 1),
    ("3, N decoded octets, N 260", 20),
    ("3, N decoded octets, N 78", 20),
    ("3, N decoded octets, N 79", 5),
    ("4", 200),
    ("4, 0 decoded octets", 20),
    ("4, 1 decoded octets", 20),
    ("4, 2 decoded octets", 10),
    ("4, 3 decoded octets", 10),
    ("4, 4 decoded octets", 10),
    ("4, 501 to 518 raw octets", 2),
    ("4, 519 raw octets", 5),
    ("4, 520 raw octets", 5),
    ("4, 521 raw octets", 5),
    ("4, 522 raw octets", 5),
    ("4, 7D 7D alone", 10),
    ("4, 7D 7D last", 100),
    ("4, 7D alone", 20),
    ("4, 7D last", 100),
    ("4, past 65535 raw octets", 1),
    ("7D, then 7D, about 4096", 10),
    ("7D, then 7D, about 65536", 1),
    ("7D, then a flag, about 4096", 2),
    ("7D, then an octet, about 4096", 50),
    ("7D, then an octet, about 65536", 1),
    ("N 100", 10),
    ("N 259", 5),
    ("N 260", 50),
    ("N 78", 20),
    ("N 79", 5),
    ("N another", 20),
    ("a flag behind a flag", 100),
    ("a flag last, and the end, at 4096", 2),
    ("a flag last, and the end, at 65536", 2),
    ("a flag, then 7D, about 4096", 2),
    ("a flag, then a flag, about 4096", 5),
    ("a flag, then a flag, about 65536", 1),
    ("a flag, then an octet, about 4096", 5),
    ("a flag, then an octet, about 65536", 1),
    ("a kept frame between dropped ones", 50),
    ("an octet, then 7D, about 4096", 50),
    ("an octet, then 7D, about 65536", 2),
    ("an octet, then a flag, about 4096", 5),
    ("an octet, then a flag, about 65536", 1),
    ("both", 50),
    ("dropped across 4096", 50),
    ("dropped across 65536", 2),
    ("dropped from 4096 on", 2),
    ("dropped up to 4096", 5),
    ("ends with 7D", 20),
    ("every octet escaped", 500),
    ("kept", 500),
    ("kept across 4096", 100),
    ("kept across 65536", 2),
    ("kept from 4096 on", 5),
    ("kept from 65536 on", 1),
    ("kept up to 4096", 5),
    ("kept up to 65536", 1),
    ("kept, 4 decoded octets", 200),
    ("kept, 501 to 518 raw octets", 10),
    ("kept, 519 raw octets", 2),
    ("kept, 520 raw octets", 20),
    ("kept, N decoded octets", 500),
    ("kept, N decoded octets, N 100", 500),
    ("kept, N decoded octets, N 259", 20),
    ("kept, N decoded octets, N 260", 500),
    ("kept, N decoded octets, N 78", 200),
    ("kept, N decoded octets, N 79", 50),
    ("length 0", 2),
    ("length 1", 5),
    ("length a multiple of 4096", 5),
    ("length a multiple of 4096 + 1", 2),
    ("length a multiple of 4096 - 1", 2),
    ("length a multiple of 65536", 2),
    ("length a multiple of 65536 + 1", 1),
    ("length past 100000", 2),
    ("length to 100", 10),
    ("length to 100000", 5),
    ("length to 20000", 100),
    ("nothing dropped", 20),
    ("nothing kept", 20),
    ("only flags", 2),
    ("two kept frames share a flag", 50),
];

#[test]
fn the_captures_reach_every_kind() {
    let mut tally = Tally::default();
    for seed in 0..SEEDS {
        tally.capture(&capture(seed));
    }
    for (kind, count) in &tally.counts {
        println!("{count:8} {kind}");
    }
    for (kind, least) in OFTEN {
        let count = tally.counts.get(kind).copied().unwrap_or(0);
        assert!(count >= least, "{kind}: {count}, not {least}");
    }
}

#[test]
fn a_seed_determines_its_capture() {
    for seed in [0, 1, 17, 299, u64::MAX] {
        let (first, second) = (capture(seed), capture(seed));
        assert_eq!((first.limit, first.octets), (second.limit, second.octets));
    }
}
