//! The comparison of readings: it reaches every refusal, and a console with one thing wrong is found out.

use second::compare_readings::{compare, Console, OwnConsole};
use second::readings::{label, SIGN};

type Read = (u32, u32, u64);
type Encoded = (u32, u32);

/// The right answers, with one thing changed.
struct Wrong {
    list: fn(&[u32], u32) -> Vec<u32>,
    read: fn(&[u32], u32, Read) -> Read,
    whole: fn(i32) -> i32,
    encode: fn(&[u32], u32, i32, Encoded) -> Encoded,
}

const RIGHT: Wrong = Wrong {
    list: |list, _| list.to_vec(),
    read: |_, _, answer| answer,
    whole: |number| number,
    encode: |_, _, _, answer| answer,
};

impl Console for Wrong {
    fn read(&mut self, list: &[u32], word: u32) -> Read {
        (self.read)(list, word, OwnConsole.read(&(self.list)(list, word), word))
    }

    fn whole(&mut self, list: &[u32], word: u32) -> i32 {
        (self.whole)(OwnConsole.whole(&(self.list)(list, word), word))
    }

    fn encode(&mut self, list: &[u32], word: u32, value: i32) -> Encoded {
        (self.encode)(list, word, value, OwnConsole.encode(&(self.list)(list, word), word, value))
    }
}

fn first_place(list: &[u32], word: u32) -> Option<usize> {
    list.chunks(3).position(|entry| entry[0] == label(word))
}

fn kind(list: &[u32], word: u32) -> Option<u32> {
    list.get(3 * first_place(list, word)? + 1).copied()
}

#[test]
fn every_refusal_is_reached() {
    let seen = compare(20_000, 1, &mut OwnConsole, &mut Wrong { ..RIGHT }).expect("the same console twice");
    assert_eq!(seen.fields, 24 * 524_288);
    // 0 and 60 to 63 on reading; 0, 60, 61 and 64 on encoding, of which the random lists alone give 60 and 64.
    assert!([0, 1, 2, 3, 4].iter().all(|&place| seen.read[place] > 1_000), "{:?}", seen.read);
    assert!([0, 1, 2, 5].iter().all(|&place| seen.encoded[place] > 1_000), "{:?}", seen.encoded);
}

#[test]
fn wrong_consoles_are_found_out() {
    let wrong: [(&str, Wrong); 19] = [
        ("the last entry counts", Wrong { list: |list, _| list.rchunks(3).flatten().copied().collect(), ..RIGHT }),
        (
            "entries behind the one that counts not tested",
            Wrong {
                list: |list, word| match first_place(list, word) {
                    Some(place) => list[..list.len().min(3 * place + 3)].to_vec(),
                    None => list.to_vec(),
                },
                ..RIGHT
            },
        ),
        ("a cut entry left out", Wrong { list: |list, _| list[..list.len() / 3 * 3].to_vec(), ..RIGHT }),
        (
            "a label taken modulo 256",
            Wrong {
                list: |list, _| list.iter().enumerate().map(|(k, &n)| if k % 3 == 0 { n % 256 } else { n }).collect(),
                ..RIGHT
            },
        ),
        (
            "a divisor of 524,288 taken",
            Wrong { list: |list, _| list.iter().map(|&n| if n == 524_288 { 262_144 } else { n }).collect(), ..RIGHT },
        ),
        ("a divisor of 0 taken as 1", Wrong { list: |list, _| divisors(list, |n| n.max(1)), ..RIGHT }),
        ("a divisor of 3 taken", Wrong { list: |list, _| divisors(list, |n| if n == 3 { 2 } else { n }), ..RIGHT }),
        (
            "a bit field's divisor tested",
            Wrong {
                read: |list, _, answer| {
                    let bad = |entry: &[u32]| entry.len() == 3 && entry[1] == 3 && !entry[2].is_power_of_two();
                    if list.chunks(3).any(bad) {
                        (60, 0, 0)
                    } else {
                        answer
                    }
                },
                ..RIGHT
            },
        ),
        (
            "sign 01 is minus",
            Wrong {
                read: |list, word, answer| match answer.0 {
                    62 if word & SIGN == 0x2000_0000 => OwnConsole.read(list, word | SIGN),
                    _ => answer,
                },
                ..RIGHT
            },
        ),
        (
            "a digit above 9 before the sign",
            Wrong {
                read: |list, word, answer| match answer.0 {
                    62 if OwnConsole.read(list, word & !SIGN).0 == 63 => (63, 0, 0),
                    _ => answer,
                },
                ..RIGHT
            },
        ),
        (
            "minus zero read as such",
            Wrong {
                read: |_, word, answer| match answer {
                    (0, 2, 0) if word & SIGN == SIGN => (0, 2, (-0.0f64).to_bits()),
                    _ => answer,
                },
                ..RIGHT
            },
        ),
        (
            "a value left beside a refusal",
            Wrong { read: |_, _, answer| if answer.0 == 63 { (63, 2, 0) } else { answer }, ..RIGHT },
        ),
        ("whole numbers of 18 bits", Wrong { whole: |number| number.clamp(-131_072, 524_287), ..RIGHT }),
        (
            "zero keeps its sign",
            Wrong {
                encode: |list, word, value, (number, encoded)| match kind(list, word) {
                    Some(2) if number == 0 && value == 0 && word & SIGN == SIGN => (0, encoded | SIGN),
                    _ => (number, encoded),
                },
                ..RIGHT
            },
        ),
        ("bit 32 cleared", Wrong { encode: |_, _, _, (number, encoded)| (number, encoded & 0x7FFF_FFFF), ..RIGHT }),
        ("SDI cleared", Wrong { encode: |_, _, _, (number, encoded)| (number, encoded & !0x300), ..RIGHT }),
        (
            "80,000 encoded",
            Wrong {
                encode: |list, word, value, answer| match value {
                    80_000 if answer.0 == 64 => OwnConsole.encode(list, word, 0),
                    _ => answer,
                },
                ..RIGHT
            },
        ),
        (
            "a value cut to 19 bits",
            Wrong {
                encode: |list, word, value, answer| match answer.0 {
                    64 if kind(list, word) == Some(1) => OwnConsole.encode(list, word, value << 13 >> 13),
                    _ => answer,
                },
                ..RIGHT
            },
        ),
        (
            "64 before a bit field to encode",
            Wrong {
                encode: |list, word, value, answer| match (answer.0, kind(list, word)) {
                    (61, Some(3)) if value.unsigned_abs() > 600_000 => (64, 0),
                    _ => answer,
                },
                ..RIGHT
            },
        ),
    ];
    for (name, mut console) in wrong {
        let found = compare(200_000, 1, &mut OwnConsole, &mut console);
        assert!(found.is_err(), "{name} is not found out");
    }
}

/// The list with its divisors changed.
fn divisors(list: &[u32], change: fn(u32) -> u32) -> Vec<u32> {
    list.iter().enumerate().map(|(k, &n)| if k % 3 == 2 { change(n) } else { n }).collect()
}
