//! The cost of a reading and of an encoding, by a list of 64 labels: the proved library against the independent program.

use std::hint::black_box;
use std::time::Instant;

use second::compare_readings::Console;
use second::proved_readings::ProvedConsole;
use second::readings;

/// A list of 64 labels of one kind, and a word of each label that the list accepts.
fn sixty_four(kind: u32) -> (Vec<u32>, Vec<u32>) {
    let list: Vec<u32> = (0..64).flat_map(|i| [4 * i + 3, kind, 1 << (i % 19)]).collect();
    let words = (0..64u32).map(|i| ((4 * i + 3) as u8).reverse_bits() as u32 | (i % 10) << 10).collect();
    (list, words)
}

fn median(mut times: Vec<f64>) -> f64 {
    times.sort_by(f64::total_cmp);
    times[times.len() / 2]
}

/// Nanoseconds per call of two functions of a word, in rounds that take turns.
fn timed(words: &[u32], first: impl Fn(u32) -> u64, second: impl Fn(u32) -> u64) -> (f64, f64) {
    let round = |f: &dyn Fn(u32) -> u64| {
        let start = Instant::now();
        let sum = words.iter().fold(0u64, |sum, word| sum.wrapping_add(f(black_box(*word))));
        let elapsed = start.elapsed();
        black_box(sum);
        elapsed.as_nanos() as f64 / words.len() as f64
    };
    let (mut one, mut other) = (Vec::new(), Vec::new());
    for turn in 0..4000 {
        if turn % 2 == 0 {
            one.push(round(&first));
            other.push(round(&second));
        } else {
            other.push(round(&second));
            one.push(round(&first));
        }
    }
    (median(one), median(other))
}

/// The table of readings: all words of a round give the same in both before they are timed.
pub fn table() {
    println!("| A list of 64 labels | Proved, ns | Rust, ns | Proved / Rust |");
    println!("|---|---|---|---|");
    for (name, kind) in [("reading, binary", 1), ("reading, decimal", 2), ("reading, bit field", 3)] {
        let (list, words) = sixty_four(kind);
        let rust = |word| match readings::read(black_box(&list), word) {
            Ok(readings::Reading::Binary(units)) => units.to_bits(),
            Ok(readings::Reading::Decimal(number)) => f64::from(number).to_bits(),
            Ok(readings::Reading::Bits(field)) => f64::from(field).to_bits(),
            Err(refusal) => refusal.into(),
        };
        let proved = |word| match ProvedConsole.read(black_box(&list), word) {
            (0, _, units) => units,
            (refusal, _, _) => refusal.into(),
        };
        row(name, &words, proved, rust);
    }
    let (list, words) = sixty_four(1);
    row(
        "encoding, binary",
        &words,
        |word| match ProvedConsole.encode(black_box(&list), word, -1000) {
            (0, encoded) => encoded.into(),
            (refusal, _) => refusal.into(),
        },
        |word| readings::encode(black_box(&list), word, -1000).unwrap_or_else(|refusal| refusal).into(),
    );
}

fn row(name: &str, words: &[u32], proved: impl Fn(u32) -> u64, rust: impl Fn(u32) -> u64) {
    for word in words {
        assert_eq!(proved(*word), rust(*word), "{name}: {word:08x}");
    }
    let (proved, rust) = timed(words, proved, rust);
    println!("| {name} | {proved:.1} | {rust:.1} | {:.3} |", proved / rust);
}
