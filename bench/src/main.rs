//! The cost of a call: the proved library, through its C entry, against the independent program on lent words, on the same lists.
//!
//! Before a kind is timed, its lists run once through both, and every answer and the whole memory are compared. The independent program
//! gives its answer in a vector: its rounds run with an allocator that costs next to nothing, once more in the same way, which tells what
//! the measurement itself differs by, and once with the system's allocator. Rounds of the four are interleaved, each comes first in turn
//! and has each of four equal memories in turn, and they are spread over passes that go over all kinds; a figure is the median of the
//! rounds, and a ratio is the median of the ratios of rounds that ran one after the other.

mod alloc;
mod captures;
mod lists;
mod readings;

use std::hint::black_box;
use std::time::Instant;

use lists::{kinds, Kind};
use second::calls::Item;
use second::layout::need;
use second::{proved, words};

/// Runs a list on the proved library; gives a sum of the answers.
#[inline(never)]
fn run_proved(mem: &mut [u32], items: &[Item]) -> u32 {
    let mut values = [0; 7];
    let mut sum = 0u32;
    for item in items {
        sum = sum.wrapping_add(proved::perform(mem, &mut values, *item)).wrapping_add(values[0]);
    }
    sum
}

/// The same on the independent program.
#[inline(never)]
fn run_second(mem: &mut [u32], items: &[Item]) -> u32 {
    let mut sum = 0u32;
    for item in items {
        let answer = words::perform(mem, item.op, item.channel, item.a, item.b);
        sum = sum.wrapping_add(answer[0]).wrapping_add(*answer.get(1).unwrap_or(&0));
    }
    sum
}

/// Every answer and the whole memory are the same.
fn compare(first: &mut [u32], second: &mut [u32], lent: usize, items: &[Item], name: &str) {
    for item in items {
        let mut values = [0xAAAA_AAAA; 7];
        let number = proved::perform(&mut first[..lent], &mut values, *item);
        let answer = words::perform(&mut second[..lent], item.op, item.channel, item.a, item.b);
        assert_eq!(number, answer[0], "{name}: {item}");
        assert_eq!(values[..answer.len() - 1], answer[1..], "{name}: {item}");
        assert!(first == second, "{name}: memory after {item}");
    }
}

fn median(mut times: Vec<f64>) -> f64 {
    times.sort_by(f64::total_cmp);
    times[times.len() / 2]
}

/// The four that are timed.
const PROVED: usize = 0;
const RUST: usize = 1;
const RUST_AGAIN: usize = 2;
const RUST_WITH_MALLOC: usize = 3;
const TIMED: usize = 4;

/// A kind under way: its memories, and nanoseconds per call in each round.
struct Run {
    kind: Kind,
    channels: u32,
    lent: usize,
    mems: [Vec<u32>; TIMED],
    times: [Vec<f64>; TIMED],
}

impl Run {
    fn new(kind: Kind, channels: u32) -> Run {
        let mut first = vec![0u32; need(channels)];
        let mut second = first.clone();
        let lent = need(channels) - kind.short_by;
        let power_up = [Item { op: 1, channel: 0, a: channels, b: 0 }];
        for list in [&power_up[..], &kind.set_up] {
            compare(&mut first, &mut second, need(channels), list, kind.name);
        }
        for _ in 0..2 {
            compare(&mut first, &mut second, need(channels), &kind.before, kind.name);
            compare(&mut first, &mut second, lent, &kind.timed, kind.name);
        }
        let (third, fourth) = (second.clone(), second.clone());
        Run { kind, channels, lent, mems: [first, second, third, fourth], times: Default::default() }
    }

    fn rounds(&mut self, rounds: usize) {
        for round in 0..rounds {
            // Each of the four comes first in turn, and has each memory in turn.
            for place in 0..TIMED {
                let which = (round + place) % TIMED;
                let mem = &mut self.mems[(which + round / TIMED) % TIMED];
                black_box(run_proved(mem, &self.kind.before));
                alloc::cheap(which == RUST || which == RUST_AGAIN);
                let start = Instant::now();
                let sum = match which {
                    PROVED => run_proved(&mut mem[..self.lent], black_box(&self.kind.timed)),
                    _ => run_second(&mut mem[..self.lent], black_box(&self.kind.timed)),
                };
                let elapsed = start.elapsed();
                alloc::cheap(false);
                black_box(sum);
                self.times[which].push(elapsed.as_nanos() as f64 / self.kind.timed.len() as f64);
            }
        }
    }

    /// The median of the ratios of rounds that ran one after the other.
    fn ratio(&self, over: usize, under: usize) -> f64 {
        median(self.times[over].iter().zip(&self.times[under]).map(|(over, under)| over / under).collect())
    }
}

/// The argument is how many passes go over all kinds.
fn main() {
    let passes: usize = std::env::args().nth(1).and_then(|n| n.parse().ok()).unwrap_or(25);
    let mut runs: Vec<Run> = [1, 12]
        .into_iter()
        .flat_map(|channels| kinds(channels).into_iter().map(move |kind| Run::new(kind, channels)))
        .collect();
    for _ in 0..passes {
        for run in &mut runs {
            // A multiple of 16, so that each has been everywhere equally often.
            run.rounds(if run.kind.name == "power-up" { 48 } else { 96 });
        }
    }
    println!("| Call | Channels | Proved, ns | Rust, ns | Proved / Rust | Rust / itself | Rust with malloc, ns | Proved / that |");
    println!("|---|---|---|---|---|---|---|---|");
    for run in &runs {
        let time = |which: usize| median(run.times[which].clone());
        println!(
            "| {} | {} | {:.1} | {:.1} | {:.3} | {:.3} | {:.1} | {:.3} |",
            run.kind.name,
            run.channels,
            time(PROVED),
            time(RUST),
            run.ratio(PROVED, RUST),
            run.ratio(RUST_AGAIN, RUST),
            time(RUST_WITH_MALLOC),
            run.ratio(PROVED, RUST_WITH_MALLOC)
        );
    }
    let greatest = |over: usize| {
        let row =
            runs.iter().max_by(|a, b| a.ratio(over, RUST).total_cmp(&b.ratio(over, RUST))).expect("there are rows");
        format!("{:.3}, {} on {}", row.ratio(over, RUST), row.kind.name, row.channels)
    };
    println!();
    println!(
        "The greatest ratio to the Rust program: {}. Of that program to itself: {}.",
        greatest(PROVED),
        greatest(RUST_AGAIN)
    );
    println!();
    readings::table();
    println!();
    captures::table();
}
