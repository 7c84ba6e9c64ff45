//! `second compare --calls N --seed S`: the model against the words on random call lists.
//! `second compare-proved --calls N --seed S` (feature `proved`): the words against the proved library, answers and the whole memory.
//! `second readings --seed S` (feature `proved`): readings of words against the proved library.
//! `second captures --seed S` (feature `proved`): capture files against the proved library.
//! `second explain COUNT PLACE`: the reason for the arrival at a place of the 16-byte items from standard input, in one line.
//! `second explain-lists --seed S --cases N --program PATH`: random questions of that kind, asked here and of another program.
//! `second judge`: the verdict on a bench card, whose text is on standard input.
//! `second cards --seed S --cases N --program PATH`: random bench cards, judged here and by another program.
//! `second list --calls N --seed S`: the same random calls as 16-byte items, for a program that reads them.
//! `second replay`: performs a list of 16-byte items from standard input, one answer line for each.
//! `second show-capture`: the records of a capture from standard input, one line for each.
//! `second make-capture`: performs 16-byte items from standard input, and writes the capture of their arrivals.
//! `second random-capture --records N --bad NUMBER --seed S`: a random capture with images, and behind it a record refused with that
//! number (0: none); with `--long-bad` it is as long as it can be.

use std::io::{self, Read, Write};
use std::process::ExitCode;
use std::time::Instant;

use second::calls::{Item, NO_CALL};
use second::capture_programs::{make, show};
use second::compare::{compare, LIST_CALLS};
use second::engine::{AsModel, Engine, OnWords};
use second::layout::{need, CHANNELS};
use second::lists::{lists, Dice, Event};

const USE: &str = "second compare --calls N --seed S | list --calls N --seed S | replay
    | show-capture | make-capture | random-capture --records N (--bad | --long-bad) NUMBER --seed S
    | explain COUNT PLACE | explain-lists --seed S --cases N --program PATH
    | judge | cards --seed S --cases N --program PATH
with the feature `proved` also: compare-proved --calls N --seed S | readings --seed S | captures --seed S";

fn main() -> ExitCode {
    let args: Vec<String> = std::env::args().skip(1).collect();
    let words: Vec<&str> = args.iter().map(String::as_str).collect();
    match words.as_slice() {
        ["compare", "--calls", calls, "--seed", seed] => match (calls.parse(), seed.parse()) {
            (Ok(calls), Ok(seed)) => told(calls, seed, &mut AsModel::new(), &mut OnWords),
            _ => wrong_use(),
        },
        #[cfg(feature = "proved")]
        ["compare-proved", "--calls", calls, "--seed", seed] => match (calls.parse(), seed.parse()) {
            (Ok(calls), Ok(seed)) => told(calls, seed, &mut OnWords, &mut second::proved::Proved),
            _ => wrong_use(),
        },
        #[cfg(feature = "proved")]
        ["readings", "--seed", seed] => match seed.parse() {
            Ok(seed) => readings(seed),
            _ => wrong_use(),
        },
        #[cfg(feature = "proved")]
        ["captures", "--seed", seed] => match seed.parse() {
            Ok(seed) => captures(seed),
            _ => wrong_use(),
        },
        ["list", "--calls", calls, "--seed", seed] => match (calls.parse(), seed.parse()) {
            (Ok(calls), Ok(seed)) => written("list", write_list(calls, seed)),
            _ => wrong_use(),
        },
        ["replay"] => written("replay", replay()),
        ["show-capture"] => written("show-capture", piped(show)),
        ["make-capture"] => written("make-capture", piped(make)),
        ["random-capture", "--records", records, bad @ ("--bad" | "--long-bad"), number, "--seed", seed] => {
            match (records.parse(), number.parse(), seed.parse()) {
                (Ok(records), Ok(number), Ok(seed)) => {
                    written("random-capture", random_capture(records, number, *bad == "--long-bad", seed))
                }
                _ => wrong_use(),
            }
        }
        ["explain", count, place] => match (number(count), number(place)) {
            (Some(count), Some(place)) => written("explain", explain(count, place)),
            _ => wrong_use(),
        },
        ["explain-lists", "--seed", seed, "--cases", cases, "--program", path] => {
            use second::compare_reasons::{compare, OwnReasons, Program};
            match (seed.parse(), cases.parse()) {
                (Ok(seed), Ok(cases)) => compared("explain", || {
                    let mut program = Program { path: path.to_string() };
                    compare(cases, seed, &mut OwnReasons, &mut program).map(|seen| seen.shown())
                }),
                _ => wrong_use(),
            }
        }
        ["judge"] => written("judge", judge()),
        ["cards", "--seed", seed, "--cases", cases, "--program", path] => {
            use second::compare_cards::{compare, OwnJudge, Program};
            match (seed.parse(), cases.parse()) {
                (Ok(seed), Ok(cases)) => compared("judge", || {
                    compare(cases, seed, &mut OwnJudge, &mut Program::new(path, seed)).map(|seen| seen.shown())
                }),
                _ => wrong_use(),
            }
        }
        _ => wrong_use(),
    }
}

/// Runs a comparison with another program and prints what was seen.
fn compared(what: &str, comparison: impl FnOnce() -> Result<String, String>) -> ExitCode {
    let start = Instant::now();
    match comparison() {
        Ok(seen) => {
            println!("{what}: {seen}; {:.2} s, no difference", start.elapsed().as_secs_f64());
            ExitCode::SUCCESS
        }
        Err(difference) => {
            println!("{what}, first this program, second the other: {difference}");
            ExitCode::FAILURE
        }
    }
}

/// A decimal number; one above the greatest of 32 bits counts as that.
fn number(argument: &str) -> Option<u32> {
    let digits = !argument.is_empty() && argument.bytes().all(|digit| digit.is_ascii_digit());
    digits.then(|| argument.parse().unwrap_or(u32::MAX))
}

/// The working memory is that of twelve channels.
fn explain(count: u32, place: u32) -> io::Result<()> {
    println!("{}", second::why::line(second::why::explain(count, &whole_input()?, place, need(CHANNELS))));
    Ok(())
}

/// A card that is none is not judged: the first line that is wrong is named.
fn judge() -> io::Result<()> {
    match second::judge::card_of(&String::from_utf8_lossy(&whole_input()?)) {
        Ok(card) => println!("{}", second::judge::judge(&card)),
        Err(line) => println!("{line}"),
    }
    Ok(())
}

fn written(what: &str, result: io::Result<()>) -> ExitCode {
    match result {
        Ok(()) => ExitCode::SUCCESS,
        Err(error) => {
            eprintln!("{what}: {error}");
            ExitCode::from(2)
        }
    }
}

fn wrong_use() -> ExitCode {
    eprintln!("{USE}");
    ExitCode::from(2)
}

/// Compares two engines and prints what was seen.
fn told(calls: u64, seed: u64, first: &mut dyn Engine, second: &mut dyn Engine) -> ExitCode {
    let start = Instant::now();
    let (tally, difference) = compare(calls, seed, first, second);
    let seconds = start.elapsed().as_secs_f64();
    tally.print();
    println!("{seconds:.2} s, {:.0} calls per second", tally.calls as f64 / seconds);
    let Some(difference) = difference else {
        println!("no difference");
        return ExitCode::SUCCESS;
    };
    println!("difference in the list of seed {}, event {}", difference.seed, difference.event);
    println!("{}", difference.what);
    for line in difference.last {
        println!("  {line}");
    }
    ExitCode::FAILURE
}

/// Compares the readings with those of the proved library and prints what was seen.
#[cfg(feature = "proved")]
fn readings(seed: u64) -> ExitCode {
    use second::compare_readings::{compare, shown, OwnConsole};
    let start = Instant::now();
    match compare(200_000, seed, &mut OwnConsole, &mut second::proved_readings::ProvedConsole) {
        Ok(seen) => {
            let words = format!("{} words of every field, {} random lists", seen.fields, seen.random);
            let answers = format!("read ({}), encoded ({})", shown(&seen.read), shown(&seen.encoded));
            let seconds = start.elapsed().as_secs_f64();
            println!("readings: {words}; {answers}, {} whole numbers, {seconds:.2} s, no difference", seen.wholes);
            ExitCode::SUCCESS
        }
        Err(difference) => {
            println!("difference in readings, first this program, second the proved library: {difference}");
            ExitCode::FAILURE
        }
    }
}

/// Compares capture files with those of the proved library and prints what was seen.
#[cfg(feature = "proved")]
fn captures(seed: u64) -> ExitCode {
    use second::compare_captures::{compare, shown, OwnCaptures};
    let start = Instant::now();
    match compare(200_000, seed, &mut OwnCaptures, &mut second::proved_captures::ProvedCaptures) {
        Ok(seen) => {
            let captures = format!("{} random captures, {} with images", seen.captures, seen.with_images);
            let images = format!("of kind 2 ({}), of kind 3 ({})", seen.old_images.shown(), seen.images.shown());
            let cuts = format!("{} of them cut at each of {} bytes", seen.cut, seen.cuts);
            let answers = format!("read ({}), written ({})", shown(&seen.read), shown(&seen.written));
            let again = format!("{} lists and {} captures there and back", seen.lists_again, seen.bytes_again);
            let seconds = start.elapsed().as_secs_f64();
            println!("captures: {captures} {images}, {cuts}; {answers}; {again}, {seconds:.2} s, no difference");
            ExitCode::SUCCESS
        }
        Err(difference) => {
            println!("difference in captures, first this program, second the proved library: {difference}");
            ExitCode::FAILURE
        }
    }
}

/// The calls of one random list of the seed after the other, until there are enough.
fn write_list(calls: u64, seed: u64) -> io::Result<()> {
    let mut out = io::BufWriter::new(io::stdout().lock());
    let mut left = calls;
    for list in lists(seed, LIST_CALLS) {
        for event in list.events {
            if left == 0 {
                return out.flush();
            }
            if let Event::Call(item) = event {
                for word in [item.op, item.channel, item.a, item.b] {
                    out.write_all(&word.to_le_bytes())?;
                }
                left -= 1;
            }
        }
    }
    out.flush()
}

fn whole_input() -> io::Result<Vec<u8>> {
    let mut bytes = vec![];
    io::stdin().lock().read_to_end(&mut bytes)?;
    Ok(bytes)
}

/// A program from standard input to standard output.
fn piped(program: fn(&[u8], &mut io::BufWriter<io::Stdout>) -> io::Result<()>) -> io::Result<()> {
    let mut out = io::BufWriter::new(io::stdout());
    program(&whole_input()?, &mut out)?;
    out.flush()
}

/// Arrivals and images, and behind them a record that is refused with this number.
fn random_capture(records: u32, bad: u32, long: bool, seed: u64) -> io::Result<()> {
    use second::random_captures::{arrival, bytes_of, image, refused_with};
    let mut dice = Dice::new(seed);
    let mut out = io::BufWriter::new(io::stdout().lock());
    for _ in 0..records {
        let record = if dice.chance(50) { image(&mut dice) } else { arrival(&mut dice) };
        out.write_all(&bytes_of(&[record]).0)?;
    }
    out.write_all(&refused_with(bad, long))?;
    out.flush()
}

/// Memory for twelve channels starts as all zeros. A cut last item is no call.
fn replay() -> io::Result<()> {
    let mut mem = vec![0; need(CHANNELS)];
    let mut out = io::BufWriter::new(io::stdout().lock());
    for item in whole_input()?.chunks(16) {
        let answer = match Item::of_bytes(item) {
            Some(Item { op, channel, a, b }) => OnWords.perform(&mut mem, op, channel, a, b),
            None => vec![NO_CALL],
        };
        let line: Vec<String> = answer.iter().map(u32::to_string).collect();
        writeln!(out, "{}", line.join(" "))?;
    }
    out.flush()
}
