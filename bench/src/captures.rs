//! The speed of reading a capture, record after record: the proved library against a reader in Rust behind the same C form.

use std::hint::black_box;
use std::time::Instant;

extern "C" {
    fn nqabelihu_capture_read(
        bytes: *const u8,
        length: usize,
        offset: usize,
        commands: *mut u32,
        commands_length: usize,
        kind: &mut u32,
        next: &mut usize,
        channel: &mut u32,
        word: &mut u32,
        stamp: &mut u32,
    ) -> u32;
}

/// The commands of an image, and of an old one.
const COMMANDS: usize = 512;
const OLD_COMMANDS: usize = 256;

/// What a reading answers.
#[derive(Clone, Copy, Debug, Default, PartialEq)]
struct Record {
    number: u32,
    kind: u32,
    next: usize,
    channel: u32,
    word: u32,
    stamp: u32,
}

fn half(bytes: &[u8], at: usize) -> usize {
    u16::from_le_bytes([bytes[at], bytes[at + 1]]).into()
}

fn word(bytes: &[u8], at: usize) -> u32 {
    u32::from_le_bytes(bytes[at..at + 4].try_into().unwrap())
}

/// The record at an offset, in Rust.
fn record_at(bytes: &[u8], offset: usize, commands: &mut [u32]) -> Record {
    let refused = |number| Record { number, next: offset, ..Record::default() };
    if offset == bytes.len() {
        return refused(0);
    }
    let Some(record) = bytes.get(offset..) else { return refused(20) };
    if record.len() < 2 || record.len() - 2 < half(record, 0) {
        return refused(20);
    }
    let length = half(record, 0);
    if length < 2 {
        return refused(21);
    }
    let kind = half(record, 2);
    let own = match kind {
        1 => 12,
        2 => 4 + 4 * OLD_COMMANDS,
        3 => 4 + 4 * COMMANDS,
        _ => return refused(22),
    };
    if length != own {
        return refused(21);
    }
    let record = &record[..2 + own];
    let channel = half(record, 4);
    if !(1..=12).contains(&channel) {
        return refused(23);
    }
    let mut found = Record { kind: kind as u32, next: offset + 2 + own, channel: channel as u32, ..Record::default() };
    if kind == 1 {
        (found.word, found.stamp) = (word(record, 6), word(record, 10));
        return found;
    }
    let Some(commands) = commands.get_mut(..COMMANDS) else { return refused(24) };
    for (command, bytes) in commands.iter_mut().zip(record[6..].chunks_exact(4)) {
        *command = u32::from_le_bytes(bytes.try_into().unwrap());
    }
    commands[(own - 4) / 4..].fill(0);
    found
}

/// The same through the C form of the library: pointers and lengths in, the parts of the record out.
#[inline(never)]
unsafe extern "C" fn rust_capture_read(
    bytes: *const u8,
    length: usize,
    offset: usize,
    commands: *mut u32,
    commands_length: usize,
    kind: &mut u32,
    next: &mut usize,
    channel: &mut u32,
    word: &mut u32,
    stamp: &mut u32,
) -> u32 {
    // SAFETY: the caller lends slices of these lengths.
    let (bytes, commands) = unsafe {
        (std::slice::from_raw_parts(bytes, length), std::slice::from_raw_parts_mut(commands, commands_length))
    };
    let record = record_at(bytes, offset, commands);
    (*kind, *next, *channel, *word, *stamp) = (record.kind, record.next, record.channel, record.word, record.stamp);
    record.number
}

type Form = unsafe extern "C" fn(
    *const u8,
    usize,
    usize,
    *mut u32,
    usize,
    &mut u32,
    &mut usize,
    &mut u32,
    &mut u32,
    &mut u32,
) -> u32;

/// One reading through a C form.
#[inline(always)]
fn through(form: Form, bytes: &[u8], offset: usize, commands: &mut [u32]) -> Record {
    let mut r = Record::default();
    // SAFETY: the pointers and lengths are those of slices that are lent for the call.
    r.number = unsafe {
        form(
            bytes.as_ptr(),
            bytes.len(),
            offset,
            commands.as_mut_ptr(),
            commands.len(),
            &mut r.kind,
            &mut r.next,
            &mut r.channel,
            &mut r.word,
            &mut r.stamp,
        )
    };
    r
}

fn proved(bytes: &[u8], offset: usize, commands: &mut [u32]) -> Record {
    through(nqabelihu_capture_read, bytes, offset, commands)
}

fn rust(bytes: &[u8], offset: usize, commands: &mut [u32]) -> Record {
    through(rust_capture_read, bytes, offset, commands)
}

type Read = fn(&[u8], usize, &mut [u32]) -> Record;

/// Reads a whole capture: the sum of what it says.
fn whole(bytes: &[u8], commands: &mut [u32], read: Read) -> u64 {
    let (mut offset, mut sum) = (0, 0u64);
    loop {
        let record = read(bytes, offset, commands);
        if record.kind == 0 {
            assert_eq!((record.number, record.next), (0, bytes.len()));
            return sum;
        }
        sum = sum.wrapping_add(u64::from(record.word) + u64::from(record.stamp) + u64::from(commands[COMMANDS - 1]));
        offset = record.next;
    }
}

fn median(mut times: Vec<f64>) -> f64 {
    times.sort_by(f64::total_cmp);
    times[times.len() / 2]
}

/// The table of captures: both readers give the same before they are timed, in rounds that take turns.
pub fn table() {
    println!("| A capture of 1 MiB | Proved, MB/s | Rust, MB/s | Proved / Rust, time |");
    println!("|---|---|---|---|");
    let arrival: Vec<u8> =
        [12u16, 1, 1].iter().flat_map(|n| n.to_le_bytes()).chain([0x23, 1, 0, 0, 5, 0, 0, 0]).collect();
    let image = |kind: u16, count: usize| -> Vec<u8> {
        [(4 + 4 * count) as u16, kind, 12]
            .iter()
            .flat_map(|n| n.to_le_bytes())
            .chain((0..count as u32).flat_map(|i| i.wrapping_mul(0x0102_0304).to_le_bytes()))
            .collect()
    };
    let records = [
        ("arrivals", arrival),
        ("schedule images", image(3, COMMANDS)),
        ("old schedule images", image(2, OLD_COMMANDS)),
    ];
    for (name, record) in records {
        let bytes = record.repeat((1 << 20) / record.len());
        let mut commands = [0u32; COMMANDS];
        let mut same = [0u32; COMMANDS];
        assert_eq!(proved(&bytes, 0, &mut commands), rust(&bytes, 0, &mut same), "{name}");
        assert_eq!(commands, same, "{name}");
        let mut round = |read: Read| {
            let start = Instant::now();
            black_box(whole(black_box(&bytes), black_box(&mut commands), read));
            start.elapsed().as_secs_f64()
        };
        let (mut one, mut other) = (Vec::new(), Vec::new());
        for turn in 0..600 {
            if turn % 2 == 0 {
                one.push(round(proved));
                other.push(round(rust));
            } else {
                other.push(round(rust));
                one.push(round(proved));
            }
        }
        let (one, other) = (median(one), median(other));
        let rate = |time: f64| bytes.len() as f64 / time / 1e6;
        println!("| {name} | {:.0} | {:.0} | {:.3} |", rate(one), rate(other), one / other);
    }
}
