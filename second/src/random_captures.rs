//! Random records and captures, good ones and bad ones.

use crate::captures::{
    self, Record, ARRIVAL, ARRIVAL_BYTES, BAD_LENGTH, CUT, IMAGE, IMAGE_BYTES, IMAGE_COMMANDS, NO_CHANNEL, OLD_IMAGE,
    OLD_IMAGE_BYTES, OLD_IMAGE_COMMANDS, UNKNOWN_KIND,
};
use crate::layout::CHANNELS;
use crate::lists::Dice;

/// Kinds that are none, near the known ones.
const UNKNOWN_KINDS: [u32; 9] = [0, 4, 4, 5, 0x0101, 0x0102, 0x0103, 0x0300, 0xFFFF];
/// Channels that are none, some with a good low byte.
const NO_CHANNELS: [u32; 7] = [0, 0, CHANNELS + 1, CHANNELS + 1, 0x0100, 0x0101, 0xFFFF];
/// The lengths of the known kinds: they count kind and body.
const LENGTHS: [u32; 3] = [ARRIVAL_BYTES as u32 - 2, OLD_IMAGE_BYTES as u32 - 2, IMAGE_BYTES as u32 - 2];
/// Counts of commands at and beside those of the images.
const COUNTS: [usize; 13] = [
    0,
    1,
    14,
    OLD_IMAGE_COMMANDS - 1,
    OLD_IMAGE_COMMANDS - 1,
    OLD_IMAGE_COMMANDS,
    OLD_IMAGE_COMMANDS,
    OLD_IMAGE_COMMANDS + 1,
    OLD_IMAGE_COMMANDS + 1,
    IMAGE_COMMANDS - 1,
    IMAGE_COMMANDS,
    IMAGE_COMMANDS,
    IMAGE_COMMANDS + 1,
];

/// Any number, one at an end, or a small one.
fn number(dice: &mut Dice) -> u32 {
    let any = dice.word();
    dice.one_of(&[any, any, any % 256, 0, 1, u32::MAX])
}

pub fn arrival(dice: &mut Dice) -> Record {
    Record {
        kind: ARRIVAL,
        channel: 1 + dice.below(CHANNELS),
        word: number(dice),
        stamp: number(dice),
        commands: vec![],
    }
}

/// An image of a kind.
pub fn image_of(dice: &mut Dice, kind: u32) -> Record {
    let channel = 1 + dice.below(CHANNELS);
    let commands = (0..captures::commands_of(kind).unwrap_or(0)).map(|_| dice.word()).collect();
    Record { kind, channel, word: 0, stamp: 0, commands }
}

/// An image of either kind.
pub fn image(dice: &mut Dice) -> Record {
    let kind = dice.one_of(&[OLD_IMAGE, IMAGE]);
    image_of(dice, kind)
}

/// Some records, of which so many in a hundred are images.
pub fn records(dice: &mut Dice, most: u32, images: u32) -> Vec<Record> {
    (0..dice.below(most + 1)).map(|_| if dice.chance(images) { image(dice) } else { arrival(dice) }).collect()
}

/// A record that writing refuses, or with luck does not: one or two things of it are wrong.
pub fn bad_record(dice: &mut Dice, good: &Record) -> Record {
    let mut record = good.clone();
    for _ in 0..1 + dice.below(2) {
        match dice.below(3) {
            0 => {
                let any = dice.word();
                let kind = dice.one_of(&UNKNOWN_KINDS);
                let other = 1 + (good.kind + dice.below(2)) % IMAGE;
                record.kind = dice.one_of(&[kind, kind, other, good.kind + 0x1_0000, any]);
            }
            1 => {
                let any = dice.word();
                let channel = dice.one_of(&NO_CHANNELS);
                record.channel = dice.one_of(&[channel, channel, good.channel + 0x1_0000, any]);
            }
            _ => {
                let count = COUNTS[dice.below(COUNTS.len() as u32) as usize];
                record.commands.resize(count, 7);
            }
        }
    }
    record
}

/// The bytes of good records, and where each of them begins.
pub fn bytes_of(records: &[Record]) -> (Vec<u8>, Vec<usize>) {
    let (mut bytes, mut starts) = (vec![], vec![]);
    for record in records {
        let start = bytes.len();
        starts.push(start);
        bytes.resize(start + IMAGE_BYTES, 0);
        let end = captures::write(&mut bytes, start, record).expect("a good record and room enough");
        bytes.truncate(end);
    }
    (bytes, starts)
}

fn put(bytes: &mut [u8], offset: usize, number: u32) {
    bytes[offset..offset + 2].copy_from_slice(&(number as u16).to_le_bytes());
}

/// One thing of a capture is changed, so that a record of it is mostly a bad one. Words and stamps may change too: then it is a good one.
pub fn damage(dice: &mut Dice, bytes: &mut Vec<u8>, starts: &[usize]) {
    let draw = dice.below(12);
    if starts.is_empty() || draw == 0 {
        // Some bytes behind the last record.
        for _ in 0..1 + dice.below(5) {
            bytes.push(dice.below(4) as u8);
        }
        return;
    }
    let start = starts[dice.below(starts.len() as u32) as usize];
    match draw {
        // Any byte, in most cases of some record's first ones.
        1..=3 => {
            let end = if dice.chance(30) { bytes.len() } else { start + ARRIVAL_BYTES };
            let place = start + dice.below((end - start) as u32) as usize;
            let any = dice.word() as u8;
            let bit = 1 << dice.below(8);
            bytes[place] = [any, bytes[place] ^ bit, bytes[place].wrapping_add(1), bytes[place].wrapping_sub(1)]
                [dice.below(4) as usize];
        }
        // The length: below 2, beside its own, that of any kind, as long as what is left or one more.
        4..=6 => {
            let own = u32::from(bytes[start]) + 256 * u32::from(bytes[start + 1]);
            let left = (bytes.len() - start - 2) as u32;
            let (any, of_a_kind) = (dice.word(), dice.one_of(&LENGTHS));
            let length =
                dice.one_of(&[0, 1, 2, 3, own - 1, own + 1, of_a_kind, of_a_kind, left, left + 1, 0xFFFF, any]);
            put(bytes, start, length);
        }
        7 | 8 => put(bytes, start + 2, dice.one_of(&UNKNOWN_KINDS)),
        9 => put(bytes, start + 4, dice.one_of(&NO_CHANNELS)),
        // Two things at once: which number comes first.
        10 => {
            put(bytes, start + 2, dice.one_of(&[0, ARRIVAL, OLD_IMAGE, IMAGE, 4]));
            put(bytes, start + 4, dice.one_of(&NO_CHANNELS));
            if dice.chance(50) {
                let left = (bytes.len() - start - 2) as u32;
                let of_a_kind = dice.one_of(&LENGTHS);
                put(bytes, start, dice.one_of(&[0, 1, 2, of_a_kind, of_a_kind, left, left + 1]));
            }
        }
        _ => bytes.truncate(dice.below(bytes.len() as u32 + 1) as usize),
    }
}

/// Bytes with no plan.
pub fn noise(dice: &mut Dice) -> Vec<u8> {
    let end = dice.one_of(&[3, 16, 256]);
    (0..dice.below(40)).map(|_| dice.below(end) as u8).collect()
}

/// Bytes of a record that reading refuses with this number, short or as long as a record can be; no byte for another number.
pub fn refused_with(number: u32, long: bool) -> Vec<u8> {
    let (kind, channel) = match number {
        CUT => (IMAGE, 1),
        BAD_LENGTH => (ARRIVAL, 1),
        UNKNOWN_KIND => (4, 1),
        // The greatest length of a good record is that of a new image.
        NO_CHANNEL if long => (IMAGE, CHANNELS + 1),
        NO_CHANNEL => (ARRIVAL, CHANNELS + 1),
        _ => return vec![],
    };
    let length = match (number, long) {
        (NO_CHANNEL, false) => LENGTHS[0],
        (NO_CHANNEL, true) => LENGTHS[2],
        (_, false) => 4,
        (_, true) => 0xFFFF,
    };
    let mut bytes = vec![7; 2 + length as usize];
    for (offset, number) in [(0, length), (2, kind), (4, channel)] {
        put(&mut bytes, offset, number);
    }
    if number == CUT {
        bytes.pop();
    }
    bytes
}
