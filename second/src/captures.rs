//! Capture files: records one after another in lent bytes, each of an arrival or of a schedule image.
//!
//! A record is length (two bytes, counting kind and body), kind (two bytes) and body; every number has its low byte first.
//! Kind 1, an arrival: channel (2), word (4), stamp (4). Kinds 2 and 3, schedule images: channel (2) and 256 or 512 commands (4 each).
//! New images are kind 3; kind 2 still loads, and a record keeps its kind.

use crate::layout::{CHANNELS, COMMANDS};

/// Fewer bytes left than 2, or than the length asks.
pub const CUT: u32 = 20;
/// A length below 2 or wrong for a known kind; on writing another count of commands than the kind's own.
pub const BAD_LENGTH: u32 = 21;
pub const UNKNOWN_KIND: u32 = 22;
/// A channel outside 1 to 12.
pub const NO_CHANNEL: u32 = 23;
/// Lent output too short for the record.
pub const NO_ROOM: u32 = 24;

pub const ARRIVAL: u32 = 1;
pub const OLD_IMAGE: u32 = 2;
pub const IMAGE: u32 = 3;
/// Commands of an image of each kind. Reading either needs room for the greater.
pub const OLD_IMAGE_COMMANDS: usize = 256;
pub const IMAGE_COMMANDS: usize = COMMANDS;
/// Bytes of the length, the kind and the channel, with which a record begins.
const HEAD_BYTES: usize = 6;
/// Bytes of a whole record of each kind.
pub const ARRIVAL_BYTES: usize = HEAD_BYTES + 8;
pub const OLD_IMAGE_BYTES: usize = HEAD_BYTES + 4 * OLD_IMAGE_COMMANDS;
pub const IMAGE_BYTES: usize = HEAD_BYTES + 4 * IMAGE_COMMANDS;

/// Of an arrival there are no commands, of an image its kind's own count; of an image word and stamp are 0 and do not count.
#[derive(Clone, PartialEq, Eq, Debug, Default)]
pub struct Record {
    pub kind: u32,
    pub channel: u32,
    pub word: u32,
    pub stamp: u32,
    pub commands: Vec<u32>,
}

impl Record {
    /// What reading fills the lent words with: of an image its own commands, of kind 2 then stop (words of 0), of an arrival none.
    pub fn lent_words(&self) -> Vec<u32> {
        let mut words = self.commands.clone();
        if self.kind != ARRIVAL {
            words.resize(IMAGE_COMMANDS, 0);
        }
        words
    }
}

/// How many commands a record of this kind has; none for an unknown kind.
pub fn commands_of(kind: u32) -> Option<usize> {
    match kind {
        ARRIVAL => Some(0),
        OLD_IMAGE => Some(OLD_IMAGE_COMMANDS),
        IMAGE => Some(IMAGE_COMMANDS),
        _ => None,
    }
}

/// Bytes of a whole record of this kind; none for an unknown kind.
pub fn record_bytes(kind: u32) -> Option<usize> {
    match kind {
        ARRIVAL => Some(ARRIVAL_BYTES),
        OLD_IMAGE => Some(OLD_IMAGE_BYTES),
        IMAGE => Some(IMAGE_BYTES),
        _ => None,
    }
}

/// A record where it stands: what the body has behind the channel, and the offset behind the record.
struct Found<'a> {
    kind: u32,
    channel: u32,
    rest: &'a [u8],
    next: usize,
}

fn number(bytes: &[u8]) -> u32 {
    bytes.iter().rev().fold(0, |number, &byte| number << 8 | u32::from(byte))
}

/// The record at an offset; none exactly at the end. Refused by 20 to 23.
fn find(bytes: &[u8], offset: usize) -> Result<Option<Found<'_>>, u32> {
    let left = bytes.get(offset..).ok_or(CUT)?;
    if left.is_empty() {
        return Ok(None);
    }
    let (length, behind) = left.split_at_checked(2).ok_or(CUT)?;
    let record = behind.get(..number(length) as usize).ok_or(CUT)?;
    let (kind, body) = record.split_at_checked(2).ok_or(BAD_LENGTH)?;
    let kind = number(kind);
    if 2 + record.len() != record_bytes(kind).ok_or(UNKNOWN_KIND)? {
        return Err(BAD_LENGTH);
    }
    let (channel, rest) = body.split_at(2);
    let channel = number(channel);
    if !(1..=CHANNELS).contains(&channel) {
        return Err(NO_CHANNEL);
    }
    Ok(Some(Found { kind, channel, rest, next: offset + 2 + record.len() }))
}

/// The kind of the record at an offset and the offset behind it; kind 0 and the same offset at the end. Refused by 20 to 23.
pub fn peek(bytes: &[u8], offset: usize) -> Result<(u32, usize), u32> {
    Ok(find(bytes, offset)?.map_or((0, offset), |found| (found.kind, found.next)))
}

/// The record at an offset and the offset behind it, with so many words lent for commands; none at the end. An image of either kind fills 512.
pub fn read(bytes: &[u8], offset: usize, room: usize) -> Result<Option<(Record, usize)>, u32> {
    let Some(Found { kind, channel, rest, next }) = find(bytes, offset)? else {
        return Ok(None);
    };
    let numbers: Vec<u32> = rest.chunks(4).map(number).collect();
    let record = match numbers[..] {
        [word, stamp] if kind == ARRIVAL => Record { kind, channel, word, stamp, commands: vec![] },
        _ if room < IMAGE_COMMANDS => return Err(NO_ROOM),
        _ => Record { kind, channel, word: 0, stamp: 0, commands: numbers },
    };
    Ok(Some((record, next)))
}

/// Writes a record at an offset of the lent output and gives the offset behind it; refused by 21 to 24 with no byte written.
pub fn write(output: &mut [u8], offset: usize, record: &Record) -> Result<usize, u32> {
    let Record { kind, channel, word, stamp, ref commands } = *record;
    let whole = record_bytes(kind).ok_or(UNKNOWN_KIND)?;
    if Some(commands.len()) != commands_of(kind) {
        return Err(BAD_LENGTH);
    }
    if !(1..=CHANNELS).contains(&channel) {
        return Err(NO_CHANNEL);
    }
    let place = output.get_mut(offset..).and_then(|left| left.get_mut(..whole)).ok_or(NO_ROOM)?;
    let mut bytes = vec![];
    for short in [(whole - 2) as u16, kind as u16, channel as u16] {
        bytes.extend(short.to_le_bytes());
    }
    let numbers: &[u32] = if kind == ARRIVAL { &[word, stamp] } else { commands };
    for number in numbers {
        bytes.extend(number.to_le_bytes());
    }
    place.copy_from_slice(&bytes);
    Ok(offset + bytes.len())
}

#[cfg(test)]
mod tests {
    use super::*;

    /// The request's own example.
    const EXAMPLE: [u8; 14] = [0x0C, 0, 1, 0, 1, 0, 0x23, 1, 0, 0, 5, 0, 0, 0];

    fn arrival(channel: u32, word: u32, stamp: u32) -> Record {
        Record { kind: 1, channel, word, stamp, commands: vec![] }
    }

    fn image_of(kind: u32, channel: u32) -> Record {
        let commands = (0..commands_of(kind).unwrap() as u32).map(|k| k.wrapping_mul(0x0101_0101)).collect();
        Record { kind, channel, commands, ..Record::default() }
    }

    fn old_image(channel: u32) -> Record {
        image_of(2, channel)
    }

    fn image(channel: u32) -> Record {
        image_of(3, channel)
    }

    #[test]
    fn the_example_of_the_request() {
        let mut bytes = [0xEE; 16];
        assert_eq!(write(&mut bytes, 1, &arrival(1, 0x123, 5)), Ok(15));
        assert_eq!(bytes[1..15], EXAMPLE);
        assert_eq!([bytes[0], bytes[15]], [0xEE; 2], "bytes beside the record stay");
        assert_eq!(read(&EXAMPLE, 0, 0), Ok(Some((arrival(1, 0x123, 5), 14))));
        assert_eq!(read(&EXAMPLE, 14, 0), Ok(None));
        assert_eq!([peek(&EXAMPLE, 0), peek(&EXAMPLE, 14)], [Ok((1, 14)), Ok((0, 14))]);
        assert_eq!(peek(&[], 0), Ok((0, 0)));
    }

    #[test]
    fn an_image_of_kind_2_is_1030_bytes_and_one_of_kind_3_2054() {
        assert_eq!(
            [record_bytes(1), record_bytes(2), record_bytes(3), record_bytes(4)],
            [Some(14), Some(1030), Some(2054), None]
        );
        for (record, whole, length) in [(old_image(12), 1030, [0x04, 0x04]), (image(12), 2054, [0x04, 0x08])] {
            let mut bytes = vec![0; whole];
            assert_eq!(write(&mut bytes, 0, &record), Ok(whole));
            assert_eq!(bytes[..2], length);
            assert_eq!(bytes[2..6], [record.kind as u8, 0, 12, 0]);
            assert_eq!(bytes[10..14], [1, 1, 1, 1]);
            for room in [512, 513] {
                assert_eq!(read(&bytes, 0, room), Ok(Some((record.clone(), whole))), "the record keeps its kind");
            }
            for room in [0, 255, 256, 257, 511] {
                assert_eq!(read(&bytes, 0, room), Err(24), "either kind fills 512");
            }
            assert_eq!(peek(&bytes, 0), Ok((record.kind, whole)), "no lent words, no 24");
        }
    }

    #[test]
    fn kind_2_fills_its_own_256_and_then_words_of_0() {
        let words = old_image(1).lent_words();
        assert_eq!(words.len(), 512);
        assert_eq!(words[..256], old_image(1).commands);
        assert!(words[256..].iter().all(|&word| word == 0));
        assert_eq!(image(1).lent_words(), image(1).commands);
        assert_eq!(arrival(1, 2, 3).lent_words(), []);
    }

    #[test]
    fn cut_records_are_20() {
        for cut in 1..14 {
            assert_eq!(read(&EXAMPLE[..cut], 0, 256), Err(20), "{cut}");
        }
        for offset in [15, 16, usize::MAX - 1, usize::MAX] {
            assert_eq!(read(&EXAMPLE, offset, 256), Err(20));
        }
        // Before every other refusal: a length below 2, an unknown kind, channel 0.
        assert_eq!(read(&[1, 0], 0, 0), Err(20));
        assert_eq!(read(&[4, 0, 9, 0, 0], 0, 0), Err(20));
    }

    #[test]
    fn lengths_are_21() {
        assert_eq!(read(&[0, 0], 0, 0), Err(21));
        assert_eq!(read(&[1, 0, 1], 0, 0), Err(21));
        let of_arrivals = [2, 11, 13, 1028, 2052].map(|length| (1, length));
        let of_old_images = [2, 12, 1027, 1029, 2052].map(|length| (2, length));
        let of_images = [2, 12, 1028, 2051, 2053].map(|length| (3, length));
        for (kind, length) in [of_arrivals, of_old_images, of_images].concat() {
            let mut bytes = vec![0; 2 + length];
            bytes[..2].copy_from_slice(&(length as u16).to_le_bytes());
            bytes[2] = kind;
            assert_eq!(read(&bytes, 0, 0), Err(21), "before the channel, 0, and the room");
        }
    }

    #[test]
    fn unknown_kinds_are_22_with_any_length() {
        for kind in [0, 4, 0x0101, 0x0201, 0x0300, 0xFFFF_u16] {
            let [low, high] = kind.to_le_bytes();
            assert_eq!(read(&[2, 0, low, high], 0, 0), Err(22));
            assert_eq!(read(&[4, 0, low, high, 0, 0], 0, 0), Err(22));
            assert_eq!(write(&mut [0; 3000], 0, &Record { kind: kind.into(), ..arrival(1, 1, 1) }), Err(22));
            assert_eq!(write(&mut [0; 3000], 0, &Record { kind: kind.into(), ..image(0) }), Err(22));
        }
        assert_eq!(write(&mut [0; 3000], 0, &Record { kind: 0x1_0001, ..arrival(1, 1, 1) }), Err(22));
        assert_eq!(write(&mut [], 9, &Record::default()), Err(22));
    }

    #[test]
    fn channels_outside_1_to_12_are_23() {
        for channel in [0, 13, 0x0101, 0xFFFF] {
            let mut bytes = EXAMPLE;
            bytes[4..6].copy_from_slice(&(channel as u16).to_le_bytes());
            assert_eq!(read(&bytes, 0, 0), Err(23));
            assert_eq!(write(&mut [], 1, &arrival(channel, 1, 1)), Err(23));
            assert_eq!(write(&mut [], 1, &old_image(channel)), Err(23));
            assert_eq!(write(&mut [], 1, &image(channel)), Err(23));
        }
        assert_eq!(write(&mut [0; 14], 0, &arrival(0x1_0001, 1, 1)), Err(23));
        assert!((1..=12).all(|channel| write(&mut [0; 14], 0, &arrival(channel, 1, 1)) == Ok(14)));
    }

    #[test]
    fn command_counts_are_21_on_writing() {
        for count in [1, 255, 256, 257, 512] {
            assert_eq!(write(&mut [], 0, &Record { commands: vec![0; count], ..arrival(0, 1, 1) }), Err(21));
        }
        for count in [0, 1, 255, 257, 512] {
            assert_eq!(write(&mut [], 0, &Record { commands: vec![0; count], ..old_image(0) }), Err(21));
        }
        for count in [0, 1, 256, 511, 513] {
            assert_eq!(write(&mut [], 0, &Record { commands: vec![0; count], ..image(0) }), Err(21));
        }
    }

    #[test]
    fn output_too_short_is_24() {
        for (record, bytes) in [(arrival(1, 1, 1), 14), (old_image(1), 1030), (image(1), 2054)] {
            let mut output = vec![0xEE; bytes];
            for offset in [1, 2, bytes, bytes + 1, usize::MAX - 13, usize::MAX] {
                assert_eq!(write(&mut output, offset, &record), Err(24));
            }
            assert_eq!(write(&mut output[1..], 0, &record), Err(24));
            assert!(output.iter().all(|&byte| byte == 0xEE), "nothing is written");
            assert_eq!(write(&mut output, 0, &record), Ok(bytes));
        }
    }

    #[test]
    fn word_and_stamp_of_an_image_do_not_count() {
        let (mut one, mut other) = ([0; 2054], [0; 2054]);
        write(&mut one, 0, &image(3)).unwrap();
        write(&mut other, 0, &Record { word: 7, stamp: 9, ..image(3) }).unwrap();
        assert_eq!(one, other);
    }
}
