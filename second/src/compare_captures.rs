//! Two implementations of capture files on the same bytes: every answer, every lent word and byte, and round trips both ways.

use crate::captures::{
    self, Record, ARRIVAL_BYTES, IMAGE, IMAGE_BYTES, IMAGE_COMMANDS, OLD_IMAGE, OLD_IMAGE_BYTES, OLD_IMAGE_COMMANDS,
};
use crate::lists::Dice;
use crate::random_captures::{bad_record, bytes_of, damage, noise, records};

/// What reading a record gives; zeros and the record's own offset beside a refusal.
#[derive(Clone, Copy, PartialEq, Eq, Debug)]
pub struct Answer {
    pub number: u32,
    pub kind: u32,
    pub next: usize,
    pub channel: u32,
    pub word: u32,
    pub stamp: u32,
}

/// What the C interface hands over.
pub trait CaptureFile {
    /// Kind of the record at an offset; 0 at the end and beside a refusal.
    fn kind(&mut self, bytes: &[u8], offset: usize) -> u32;
    /// The offset behind it; its own at the end and beside a refusal.
    fn offset(&mut self, bytes: &[u8], offset: usize) -> usize;
    /// Its refusal of 20 to 23, or 0.
    fn refusal(&mut self, bytes: &[u8], offset: usize) -> u32;
    fn read(&mut self, bytes: &[u8], offset: usize, commands: &mut [u32]) -> Answer;
    /// Number and next offset; 0 beside a refusal.
    fn write(&mut self, bytes: &mut [u8], offset: usize, record: &Record) -> (u32, usize);
}

/// The capture files of this program.
pub struct OwnCaptures;

impl CaptureFile for OwnCaptures {
    fn kind(&mut self, bytes: &[u8], offset: usize) -> u32 {
        captures::peek(bytes, offset).map_or(0, |(kind, _)| kind)
    }

    fn offset(&mut self, bytes: &[u8], offset: usize) -> usize {
        captures::peek(bytes, offset).map_or(offset, |(_, next)| next)
    }

    fn refusal(&mut self, bytes: &[u8], offset: usize) -> u32 {
        captures::peek(bytes, offset).err().unwrap_or(0)
    }

    fn read(&mut self, bytes: &[u8], offset: usize, commands: &mut [u32]) -> Answer {
        let none = Answer { number: 0, kind: 0, next: offset, channel: 0, word: 0, stamp: 0 };
        match captures::read(bytes, offset, commands.len()) {
            Ok(Some((record, next))) => {
                let words = record.lent_words();
                commands[..words.len()].copy_from_slice(&words);
                let Record { kind, channel, word, stamp, .. } = record;
                Answer { number: 0, kind, next, channel, word, stamp }
            }
            Ok(None) => none,
            Err(number) => Answer { number, ..none },
        }
    }

    fn write(&mut self, bytes: &mut [u8], offset: usize, record: &Record) -> (u32, usize) {
        match captures::write(bytes, offset, record) {
            Ok(next) => (0, next),
            Err(number) => (number, 0),
        }
    }
}

/// Answers by number: 0, and 20 to 24 from place 1 on.
pub type Answers = [u64; 6];

const NUMBERS: [u32; 6] = [0, 20, 21, 22, 23, 24];

/// How often images of a kind were read and written, and how often that was refused.
#[derive(Default, Debug)]
pub struct Images {
    pub read: u64,
    /// Read with exactly as many words lent as reading needs.
    pub read_with_no_word_more: u64,
    /// Fewer bytes left than the length asks: 20.
    pub cut: u64,
    /// One word too few lent: 24.
    pub one_word_short: u64,
    /// As many words lent as kind 2 has commands: 24.
    pub room_of_256: u64,
    pub written: u64,
    /// Written with the other kind's count of commands: 21.
    pub other_count: u64,
}

impl Images {
    /// For the summary line.
    pub fn shown(&self) -> String {
        let Images { read, cut, one_word_short, written, other_count, .. } = self;
        format!("read {read}, cut {cut}, one word short {one_word_short}, written {written}, of the other's count {other_count}")
    }
}

#[derive(Default, Debug)]
pub struct Seen {
    pub captures: u64,
    /// Captures with an image in them.
    pub with_images: u64,
    /// What was done with images of kinds 2 and 3.
    pub old_images: Images,
    pub images: Images,
    /// Captures cut at every byte, and the cuts.
    pub cut: u64,
    pub cuts: u64,
    pub read: Answers,
    pub written: Answers,
    /// Lists of records written and read again; captures read to their end and written again.
    pub lists_again: u64,
    pub bytes_again: u64,
}

fn enter(answers: &mut Answers, number: u32) {
    answers[if number == 0 { 0 } else { (number - 19) as usize }] += 1;
}

/// The numbers that were given and how often, for the summary line.
pub fn shown(answers: &Answers) -> String {
    let given = (0..6).filter(|&place| answers[place] > 0);
    let parts: Vec<String> = given.map(|place| format!("{}: {}", NUMBERS[place], answers[place])).collect();
    parts.join(", ")
}

/// Words lent for commands: none, and at and beside what images of each kind fill.
const ROOMS: [usize; 9] = [
    0,
    1,
    OLD_IMAGE_COMMANDS,
    OLD_IMAGE_COMMANDS + 1,
    IMAGE_COMMANDS - 1,
    IMAGE_COMMANDS - 1,
    IMAGE_COMMANDS,
    IMAGE_COMMANDS,
    IMAGE_COMMANDS + 1,
];

/// Bytes at and beside what a record of each kind needs.
const OUTPUTS: [usize; 9] = [
    0,
    ARRIVAL_BYTES - 1,
    ARRIVAL_BYTES,
    ARRIVAL_BYTES + 1,
    OLD_IMAGE_BYTES - 1,
    OLD_IMAGE_BYTES,
    IMAGE_BYTES - 1,
    IMAGE_BYTES,
    IMAGE_BYTES + 1,
];

/// What stands in lent words and bytes, and beside them, before they are written.
const WORDS_BEFORE: u32 = 0xA5A5_A5A5;
const BYTE_BEFORE: u8 = 0xA5;
/// Words, and bytes, before and behind the lent ones.
const BESIDE: usize = 3;

struct Pair<'a> {
    first: &'a mut dyn CaptureFile,
    second: &'a mut dyn CaptureFile,
    seen: Seen,
}

fn differ<T: std::fmt::Debug>(what: &str, bytes: &[u8], offset: usize, one: T, other: T) -> String {
    format!("{what} at offset {offset} of {} bytes {bytes:02x?}: first {one:?}; second {other:?}", bytes.len())
}

impl Pair<'_> {
    fn images(&mut self, kind: u32) -> Option<&mut Images> {
        match kind {
            OLD_IMAGE => Some(&mut self.seen.old_images),
            IMAGE => Some(&mut self.seen.images),
            _ => None,
        }
    }

    /// Counts the reading of a record that says of itself that it is an image.
    fn enter_image(&mut self, bytes: &[u8], offset: usize, room: usize, number: u32) {
        let kind = bytes.get(offset..).and_then(|left| left.get(2..4));
        let Some(images) = kind.and_then(|kind| self.images(u16::from_le_bytes([kind[0], kind[1]]).into())) else {
            return;
        };
        match number {
            0 => {
                images.read += 1;
                images.read_with_no_word_more += u64::from(room == IMAGE_COMMANDS);
            }
            captures::CUT => images.cut += 1,
            captures::NO_ROOM => {
                images.one_word_short += u64::from(room == IMAGE_COMMANDS - 1);
                images.room_of_256 += u64::from(room == OLD_IMAGE_COMMANDS);
            }
            _ => {}
        }
    }

    /// Reads the record at an offset with room for so many commands, and asks for kind, offset and refusal alone.
    fn read(&mut self, bytes: &[u8], offset: usize, room: usize) -> Result<(Answer, Vec<u32>), String> {
        let mut words = vec![WORDS_BEFORE; room + 2 * BESIDE];
        let mut other_words = words.clone();
        let one = self.first.read(bytes, offset, &mut words[BESIDE..BESIDE + room]);
        let other = self.second.read(bytes, offset, &mut other_words[BESIDE..BESIDE + room]);
        if one != other {
            return Err(differ("reading", bytes, offset, one, other));
        }
        if words != other_words {
            return Err(differ("words lent for commands, reading", bytes, offset, words, other_words));
        }
        let peeked = |file: &mut dyn CaptureFile| {
            (file.kind(bytes, offset), file.offset(bytes, offset), file.refusal(bytes, offset))
        };
        let (peek, other_peek) = (peeked(self.first), peeked(self.second));
        if peek != other_peek {
            return Err(differ("kind, offset behind and refusal", bytes, offset, peek, other_peek));
        }
        enter(&mut self.seen.read, one.number);
        self.enter_image(bytes, offset, room, one.number);
        Ok((one, words[BESIDE..BESIDE + room].to_vec()))
    }

    /// Writes a record at an offset into so many bytes of output, and gives the bytes.
    fn write(&mut self, output: &[u8], offset: usize, record: &Record) -> Result<((u32, usize), Vec<u8>), String> {
        let beside = [BYTE_BEFORE; BESIDE];
        let mut bytes = [&beside, output, &beside].concat();
        let mut other_bytes = bytes.clone();
        let lent = BESIDE..BESIDE + output.len();
        let one = self.first.write(&mut bytes[lent.clone()], offset, record);
        let other = self.second.write(&mut other_bytes[lent.clone()], offset, record);
        if one != other || bytes != other_bytes {
            let (one, other) = ((one, &bytes), (other, &other_bytes));
            return Err(differ(&format!("writing {record:?}"), output, offset, one, other));
        }
        if one.0 != 0 && bytes[lent.clone()] != *output {
            return Err(differ("bytes written beside a refusal", output, offset, one, other));
        }
        enter(&mut self.seen.written, one.0);
        if let Some(images) = self.images(record.kind) {
            images.written += u64::from(one.0 == 0);
            let other_count = [OLD_IMAGE_COMMANDS, IMAGE_COMMANDS].contains(&record.commands.len());
            images.other_count += u64::from(one.0 == captures::BAD_LENGTH && other_count);
        }
        Ok((one, bytes[lent].to_vec()))
    }

    /// The records of a capture, one after another, and the number and offset that end the reading.
    fn read_all(&mut self, bytes: &[u8], room: usize) -> Result<(Vec<Record>, u32, usize), String> {
        let mut records = vec![];
        let mut offset = 0;
        loop {
            let (answer, words) = self.read(bytes, offset, room)?;
            let Answer { number, kind, next, channel, word, stamp } = answer;
            if kind == 0 {
                return Ok((records, number, next));
            }
            let commands = words[..captures::commands_of(kind).unwrap_or(0)].to_vec();
            records.push(Record { kind, channel, word, stamp, commands });
            offset = next;
        }
    }

    /// The bytes of records written one after another, into output of exactly their length and some bytes more.
    fn write_all(&mut self, records: &[Record], length: usize, more: usize) -> Result<(Vec<u8>, usize), String> {
        let mut bytes = vec![BYTE_BEFORE; length + more];
        let mut offset = 0;
        for record in records {
            let ((number, next), written) = self.write(&bytes, offset, record)?;
            if number != 0 {
                return Err(format!(
                    "writing {record:?} at {offset} of {} bytes is refused with {number}",
                    bytes.len()
                ));
            }
            (bytes, offset) = (written, next);
        }
        Ok((bytes, offset))
    }

    /// Reading what was written gives the same records, and ends with 0 at their length.
    fn list_again(&mut self, records: &[Record], bytes: &[u8], more: usize) -> Result<(), String> {
        let (written, end) = self.write_all(records, bytes.len(), more)?;
        if written[..bytes.len()] != *bytes
            || end != bytes.len()
            || written[end..].iter().any(|&byte| byte != BYTE_BEFORE)
        {
            return Err(differ("bytes of records", bytes, end, bytes, &written));
        }
        let again = self.read_all(&written[..end], IMAGE_COMMANDS)?;
        if again != (records.to_vec(), 0, end) {
            return Err(format!("{records:?} are read again as {again:?}"));
        }
        self.seen.lists_again += 1;
        Ok(())
    }

    /// Writing what was read gives the same bytes, where the reading ends with 0.
    fn bytes_again(&mut self, bytes: &[u8]) -> Result<(), String> {
        let (records, number, offset) = self.read_all(bytes, IMAGE_COMMANDS)?;
        if number == 0 {
            let (written, end) = self.write_all(&records, bytes.len(), 0)?;
            if written != bytes || end != offset || end != bytes.len() {
                return Err(differ("bytes written again", bytes, end, bytes, &written));
            }
            self.seen.bytes_again += 1;
        }
        Ok(())
    }

    /// The capture cut at every byte.
    fn cut_everywhere(&mut self, bytes: &[u8], starts: &[usize]) -> Result<(), String> {
        for cut in 0..=bytes.len() {
            // From the last record that begins before the cut: those before it are whole.
            let from = starts.iter().copied().take_while(|&start| start < cut).last().unwrap_or(0);
            let (answer, _) = self.read(&bytes[..cut], from, IMAGE_COMMANDS)?;
            self.read(&bytes[..cut], answer.next, IMAGE_COMMANDS)?;
            self.seen.cuts += 1;
        }
        self.seen.cut += 1;
        Ok(())
    }

    /// One capture: written, read again, read at any offset, damaged, and its records written where they are refused.
    fn capture(&mut self, dice: &mut Dice) -> Result<(), String> {
        let images = if dice.chance(3) { 40 } else { 0 };
        let list = records(dice, 5, images);
        let (mut bytes, starts) = bytes_of(&list);
        let with_image = list.iter().any(|record| !record.commands.is_empty());
        let more = dice.one_of(&[0, 0, 1, 20]) as usize;
        self.list_again(&list, &bytes, more)?;
        if dice.chance(if with_image { 4 } else { 10 }) {
            self.cut_everywhere(&bytes, &starts)?;
        }
        let room = ROOMS[dice.below(ROOMS.len() as u32) as usize];
        self.read_all(&bytes, room)?;
        self.refused_writes(dice, &list, &bytes)?;
        if dice.chance(5) {
            bytes = noise(dice);
        } else if dice.chance(90) {
            damage(dice, &mut bytes, &starts);
        }
        self.bytes_again(&bytes)?;
        self.read_all(&bytes, room)?;
        for _ in 0..2 {
            let offset = any_offset(dice, bytes.len());
            self.read(&bytes, offset, room)?;
        }
        self.seen.captures += 1;
        self.seen.with_images += u64::from(with_image);
        Ok(())
    }

    /// Records that are bad ones, outputs one byte short, and offsets at and beyond the end.
    fn refused_writes(&mut self, dice: &mut Dice, list: &[Record], bytes: &[u8]) -> Result<(), String> {
        let Some(record) = list.last() else {
            return Ok(());
        };
        let (own, _) = bytes_of(std::slice::from_ref(record));
        let start = bytes.len() - own.len();
        self.write(&bytes[..bytes.len() - 1], start, record)?;
        self.write(bytes, start + 1, record)?;
        let offset = any_offset(dice, bytes.len());
        self.write(bytes, offset, record)?;
        let bad = bad_record(dice, record);
        let offset = if dice.chance(70) { 0 } else { any_offset(dice, bytes.len()) };
        let output = vec![BYTE_BEFORE; OUTPUTS[dice.below(OUTPUTS.len() as u32) as usize]];
        self.write(&output, offset, &bad)?;
        self.write(&output, offset, record)?;
        Ok(())
    }
}

/// An offset in a capture, at its end, beyond it, or near the greatest number of all.
fn any_offset(dice: &mut Dice, length: usize) -> usize {
    match dice.below(6) {
        0 | 1 => dice.below(length as u32 + 1) as usize,
        2 => length,
        3 => length + 1 + dice.below(20) as usize,
        4 => {
            usize::MAX
                - dice.one_of(&[0, 1, 2, 3, 11, 12]) as usize
                - OUTPUTS[dice.below(OUTPUTS.len() as u32) as usize]
        }
        _ => (usize::MAX - length).wrapping_add(dice.below(3) as usize),
    }
}

/// Runs random captures, or stops at the first difference, told in words; also where a number was never given.
pub fn compare(
    captures: u64,
    seed: u64,
    first: &mut dyn CaptureFile,
    second: &mut dyn CaptureFile,
) -> Result<Seen, String> {
    let mut pair = Pair { first, second, seen: Seen::default() };
    let mut dice = Dice::new(seed);
    for _ in 0..captures {
        pair.capture(&mut dice)?;
    }
    let seen = pair.seen;
    for (place, number) in NUMBERS.into_iter().enumerate() {
        // A record to be written is never cut.
        if seen.read[place] == 0 || (seen.written[place] == 0) != (number == captures::CUT) {
            return Err(format!(
                "{number} is reached {} times reading, {} times writing",
                seen.read[place], seen.written[place]
            ));
        }
    }
    Ok(seen)
}
