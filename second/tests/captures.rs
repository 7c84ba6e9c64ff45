//! The comparison of capture files: it reaches every number, and a capture file with one thing wrong is found out.
//! The programs that show and make captures.
//! `cargo test --release --test captures -- --nocapture` prints how often images of each kind are met.

use second::capture_programs::{make, show};
use second::captures::{self, Record, ARRIVAL, IMAGE, IMAGE_COMMANDS, OLD_IMAGE, OLD_IMAGE_COMMANDS};
use second::compare_captures::{compare, Answer, CaptureFile, Images, OwnCaptures};
use second::lists::Dice;
use second::random_captures::{bytes_of, image_of, refused_with};

type Peeked = (u32, usize, u32);

/// The right answers, with one thing changed.
struct Wrong {
    peek: fn(&[u8], usize, Peeked) -> Peeked,
    read: fn(&[u8], usize, &mut [u32], Answer) -> Answer,
    write: fn(&mut [u8], usize, &Record, (u32, usize)) -> (u32, usize),
}

const RIGHT: Wrong =
    Wrong { peek: |_, _, peeked| peeked, read: |_, _, _, answer| answer, write: |_, _, _, answer| answer };

impl Wrong {
    fn peeked(&self, bytes: &[u8], offset: usize) -> Peeked {
        let own = &mut OwnCaptures;
        (self.peek)(bytes, offset, (own.kind(bytes, offset), own.offset(bytes, offset), own.refusal(bytes, offset)))
    }
}

impl CaptureFile for Wrong {
    fn kind(&mut self, bytes: &[u8], offset: usize) -> u32 {
        self.peeked(bytes, offset).0
    }

    fn offset(&mut self, bytes: &[u8], offset: usize) -> usize {
        self.peeked(bytes, offset).1
    }

    fn refusal(&mut self, bytes: &[u8], offset: usize) -> u32 {
        self.peeked(bytes, offset).2
    }

    fn read(&mut self, bytes: &[u8], offset: usize, commands: &mut [u32]) -> Answer {
        let answer = OwnCaptures.read(bytes, offset, commands);
        (self.read)(bytes, offset, commands, answer)
    }

    fn write(&mut self, bytes: &mut [u8], offset: usize, record: &Record) -> (u32, usize) {
        let answer = OwnCaptures.write(bytes, offset, record);
        (self.write)(bytes, offset, record, answer)
    }
}

fn refused(number: u32, offset: usize) -> Answer {
    Answer { number, kind: 0, next: offset, channel: 0, word: 0, stamp: 0 }
}

/// Two bytes at a place behind an offset, where they are.
fn short(bytes: &[u8], offset: usize, place: usize) -> Option<u32> {
    let at = offset.checked_add(place)?;
    let two = bytes.get(at..at.checked_add(2)?)?;
    Some(u32::from(two[0]) + 256 * u32::from(two[1]))
}

#[test]
fn every_number_is_reached() {
    let seen = compare(20_000, 1, &mut OwnCaptures, &mut Wrong { ..RIGHT }).expect("the same captures twice");
    assert_eq!(seen.captures, 20_000);
    assert_eq!(seen.lists_again, 20_000);
    assert!(seen.with_images > 200 && seen.cut > 1_000 && seen.cuts > 50_000 && seen.bytes_again > 3_000, "{seen:?}");
    // 0 and 20 to 24 on reading; 0 and 21 to 24 on writing.
    assert!(seen.read.iter().all(|&count| count > 100), "{:?}", seen.read);
    assert!([0, 2, 3, 4, 5].iter().all(|&place| seen.written[place] > 1_000), "{:?}", seen.written);
    assert_eq!(seen.written[1], 0);
}

#[test]
fn images_of_both_kinds_are_met_whole_cut_and_with_every_room() {
    let seen = compare(20_000, 1, &mut OwnCaptures, &mut Wrong { ..RIGHT }).expect("the same captures twice");
    for (kind, images) in [(OLD_IMAGE, &seen.old_images), (IMAGE, &seen.images)] {
        let Images { read, read_with_no_word_more, cut, one_word_short, room_of_256, written, other_count } = *images;
        println!("{read:>7} images of kind {kind} read, {read_with_no_word_more} with {IMAGE_COMMANDS} words lent");
        println!("{cut:>7} cut: 20");
        println!("{one_word_short:>7} with {} words lent: 24", IMAGE_COMMANDS - 1);
        println!("{room_of_256:>7} with {OLD_IMAGE_COMMANDS} words lent: 24");
        println!("{written:>7} written");
        println!("{other_count:>7} with the other kind's count of commands: 21");
        assert!(read > 200 && read_with_no_word_more > 200 && cut > 5_000 && written > 200, "{images:?}");
        assert!(one_word_short > 20 && room_of_256 > 10 && other_count > 20, "{images:?}");
    }
}

#[test]
fn wrong_readers_are_found_out() {
    let wrong: [(&str, fn(&[u8], usize, &mut [u32], Answer) -> Answer); 24] = [
        ("an offset past the end taken for the end", |bytes, offset, _, answer| match answer.number {
            20 if offset > bytes.len() => refused(0, offset),
            _ => answer,
        }),
        ("an offset near the greatest number goes around", |bytes, offset, _, answer| match answer.number {
            20 if offset > usize::MAX - 2 => OwnCaptures.read(bytes, offset.wrapping_add(2), &mut []),
            _ => answer,
        }),
        ("one byte left taken for the end", |bytes, offset, _, answer| match answer.number {
            20 if offset.checked_add(1) == Some(bytes.len()) => refused(0, offset),
            _ => answer,
        }),
        ("a length below 2 told before a cut", |bytes, offset, _, answer| match short(bytes, offset, 0) {
            Some(0 | 1) if answer.number == 20 => refused(21, offset),
            _ => answer,
        }),
        ("a length of 0 taken for the end", |bytes, offset, _, answer| match short(bytes, offset, 0) {
            Some(0) if answer.number == 21 => refused(0, offset),
            _ => answer,
        }),
        ("an unknown kind told before a cut", |bytes, offset, _, answer| match short(bytes, offset, 2) {
            Some(kind) if answer.number == 20 && captures::commands_of(kind).is_none() => refused(22, offset),
            _ => answer,
        }),
        ("an unknown kind passed over", |bytes, offset, commands, answer| match short(bytes, offset, 0) {
            Some(length) if answer.number == 22 => OwnCaptures.read(bytes, offset + 2 + length as usize, commands),
            _ => answer,
        }),
        ("an unknown kind of another length than 12 refused with 21", |bytes, offset, _, answer| {
            match short(bytes, offset, 0) {
                Some(length) if answer.number == 22 && length != 12 => refused(21, offset),
                _ => answer,
            }
        }),
        ("a channel told before an unknown kind", |bytes, offset, _, answer| match short(bytes, offset, 4) {
            Some(0 | 13..) if answer.number == 22 => refused(23, offset),
            _ => answer,
        }),
        ("a channel told before a wrong length", |bytes, offset, _, answer| match short(bytes, offset, 4) {
            Some(0 | 13..) if answer.number == 21 => refused(23, offset),
            _ => answer,
        }),
        ("channel 13 taken", |bytes, offset, _, answer| match short(bytes, offset, 4) {
            Some(13) if answer.number == 23 => Answer { number: 0, kind: 1, channel: 13, ..answer },
            _ => answer,
        }),
        ("no room told before a channel", |bytes, offset, commands, answer| match short(bytes, offset, 2) {
            Some(OLD_IMAGE | IMAGE) if answer.number == 23 && commands.len() < IMAGE_COMMANDS => refused(24, offset),
            _ => answer,
        }),
        ("no room told for an arrival", |_, offset, commands, answer| match answer.kind {
            ARRIVAL if commands.len() < IMAGE_COMMANDS => refused(24, offset),
            _ => answer,
        }),
        ("offset 0 beside a refusal", |_, _, _, answer| match answer.number {
            0 => answer,
            _ => Answer { next: 0, ..answer },
        }),
        ("a channel left beside a refusal", |bytes, offset, _, answer| match answer.number {
            24 => Answer { channel: short(bytes, offset, 4).unwrap(), ..answer },
            _ => answer,
        }),
        ("commands written beside a refusal", |_, _, commands, answer| {
            if let (24, Some(first)) = (answer.number, commands.first_mut()) {
                *first = 0;
            }
            answer
        }),
        ("words behind an image zeroed", |_, _, commands, answer| {
            if answer.kind == IMAGE {
                commands[IMAGE_COMMANDS..].fill(0);
            }
            answer
        }),
        ("words behind an image of kind 2 zeroed", |_, _, commands, answer| {
            if answer.kind == OLD_IMAGE {
                commands[IMAGE_COMMANDS..].fill(0);
            }
            answer
        }),
        ("kind 2 leaves the words behind its own", |_, _, commands, answer| {
            if answer.kind == OLD_IMAGE {
                commands[OLD_IMAGE_COMMANDS..IMAGE_COMMANDS].fill(0xA5A5_A5A5);
            }
            answer
        }),
        ("kind 2 read with room for its own alone", |bytes, offset, commands, answer| {
            let own = commands.len() >= OLD_IMAGE_COMMANDS && short(bytes, offset, 2) == Some(OLD_IMAGE);
            match answer.number {
                24 if own => {
                    let answer = OwnCaptures.read(bytes, offset, &mut [0; IMAGE_COMMANDS]);
                    commands[..OLD_IMAGE_COMMANDS].fill(0);
                    answer
                }
                _ => answer,
            }
        }),
        ("kind 3 read with one word too few", |bytes, offset, commands, answer| match short(bytes, offset, 2) {
            Some(IMAGE) if answer.number == 24 && commands.len() == IMAGE_COMMANDS - 1 => {
                OwnCaptures.read(bytes, offset, &mut [0; IMAGE_COMMANDS])
            }
            _ => answer,
        }),
        ("kind 2 read as kind 3", |_, _, _, answer| match answer.kind {
            OLD_IMAGE => Answer { kind: IMAGE, ..answer },
            _ => answer,
        }),
        ("kind 3 unknown", |_, offset, _, answer| match answer.kind {
            IMAGE => refused(22, offset),
            _ => answer,
        }),
        ("word and stamp exchanged", |_, _, _, answer| Answer { word: answer.stamp, stamp: answer.word, ..answer }),
    ];
    for (name, read) in wrong {
        let found = compare(20_000, 1, &mut OwnCaptures, &mut Wrong { read, ..RIGHT });
        assert!(found.is_err(), "{name} is not found out");
    }
}

#[test]
fn wrong_functions_without_lent_words_are_found_out() {
    let wrong: [(&str, fn(&[u8], usize, Peeked) -> Peeked); 7] = [
        ("24 for an image", |_, offset, peeked| if peeked.0 == IMAGE { (0, offset, 24) } else { peeked }),
        ("24 for an image of kind 2", |_, offset, peeked| if peeked.0 == OLD_IMAGE { (0, offset, 24) } else { peeked }),
        ("kind 3 unknown", |_, offset, peeked| if peeked.0 == IMAGE { (0, offset, 22) } else { peeked }),
        ("the kind beside a refusal", |bytes, offset, peeked| match peeked.2 {
            23 => (short(bytes, offset, 2).unwrap(), peeked.1, 23),
            _ => peeked,
        }),
        ("the offset behind a refused record", |bytes, offset, peeked| match peeked.2 {
            22 => (0, offset + 2 + short(bytes, offset, 0).unwrap() as usize, 22),
            _ => peeked,
        }),
        ("0 behind the last record", |bytes, offset, peeked| if offset == bytes.len() { (0, 0, 0) } else { peeked }),
        ("an offset past the end is no refusal", |bytes, offset, peeked| match peeked.2 {
            20 if offset > bytes.len() => (0, offset, 0),
            _ => peeked,
        }),
    ];
    for (name, peek) in wrong {
        let found = compare(20_000, 1, &mut OwnCaptures, &mut Wrong { peek, ..RIGHT });
        assert!(found.is_err(), "{name} is not found out");
    }
}

#[test]
fn wrong_writers_are_found_out() {
    let wrong: [(&str, fn(&mut [u8], usize, &Record, (u32, usize)) -> (u32, usize)); 15] = [
        ("21 for an unknown kind with commands", |_, _, record, answer| match answer.0 {
            22 if !record.commands.is_empty() => (21, 0),
            _ => answer,
        }),
        ("22 with no commands only", |_, _, record, answer| match answer.0 {
            22 if record.commands.len() == IMAGE_COMMANDS && record.channel == 0 => (23, 0),
            _ => answer,
        }),
        ("a kind cut to 16 bits", |bytes, offset, record, answer| match answer.0 {
            22 => OwnCaptures.write(bytes, offset, &Record { kind: record.kind % 65_536, ..record.clone() }),
            _ => answer,
        }),
        ("a channel cut to 16 bits", |bytes, offset, record, answer| match answer.0 {
            23 => OwnCaptures.write(bytes, offset, &Record { channel: record.channel % 65_536, ..record.clone() }),
            _ => answer,
        }),
        ("commands beyond 512 left out", |bytes, offset, record, answer| match answer.0 {
            21 if record.kind == IMAGE && record.commands.len() > IMAGE_COMMANDS => {
                let commands = record.commands[..IMAGE_COMMANDS].to_vec();
                OwnCaptures.write(bytes, offset, &Record { commands, ..record.clone() })
            }
            _ => answer,
        }),
        ("kind 2 written with 512 commands", |bytes, offset, record, answer| match answer.0 {
            21 if record.kind == OLD_IMAGE && record.commands.len() == IMAGE_COMMANDS => {
                let commands = record.commands[..OLD_IMAGE_COMMANDS].to_vec();
                OwnCaptures.write(bytes, offset, &Record { commands, ..record.clone() })
            }
            _ => answer,
        }),
        (
            "kind 3 written with 256 commands, and words of 0 behind them",
            |bytes, offset, record, answer| match answer.0 {
                21 if record.kind == IMAGE && record.commands.len() == OLD_IMAGE_COMMANDS => {
                    let commands = [&record.commands[..], &[0; IMAGE_COMMANDS - OLD_IMAGE_COMMANDS]].concat();
                    OwnCaptures.write(bytes, offset, &Record { commands, ..record.clone() })
                }
                _ => answer,
            },
        ),
        ("kind 2 written as kind 3", |bytes, offset, record, answer| {
            if answer.0 == 0 && record.kind == OLD_IMAGE {
                bytes[offset + 2] = IMAGE as u8;
            }
            answer
        }),
        ("an arrival's commands left out", |bytes, offset, record, answer| match answer.0 {
            21 if record.kind == ARRIVAL => {
                OwnCaptures.write(bytes, offset, &Record { commands: vec![], ..record.clone() })
            }
            _ => answer,
        }),
        ("no room told before a channel", |bytes, offset, _, answer| match answer.0 {
            23 if offset > bytes.len() => (24, 0),
            _ => answer,
        }),
        ("an offset past the end is 20", |bytes, offset, _, answer| match answer.0 {
            24 if offset > bytes.len() => (20, 0),
            _ => answer,
        }),
        ("the own offset beside a refusal", |_, offset, _, (number, next)| match number {
            0 => (0, next),
            _ => (number, offset),
        }),
        ("a record begun where it has no room", |bytes, offset, _, answer| {
            if answer.0 == 24 {
                if let Some(byte) = bytes.get_mut(offset) {
                    *byte = 12;
                }
            }
            answer
        }),
        ("a byte behind the record written", |bytes, _, _, answer| {
            if let (0, Some(byte)) = (answer.0, bytes.get_mut(answer.1)) {
                *byte = 0;
            }
            answer
        }),
        ("numbers with the high byte first", |bytes, offset, _, answer| {
            if answer.0 == 0 {
                bytes[offset + 6..answer.1].chunks_mut(4).for_each(|number| number.reverse());
            }
            answer
        }),
    ];
    for (name, write) in wrong {
        let found = compare(20_000, 1, &mut OwnCaptures, &mut Wrong { write, ..RIGHT });
        assert!(found.is_err(), "{name} is not found out");
    }
}

// The programs.

fn lines(bytes: &[u8]) -> Vec<String> {
    let mut out = vec![];
    show(bytes, &mut out).unwrap();
    String::from_utf8(out).unwrap().lines().map(str::to_string).collect()
}

#[test]
fn show_writes_a_line_for_each_record_and_one_for_the_end() {
    assert_eq!(lines(&[]), ["0 0 0"]);
    let example = [0x0C, 0, 1, 0, 1, 0, 0x23, 1, 0, 0, 5, 0, 0, 0];
    assert_eq!(lines(&example), ["0 1 14 1 291 5", "0 0 14"]);
    for (number, long) in (20..=23).flat_map(|number| [(number, false), (number, true)]) {
        let end = format!("{number} 0 14");
        assert_eq!(lines(&[&example[..], &refused_with(number, long)].concat()), ["0 1 14 1 291 5", end.as_str()]);
    }
    // The 512 lent words of either kind.
    for (kind, whole) in [(OLD_IMAGE, 1030), (IMAGE, 2054)] {
        let record = image_of(&mut Dice::new(1), kind);
        let shown = lines(&bytes_of(std::slice::from_ref(&record)).0);
        let mut commands: Vec<String> = record.commands.iter().map(u32::to_string).collect();
        commands.resize(512, "0".to_string());
        let image = format!("0 {kind} {whole} {} {}", record.channel, commands.join(" "));
        assert_eq!(shown, [image, format!("0 0 {whole}")]);
    }
}

#[test]
fn make_records_accepted_arrivals_with_the_stamp_of_the_module() {
    let items: [[u32; 4]; 11] = [
        [128, 1, 1, 0],
        [1, 0, 2, 0],
        [32, 1, 1, 0],
        // Accesses to registers are performed and not recorded.
        [160, 1, 0x0810, 0],
        [161, 1, 0x1008, 3],
        [3, 0, 5, 0],
        [128, 1, 0x123, 0],
        // The receiver of channel 2 is off: ignored, and recorded too.
        [128, 2, 0x8000_0000, 0],
        [128, 3, 1, 0],
        [3, 0, u32::MAX, 0],
        [128, 1, 0, 7],
    ];
    let mut bytes: Vec<u8> = items.iter().flatten().flat_map(|word| word.to_le_bytes()).collect();
    bytes.extend(&128u32.to_le_bytes());
    let mut capture = vec![];
    make(&bytes, &mut capture).unwrap();
    assert_eq!(lines(&capture), ["0 1 14 1 291 5", "0 1 28 2 2147483648 5", "0 1 42 1 0 4", "0 0 42"]);
}
