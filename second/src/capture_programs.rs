//! A capture shown line by line, and a capture made from a list of calls.

use std::io::{self, Write};

use crate::calls::Item;
use crate::captures::{self, Record, ARRIVAL, ARRIVAL_BYTES, IMAGE_COMMANDS};
use crate::engine::{Engine, OnWords};
use crate::layout::{need, CHANNELS};
use crate::ops;

/// One line for each record, an image's commands as they fill the lent words, and one for how the reading ends.
pub fn show(bytes: &[u8], out: &mut impl Write) -> io::Result<()> {
    let mut offset = 0;
    loop {
        let (record, next) = match captures::read(bytes, offset, IMAGE_COMMANDS) {
            Ok(Some(read)) => read,
            Ok(None) => return writeln!(out, "0 0 {offset}"),
            Err(number) => return writeln!(out, "{number} 0 {offset}"),
        };
        let Record { kind, channel, word, stamp, .. } = record;
        write!(out, "0 {kind} {next} {channel}")?;
        if kind == ARRIVAL {
            write!(out, " {word} {stamp}")?;
        }
        for command in record.lent_words() {
            write!(out, " {command}")?;
        }
        writeln!(out)?;
        offset = next;
    }
}

/// Performs a list of 16-byte items and writes a record for each accepted arrival, whatever its outcome.
/// The stamp is what a stamp read gives; that read changes no word.
pub fn make(items: &[u8], out: &mut impl Write) -> io::Result<()> {
    let mut mem = vec![0; need(CHANNELS)];
    // A cut last item is no call.
    for item in items.chunks(16).filter_map(Item::of_bytes) {
        let Item { op, channel, a, b } = item;
        let answer = OnWords.perform(&mut mem, op, channel, a, b);
        if op == ops::ARRIVAL && answer[0] == 0 {
            let stamp = OnWords.perform(&mut mem, ops::STAMP_READ, 0, 0, 0)[1];
            let record = Record { kind: ARRIVAL, channel, word: a, stamp, commands: vec![] };
            let mut bytes = [0; ARRIVAL_BYTES];
            captures::write(&mut bytes, 0, &record).expect("an accepted arrival has a channel of 1 to 12");
            out.write_all(&bytes)?;
        }
    }
    Ok(())
}
