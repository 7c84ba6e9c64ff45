//! Whether the rules of a schedule give the outputs that another card recorded.
//!
//! The rules are the model's: a module of one channel is set up with the card's RAMs, triggered, and stepped as long as
//! outputs are wanted.

use crate::calls::Item;
use crate::layout::{need, COMMANDS, MESSAGES};
use crate::model::{Channel, Model, Transmitter};
use crate::ops::*;

/// A RAM is below 512 or 256 words.
pub const SHORT: u32 = 1;
/// More than 2,048 outputs.
pub const TOO_LONG: u32 = 70;

/// The most outputs of a record.
pub const MOST_OUTPUTS: usize = 2048;
/// So many commands in a row that sent nothing, and none ever will.
pub const QUIET_COMMANDS: u32 = 512;

/// Form and values of a step: `2 word 0 0`, `3 time 0 0`, `4 4 word rest` or `6 4 word 0`. A recorded one may be any four numbers.
pub type Output = [u32; 4];

/// The forms of the steps that send something.
pub const WORD: u32 = 2;
pub const NULL: u32 = 3;
pub const NULL_WORD_NULL: u32 = 4;
pub const NULL_WORD: u32 = 6;
/// The form of a step that meets a reserved command.
const RESERVED: u32 = 5;

#[derive(Clone, Debug, Default)]
pub struct Card {
    /// 0 off, any other number on.
    pub parity: u32,
    /// The first 512 and 256 words count.
    pub schedule: Vec<u32>,
    pub message: Vec<u32>,
    /// The step, from 1, before which an async word was written, and the word.
    pub asyncs: Vec<(u32, u32)>,
    pub outputs: Vec<Output>,
}

#[derive(Clone, Copy, PartialEq, Eq, Debug)]
pub enum Verdict {
    Yes,
    /// The place, from 1, of the first output that differs, and what was due.
    Differs {
        place: u32,
        due: Option<Output>,
    },
    Refused {
        number: u32,
    },
}

impl std::fmt::Display for Verdict {
    fn fmt(&self, f: &mut std::fmt::Formatter<'_>) -> std::fmt::Result {
        match self {
            Verdict::Yes => write!(f, "0 yes"),
            Verdict::Differs { place, due: Some([form, x, y, z]) } => write!(f, "0 {place} {form} {x} {y} {z}"),
            Verdict::Differs { place, due: None } => write!(f, "0 {place} nothing"),
            Verdict::Refused { number } => write!(f, "{number} 0"),
        }
    }
}

/// Why a schedule gives no more outputs.
#[derive(Clone, Copy, PartialEq, Eq, Debug)]
pub enum End {
    Stop,
    Pause,
    Reserved,
    /// Behind the last command of the RAM.
    OfRam,
    /// Commands that send nothing, for ever.
    Quiet,
}

/// A schedule from trigger on. Both RAMs are whole.
pub struct Run {
    module: Model,
    /// Sorted by step; those for one step stand in list order.
    asyncs: Vec<(u32, u32)>,
    /// How many of them are for steps taken already.
    past: usize,
    /// Steps taken.
    step: u32,
    end: Option<End>,
}

const CHANNEL: u32 = 1;

impl Run {
    pub fn new(card: &Card) -> Run {
        let mut asyncs = card.asyncs.clone();
        asyncs.sort_by_key(|&(step, _)| step);
        let mut run = Run { module: Model::read(&[]), asyncs, past: 0, step: 0, end: None };
        run.perform(POWER_UP, CHANNEL, 0);
        run.perform(WRITE_TRANSMITTER, 1, 0);
        run.perform(WRITE_TRANSMIT_MODE, 2, 0);
        run.perform(WRITE_PARITY, u32::from(card.parity != 0), 0);
        for (address, &command) in (0..).zip(&card.schedule[..COMMANDS]) {
            run.perform(SCHEDULE_WRITE, address, command);
        }
        for (address, &word) in (0..).zip(&card.message[..MESSAGES]) {
            run.perform(MESSAGE_WRITE, address, word);
        }
        run.perform(TRIGGER, 0, 0);
        run
    }

    fn perform(&mut self, op: u32, a: u32, b: u32) -> Vec<u32> {
        self.module.perform(need(CHANNEL), Item { op, channel: CHANNEL, a, b })
    }

    fn channel(&self) -> &Channel {
        self.module.channels[0].as_ref().expect("a channel that calls alone have changed is sound")
    }

    /// The async words for the next step are written; one that is refused is skipped.
    fn write_asyncs(&mut self) {
        while let Some(&(step, word)) = self.asyncs.get(self.past) {
            if step > self.step {
                break;
            }
            // None is written before step 0.
            if step == self.step {
                self.perform(ASYNC_WRITE, word, 0);
            }
            self.past += 1;
        }
    }

    /// The next output, or why there is none.
    pub fn output(&mut self) -> Result<Output, End> {
        for _ in 0..QUIET_COMMANDS {
            if let Some(end) = self.end {
                return Err(end);
            }
            self.step += 1;
            self.write_asyncs();
            let command = self.channel().schedule[self.channel().command as usize];
            let answer = self.perform(STEP, 0, 0);
            let output: Output = [answer[1], answer[2], answer[3], answer[4]];
            // A pause behind which no command follows stops.
            self.end = match self.channel().state {
                Transmitter::Running => None,
                Transmitter::Paused => Some(End::Pause),
                Transmitter::Idle if output[0] == RESERVED => Some(End::Reserved),
                Transmitter::Idle if command / 4096 % 16 == 0 => Some(End::Stop),
                Transmitter::Idle => Some(End::OfRam),
            };
            if matches!(output[0], WORD | NULL | NULL_WORD_NULL | NULL_WORD) {
                return Ok(output);
            }
        }
        Err(self.end.unwrap_or(End::Quiet))
    }

    /// How many steps were taken.
    pub fn steps(&self) -> u32 {
        self.step
    }
}

/// The verdict, and why nothing was due where nothing was.
pub fn judge_with_end(card: &Card) -> (Verdict, Option<End>) {
    if card.schedule.len() < COMMANDS || card.message.len() < MESSAGES {
        return (Verdict::Refused { number: SHORT }, None);
    }
    if card.outputs.len() > MOST_OUTPUTS {
        return (Verdict::Refused { number: TOO_LONG }, None);
    }
    let mut run = Run::new(card);
    for (place, recorded) in (1..).zip(&card.outputs) {
        match run.output() {
            Ok(due) if due == *recorded => {}
            Ok(due) => return (Verdict::Differs { place, due: Some(due) }, None),
            Err(end) => return (Verdict::Differs { place, due: None }, Some(end)),
        }
    }
    (Verdict::Yes, None)
}

pub fn judge(card: &Card) -> Verdict {
    judge_with_end(card).0
}

/// A word: 1 to 8 hexadecimal digits in either case, `0x` before them or not.
fn word_of(field: &str) -> Option<u32> {
    let digits = field.strip_prefix("0x").unwrap_or(field);
    let good = (1..=8).contains(&digits.len()) && digits.bytes().all(|digit| digit.is_ascii_hexdigit());
    good.then(|| u32::from_str_radix(digits, 16).ok())?
}

/// A decimal number of 32 bits; `+5` is none.
fn number_of(field: &str) -> Option<u32> {
    if field.starts_with('+') {
        return None;
    }
    field.parse().ok()
}

/// A card as text (docs/BENCH_CARDS.md): the parity, 768 words, then async words and outputs. Else the first line that is none of these.
pub fn card_of(text: &str) -> Result<Card, String> {
    let mut card = Card::default();
    let mut parity = None;
    let mut listed = false;
    for (number, line) in (1..).zip(text.split('\n')) {
        let fields: Vec<&str> = line.split([' ', '\t', '\r']).filter(|field| !field.is_empty()).collect();
        match fields.as_slice() {
            [] => {}
            [field] if parity.is_none() => match *field {
                "0" => parity = Some(0),
                "1" => parity = Some(1),
                _ => return Err(format!("line {number}: no parity")),
            },
            _ if parity.is_none() => return Err(format!("line {number}: no parity")),
            ["async", step, word] => {
                let none = || format!("line {number}: no async word and no output");
                card.asyncs.push((number_of(step).ok_or_else(none)?, word_of(word).ok_or_else(none)?));
                listed = true;
            }
            ["out", numbers @ ..] => {
                let numbers: Option<Vec<u32>> = numbers.iter().map(|field| number_of(field)).collect();
                let output: Option<Output> = numbers.and_then(|numbers| numbers.try_into().ok());
                card.outputs.push(output.ok_or_else(|| format!("line {number}: no async word and no output"))?);
                listed = true;
            }
            fields => {
                if listed || card.message.len() == MESSAGES {
                    return Err(format!("line {number}: no async word and no output"));
                }
                let word = match fields {
                    [field] => word_of(field),
                    _ => None,
                };
                let word = word.ok_or_else(|| format!("line {number}: no word"))?;
                let ram = if card.schedule.len() < COMMANDS { &mut card.schedule } else { &mut card.message };
                ram.push(word);
            }
        }
    }
    // A text with no line but blank ones has none either.
    card.parity = parity.ok_or_else(|| format!("line {}: no parity", text.split('\n').count()))?;
    Ok(card)
}
