//! How often the random lists meet a rule: every call with the words before and after it, and counts by table.
#![allow(dead_code)]

use second::calls::Item;
use second::compare::LIST_CALLS;
use second::layout::*;
use second::lists::{lists, Event, NINTH_BIT};
use second::ops::{REGISTER_READ, REGISTER_WRITE};
use second::registers::Register;
use second::words;

pub const CALLS: u64 = 200_000;

/// A call with its answer, and the words that its rules speak of, before and after it.
pub struct Seen {
    pub item: Item,
    /// The channel that it names; of a module-wide call channel 1.
    pub channel: u32,
    pub answer: Vec<u32>,
    pub before: Words,
    pub after: Words,
}

/// The module part, the addressed channel's words before its rings, and the words that a step, an arrival or a mailbox read would use.
pub struct Words {
    pub part: [u32; MODULE_WORDS],
    pub ch: [u32; RECEIVE_RING],
    pub command: u32,
    pub stored: u32,
    pub mailbox: u32,
    /// Channels whose schedule sent a message word last.
    pub marked: usize,
    /// The words of the entries held, the oldest first, and the status of the mailbox at each modulo 1024.
    pub held: Vec<(u32, u32)>,
}

impl Words {
    /// None where no channel is named, or the memory has no such channel.
    pub fn of(mem: &[u32], item: Item) -> Option<Words> {
        let channel = channel_of(item)?;
        if mem.len() < MODULE_WORDS
            || !(1..=mem[COUNT].min(CHANNELS)).contains(&channel)
            || mem.len() < need(mem[COUNT])
        {
            return None;
        }
        let ch = &mem[block(channel)..][..BLOCK_WORDS];
        let command = ch[SCHEDULE_RAM + ch[COMMAND] as usize % COMMANDS];
        Some(Words {
            part: mem[..MODULE_WORDS].try_into().unwrap(),
            ch: ch[..RECEIVE_RING].try_into().unwrap(),
            command,
            stored: ch[MESSAGE_RAM + command as usize % MESSAGES],
            mailbox: ch[MAILBOXES + 3 * (item.a as usize % INDEXES)],
            held: held(ch),
            marked: (1..=mem[COUNT]).filter(|&c| mem[block(c) + WORD_MARK] == 1).count(),
        })
    }
}

/// The channel that a call or an access names; a module-wide call is seen with channel 1, and an access by mask with none.
fn channel_of(item: Item) -> Option<u32> {
    match item.op {
        0..=31 => Some(1),
        REGISTER_READ | REGISTER_WRITE => Register::at(item.a).ok()?.channel(),
        _ => Some(item.channel),
    }
}

fn held(ch: &[u32]) -> Vec<(u32, u32)> {
    let entry = |k: u32| {
        let slot = ch[RECEIVE_POSITION].wrapping_add(k) as usize % SLOTS;
        let word = ch[RECEIVE_RING + 3 * slot + 1];
        (word, ch[MAILBOXES + 3 * (word as usize % INDEXES)])
    };
    (0..ch[RECEIVE_LEVEL].min(255)).map(entry).collect()
}

impl Seen {
    pub fn number(&self) -> u32 {
        self.answer[0]
    }

    pub fn done(&self, op: u32) -> bool {
        self.item.op == op && self.number() == 0
    }

    pub fn refused(&self, op: u32, number: u32) -> bool {
        self.item.op == op && self.number() == number
    }

    pub fn is(&self, word: usize, value: u32) -> bool {
        self.before.ch[word] == value
    }

    pub fn waits(&self) -> bool {
        self.is(ASYNC_MARK, 1)
    }

    /// A setting written, accepted.
    pub fn writes(&self, setting: usize) -> bool {
        self.done(32 + setting as u32)
    }

    /// The setting written is the one held.
    pub fn same(&self, setting: usize) -> bool {
        self.is(setting, self.item.a)
    }

    /// An arrival in this receive mode with this outcome.
    pub fn arrival(&self, mode: u32, outcome: u32) -> bool {
        self.done(128) && self.is(RECEIVE_MODE, mode) && self.answer[1] == outcome
    }

    pub fn in_error(&self) -> bool {
        self.is(PARITY, 1) && self.item.a.count_ones() % 2 == 0
    }

    /// A step with the transmitter on.
    pub fn step(&self, mode: u32, state: u32) -> bool {
        self.done(138) && self.is(TRANSMITTER, 1) && self.is(TRANSMIT_MODE, mode) && self.is(STATE, state)
    }

    pub fn form(&self, form: u32) -> bool {
        self.done(138) && self.answer[1] == form
    }

    /// A step that runs a command of this code.
    pub fn runs(&self, code: u32) -> bool {
        self.step(2, 1) && self.before.command >> 12 & 15 == code
    }

    pub fn runs_reserved(&self) -> bool {
        self.step(2, 1) && self.before.command >> 12 & 15 > 6
    }

    pub fn target(&self) -> u32 {
        self.before.command % COMMANDS as u32
    }

    /// At the schedule's last command.
    pub fn last(&self) -> bool {
        self.is(COMMAND, LAST_COMMAND)
    }

    /// At the last command before the ninth address bit.
    pub fn before_ninth_bit(&self) -> bool {
        self.is(COMMAND, NINTH_BIT - 1)
    }

    /// The step leaves the transmitter in this state, at this command.
    pub fn goes_to(&self, state: u32, command: u32) -> bool {
        self.after.ch[STATE] == state && self.after.ch[COMMAND] == command
    }

    /// A gap, fixed or not, of this many bit times.
    pub fn gap(&self, code: u32, least: u32, greatest: u32) -> bool {
        self.runs(code) && (least..=greatest).contains(&self.before.stored)
    }

    /// A call of this op on a transmitter in this mode and state.
    pub fn from(&self, op: u32, mode: u32, state: u32) -> bool {
        self.done(op) && self.is(TRANSMIT_MODE, mode) && self.is(STATE, state)
    }

    pub fn counter(&self) -> u32 {
        self.before.part[COUNTERS + self.channel as usize - 1]
    }

    pub fn sample(&self, result: u32) -> bool {
        self.done(143) && self.item.a == result
    }

    pub fn threshold(&self) -> u32 {
        self.before.part[THRESHOLD]
    }

    /// How many of the twelve counters are above a threshold.
    pub fn above(&self, threshold: u32) -> usize {
        self.before.part[COUNTERS..LAYOUT].iter().filter(|&&counter| counter > threshold).count()
    }

    /// Conditions 0 to 6 that hold with these words, but for 4 and 5.
    pub fn conditions(&self, words: &Words) -> u32 {
        let (ch, part) = (&words.ch, &words.part);
        u32::from(ch[RECEIVE_LEVEL] >= ch[ALMOST_FULL])
            | u32::from(ch[RECEIVE_LEVEL] == ch[SIZE]) << 1
            | u32::from(ch[TRANSMIT_LEVEL] <= ch[ALMOST_EMPTY]) << 2
            | u32::from(ch[TRANSMIT_LEVEL] == 0) << 3
            | u32::from(part[COUNTERS + self.channel as usize - 1] > part[THRESHOLD]) << 6
    }

    /// This condition holds after the call and did not before.
    pub fn begins(&self, bit: u32) -> bool {
        (self.conditions(&self.after) & !self.conditions(&self.before)) >> bit & 1 == 1
    }

    /// This condition, but for 4 and 5, holds before and after an accepted call on a channel.
    pub fn stays(&self, bit: u32) -> bool {
        self.on_channel() && (self.conditions(&self.after) & self.conditions(&self.before)) >> bit & 1 == 1
    }

    pub fn on_channel(&self) -> bool {
        self.item.op >= 32 && self.number() == 0
    }

    /// The rule sets this latch bit, which was clear, or which the call clears first.
    pub fn latches(&self, bit: u32) -> bool {
        let mut found = self.before.ch[LATCH];
        if self.item.op == 147 {
            found &= !self.item.a;
        }
        if self.item.op == 145 && self.item.a == 1 {
            found |= 64;
        }
        self.on_channel() && (self.after.ch[LATCH] & !found) >> bit & 1 == 1
    }

    pub fn by_level(&self, bit: u32) -> bool {
        self.after.ch[LEVEL_MASK] >> bit & 1 == 1
    }

    /// The only word of the block outside its range is this one, and the module part is sound.
    pub fn outside(&self, word: usize) -> bool {
        let wrong = |&word: &usize| !(RANGES[word].0..=RANGES[word].1).contains(&self.before.ch[word]);
        self.part_is_sound() && (0..RANGED).filter(wrong).eq([word])
    }

    pub fn part_is_sound(&self) -> bool {
        let part = &self.before.part;
        part[LAYOUT] == LAYOUT_NUMBER && self.rest_is_sound()
    }

    /// This layout number, and nothing else of the module part, is unsound.
    pub fn only_layout(&self, number: u32) -> bool {
        self.before.part[LAYOUT] == number && self.only_layout_is_wrong()
    }

    pub fn only_layout_is_wrong(&self) -> bool {
        self.before.part[LAYOUT] != LAYOUT_NUMBER && self.rest_is_sound()
    }

    /// The module part but for its layout number.
    pub fn rest_is_sound(&self) -> bool {
        let part = &self.before.part;
        part[RESOLUTION] <= 3 && (1..=65_535).contains(&part[THRESHOLD]) && self.above(65_536) == 0
    }

    /// One beside its range, for the arguments that have one.
    pub fn beside(&self) -> bool {
        let Item { op, a, b, .. } = self.item;
        match op {
            32..=43 => {
                let (least, greatest) = RANGES[op as usize - 32];
                a == greatest + 1 || a.checked_add(1) == Some(least)
            }
            130 | 132 => a as usize == INDEXES,
            131 => a as usize == INDEXES || b == 2,
            139 | 140 => a as usize == COMMANDS,
            141 | 142 => a as usize == MESSAGES,
            143 | 145 => a == 2,
            147 | 148 | 150 => a == 128,
            _ => false,
        }
    }
}

pub type Rule = (&'static str, fn(&Seen) -> bool);

/// A rule for each of some numbers: settings, bits, words.
pub type NumberedRule = (&'static str, &'static [u32], fn(&Seen, u32) -> bool);

/// Every call of the lists of a seed that finds and leaves a memory with its channel.
pub fn for_each_call(seed: u64, with_changes: bool, mut meet: impl FnMut(&Seen)) {
    for_each_answer(seed, with_changes, |_, _, seen| {
        if let Some(seen) = seen {
            meet(&seen);
        }
    });
}

/// Every call of the lists of a seed, with its answer and, where it finds and leaves a memory with its channel, what was seen.
pub fn for_each_answer(seed: u64, with_changes: bool, mut meet: impl FnMut(Item, &[u32], Option<Seen>)) {
    for_each_item(seed, with_changes, Words::of, |mem, item, answer, before| {
        let channel = channel_of(item).unwrap_or(0);
        let seen = (before.zip(Words::of(mem, item))).map(|(before, after)| Seen {
            item,
            channel,
            answer: answer.to_vec(),
            before,
            after,
        });
        meet(item, answer, seen);
    });
}

/// Every call of the lists of a seed; with changes by others as `compare` runs them, else as `replay` does. The first function sees
/// the lent words before the call, and the second those after it, with the answer and what the first gave.
pub fn for_each_item<T>(
    seed: u64,
    with_changes: bool,
    mut before: impl FnMut(&[u32], Item) -> T,
    mut after: impl FnMut(&[u32], Item, &[u32], T),
) {
    let mut mem = vec![0; need(CHANNELS)];
    let mut calls = 0;
    for list in lists(seed, LIST_CALLS) {
        if with_changes {
            mem = list.memory;
        }
        let mut lent = mem.len();
        for event in list.events {
            match event {
                Event::Call(item) => {
                    let found = before(&mem[..lent], item);
                    let Item { op, channel, a, b } = item;
                    let answer = words::perform(&mut mem[..lent], op, channel, a, b);
                    after(&mem[..lent], item, &answer, found);
                    calls += 1;
                    if calls == CALLS {
                        return;
                    }
                }
                Event::Overwrite { word, value } if with_changes => mem[word] = value,
                Event::Lend { words } if with_changes => lent = words,
                _ => {}
            }
        }
    }
}

/// A rule and the least number of times that the lists must meet it: far below what they do, far above none.
pub struct Row {
    pub name: String,
    pub least: u64,
    pub met_by: Box<dyn Fn(&Seen) -> bool>,
}

pub fn rows(rules: &[Rule], least: u64) -> Vec<Row> {
    rules.iter().map(|&(name, rule)| Row { name: name.to_string(), least, met_by: Box::new(rule) }).collect()
}

pub fn numbered_rows(rules: &[NumberedRule], least: u64) -> Vec<Row> {
    let mut rows = vec![];
    for &(name, numbers, rule) in rules {
        for &number in numbers {
            rows.push(Row {
                name: format!("{name} {number}"),
                least,
                met_by: Box::new(move |seen| rule(seen, number)),
            });
        }
    }
    rows
}

/// Counts how often each rule is met, and fails with those that are met too seldom.
pub fn check(with_changes: bool, rows: Vec<Row>) {
    let mut counts = vec![0; rows.len()];
    for_each_call(1, with_changes, |seen| {
        for (row, count) in rows.iter().zip(&mut counts) {
            *count += u64::from((row.met_by)(seen));
        }
    });
    let mut seldom = vec![];
    for (row, count) in rows.iter().zip(counts) {
        println!("{count:>7} {}", row.name);
        if count < row.least {
            seldom.push(format!("{count} of {}: {}", row.least, row.name));
        }
    }
    assert!(seldom.is_empty(), "met too seldom: {seldom:#?}");
}
