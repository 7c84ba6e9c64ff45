//! The random lists reach each rule of the accesses to registers: counted over the lists that `compare` runs.
//! `cargo test --release --test registers_reached -- --nocapture` prints the counts.

mod reach;
use reach::for_each_item;
use second::calls::Item;
use second::layout::*;
use second::lists::NINTH_BIT;
use second::ops::*;
use second::registers::{named, Register};
use second::words;

/// An access with the lent words before and after it.
struct Access {
    item: Item,
    answer: Vec<u32>,
    /// What the memory and its module part alone are refused with: 1, 2 or 0.
    memory: u32,
    register: Option<Register>,
    before: Vec<u32>,
    after: Vec<u32>,
}

impl Access {
    fn reads(&self) -> bool {
        self.item.op == REGISTER_READ
    }

    fn writes(&self) -> bool {
        self.item.op == REGISTER_WRITE
    }

    fn number(&self) -> u32 {
        self.answer[0]
    }

    fn is(&self, name: &str) -> bool {
        self.register.is_some_and(|register| register.name() == name)
    }

    /// An accepted read, or write, of a register of this name.
    fn read(&self, name: &str) -> bool {
        self.reads() && self.is(name) && self.number() == 0
    }

    fn wrote(&self, name: &str) -> bool {
        self.writes() && self.is(name) && self.number() == 0
    }

    /// A register of this name stands so many bytes before the address.
    fn behind(&self, bytes: u32, name: &str) -> bool {
        let before = self.item.a.checked_sub(bytes).and_then(|address| Register::at(address).ok());
        before.is_some_and(|register| register.name() == name)
    }

    /// A stored number of the channel named, with that channel there.
    fn stored(&self, words: &[u32], word: usize) -> u32 {
        words[block(self.register.unwrap().channel().unwrap()) + word]
    }

    fn was(&self, word: usize, value: u32) -> bool {
        self.stored(&self.before, word) == value
    }

    /// The rule set a latch bit that the access found clear.
    fn latched(&self) -> bool {
        self.number() == 0 && self.stored(&self.after, LATCH) & !self.stored(&self.before, LATCH) != 0
    }

    // Masked writes.

    fn masked(&self) -> bool {
        self.writes() && self.register.is_some_and(|register| register.channel().is_none())
    }

    fn done(&self) -> bool {
        self.masked() && self.number() == 0
    }

    fn named(&self) -> Vec<u32> {
        named(self.item.b).collect()
    }

    fn refused(&self) -> Vec<u32> {
        named(self.answer[1]).collect()
    }

    fn accepted(&self) -> Vec<u32> {
        named(self.item.b & !self.answer[1]).collect()
    }

    fn is_there(&self, channel: u32) -> bool {
        channel <= self.before[COUNT]
    }

    /// A channel of those tried that goes from one state to another.
    fn goes(&self, from: u32, to: u32) -> bool {
        let state = |words: &[u32], channel| words[block(channel) + STATE];
        let moved = |&channel: &u32| state(&self.before, channel) == from && state(&self.after, channel) == to;
        self.done() && self.accepted().iter().any(moved)
    }

    /// A channel there that refused with the transmitter on is unsound.
    fn some_off(&self, channels: &[u32]) -> bool {
        channels.iter().any(|&channel| self.is_there(channel) && self.before[block(channel) + TRANSMITTER] == 0)
    }

    fn is_unsound(&self, channel: u32) -> bool {
        let ch = &self.before[block(channel)..];
        ch[RECEIVE_LEVEL] > ch[SIZE] || (0..RANGED).any(|word| !(RANGES[word].0..=RANGES[word].1).contains(&ch[word]))
    }

    fn some_unsound(&self) -> bool {
        self.refused().iter().any(|&channel| self.is_there(channel) && self.is_unsound(channel))
    }
}

const SINGLE: [&str; 5] = ["transmit rate", "async", "schedule RAM", "message RAM", "channel status"];
const MASKS: [&str; 3] = ["trigger", "pause", "stop"];

type Rule = (&'static str, fn(&Access) -> bool);

const RULES: &[Rule] = &[
    // Not aligned.
    ("30 reading", |s| s.reads() && s.number() == 30),
    ("30 writing", |s| s.writes() && s.number() == 30),
    ("30 where no register is near", |s| s.number() == 30 && Register::at(s.item.a & !3).is_err()),
    ("30 and the wrong way, status written", |s| {
        s.number() == 30 && s.writes() && (1..4).any(|k| s.behind(k, "channel status"))
    }),
    ("30 and the wrong way, a mask read", |s| {
        s.number() == 30 && s.reads() && (1..4).any(|k| MASKS.iter().any(|name| s.behind(k, name)))
    }),
    // No register.
    ("31 reading", |s| s.reads() && s.number() == 31),
    ("31 writing", |s| s.writes() && s.number() == 31),
    ("31 below the first register", |s| s.number() == 31 && s.item.a < 0x810),
    ("31 between the first and the last", |s| s.number() == 31 && (0x810..0x9_B3FC).contains(&s.item.a)),
    ("31 past the last register", |s| s.number() == 31 && s.item.a > 0x9_B3FC),
    ("31 between masks and rates", |s| s.number() == 31 && (0x100C..0x111C).contains(&s.item.a)),
    ("31 between two channels' rates", |s| s.number() == 31 && (0x1124..0x1C1C).contains(&s.item.a)),
    ("31 between two channels' status", |s| s.number() == 31 && (0x814..0x8C0).contains(&s.item.a)),
    ("31 right behind a schedule RAM", |s| s.number() == 31 && s.behind(4, "schedule RAM")),
    ("31 right behind a message RAM", |s| s.number() == 31 && s.behind(4, "message RAM")),
    ("31 four behind an async register", |s| s.number() == 31 && s.behind(4, "async")),
    ("31 four behind a status register", |s| s.number() == 31 && s.behind(4, "channel status")),
    ("31 four behind stop", |s| s.number() == 31 && s.behind(4, "stop")),
    ("31 channel 13's rate", |s| s.number() == 31 && s.item.a == 0x1D1C),
    ("31 channel 13's async", |s| s.number() == 31 && s.item.a == 0x1D20),
    ("31 channel 13's schedule RAM", |s| s.number() == 31 && (0x8_C000..0x8_C800).contains(&s.item.a)),
    ("31 channel 13's message RAM", |s| s.number() == 31 && (0x9_C000..0x9_C400).contains(&s.item.a)),
    ("31 channel 13's status", |s| s.number() == 31 && s.item.a == 0x8D0),
    // Single registers.
    ("3 reading a channel above the count", |s| s.reads() && s.number() == 3),
    ("3 writing to a channel above the count", |s| s.writes() && s.number() == 3),
    ("rate below its range: 4", |s| s.is("transmit rate") && s.number() == 4 && s.item.b < 4),
    ("rate one above its range: 4", |s| s.is("transmit rate") && s.number() == 4 && s.item.b == 1_048_576),
    ("rate above its range, its low 20 bits within: 4", |s| {
        s.is("transmit rate") && s.number() == 4 && s.item.b > 1_048_576 && s.item.b % 1_048_576 > 3
    }),
    ("the greatest rate", |s| s.wrote("transmit rate") && s.item.b == 1_048_575),
    ("async written outside scheduled mode: 5", |s| s.is("async") && s.number() == 5),
    ("async written while one waits: 6", |s| s.is("async") && s.number() == 6),
    ("async read, none waits, scheduled mode", |s| s.read("async") && s.was(ASYNC_MARK, 0) && s.was(TRANSMIT_MODE, 2)),
    ("async read, none waits, another mode", |s| s.read("async") && s.was(ASYNC_MARK, 0) && !s.was(TRANSMIT_MODE, 2)),
    ("async read, none waits, its word still stored", |s| {
        s.read("async") && s.was(ASYNC_MARK, 0) && !s.was(ASYNC_WORD, 0)
    }),
    ("async read, one waits", |s| s.read("async") && s.was(ASYNC_MARK, 1)),
    ("command read with bits above D15 stored", |s| match s.register {
        Some(Register::Command { address, .. }) => {
            s.read("schedule RAM") && s.stored(&s.before, SCHEDULE_RAM + address as usize) > 0xFFFF
        }
        _ => false,
    }),
    ("command written with bits above D15", |s| s.wrote("schedule RAM") && s.item.b > 0xFFFF),
    // Masks.
    ("mask with ignored bits", |s| s.done() && s.item.b > 0xFFF),
    ("mask of ignored bits alone", |s| s.done() && s.item.b > 0xFFF && s.named().is_empty()),
    ("mask 0", |s| s.done() && s.item.b == 0),
    ("mask of one channel", |s| s.done() && s.named().len() == 1),
    ("every bit of twelve set", |s| s.done() && s.named().len() == 12),
    ("all of two or more accept", |s| s.done() && s.named().len() > 1 && s.refused().is_empty()),
    ("all named refuse", |s| s.done() && !s.named().is_empty() && s.accepted().is_empty()),
    ("some refuse and some accept", |s| s.done() && !s.refused().is_empty() && !s.accepted().is_empty()),
    ("one refuses before another that accepts", |s| {
        s.done() && s.refused().first() < s.accepted().last() && !s.refused().is_empty()
    }),
    ("one above the count refuses", |s| s.done() && s.refused().iter().any(|&channel| !s.is_there(channel))),
    ("a trigger refused with the transmitter off", |s| s.done() && s.is("trigger") && s.some_off(&s.refused())),
    ("a pause with the transmitter off", |s| s.done() && s.is("pause") && s.some_off(&s.accepted())),
    ("a stop with the transmitter off", |s| s.done() && s.is("stop") && s.some_off(&s.accepted())),
    ("a trigger from idle", |s| s.is("trigger") && s.goes(0, 1)),
    ("a trigger from paused", |s| s.is("trigger") && s.goes(2, 1)),
    ("a pause from running", |s| s.is("pause") && s.goes(1, 2)),
    ("a pause from idle, immediate mode", |s| s.is("pause") && s.goes(0, 2)),
    ("a pause that leaves an idle one idle", |s| s.is("pause") && s.goes(0, 0)),
    ("a stop from running", |s| s.is("stop") && s.goes(1, 0)),
    ("a stop from paused", |s| s.is("stop") && s.goes(2, 0)),
];

/// Rules that need memory lent in part or changed by others.
const BY_OTHERS: &[Rule] = &[
    // After a call the rule left nothing to latch for an access that begins no condition.
    ("a read after which the rule latches", |s| s.reads() && s.latched()),
    ("a status read that shows what the rule latches", |s| s.read("channel status") && s.latched()),
    ("a write after which the rule latches", |s| s.writes() && !s.masked() && s.latched()),
    ("the rule latches on a channel named", |s| {
        let latch = |words: &[u32], channel| words[block(channel) + LATCH];
        s.done() && s.accepted().iter().any(|&channel| latch(&s.before, channel) != latch(&s.after, channel))
    }),
    ("30 before 1", |s| s.number() == 30 && s.memory == 1),
    ("31 before 1", |s| s.number() == 31 && s.memory == 1),
    ("32 before 1", |s| s.number() == 32 && s.memory == 1),
    ("30 before 2", |s| s.number() == 30 && s.memory == 2),
    ("31 before 2", |s| s.number() == 31 && s.memory == 2),
    ("32 before 2", |s| s.number() == 32 && s.memory == 2),
    ("1 reading", |s| s.reads() && s.number() == 1),
    ("1 writing to a single register", |s| s.writes() && !s.masked() && s.number() == 1),
    ("1 writing a mask", |s| s.masked() && s.number() == 1),
    ("1 writing a mask that names none", |s| s.masked() && s.number() == 1 && s.named().is_empty()),
    ("2 by the module part, reading", |s| s.reads() && s.number() == 2 && s.memory == 2),
    ("2 by the module part, writing to a single register", |s| {
        s.writes() && !s.masked() && s.number() == 2 && s.memory == 2
    }),
    ("2 by the module part, writing a mask", |s| s.masked() && s.number() == 2),
    ("2 by the layout number alone, writing a mask", |s| {
        s.masked() && s.number() == 2 && s.before[LAYOUT] != LAYOUT_NUMBER && (1..=12).contains(&s.before[COUNT])
    }),
    ("2 by the channel, reading", |s| s.reads() && s.number() == 2 && s.memory == 0),
    ("2 by the channel, writing to a single register", |s| s.writes() && s.number() == 2 && s.memory == 0),
    ("2 by the module part before 3", |s| {
        let above = |register: Register| register.channel().is_some_and(|channel| channel > s.before[COUNT]);
        s.number() == 2 && s.memory == 2 && s.register.is_some_and(above)
    }),
    ("an unsound channel in the mask", |s| s.done() && s.some_unsound()),
    ("an unsound channel in the mask, another accepts", |s| s.done() && s.some_unsound() && !s.accepted().is_empty()),
    ("an unsound channel that is not named", |s| {
        s.done() && (1..=s.before[COUNT]).any(|channel| s.is_unsound(channel) && !s.named().contains(&channel))
    }),
    ("async read, one waits outside scheduled mode", |s| {
        s.read("async") && s.was(ASYNC_MARK, 1) && !s.was(TRANSMIT_MODE, 2)
    }),
];

/// A rule, the least number of times that the lists must meet it, and how often they did.
struct Row {
    name: String,
    least: u64,
    met_by: Box<dyn Fn(&Access) -> bool>,
    count: u64,
}

fn row(name: String, least: u64, met_by: impl Fn(&Access) -> bool + 'static) -> Row {
    Row { name, least, met_by: Box::new(met_by), count: 0 }
}

/// Rules for each register, way, place in a RAM and status bit.
fn numbered() -> Vec<Row> {
    let mut rows = vec![];
    for name in SINGLE {
        rows.push(row(format!("{name} read"), 60, move |s| s.read(name)));
    }
    for name in &SINGLE[..4] {
        rows.push(row(format!("{name} written"), 60, move |s| s.wrote(name)));
    }
    for name in MASKS {
        rows.push(row(format!("{name} written"), 60, move |s| s.wrote(name)));
        rows.push(row(format!("{name} read: 32"), 5, move |s| s.is(name) && s.number() == 32));
    }
    rows.push(row("channel status written: 32".to_string(), 20, |s| s.is("channel status") && s.number() == 32));
    for name in SINGLE.into_iter().chain(MASKS) {
        for beside in 1..4 {
            rows.push(row(format!("{name} and {beside}: 30"), 4, move |s| s.number() == 30 && s.behind(beside, name)));
        }
    }
    for name in SINGLE {
        rows.push(row(format!("{name} of a channel above the count: 3"), 4, move |s| s.is(name) && s.number() == 3));
    }
    for place in [0, NINTH_BIT - 1, NINTH_BIT, LAST_COMMAND] {
        let at = move |s: &Access| matches!(s.register, Some(Register::Command { address, .. }) if address == place);
        rows.push(row(format!("command {place} read"), 4, move |s| s.read("schedule RAM") && at(s)));
        rows.push(row(format!("command {place} written"), 4, move |s| s.wrote("schedule RAM") && at(s)));
    }
    for place in [0, MESSAGES as u32 - 1] {
        let at = move |s: &Access| matches!(s.register, Some(Register::Message { address, .. }) if address == place);
        rows.push(row(format!("message RAM at {place} read"), 4, move |s| s.read("message RAM") && at(s)));
        rows.push(row(format!("message RAM at {place} written"), 4, move |s| s.wrote("message RAM") && at(s)));
    }
    for bit in [1, 2, 4, 5, 7, 9, 10] {
        let shows = move |s: &Access| s.read("channel status") && s.answer[1] >> bit & 1 == 1;
        rows.push(row(format!("status shows D{bit}"), 40, shows));
        let hides = move |s: &Access| s.read("channel status") && s.answer[1] >> bit & 1 == 0;
        rows.push(row(format!("status does not show D{bit}"), 40, hides));
    }
    for channel in 1..=12 {
        rows.push(row(format!("channel {channel} named by a mask and accepted"), 10, move |s| {
            s.done() && s.accepted().contains(&channel)
        }));
        rows.push(row(format!("channel {channel} read"), 5, move |s| {
            s.reads() && s.number() == 0 && s.register.and_then(Register::channel) == Some(channel)
        }));
    }
    rows
}

fn named_rows(rules: &[Rule], least: u64) -> Vec<Row> {
    rules.iter().map(|&(name, rule)| row(name.to_string(), least, rule)).collect()
}

/// Counts how often each rule is met, and fails with those that are met too seldom.
fn check(with_changes: bool, mut rows: Vec<Row>) {
    let mut accesses = 0;
    let find = |mem: &[u32], item: Item| {
        [REGISTER_READ, REGISTER_WRITE].contains(&item.op).then(|| {
            // A masked write that names no channel.
            let memory = words::perform(&mut mem.to_vec(), REGISTER_WRITE, 0, 0x1000, 0)[0];
            (mem.to_vec(), memory)
        })
    };
    for_each_item(1, with_changes, find, |mem, item, answer, found| {
        if let Some((before, memory)) = found {
            accesses += 1;
            let register = Register::at(item.a).ok();
            let access = Access { item, answer: answer.to_vec(), memory, register, before, after: mem.to_vec() };
            for row in &mut rows {
                row.count += u64::from((row.met_by)(&access));
            }
        }
    });
    println!("{accesses:>7} accesses");
    let mut seldom = vec![];
    for Row { name, least, count, .. } in rows {
        println!("{count:>7} {name}");
        if count < least {
            seldom.push(format!("{count} of {least}: {name}"));
        }
    }
    assert!(seldom.is_empty(), "met too seldom: {seldom:#?}");
}

#[test]
fn the_lists_reach_every_rule_as_compare_runs_them() {
    check(true, [named_rows(RULES, 6), numbered(), named_rows(BY_OTHERS, 6)].into_iter().flatten().collect());
}

#[test]
fn the_calls_alone_reach_every_rule_as_replay_runs_them() {
    check(false, [named_rows(RULES, 6), numbered()].into_iter().flatten().collect());
}
