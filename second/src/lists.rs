//! Random call lists, each from its seed alone.
//!
//! Most lists begin with a power-up and turn receivers and transmitters on, so that a good share of the calls
//! is accepted. Some lend short memory, some the first words of a longer memory, and in some others change words.
//!
//! Between single calls stand runs: calls in an order that leads to a rule which single calls meet seldom.
//! `tests/reached.rs` counts how often each such rule is met.

mod floods;
mod no_gap;
mod registers;

use crate::calls::Item;
use crate::layout::*;
use crate::ops::*;
use crate::registers::Register;

#[derive(Clone, Copy, PartialEq, Eq, Debug)]
pub enum Event {
    Call(Item),
    /// Others change a word of the memory.
    Overwrite {
        word: usize,
        value: u32,
    },
    /// From here on the first words alone are lent.
    Lend {
        words: usize,
    },
}

#[derive(Clone, Debug)]
pub struct List {
    pub seed: u64,
    pub memory: Vec<u32>,
    pub events: Vec<Event>,
}

impl List {
    pub fn is_damaged(&self) -> bool {
        self.events.iter().any(|event| matches!(event, Event::Overwrite { .. }))
    }
}

/// xorshift64*.
pub struct Dice(u64);

impl Dice {
    pub fn new(seed: u64) -> Dice {
        // Seeds that stand close together start far apart, and the state is never 0.
        let mixed = seed.wrapping_add(0x9E37_79B9_7F4A_7C15).wrapping_mul(0xBF58_476D_1CE4_E5B9);
        Dice((mixed ^ mixed >> 29) | 1)
    }

    pub fn word(&mut self) -> u32 {
        self.0 ^= self.0 >> 12;
        self.0 ^= self.0 << 25;
        self.0 ^= self.0 >> 27;
        (self.0.wrapping_mul(0x2545_F491_4F6C_DD1D) >> 32) as u32
    }

    /// 0 to `end` - 1.
    pub fn below(&mut self, end: u32) -> u32 {
        (u64::from(self.word()) * u64::from(end) >> 32) as u32
    }

    /// True in `percent` of 100 cases.
    pub fn chance(&mut self, percent: u32) -> bool {
        self.below(100) < percent
    }

    pub fn one_of(&mut self, values: &[u32]) -> u32 {
        values[self.below(values.len() as u32) as usize]
    }

    /// One of some ops, each as often as its weight says.
    fn weighted(&mut self, ops: &[(u32, u32)]) -> u32 {
        let mut draw = self.below(ops.iter().map(|(_, weight)| weight).sum());
        for &(op, weight) in ops {
            if draw < weight {
                return op;
            }
            draw -= weight;
        }
        unreachable!("a draw is below the sum of the weights")
    }
}

/// Numbers that stand at or beside the end of a range.
const EDGES: [u32; 27] = [
    0,
    1,
    2,
    3,
    4,
    5,
    12,
    13,
    126,
    127,
    128,
    254,
    255,
    256,
    257,
    511,
    512,
    1023,
    1024,
    65_534,
    65_535,
    65_536,
    65_537,
    1_048_575,
    1_048_576,
    0x7FFF_FFFF,
    0xFFFF_FFFF,
];

/// Values of message RAM around the ends of a gap.
const GAPS: [u32; 14] = [0, 3, 4, 5, 36, 38, 39, 40, 41, 100, 1_048_574, 1_048_575, 1_048_576, 0xFFFF_FFFF];

/// The first command address with the ninth bit set.
pub const NINTH_BIT: u32 = COMMANDS as u32 / 2;

/// A jump command; its target is in bits 8 to 0.
const JUMP: u32 = 0x6000;

/// Ranges of the module part, word by word; the stamp may hold anything.
const PART_RANGES: [(u32, u32); MODULE_WORDS] = {
    let mut ranges = [(0, 65_536); MODULE_WORDS];
    ranges[COUNT] = (1, CHANNELS);
    ranges[STAMP] = (0, u32::MAX);
    ranges[RESOLUTION] = (0, 3);
    ranges[THRESHOLD] = (1, 65_535);
    ranges[LAYOUT] = (LAYOUT_NUMBER, LAYOUT_NUMBER);
    ranges
};

/// How many of 100 draws are runs, for each theme.
const RUNS: [u32; 5] = [13, 7, 15, 5, 5];

/// What a list is mostly about.
#[derive(Clone, Copy, PartialEq)]
enum Theme {
    Receive,
    Fifo,
    Schedule,
    Status,
    Mixed,
}

/// What the lent memory is like.
#[derive(Clone, Copy, PartialEq)]
enum Memory {
    Clean,
    Unpowered,
    Short,
    Damaged,
    Lent,
}

struct Writer {
    dice: Dice,
    count: u32,
    theme: Theme,
    /// Indices that come up again and again, so that matches and mailboxes meet.
    indices: [u32; 5],
    memory: Vec<u32>,
    events: Vec<Event>,
}

/// The lists of a run, one after the other. Runs of other seeds have other lists, up to the millionth.
pub fn lists(run: u64, calls: usize) -> impl Iterator<Item = List> {
    (0..).map(move |place| list(run.wrapping_mul(1_000_000).wrapping_add(place), calls))
}

/// The list of a seed, of about `calls` calls.
pub fn list(seed: u64, calls: usize) -> List {
    let mut dice = Dice::new(seed);
    let kind = match dice.below(40) {
        0..=19 => Memory::Clean,
        20 => Memory::Unpowered,
        21..=23 => Memory::Short,
        24..=34 => Memory::Damaged,
        _ => Memory::Lent,
    };
    let theme = match dice.below(6) {
        0 => Theme::Receive,
        1 => Theme::Fifo,
        2 => Theme::Schedule,
        3 => Theme::Status,
        _ => Theme::Mixed,
    };
    let count = match dice.below(20) {
        0..=8 => 1,
        9..=13 => 2,
        14..=18 => 3,
        _ => 4 + dice.below(9),
    };
    let words = match kind {
        Memory::Short => short_length(&mut dice),
        Memory::Lent => {
            need(count)
                + dice.one_of(&[
                    0,
                    1,
                    MODULE_WORDS as u32,
                    BLOCK_WORDS as u32 - 1,
                    BLOCK_WORDS as u32,
                    2 * BLOCK_WORDS as u32,
                ]) as usize
        }
        _ => need(count) + dice.one_of(&[0, 0, 1, 30]) as usize,
    };
    // Words of any content, or zeros, before power-up.
    let memory = match dice.below(3) {
        0 => vec![0; words],
        1 => (0..words).map(|_| dice.word()).collect(),
        _ => (0..words).map(|_| dice.below(3)).collect(),
    };
    let indices = std::array::from_fn(|_| dice.below(INDEXES as u32));
    let mut writer = Writer { dice, count, theme, indices, memory, events: vec![] };
    if !matches!(kind, Memory::Unpowered) {
        writer.call(POWER_UP, 0, count, 0);
        writer.set_up();
    }
    while writer.events.len() < calls {
        match kind {
            Memory::Damaged if writer.dice.chance(20) => writer.damage(),
            Memory::Short if writer.dice.chance(10) => writer.stored_count_or_power_up(),
            Memory::Lent if writer.dice.chance(6) => writer.lend(),
            Memory::Unpowered if writer.dice.chance(1) => {
                writer.call(POWER_UP, 0, count, 0);
                writer.set_up();
            }
            _ => writer.any_call(),
        }
    }
    List { seed, memory: writer.memory, events: writer.events }
}

/// A length around the module part's.
fn around_the_part(dice: &mut Dice) -> usize {
    let part = MODULE_WORDS as u32;
    dice.one_of(&[0, 1, part - 1, part - 1, part, part + 1]) as usize
}

/// Lengths at and beside each need.
fn short_length(dice: &mut Dice) -> usize {
    match dice.below(4) {
        0 => around_the_part(dice),
        1 => dice.below(need(3) as u32) as usize,
        _ => {
            let count = 1 + dice.below(3);
            need(count) + 1 - dice.below(3) as usize
        }
    }
}

impl Writer {
    fn call(&mut self, op: u32, channel: u32, a: u32, b: u32) {
        self.events.push(Event::Call(Item { op, channel, a, b }));
    }

    /// A call with words that the op does not use left to chance.
    fn loose(&mut self, op: u32, channel: u32, a: u32) {
        let b = self.dice.word();
        self.call(op, channel, a, b);
    }

    /// An async word that is to wait.
    fn async_word(&mut self, channel: u32) {
        let word = self.data_word();
        self.loose(ASYNC_WRITE, channel, word);
    }

    /// Receivers and transmitters on, all else as it is.
    fn switch_on(&mut self) {
        for channel in 1..=self.count {
            self.call(WRITE_RECEIVER, channel, 1, 0);
            self.call(WRITE_TRANSMITTER, channel, 1, 0);
        }
    }

    fn set_up(&mut self) {
        for channel in 1..=self.count {
            let off = u32::from(self.dice.chance(8));
            self.call(WRITE_RECEIVER, channel, 1 - off, 0);
            let off = u32::from(self.dice.chance(8));
            self.call(WRITE_TRANSMITTER, channel, 1 - off, 0);
            for setting in 2..SETTINGS as u32 {
                if self.dice.chance(50) {
                    let value = self.sound_value(setting);
                    self.call(SETTING_WRITE + setting, channel, value, 0);
                }
            }
            if self.theme == Theme::Schedule {
                self.call(WRITE_TRANSMIT_MODE, channel, 2, 0);
            }
            for _ in 0..self.dice.below(4) {
                self.call(MATCH_WRITE, channel, self.indices[0], 1);
                let index = self.index();
                self.call(MATCH_WRITE, channel, index, 1);
            }
            for op in [ENABLE_WRITE, LEVEL_WRITE] {
                let mask = self.dice.below(128);
                self.call(op, channel, mask, 0);
            }
            if matches!(self.theme, Theme::Schedule | Theme::Mixed) {
                self.schedule(channel);
            }
        }
        // Few lists have many channels.
        if self.count > 3 {
            self.every_channel();
        }
    }

    /// A schedule of some commands from address 0 on, up to the ninth bit or over it, or up to the RAM's end, and gaps in the message RAM.
    fn schedule(&mut self, channel: u32) {
        let from = match self.dice.below(20) {
            0..=11 => 0,
            12..=14 => NINTH_BIT - 1 - self.dice.below(8),
            _ => LAST_COMMAND - 9,
        };
        for address in from..from + 2 + self.dice.below(8) {
            let command = self.command();
            self.call(SCHEDULE_WRITE, channel, address, command);
        }
        for _ in 0..4 {
            let (address, gap) = (self.dice.below(8), self.dice.one_of(&GAPS));
            self.call(MESSAGE_WRITE, channel, address, gap);
        }
        if from > 0 {
            let target = from + self.dice.below(10);
            self.call(SCHEDULE_WRITE, channel, 0, JUMP | target);
        }
    }

    fn command(&mut self) -> u32 {
        let code =
            if self.dice.chance(80) { self.dice.one_of(&[1, 1, 2, 2, 2, 3, 4, 5, 6]) } else { self.dice.below(16) };
        let low = match (code, self.dice.below(6)) {
            (6, 0..=2) => self.dice.below(16),
            (6, 3) => NINTH_BIT - 10 + self.dice.below(20),
            // Beyond the last address only the nine low bits count.
            (6, 4) => LAST_COMMAND - 9 + self.dice.below(20),
            (_, 0..=4) => self.dice.below(8),
            _ => self.dice.below(4096),
        };
        self.other_bits() | code << 12 | low
    }

    /// A command that sends nothing: stop, pause, interrupt, a jump to either half of the RAM, and the reserved ones.
    fn silent_command(&mut self) -> u32 {
        let command = match self.dice.below(6) {
            0 => 0x0000,
            1 => 0x4000,
            2 => 0x5000,
            3 => JUMP | self.dice.one_of(&[0, 0, 1, NINTH_BIT - 1]),
            4 => JUMP | self.dice.one_of(&[NINTH_BIT, NINTH_BIT, NINTH_BIT + 1, LAST_COMMAND - 1, LAST_COMMAND]),
            _ => (7 + self.dice.below(9)) << 12,
        };
        self.other_bits() | command
    }

    /// Bits of a command that are ignored.
    fn other_bits(&mut self) -> u32 {
        if self.dice.chance(30) {
            self.dice.word() & 0xFFFF_0E00
        } else {
            0
        }
    }

    /// A gap in message RAM: most around 40, some at or beside an end of the range.
    fn gap(&mut self) -> u32 {
        match self.dice.below(11) {
            0..=5 => self.dice.one_of(&[36, 37, 38, 39, 39, 39, 39, 40, 40, 40, 40, 41, 42, 43, 44]),
            6 => self.dice.below(6),
            7 => 1_048_574 + self.dice.below(4),
            8 | 9 => self.dice.word(),
            _ => self.dice.below(200),
        }
    }

    /// A value within the setting's range, small FIFO sizes first.
    fn sound_value(&mut self, setting: u32) -> u32 {
        match setting {
            2 => u32::from(self.dice.chance(70)),
            3 => u32::from(self.dice.chance(25)),
            7 => self.dice.below(3),
            8 if self.dice.chance(85) => 1 + self.dice.below(6),
            8 => self.dice.one_of(&[254, 255]),
            9 | 10 if self.dice.chance(80) => self.dice.below(6),
            9 | 10 => self.dice.one_of(&[254, 255]),
            11 => self.dice.one_of(&[4, 5, 39, 40, 1_048_575]),
            _ => self.dice.below(2),
        }
    }

    fn channel(&mut self) -> u32 {
        if self.dice.chance(96) {
            1 + self.dice.below(self.count)
        } else {
            let beyond = self.count + 1;
            let any = self.dice.word();
            self.dice.one_of(&[0, beyond, CHANNELS, CHANNELS + 1, any, 0xFFFF_FFFF])
        }
    }

    /// An argument that may be outside its range.
    fn argument(&mut self, greatest: u32) -> u32 {
        match self.dice.below(20) {
            0 | 1 => greatest + 1,
            2 => self.dice.one_of(&EDGES),
            3 => greatest,
            _ => self.dice.below(greatest + 1),
        }
    }

    /// A number in a range, at an end of it or one beside it.
    fn end_of(&mut self, (least, greatest): (u32, u32)) -> u32 {
        match self.dice.below(6) {
            0 => least,
            1 => greatest,
            2 | 3 if least > 0 => least - 1,
            _ => greatest.wrapping_add(1),
        }
    }

    fn index(&mut self) -> u32 {
        match self.dice.below(16) {
            0 | 1 => INDEXES as u32,
            2..=4 => self.argument(INDEXES as u32 - 1),
            _ => self.dice.one_of(&self.indices.clone()),
        }
    }

    /// An address of a RAM of so many words: low, near its end, or behind it.
    fn address(&mut self, words: usize) -> u32 {
        let end = words as u32;
        match self.dice.below(8) {
            0 => end,
            1 => self.argument(end - 1),
            2 => end - 1,
            3 => end - 8 + self.dice.below(8),
            _ => self.dice.below(8),
        }
    }

    /// A command address; in some cases beside the ninth bit.
    fn command_address(&mut self) -> u32 {
        if self.dice.chance(20) {
            NINTH_BIT - 2 + self.dice.below(4)
        } else {
            self.address(COMMANDS)
        }
    }

    /// A word; often with an index that comes up again, of both parities.
    fn data_word(&mut self) -> u32 {
        let word = self.dice.word();
        match self.dice.below(8) {
            0 => self.dice.one_of(&[0, 1, 0x8000_0000, 0x7FFF_FFFF, 0xFFFF_FFFF]),
            1..=5 => word & 0xFFFF_FC00 | self.dice.one_of(&self.indices.clone()),
            _ => word,
        }
    }

    /// A run or a single call.
    fn any_call(&mut self) {
        let group = self.group();
        if self.dice.chance(RUNS[group as usize]) {
            self.run(group);
        } else {
            self.call_of(group);
        }
    }

    fn single_call(&mut self) {
        let group = self.group();
        self.call_of(group);
    }

    /// A theme: in most cases that of the list.
    fn group(&mut self) -> u32 {
        if self.theme == Theme::Mixed || self.dice.chance(35) {
            self.dice.below(5)
        } else {
            self.theme as u32
        }
    }

    fn call_of(&mut self, group: u32) {
        let channel = self.channel();
        match (group, self.dice.below(200)) {
            (_, 0) => self.anything(),
            (_, 1..=14) => self.module_wide(),
            (_, 15..=46) => self.write_setting(channel),
            (_, 47..=54) => {
                let setting = self.dice.below(SETTINGS as u32);
                self.loose(SETTING_READ + setting, channel, 0);
            }
            (_, 55..=58) => {
                let result = self.argument(1);
                self.loose(INITIATED_TEST, channel, result);
            }
            (_, 59..=80) => self.access(),
            (0, _) => self.receive(channel),
            (1, _) => self.transmit_fifo(channel),
            (2, _) => self.scheduled(channel),
            _ => self.status(channel),
        }
    }

    /// A run on a channel that is there.
    fn run(&mut self, group: u32) {
        let channel = 1 + self.dice.below(self.count);
        match (group, self.dice.below(100)) {
            (_, 0 | 1) => self.burst(channel),
            (0, 2) => self.full_receive_fifo(channel),
            (0, 3..=22) => self.small_receive_fifo(channel),
            (0, 23..=40) => self.held_entries(channel),
            (0, 41..=54) => self.mailboxes(channel),
            (0, 55..=84) => self.floods(channel),
            (0, _) => self.stamps(channel),
            (1, 2..=4) => self.full_transmit_fifo(channel),
            (1, 5..=24) => self.masks(channel),
            (1, _) => self.states(channel),
            (2, 2..=29) => self.gaps(channel),
            (2, 30..=60) => self.last_command(channel),
            (2, 61..=68) => self.interrupts(channel),
            (2, 69..=72) => self.ends_of_rams(channel),
            (2, 73..=78) => self.schedule_by_registers(channel),
            (2, _) => self.words_in_a_row(channel),
            (_, 2..=36) => self.latches(channel),
            (_, 37..=44) => self.masks(channel),
            _ => self.samples(channel),
        }
        // Settings of a run do not last.
        for _ in 0..2 {
            let setting = self.dice.below(SETTINGS as u32);
            let value = self.sound_value(setting);
            self.loose(SETTING_WRITE + setting, channel, value);
        }
    }

    /// Any four words, most with an op of the table or beside it.
    fn anything(&mut self) {
        let op = if self.dice.chance(80) { self.dice.below(REGISTER_WRITE + 3) } else { self.dice.word() };
        let (channel, a, b) = (self.channel(), self.dice.one_of(&EDGES), self.dice.one_of(&EDGES));
        self.call(op, channel, a, b);
    }

    fn module_wide(&mut self) {
        let channel = self.dice.word();
        match self.dice.below(44) {
            0 => {
                self.call(POWER_UP, channel, self.count, 0);
                self.set_up();
            }
            1 | 2 => {
                let (most, more) = (CHANNELS, CHANNELS + 1);
                let count = self.dice.one_of(&[0, 0, more, more, most, most, 1, 0xFFFF_FFFF]);
                // A smaller count that is accepted leaves the other channels unknown from here on.
                if count == 1 {
                    self.count = 1;
                }
                self.call(POWER_UP, channel, count, 0);
            }
            3..=7 => self.module_reset(),
            8..=13 => {
                let ticks = if self.dice.chance(50) { self.dice.word() } else { self.dice.one_of(&EDGES) };
                self.loose(STAMP_ADVANCE, channel, ticks);
            }
            14 | 15 => self.loose(STAMP_ZERO, channel, 0),
            16..=20 => self.loose(STAMP_READ, channel, 0),
            21..=25 => {
                let value = self.dice.one_of(&[0, 1, 2, 3, 4, 0xFFFF_FFFF]);
                self.loose(RESOLUTION_WRITE, channel, value);
            }
            26..=29 => self.loose(RESOLUTION_READ, channel, 0),
            30..=39 => {
                let value = self.dice.one_of(&[0, 1, 2, 3, 4, 5, 6, 7, 65_534, 65_535, 65_536, 0xFFFF_FFFF]);
                self.loose(THRESHOLD_WRITE, channel, value);
            }
            _ => self.loose(THRESHOLD_READ, channel, 0),
        }
    }

    /// Module reset, half of the time while a schedule runs and an async word waits.
    fn module_reset(&mut self) {
        if self.dice.chance(50) {
            let channel = 1 + self.dice.below(self.count);
            self.loose(WRITE_TRANSMIT_MODE, channel, 2);
            self.async_word(channel);
            self.loose(TRIGGER, channel, 0);
        }
        self.loose(MODULE_RESET, 0, 0);
        if self.dice.chance(30) {
            self.set_up();
        } else {
            self.switch_on();
        }
    }

    fn write_setting(&mut self, channel: u32) {
        let setting = self.dice.below(SETTINGS as u32);
        let value = match self.dice.below(20) {
            0 | 1 => self.dice.one_of(&EDGES),
            2..=10 => self.end_of(RANGES[setting as usize]),
            _ => self.sound_value(setting),
        };
        self.loose(SETTING_WRITE + setting, channel, value);
        // A receiver or transmitter that is off makes a dull list: most come on again.
        if setting < 2 && self.dice.chance(80) {
            self.single_call();
            self.loose(SETTING_WRITE + setting, channel, 1);
        }
    }

    // Runs.

    /// Many calls of one kind.
    fn burst(&mut self, channel: u32) {
        match self.dice.below(4) {
            0 => {
                for _ in 0..10 {
                    self.loose(SAMPLE, channel, 1);
                }
            }
            1 => self.arrivals(channel, 12),
            _ => {
                for time in 0..12 {
                    if time % 4 == 0 {
                        self.loose(TRIGGER, channel, 0);
                    }
                    if time % 4 < 2 {
                        self.transmit_words(channel, 1);
                    }
                    self.loose(STEP, channel, 0);
                }
            }
        }
    }

    fn arrivals(&mut self, channel: u32, times: u32) {
        for _ in 0..times {
            let word = self.data_word();
            self.loose(ARRIVAL, channel, word);
        }
    }

    fn transmit_words(&mut self, channel: u32, times: u32) {
        for _ in 0..times {
            let word = self.data_word();
            self.loose(FIFO_WRITE, channel, word);
        }
    }

    /// In most cases receiver on and match off; match on has one index in its set.
    fn open_receiver(&mut self, channel: u32) {
        let on = u32::from(self.dice.chance(93));
        let matching = u32::from(self.dice.chance(20));
        self.loose(WRITE_RECEIVER, channel, on);
        self.loose(WRITE_MATCH, channel, matching);
        if matching == 1 {
            self.call(MATCH_WRITE, channel, self.indices[0], 1);
        }
    }

    /// The receive FIFO at its greatest size, filled, and then arrivals and reads; in some cases it is emptied.
    fn full_receive_fifo(&mut self, channel: u32) {
        for (setting, value) in [(0, 1), (3, 0), (8, 255)] {
            self.loose(SETTING_WRITE + setting, channel, value);
        }
        self.mode_and_kind(channel);
        // One index after the other, so that none is listed already.
        let mut word = self.dice.word();
        for place in 0..315 {
            word = word.wrapping_add(1);
            self.loose(ARRIVAL, channel, word);
            if place > SLOTS && place % 3 == 0 {
                self.loose(FIFO_READ, channel, 0);
            }
        }
        if self.dice.chance(25) {
            for _ in 0..SLOTS {
                self.loose(FIFO_READ, channel, 0);
            }
        }
    }

    /// Either receive mode, and either FIFO kind.
    fn mode_and_kind(&mut self, channel: u32) {
        for op in [WRITE_RECEIVE_MODE, WRITE_FIFO_KIND] {
            let value = self.dice.below(2);
            self.loose(op, channel, value);
        }
    }

    /// A receive FIFO of one to three, with more arrivals than reads.
    fn small_receive_fifo(&mut self, channel: u32) {
        self.open_receiver(channel);
        self.mode_and_kind(channel);
        let size = 1 + self.dice.below(3);
        self.loose(WRITE_RECEIVE_SIZE, channel, size);
        for _ in 0..2 {
            self.arrivals(channel, 6);
            self.loose(FIFO_READ, channel, 0);
        }
    }

    /// The transmit FIFO filled, and then a word sent and two written, again and again; in some cases it is emptied.
    fn full_transmit_fifo(&mut self, channel: u32) {
        let mode = self.dice.below(2);
        self.loose(WRITE_TRANSMITTER, channel, 1);
        self.loose(WRITE_TRANSMIT_MODE, channel, mode);
        self.loose(TRIGGER, channel, 0);
        self.transmit_words(channel, SLOTS as u32);
        for _ in 0..25 {
            self.loose(STEP, channel, 0);
            self.transmit_words(channel, 2);
        }
        if self.dice.chance(25) {
            for _ in 0..SLOTS {
                self.loose(STEP, channel, 0);
            }
        }
    }

    /// Some entries held: sizes at and beside the level, and the receive mode written.
    fn held_entries(&mut self, channel: u32) {
        self.loose(INITIATED_TEST, channel, 0);
        for (setting, value) in [(0, 1), (3, 0), (8, 255)] {
            self.loose(SETTING_WRITE + setting, channel, value);
        }
        let level = 2 + self.dice.below(3);
        self.arrivals(channel, level);
        for _ in 0..5 {
            let size = (level + 1).saturating_sub(self.dice.below(5));
            self.loose(WRITE_RECEIVE_SIZE, channel, size);
        }
        for _ in 0..2 {
            let mode = self.dice.below(2);
            self.loose(WRITE_RECEIVE_MODE, channel, mode);
            self.arrivals(channel, 1);
        }
    }

    /// Mailbox mode: arrivals, each mailbox read at once and again, and one read in FIFO mode, new or not.
    fn mailboxes(&mut self, channel: u32) {
        self.open_receiver(channel);
        self.loose(WRITE_PARITY, channel, 1);
        self.loose(WRITE_RECEIVE_MODE, channel, 1);
        for _ in 0..4 {
            let word = self.data_word();
            self.loose(ARRIVAL, channel, word);
            for _ in 0..self.dice.below(3) {
                self.loose(MAILBOX_READ, channel, word % INDEXES as u32);
            }
        }
        let word = self.data_word();
        self.loose(ARRIVAL, channel, word);
        // An index that is read from the list leaves the mark when the mode changes.
        if self.dice.chance(70) {
            for _ in 0..5 {
                self.loose(FIFO_READ, channel, 0);
            }
        }
        self.loose(WRITE_RECEIVE_MODE, channel, 0);
        self.loose(MAILBOX_READ, channel, word % INDEXES as u32);
    }

    /// Stamps of arrivals while the counter rolls over.
    fn stamps(&mut self, channel: u32) {
        self.open_receiver(channel);
        self.loose(WRITE_STAMPS, channel, 1);
        for _ in 0..3 {
            let ticks = 0x8000_0000 | self.dice.word();
            self.loose(STAMP_ADVANCE, channel, ticks);
            self.loose(STAMP_READ, channel, 0);
            self.arrivals(channel, 1);
        }
        self.loose(FIFO_READ, channel, 0);
        if self.dice.chance(30) {
            self.loose(STAMP_ZERO, channel, 0);
        }
    }

    /// Trigger, pause, stop and steps in one transmit mode, with few words to send.
    fn states(&mut self, channel: u32) {
        let on = u32::from(self.dice.chance(93));
        let mode = self.dice.one_of(&[0, 1, 1, 2]);
        self.loose(INITIATED_TEST, channel, 0);
        self.loose(WRITE_TRANSMITTER, channel, on);
        self.loose(WRITE_TRANSMIT_MODE, channel, mode);
        let words = self.dice.below(2);
        self.transmit_words(channel, words);
        for _ in 0..12 {
            let op = self.dice.weighted(&[(TRIGGER, 4), (PAUSE, 2), (STOP, 1), (STEP, 5)]);
            self.loose(op, channel, 0);
        }
    }

    /// Scheduled mode, at command 0.
    fn scheduled_from_0(&mut self, channel: u32) {
        if self.dice.chance(40) {
            self.loose(WRITE_TRANSMITTER, channel, 1);
        }
        self.loose(WRITE_TRANSMIT_MODE, channel, 2);
        self.loose(STOP, channel, 0);
    }

    /// A short schedule of gaps around 40 and at the ends of their range, with async words written between the steps.
    fn gaps(&mut self, channel: u32) {
        self.scheduled_from_0(channel);
        for address in 0..3 {
            let code = self.dice.one_of(&[1, 2, 2, 2, 2, 3, 3]);
            let command = self.other_bits() | code << 12 | address;
            let word = if code == 1 { self.data_word() } else { self.gap() };
            self.call(SCHEDULE_WRITE, channel, address, command);
            self.call(MESSAGE_WRITE, channel, address, word);
        }
        let last = self.silent_command();
        self.call(SCHEDULE_WRITE, channel, 3, last);
        self.call(SCHEDULE_WRITE, channel, 4, JUMP);
        for step in 0..10 + self.dice.below(4) {
            if self.dice.chance(60) {
                self.async_word(channel);
            }
            if step % 4 == 0 {
                let (address, gap) = (self.dice.below(3), self.gap());
                self.call(MESSAGE_WRITE, channel, address, gap);
                self.loose(TRIGGER, channel, 0);
            }
            self.loose(STEP, channel, 0);
        }
        self.leave_schedule(channel);
    }

    /// What drops a waiting async word or keeps it; the read shows which.
    fn leave_schedule(&mut self, channel: u32) {
        for _ in 0..2 {
            self.async_word(channel);
            match self.dice.below(8) {
                // Also when it is off.
                0 | 1 => {
                    self.loose(WRITE_TRANSMITTER, channel, 0);
                    self.async_word(channel);
                    self.loose(WRITE_TRANSMITTER, channel, 0);
                }
                2 | 3 => {
                    let mode = self.dice.below(3);
                    self.loose(WRITE_TRANSMIT_MODE, channel, mode);
                }
                4 => self.loose(STOP, channel, 0),
                _ => {
                    let result = self.dice.below(2);
                    self.loose(INITIATED_TEST, channel, result);
                }
            }
            self.loose(ASYNC_READ, channel, 0);
        }
        self.loose(WRITE_TRANSMITTER, channel, 1);
    }

    /// The schedule's last command, or the last one before the ninth bit, reached by a jump; triggers and steps behind it show where it went.
    fn last_command(&mut self, channel: u32) {
        self.scheduled_from_0(channel);
        let last = if self.dice.chance(55) { LAST_COMMAND } else { NINTH_BIT - 1 };
        self.call(SCHEDULE_WRITE, channel, 0, JUMP | last);
        for _ in 0..8 {
            let command = match self.dice.below(11) {
                0 => 0x1000 | self.dice.below(8),
                1 => 0x2000 | self.dice.below(8),
                2 => 0x3000 | self.dice.below(8),
                // Pause and jump have their own rules here.
                3 => 0x4000,
                4 => JUMP | self.dice.one_of(&[0, 0, 1, NINTH_BIT, LAST_COMMAND]),
                _ => self.silent_command(),
            };
            self.call(SCHEDULE_WRITE, channel, last, command);
            if self.dice.chance(30) {
                self.async_word(channel);
            }
            for op in [TRIGGER, STEP, STEP] {
                self.loose(op, channel, 0);
            }
        }
        self.loose(STEP, channel, 0);
    }

    /// Words written and read at the ends of both RAMs, behind them, and on both sides of the ninth bit.
    fn ends_of_rams(&mut self, channel: u32) {
        for _ in 0..6 {
            let commands = COMMANDS as u32;
            let address = self.dice.one_of(&[0, NINTH_BIT - 1, NINTH_BIT, LAST_COMMAND, commands]);
            let command = self.command();
            self.call(SCHEDULE_WRITE, channel, address, command);
            self.loose(SCHEDULE_READ, channel, address);
            let messages = MESSAGES as u32;
            let address = self.dice.one_of(&[0, messages - 1, messages, messages + 1, LAST_COMMAND]);
            let word = self.gap();
            self.call(MESSAGE_WRITE, channel, address, word);
            self.loose(MESSAGE_READ, channel, address);
        }
    }

    /// Interrupt commands, with the latches cleared between them.
    fn interrupts(&mut self, channel: u32) {
        self.scheduled_from_0(channel);
        self.call(SCHEDULE_WRITE, channel, 0, 0x5000);
        self.call(SCHEDULE_WRITE, channel, 1, JUMP);
        self.level_mask(channel);
        self.loose(TRIGGER, channel, 0);
        for _ in 0..4 {
            self.loose(LATCH_CLEAR, channel, 127);
            self.loose(STEP, channel, 0);
            self.status_read(channel);
            self.loose(STEP, channel, 0);
        }
    }

    /// All by edge, all by level, or some.
    fn level_mask(&mut self, channel: u32) {
        let some = self.dice.below(128);
        let mask = self.dice.one_of(&[0, 127, some]);
        self.loose(LEVEL_WRITE, channel, mask);
    }

    /// Conditions 0 to 4 begin and end in small FIFOs, with the latches cleared before and while they hold.
    fn latches(&mut self, channel: u32) {
        self.loose(INITIATED_TEST, channel, 0);
        self.open_receiver(channel);
        for (setting, value) in [(1, 1), (2, 1), (7, 0), (8, 2), (9, 1), (10, 0)] {
            self.loose(SETTING_WRITE + setting, channel, value);
        }
        self.level_mask(channel);
        for _ in 0..2 {
            self.transmit_words(channel, 2);
            self.loose(LATCH_CLEAR, channel, 127);
            // The thresholds let conditions 2 and 0 begin too.
            if self.dice.chance(50) {
                self.loose(WRITE_ALMOST_EMPTY, channel, 255);
                self.loose(WRITE_ALMOST_EMPTY, channel, 0);
            }
            self.arrivals(channel, 2);
            for op in [STEP, STEP] {
                self.loose(op, channel, 0);
            }
            self.status_read(channel);
            let mask = self.dice.one_of(&[1, 2, 4, 8, 127]);
            self.loose(LATCH_CLEAR, channel, mask);
            self.loose(PENDING_READ, channel, 0);
            if self.dice.chance(50) {
                self.loose(WRITE_ALMOST_FULL, channel, 255);
                self.loose(WRITE_ALMOST_FULL, channel, 0);
            }
            self.loose(INITIATED_TEST, channel, 0);
        }
    }

    /// Samples around the fault threshold, which is written anew at times, with the latch cleared at times.
    fn samples(&mut self, channel: u32) {
        self.level_mask(channel);
        let threshold = 1 + self.dice.below(5);
        self.loose(THRESHOLD_WRITE, channel, threshold);
        self.loose(TEST_RESET, channel, 0);
        for _ in 0..threshold / 2 {
            self.loose(SAMPLE, channel, 1);
        }
        for _ in 0..12 {
            match self.dice.below(10) {
                0..=3 => self.loose(SAMPLE, channel, 1),
                4..=6 => self.loose(SAMPLE, channel, 0),
                7 => self.loose(LATCH_CLEAR, channel, 64),
                _ => {
                    let threshold = 1 + self.dice.below(5);
                    self.loose(THRESHOLD_WRITE, channel, threshold);
                }
            }
        }
    }

    // Single calls.

    fn receive(&mut self, channel: u32) {
        let op = self.dice.weighted(&[
            (ARRIVAL, 6),
            (FIFO_READ, 3),
            (MAILBOX_READ, 2),
            (MATCH_WRITE, 1),
            (MATCH_READ, 1),
            (STATUS_READ, 1),
            (COUNTS_READ, 1),
            (RECEIVE_LEVEL_READ, 1),
        ]);
        match op {
            ARRIVAL => {
                let word = self.data_word();
                self.loose(op, channel, word);
            }
            MATCH_WRITE => {
                let (index, mark) = (self.index(), self.argument(1));
                self.call(op, channel, index, mark);
            }
            MAILBOX_READ | MATCH_READ => {
                let index = self.index();
                self.loose(op, channel, index);
            }
            _ => self.loose(op, channel, 0),
        }
    }

    fn transmit_fifo(&mut self, channel: u32) {
        let op = self.dice.weighted(&[
            (FIFO_WRITE, 5),
            (STEP, 5),
            (TRIGGER, 3),
            (PAUSE, 1),
            (STOP, 1),
            (TRANSMIT_LEVEL_READ, 1),
            (STATUS_READ, 1),
            (COUNTS_READ, 1),
            (WRITE_TRANSMIT_MODE, 2),
        ]);
        let a = match op {
            WRITE_TRANSMIT_MODE => self.dice.below(2),
            _ => self.data_word(),
        };
        self.loose(op, channel, a);
    }

    fn scheduled(&mut self, channel: u32) {
        // A short run: scheduled mode, an async word, a trigger and some steps.
        if self.dice.chance(10) {
            self.loose(WRITE_TRANSMIT_MODE, channel, 2);
            if self.dice.chance(60) {
                self.async_word(channel);
            }
            for _ in 0..1 + self.dice.below(3) {
                self.loose(TRIGGER, channel, 0);
                for _ in 0..1 + self.dice.below(4) {
                    self.loose(STEP, channel, 0);
                }
            }
            return;
        }
        let op = self.dice.weighted(&[
            (STEP, 4),
            (ASYNC_WRITE, 1),
            (TRIGGER, 2),
            (SCHEDULE_WRITE, 2),
            (MESSAGE_WRITE, 2),
            (PAUSE, 1),
            (STOP, 1),
            (SCHEDULE_READ, 2),
            (MESSAGE_READ, 2),
            (ASYNC_READ, 2),
            (WRITE_TRANSMIT_MODE, 1),
        ]);
        match op {
            WRITE_TRANSMIT_MODE => self.loose(op, channel, 2),
            SCHEDULE_WRITE => {
                let (address, command) = (self.command_address(), self.command());
                self.call(op, channel, address, command);
            }
            MESSAGE_WRITE => {
                let address = self.address(MESSAGES);
                let word = if self.dice.chance(70) { self.dice.one_of(&GAPS) } else { self.dice.word() };
                self.call(op, channel, address, word);
            }
            SCHEDULE_READ => {
                let address = self.command_address();
                self.loose(op, channel, address);
            }
            MESSAGE_READ => {
                let address = self.address(MESSAGES);
                self.loose(op, channel, address);
            }
            _ => {
                let word = self.data_word();
                self.loose(op, channel, word);
            }
        }
    }

    fn status(&mut self, channel: u32) {
        let op = self.dice.weighted(&[
            (SAMPLE, 4),
            (TEST_RESET, 1),
            (STATUS_READ, 2),
            (LATCH_CLEAR, 2),
            (ENABLE_WRITE, 1),
            (ENABLE_READ, 1),
            (LEVEL_WRITE, 1),
            (LEVEL_READ, 1),
            (PENDING_READ, 2),
            (ARRIVAL, 1),
            (FIFO_WRITE, 1),
            (STEP, 1),
            (FIFO_READ, 1),
        ]);
        let a = match op {
            SAMPLE => self.argument(1),
            LATCH_CLEAR | ENABLE_WRITE | LEVEL_WRITE => self.argument(127),
            _ => self.data_word(),
        };
        self.loose(op, channel, a);
    }

    // Memory that others change, and memory lent in part.

    fn overwrite(&mut self, word: usize, value: u32) {
        if word < self.memory.len() {
            self.events.push(Event::Overwrite { word, value });
        }
    }

    fn damage(&mut self) {
        let channel = 1 + self.dice.below(self.count);
        let first = block(channel);
        match self.dice.below(22) {
            // Within its range: states that a list alone reaches late.
            0..=2 => {
                let word = self.dice.below(RANGED as u32);
                let (least, greatest) = RANGES[word as usize];
                let near = self.dice.below(3);
                let value = match self.dice.below(3) {
                    0 => least + near.min(greatest - least),
                    1 => greatest - near.min(greatest - least),
                    _ => least + self.dice.below(greatest - least + 1),
                };
                self.overwrite(first + word as usize, value);
                if word == RECEIVE_LEVEL as u32 {
                    self.overwrite(first + SIZE, 255);
                }
            }
            3 | 4 => self.counter_near_its_end(channel),
            5 | 6 => self.fifos_near_their_ends(channel),
            // Words that may hold anything.
            7 | 8 => {
                let word = RECEIVE_RING + self.dice.below((BLOCK_WORDS - RECEIVE_RING) as u32) as usize;
                let value = self.dice.word();
                self.overwrite(first + word, value);
                // Stored statuses of which the two low bits count.
                let mailbox = MAILBOXES + 3 * self.indices[0] as usize;
                self.overwrite(first + mailbox, value);
                for slot in 0..8 {
                    let status = self.dice.word();
                    self.overwrite(first + RECEIVE_RING + 3 * slot, status);
                }
                self.loose(MAILBOX_READ, channel, self.indices[0]);
                self.loose(FIFO_READ, channel, 0);
            }
            // An async word that waits outside scheduled mode.
            9 => {
                let mode = self.dice.below(2);
                self.overwrite(first + TRANSMIT_MODE, mode);
                self.overwrite(first + ASYNC_MARK, 1);
                self.register_read(Register::Async { channel });
                for op in [ASYNC_WRITE, ASYNC_READ, STEP, ASYNC_WRITE] {
                    self.loose(op, channel, 0);
                }
                self.register_write(Register::Async { channel }, 0);
            }
            // A receive level at or above the size; repaired after some calls.
            10 => {
                let size = 1 + self.dice.below(4);
                let above = self.dice.below(2);
                self.overwrite(first + SIZE, size);
                self.overwrite(first + RECEIVE_LEVEL, size + above);
                for _ in 0..3 {
                    let op = self.dice.one_of(&[ARRIVAL, FIFO_READ, STATUS_READ, RECEIVE_LEVEL_READ, STAMP_READ]);
                    self.loose(op, channel, 0);
                }
                self.overwrite(first + SIZE, 255);
            }
            11 => self.mark_set_by_others(channel),
            12 | 13 => self.list_of_others(channel),
            14..=18 => self.outside_its_range(channel),
            19 => self.layout_of_others(channel),
            20 => self.latches_of_others(channel),
            _ => {
                let (word, value) = (self.dice.below(self.memory.len() as u32), self.dice.word());
                self.overwrite(word as usize, value);
                for _ in 0..3 {
                    self.single_call();
                }
                self.call(POWER_UP, 0, self.count, 0);
                self.set_up();
            }
        }
    }

    /// Any number in a word with a range, most beside an end of it; repaired after some calls.
    fn outside_its_range(&mut self, channel: u32) {
        let in_block = self.dice.chance(70);
        let (place, range) = if in_block {
            let word = self.dice.below(RANGED as u32) as usize;
            (block(channel) + word, RANGES[word])
        } else {
            // Most of the words are counters.
            let single = self.dice.one_of(&[COUNT, STAMP, RESOLUTION, THRESHOLD, LAYOUT].map(|word| word as u32));
            let any = self.dice.below(MODULE_WORDS as u32);
            let word = if self.dice.chance(75) { single } else { any } as usize;
            (word, PART_RANGES[word])
        };
        let value = match self.dice.below(10) {
            0 => self.dice.word(),
            1 | 2 => self.dice.one_of(&EDGES),
            _ => self.end_of(range),
        };
        self.overwrite(place, value);
        for _ in 0..3 {
            self.refusable_call(channel);
            self.refusable_call(channel);
            self.single_call();
        }
        for _ in 0..2 {
            self.access_to(channel);
            self.masked_write();
        }
        if self.dice.chance(20) {
            self.wrong_way(channel);
        }
        let sound = match place {
            COUNT => self.count,
            THRESHOLD => 5,
            // No level is above the greatest size.
            _ if place == block(channel) + SIZE => 255,
            _ => range.0,
        };
        self.overwrite(place, sound);
    }

    /// A layout number that is not this layout's, met by calls of every kind; then this layout's again, or a power-up.
    fn layout_of_others(&mut self, channel: u32) {
        let edge = self.dice.one_of(&EDGES);
        let number = self.dice.one_of(&[0, LAYOUT_NUMBER - 1, LAYOUT_NUMBER + 1, edge]);
        self.overwrite(LAYOUT, number);
        let wide = self.dice.one_of(&[MODULE_RESET, STAMP_READ, STAMP_ZERO]);
        for op in [wide, THRESHOLD_WRITE, STATUS_READ] {
            self.loose(op, channel, 1);
        }
        for _ in 0..2 {
            self.refusable_call(channel);
            self.single_call();
            self.masked_write();
        }
        if self.dice.chance(50) {
            self.overwrite(LAYOUT, LAYOUT_NUMBER);
        } else {
            self.call(POWER_UP, 0, self.count, 0);
            self.set_up();
        }
    }

    /// A call that its argument or the channel's state may refuse too.
    fn refusable_call(&mut self, channel: u32) {
        let op = self.dice.weighted(&[
            (WRITE_RECEIVE_SIZE, 1),
            (FIFO_READ, 2),
            (MAILBOX_READ, 1),
            (FIFO_WRITE, 1),
            (ASYNC_WRITE, 2),
            (TRIGGER, 1),
            (SCHEDULE_WRITE, 1),
            (SAMPLE, 1),
            (INITIATED_TEST, 1),
            (LATCH_CLEAR, 1),
            (STAMP_ADVANCE, 1),
            (THRESHOLD_WRITE, 1),
        ]);
        let a = self.dice.one_of(&EDGES);
        self.loose(op, channel, a);
    }

    /// The fault counter beside 65,536, with the greatest threshold or the one before, and samples.
    fn counter_near_its_end(&mut self, channel: u32) {
        let counter = 65_536 - self.dice.below(4);
        let threshold = 65_535 - self.dice.below(2);
        self.overwrite(COUNTERS + channel as usize - 1, counter);
        self.overwrite(THRESHOLD, threshold);
        for _ in 0..12 {
            let result = u32::from(self.dice.chance(50));
            self.loose(SAMPLE, channel, result);
        }
    }

    /// Fate counts near the roll over and positions near the ring's end, and calls that move them.
    fn fifos_near_their_ends(&mut self, channel: u32) {
        let first = block(channel);
        for count in RECEIVE_ACCEPTED..=TRANSMIT_CLEARED {
            let value = self.dice.below(2).wrapping_sub(2);
            self.overwrite(first + count, value);
        }
        for position in [RECEIVE_POSITION, TRANSMIT_POSITION] {
            let value = 254 - self.dice.below(3);
            self.overwrite(first + position, value);
        }
        self.overwrite(first + RECEIVE_LEVEL, 0);
        self.open_receiver(channel);
        for (setting, value) in [(1, 1), (6, 1), (7, 0), (8, 2)] {
            self.loose(SETTING_WRITE + setting, channel, value);
        }
        self.arrivals(channel, 4);
        self.loose(FIFO_READ, channel, 0);
        self.transmit_words(channel, 4);
        for op in [STEP, FIFO_READ, STEP, STEP] {
            self.loose(op, channel, 0);
        }
        self.arrivals(channel, 2);
        self.loose(INITIATED_TEST, channel, 0);
    }

    fn stored_count_or_power_up(&mut self) {
        // The count whose need stands nearest to the lent words.
        let nearest = ((self.memory.len() + 1).saturating_sub(MODULE_WORDS) / BLOCK_WORDS) as u32;
        let count = self.dice.one_of(&[0, 1, 2, 3, 4, CHANNELS, CHANNELS + 1, 0xFFFF_FFFF, nearest, nearest, nearest]);
        if self.dice.chance(50) {
            self.overwrite(COUNT, count);
        } else {
            self.call(POWER_UP, 0, count, 0);
            if need(count.min(CHANNELS)) <= self.memory.len() && (1..=CHANNELS).contains(&count) {
                self.count = count;
                self.set_up();
            }
        }
    }

    fn lend(&mut self) {
        let whole = self.memory.len();
        let words = match self.dice.below(5) {
            0 => around_the_part(&mut self.dice),
            1 => self.dice.below(whole as u32) as usize,
            2 => need(1 + self.dice.below(self.count)) - 1,
            3 => need(1 + self.dice.below(self.count)),
            _ => need(self.count),
        };
        self.events.push(Event::Lend { words: words.min(whole) });
        for _ in 0..1 + self.dice.below(5) {
            self.single_call();
        }
        if self.dice.chance(40) {
            self.access();
            self.masked_write();
        }
        if self.dice.chance(15) {
            self.wrong_way(1);
        }
        self.events.push(Event::Lend { words: whole });
    }
}
