//! The module as a model: settings by name, FIFOs as queues, sets and memories as lists.
//!
//! Nothing here knows the lent words; of the lent memory the number of words alone matters.
//! `None` in place of the module part or of a channel says that a stored number is outside its range.

use std::collections::VecDeque;

use crate::calls::{Call, Item, NO_CALL};
use crate::layout::{need, CHANNELS, COMMANDS, INDEXES, LAST_COMMAND, MESSAGES, SLOTS};

#[derive(Clone, Copy, PartialEq, Eq, Debug)]
pub enum ReceiveMode {
    Fifo,
    Mailbox,
}

#[derive(Clone, Copy, PartialEq, Eq, Debug)]
pub enum FifoKind {
    Bounded,
    Circular,
}

#[derive(Clone, Copy, PartialEq, Eq, Debug)]
pub enum TransmitMode {
    Immediate,
    Triggered,
    Scheduled,
}

#[derive(Clone, Copy, PartialEq, Eq, Debug)]
pub enum Transmitter {
    Idle,
    Running,
    Paused,
}

#[derive(Clone, PartialEq, Eq, Debug)]
pub struct Settings {
    pub receiver: bool,
    pub transmitter: bool,
    pub parity: bool,
    pub matching: bool,
    pub stamps: bool,
    pub receive_mode: ReceiveMode,
    pub fifo_kind: FifoKind,
    pub transmit_mode: TransmitMode,
    pub size: u32,
    pub almost_full: u32,
    pub almost_empty: u32,
    pub rate: u32,
}

/// An answer's refusal: 1 to 7, and of an access to a register also 30 to 32.
pub type Refusal = u32;
const SHORT: Refusal = 1;
const UNSOUND: Refusal = 2;
const CHANNEL: Refusal = 3;
const RANGE: Refusal = 4;
const MODE: Refusal = 5;
const FULL: Refusal = 6;
const EMPTY: Refusal = 7;

pub fn on_or_off(value: u32) -> Option<bool> {
    match value {
        0 => Some(false),
        1 => Some(true),
        _ => None,
    }
}

fn within(value: u32, least: u32, greatest: u32) -> Option<u32> {
    (least <= value && value <= greatest).then_some(value)
}

impl Settings {
    pub fn factory() -> Settings {
        Settings {
            receiver: false,
            transmitter: false,
            parity: true,
            matching: false,
            stamps: false,
            receive_mode: ReceiveMode::Fifo,
            fifo_kind: FifoKind::Bounded,
            transmit_mode: TransmitMode::Immediate,
            size: 255,
            almost_full: 128,
            almost_empty: 32,
            rate: 4,
        }
    }

    /// Writes a setting by its number; none, and no change, where the value is outside its range.
    pub fn set(&mut self, setting: u32, value: u32) -> Option<()> {
        match setting {
            0 => self.receiver = on_or_off(value)?,
            1 => self.transmitter = on_or_off(value)?,
            2 => self.parity = on_or_off(value)?,
            3 => self.matching = on_or_off(value)?,
            4 => self.stamps = on_or_off(value)?,
            5 => {
                self.receive_mode = match value {
                    0 => ReceiveMode::Fifo,
                    1 => ReceiveMode::Mailbox,
                    _ => return None,
                }
            }
            6 => {
                self.fifo_kind = match value {
                    0 => FifoKind::Bounded,
                    1 => FifoKind::Circular,
                    _ => return None,
                }
            }
            7 => {
                self.transmit_mode = match value {
                    0 => TransmitMode::Immediate,
                    1 => TransmitMode::Triggered,
                    2 => TransmitMode::Scheduled,
                    _ => return None,
                }
            }
            8 => self.size = within(value, 1, 255)?,
            9 => self.almost_full = within(value, 0, 255)?,
            10 => self.almost_empty = within(value, 0, 255)?,
            11 => self.rate = within(value, 4, 1_048_575)?,
            _ => return None,
        }
        Some(())
    }

    pub fn get(&self, setting: u32) -> u32 {
        match setting {
            0 => self.receiver.into(),
            1 => self.transmitter.into(),
            2 => self.parity.into(),
            3 => self.matching.into(),
            4 => self.stamps.into(),
            5 => (self.receive_mode == ReceiveMode::Mailbox).into(),
            6 => (self.fifo_kind == FifoKind::Circular).into(),
            7 => match self.transmit_mode {
                TransmitMode::Immediate => 0,
                TransmitMode::Triggered => 1,
                TransmitMode::Scheduled => 2,
            },
            8 => self.size,
            9 => self.almost_full,
            10 => self.almost_empty,
            _ => self.rate,
        }
    }
}

/// An entry of the receive FIFO, or a mailbox. Of the status the two low bits count.
#[derive(Clone, Copy, PartialEq, Eq, Debug, Default)]
pub struct Entry {
    pub status: u32,
    pub word: u32,
    pub stamp: u32,
}

impl Entry {
    fn shown(self) -> Vec<u32> {
        vec![self.status & 3, self.word, self.stamp]
    }

    /// D1: a word that was not read yet.
    fn is_new(self) -> bool {
        self.status & 2 != 0
    }

    /// Of the stored status only D0 stays.
    fn lose_mark(&mut self) {
        self.status &= 1;
    }
}

/// Fate counts; each rolls over.
#[derive(Clone, PartialEq, Eq, Debug, Default)]
pub struct Counts {
    pub received: u32,
    pub read: u32,
    pub receive_cleared: u32,
    pub overwritten: u32,
    pub written: u32,
    pub sent: u32,
    pub transmit_cleared: u32,
}

fn count(number: &mut u32, by: usize) {
    *number = number.wrapping_add(by as u32);
}

/// Seven marks, one for each condition.
pub type Marks = [bool; 7];

pub fn marks_of(mask: u32) -> Option<Marks> {
    (mask <= 127).then(|| std::array::from_fn(|bit| mask >> bit & 1 == 1))
}

pub fn mask_of(marks: &Marks) -> u32 {
    (0..7).filter(|&bit| marks[bit]).map(|bit| 1 << bit).sum()
}

#[derive(Clone, PartialEq, Eq, Debug)]
pub struct Channel {
    pub settings: Settings,
    pub receive: VecDeque<Entry>,
    pub transmit: VecDeque<u32>,
    pub state: Transmitter,
    /// Command address.
    pub command: u32,
    pub waiting: Option<u32>,
    /// The last thing that the schedule sent was a message word.
    pub after_word: bool,
    pub latches: Marks,
    pub enables: Marks,
    /// True for level, false for edge.
    pub levels: Marks,
    pub counts: Counts,
    pub mailboxes: Vec<Entry>,
    pub match_set: Vec<bool>,
    pub message: Vec<u32>,
    pub schedule: Vec<u32>,
}

/// What happened to an entry that was to be appended.
enum Appending {
    Appended,
    Dropped,
    Overwriting { oldest: Entry },
    AlreadyListed,
}

/// Outcomes of an arrival that reaches no FIFO and no mailbox.
const IGNORED: u32 = 0;
const FILTERED: u32 = 1;

impl Appending {
    /// The arrival's outcome.
    fn outcome(&self) -> u32 {
        match self {
            Appending::Appended => 2,
            Appending::Dropped => 3,
            Appending::Overwriting { .. } => 4,
            Appending::AlreadyListed => 5,
        }
    }
}

/// What a step puts on the line.
enum Output {
    Quiet,
    FifoWord { word: u32, gap: u32 },
    Message { word: u32 },
    Null { time: u32 },
    NullAsyncNull { word: u32, rest: u32 },
    Reserved { address: u32 },
    NullMessage { word: u32 },
}

impl Output {
    fn shown(self) -> Vec<u32> {
        match self {
            Output::Quiet => vec![0, 0, 0, 0],
            Output::FifoWord { word, gap } => vec![1, word, gap, 0],
            Output::Message { word } => vec![2, word, 0, 0],
            Output::Null { time } => vec![3, time, 0, 0],
            Output::NullAsyncNull { word, rest } => vec![4, 4, word, rest],
            Output::Reserved { address } => vec![5, address, 0, 0],
            Output::NullMessage { word } => vec![6, 4, word, 0],
        }
    }
}

/// Odd parity: a word with an even count of ones is in error.
pub fn in_error(word: u32) -> bool {
    word.count_ones() % 2 == 0
}

/// D31 set or cleared so that the count of ones is odd.
pub fn with_odd_parity(word: u32) -> u32 {
    let data = word % 0x8000_0000;
    if in_error(data) {
        data + 0x8000_0000
    } else {
        data
    }
}

/// The octal label: the low byte with its bits reversed.
pub fn label(word: u32) -> u8 {
    (word as u8).reverse_bits()
}

/// A gap as sent: a RAM value below 4 counts as 4, one above 1,048,575 as 1,048,575.
pub fn gap(value: u32) -> u32 {
    value.clamp(4, 1_048_575)
}

/// Marks signalled by the call itself: they hold only during it.
#[derive(Default)]
struct Signals {
    parity_error: bool,
    interrupt: bool,
}

impl Channel {
    pub fn powered_up() -> Channel {
        Channel {
            settings: Settings::factory(),
            receive: VecDeque::new(),
            transmit: VecDeque::new(),
            state: Transmitter::Idle,
            command: 0,
            waiting: None,
            after_word: false,
            latches: [false; 7],
            enables: [false; 7],
            levels: [false; 7],
            counts: Counts::default(),
            mailboxes: vec![Entry::default(); INDEXES],
            match_set: vec![false; INDEXES],
            message: vec![0; MESSAGES],
            schedule: vec![0; COMMANDS],
        }
    }

    /// In mailbox mode each index cleared takes the new mark from its mailbox.
    fn clear_receive(&mut self) {
        if self.settings.receive_mode == ReceiveMode::Mailbox {
            for entry in &self.receive {
                self.mailboxes[entry.word as usize % INDEXES].lose_mark();
            }
        }
        count(&mut self.counts.receive_cleared, self.receive.len());
        self.receive.clear();
    }

    fn clear_transmit(&mut self) {
        count(&mut self.counts.transmit_cleared, self.transmit.len());
        self.transmit.clear();
    }

    fn idle_at_command_0(&mut self) {
        self.state = Transmitter::Idle;
        self.command = 0;
    }

    /// Module reset: memories, match set, counts and, but for the marks of listed ones, mailboxes stay.
    fn reset(&mut self) {
        self.clear_receive();
        self.clear_transmit();
        self.waiting = None;
        self.after_word = false;
        self.idle_at_command_0();
        self.settings = Settings::factory();
        self.latches = [false; 7];
        self.enables = [false; 7];
        self.levels = [false; 7];
    }

    fn conditions(&self, fault: bool) -> Marks {
        let received = self.receive.len() as u32;
        let to_send = self.transmit.len() as u32;
        [
            received >= self.settings.almost_full,
            received == self.settings.size,
            to_send <= self.settings.almost_empty,
            to_send == 0,
            false,
            false,
            fault,
        ]
    }

    /// Latches each condition that holds and, by edge, did not hold before.
    fn rule(&mut self, before: &Marks, after: &Marks) {
        for bit in 0..7 {
            if after[bit] && (self.levels[bit] || !before[bit]) {
                self.latches[bit] = true;
            }
        }
    }

    fn pending(&self) -> bool {
        (0..7).any(|bit| self.latches[bit] && self.enables[bit])
    }

    fn write_setting(&mut self, setting: u32, value: u32) -> Result<(), Refusal> {
        let mut written = self.settings.clone();
        written.set(setting, value).ok_or(RANGE)?;
        if written.size < self.receive.len() as u32 {
            return Err(MODE);
        }
        if written.receive_mode != self.settings.receive_mode {
            self.clear_receive();
        }
        let held = std::mem::replace(&mut self.settings, written);
        let turned_off = setting == 1 && value == 0;
        if held.transmit_mode != self.settings.transmit_mode || turned_off {
            self.idle_at_command_0();
            self.waiting = None;
            self.after_word = false;
        }
        Ok(())
    }

    /// Appends under the full rule.
    fn append(&mut self, entry: Entry) -> Appending {
        let full = self.receive.len() as u32 == self.settings.size;
        if full && self.settings.fifo_kind == FifoKind::Bounded {
            return Appending::Dropped;
        }
        count(&mut self.counts.received, 1);
        let oldest = if full { self.receive.pop_front() } else { None };
        self.receive.push_back(entry);
        match oldest {
            Some(oldest) => {
                count(&mut self.counts.overwritten, 1);
                Appending::Overwriting { oldest }
            }
            None => Appending::Appended,
        }
    }

    /// Lists an index, but not where its mailbox still has the new mark.
    fn list(&mut self, index: u32) -> Appending {
        if self.mailboxes[index as usize].is_new() {
            return Appending::AlreadyListed;
        }
        self.append(Entry { status: 0, word: index, stamp: 0 })
    }

    /// Gives the outcome's number.
    fn arrival(&mut self, word: u32, stamp: u32, signals: &mut Signals) -> u32 {
        let index = word % INDEXES as u32;
        if !self.settings.receiver {
            return IGNORED;
        }
        if self.settings.matching && !self.match_set[index as usize] {
            return FILTERED;
        }
        let error = self.settings.parity && in_error(word);
        let stamp = if self.settings.stamps { stamp } else { 0 };
        match self.settings.receive_mode {
            ReceiveMode::Fifo => {
                let appending = self.append(Entry { status: error.into(), word, stamp });
                signals.parity_error = error && !matches!(appending, Appending::Dropped);
                appending.outcome()
            }
            ReceiveMode::Mailbox => {
                let appending = self.list(index);
                let new = match appending {
                    Appending::Appended => true,
                    // An index that is lost leaves its mark clear.
                    Appending::Dropped => false,
                    Appending::Overwriting { oldest } => {
                        self.mailboxes[oldest.word as usize % INDEXES].lose_mark();
                        true
                    }
                    // The mark that it had.
                    Appending::AlreadyListed => true,
                };
                let status = u32::from(error) + 2 * u32::from(new);
                self.mailboxes[index as usize] = Entry { status, word, stamp };
                signals.parity_error = error;
                appending.outcome()
            }
        }
    }

    fn as_sent(&self, word: u32) -> u32 {
        if self.settings.parity {
            with_odd_parity(word)
        } else {
            word
        }
    }

    fn send_oldest(&mut self) -> Option<Output> {
        let word = self.transmit.pop_front()?;
        count(&mut self.counts.sent, 1);
        Some(Output::FifoWord { word: self.as_sent(word), gap: self.settings.rate })
    }

    fn step(&mut self, signals: &mut Signals) -> Output {
        if !self.settings.transmitter {
            return Output::Quiet;
        }
        match (self.settings.transmit_mode, self.state) {
            (TransmitMode::Immediate, Transmitter::Idle | Transmitter::Running) => {
                self.send_oldest().unwrap_or(Output::Quiet)
            }
            (TransmitMode::Triggered, Transmitter::Running) => match self.send_oldest() {
                Some(output) => output,
                None => {
                    self.state = Transmitter::Idle;
                    Output::Quiet
                }
            },
            (TransmitMode::Scheduled, Transmitter::Running) => self.command(signals),
            _ => Output::Quiet,
        }
    }

    /// One command of the schedule.
    fn command(&mut self, signals: &mut Signals) -> Output {
        let address = self.command;
        let command = self.schedule[address as usize];
        let stored = self.message[command as usize % MESSAGES];
        match command / 4096 % 16 {
            0 => {
                self.idle_at_command_0();
                Output::Quiet
            }
            1 => {
                self.next_command();
                let word = self.as_sent(stored);
                // Behind another message word: 4 null first.
                if std::mem::replace(&mut self.after_word, true) {
                    Output::NullMessage { word }
                } else {
                    Output::Message { word }
                }
            }
            2 => {
                self.next_command();
                self.after_word = false;
                let time = gap(stored);
                match self.waiting {
                    Some(word) if time >= 40 => {
                        self.waiting = None;
                        Output::NullAsyncNull { word: self.as_sent(word), rest: time - 36 }
                    }
                    _ => Output::Null { time },
                }
            }
            3 => {
                self.next_command();
                self.after_word = false;
                Output::Null { time: gap(stored) }
            }
            4 => {
                self.state = Transmitter::Paused;
                self.next_command();
                Output::Quiet
            }
            5 => {
                signals.interrupt = true;
                self.next_command();
                Output::Quiet
            }
            6 => {
                // Bits 8 to 0: the manual's jump has nine address bits, and each address is a command's.
                self.command = command % COMMANDS as u32;
                Output::Quiet
            }
            _ => {
                self.idle_at_command_0();
                Output::Reserved { address }
            }
        }
    }

    /// After the last command, a pause too, the transmitter is idle at command 0 in the same step.
    fn next_command(&mut self) {
        if self.command == LAST_COMMAND {
            self.idle_at_command_0();
        } else {
            self.command += 1;
        }
    }

    /// A call on this channel, refused with no change or done. Status and pending are read behind the rule.
    fn act(&mut self, call: Call, stamp: u32, counter: &mut u32, signals: &mut Signals) -> Result<Vec<u32>, Refusal> {
        let place =
            |number: u32, places: usize| if (number as usize) < places { Ok(number as usize) } else { Err(RANGE) };
        let index_of = |index: u32| place(index, INDEXES);
        let command_at = |address: u32| place(address, COMMANDS);
        let message_at = |address: u32| place(address, MESSAGES);
        Ok(match call {
            Call::WriteSetting { setting, value } => {
                self.write_setting(setting, value)?;
                vec![]
            }
            Call::ReadSetting { setting } => vec![self.settings.get(setting)],
            Call::Arrival { word } => vec![self.arrival(word, stamp, signals)],
            Call::ReadFifo => {
                let entry = self.receive.pop_front().ok_or(EMPTY)?;
                count(&mut self.counts.read, 1);
                entry.shown()
            }
            Call::ReadMailbox { index } => {
                let mailbox = &mut self.mailboxes[index_of(index)?];
                let shown = mailbox.shown();
                mailbox.lose_mark();
                shown
            }
            Call::WriteMatch { index, mark } => {
                let (index, mark) = (index_of(index)?, on_or_off(mark).ok_or(RANGE)?);
                self.match_set[index] = mark;
                vec![]
            }
            Call::ReadMatch { index } => vec![self.match_set[index_of(index)?].into()],
            Call::WriteTransmitFifo { word } => {
                if self.transmit.len() == SLOTS {
                    return Err(FULL);
                }
                self.transmit.push_back(word);
                count(&mut self.counts.written, 1);
                vec![]
            }
            Call::WriteAsync { word } => {
                if self.settings.transmit_mode != TransmitMode::Scheduled {
                    return Err(MODE);
                }
                if self.waiting.is_some() {
                    return Err(FULL);
                }
                self.waiting = Some(word);
                vec![]
            }
            Call::Trigger => {
                if !self.settings.transmitter {
                    return Err(MODE);
                }
                self.state = Transmitter::Running;
                vec![]
            }
            Call::Pause => {
                let immediate = self.settings.transmit_mode == TransmitMode::Immediate;
                if self.state == Transmitter::Running || (immediate && self.state == Transmitter::Idle) {
                    self.state = Transmitter::Paused;
                }
                vec![]
            }
            Call::Stop => {
                self.idle_at_command_0();
                vec![]
            }
            Call::Step => self.step(signals).shown(),
            Call::WriteSchedule { address, command } => {
                self.schedule[command_at(address)?] = command;
                vec![]
            }
            Call::ReadSchedule { address } => vec![self.schedule[command_at(address)?]],
            Call::WriteMessage { address, word } => {
                self.message[message_at(address)?] = word;
                vec![]
            }
            Call::ReadMessage { address } => vec![self.message[message_at(address)?]],
            Call::Sample { result } => {
                *counter = if on_or_off(result).ok_or(RANGE)? {
                    (*counter + 2).min(65_536)
                } else {
                    counter.saturating_sub(1)
                };
                vec![]
            }
            Call::ResetTest => {
                *counter = 0;
                vec![]
            }
            Call::InitiatedTest { result } => {
                let failed = on_or_off(result).ok_or(RANGE)?;
                self.clear_receive();
                self.clear_transmit();
                self.idle_at_command_0();
                self.after_word = false;
                if failed {
                    self.latches[6] = true;
                }
                vec![]
            }
            Call::ClearLatch { mask } => {
                let ones = marks_of(mask).ok_or(RANGE)?;
                for bit in 0..7 {
                    self.latches[bit] &= !ones[bit];
                }
                vec![]
            }
            Call::WriteEnable { mask } => {
                self.enables = marks_of(mask).ok_or(RANGE)?;
                vec![]
            }
            Call::ReadEnable => vec![mask_of(&self.enables)],
            Call::WriteLevelMask { mask } => {
                self.levels = marks_of(mask).ok_or(RANGE)?;
                vec![]
            }
            Call::ReadLevelMask => vec![mask_of(&self.levels)],
            Call::ReadCounts => {
                let c = &self.counts;
                vec![c.received, c.read, c.receive_cleared, c.overwritten, c.written, c.sent, c.transmit_cleared]
            }
            Call::ReadReceiveLevel => vec![self.receive.len() as u32],
            Call::ReadTransmitLevel => vec![self.transmit.len() as u32],
            Call::ReadAsync => match self.waiting {
                Some(word) => vec![1, word],
                None => vec![0, 0],
            },
            _ => vec![],
        })
    }
}

/// The module part but for the channel count, and for the layout number, which a sound part always has.
#[derive(Clone, PartialEq, Eq, Debug)]
pub struct Part {
    pub stamp: u32,
    pub resolution: u32,
    pub threshold: u32,
    pub counters: [u32; CHANNELS as usize],
}

impl Part {
    pub fn factory() -> Part {
        Part { stamp: 0, resolution: 0, threshold: 5, counters: [0; CHANNELS as usize] }
    }

    /// 004: fault when the threshold is surpassed.
    fn fault(&self, channel: usize) -> bool {
        self.counters[channel] > self.threshold
    }
}

#[derive(Clone, PartialEq, Eq, Debug)]
pub struct Model {
    /// The stored channel count, whatever it is.
    pub stored_count: u32,
    pub part: Option<Part>,
    /// As many as the stored count, where that is 1 to 12 and memory holds them.
    pub channels: Vec<Option<Channel>>,
}

impl Model {
    /// Performs one item; `lent` is the number of lent words.
    pub fn perform(&mut self, lent: usize, item: Item) -> Vec<u32> {
        let Some(call) = Call::of(item) else {
            return vec![NO_CALL];
        };
        let done = match call {
            Call::ReadRegister { address } => self.read_register(lent, address),
            Call::WriteRegister { address, value } => self.write_register(lent, address, value),
            _ => self.call(lent, item.channel, call),
        };
        match done {
            Ok(values) => [vec![0], values].concat(),
            Err(refusal) => [vec![refusal], vec![0; call.values()]].concat(),
        }
    }

    /// A call that is no access to a register.
    pub(crate) fn call(&mut self, lent: usize, channel: u32, call: Call) -> Result<Vec<u32>, Refusal> {
        if let Call::PowerUp { count } = call {
            return self.power_up(lent, count);
        }
        self.sound_part(lent)?;
        if call.is_module_wide() {
            self.on_module(call)
        } else {
            self.on_channel(channel, call)
        }
    }

    /// Refused for short memory, and then for an unsound module part.
    pub(crate) fn sound_part(&self, lent: usize) -> Result<(), Refusal> {
        let stored = if (1..=CHANNELS).contains(&self.stored_count) { self.stored_count } else { 0 };
        if lent < need(stored) {
            return Err(SHORT);
        }
        self.part.is_some().then_some(()).ok_or(UNSOUND)
    }

    fn power_up(&mut self, lent: usize, count: u32) -> Result<Vec<u32>, Refusal> {
        if !(1..=CHANNELS).contains(&count) {
            return Err(RANGE);
        }
        if lent < need(count) {
            return Err(SHORT);
        }
        self.stored_count = count;
        self.part = Some(Part::factory());
        self.channels = vec![Some(Channel::powered_up()); count as usize];
        Ok(vec![])
    }

    fn on_module(&mut self, call: Call) -> Result<Vec<u32>, Refusal> {
        let part = self.part.as_mut().ok_or(UNSOUND)?;
        if self.channels.iter().any(Option::is_none) {
            return Err(UNSOUND);
        }
        let before: Vec<Marks> = (self.channels.iter().flatten().enumerate())
            .map(|(place, channel)| channel.conditions(part.fault(place)))
            .collect();
        match call {
            Call::ReadStamp => return Ok(vec![part.stamp]),
            Call::ReadResolution => return Ok(vec![part.resolution]),
            Call::ReadThreshold => return Ok(vec![part.threshold]),
            Call::ModuleReset => {
                *part = Part::factory();
                self.channels.iter_mut().flatten().for_each(Channel::reset);
                return Ok(vec![]);
            }
            Call::AdvanceStamp { ticks } => part.stamp = part.stamp.wrapping_add(ticks),
            Call::ZeroStamp => part.stamp = 0,
            Call::WriteResolution { value } => part.resolution = within(value, 0, 3).ok_or(RANGE)?,
            Call::WriteThreshold { value } => part.threshold = within(value, 1, 65_535).ok_or(RANGE)?,
            _ => {}
        }
        for (place, channel) in self.channels.iter_mut().flatten().enumerate() {
            let after = channel.conditions(part.fault(place));
            channel.rule(&before[place], &after);
        }
        Ok(vec![])
    }

    fn on_channel(&mut self, number: u32, call: Call) -> Result<Vec<u32>, Refusal> {
        let part = self.part.as_mut().ok_or(UNSOUND)?;
        if !(1..=self.stored_count).contains(&number) {
            return Err(CHANNEL);
        }
        let place = number as usize - 1;
        let channel = self.channels[place].as_mut().ok_or(UNSOUND)?;
        let before = channel.conditions(part.fault(place));
        let mut signals = Signals::default();
        let values = channel.act(call, part.stamp, &mut part.counters[place], &mut signals)?;
        let mut after = channel.conditions(part.fault(place));
        after[4] = signals.parity_error;
        after[5] = signals.interrupt;
        channel.rule(&before, &after);
        Ok(match call {
            Call::ReadStatus => vec![mask_of(&channel.latches)],
            Call::ReadPending => vec![channel.pending().into()],
            _ => values,
        })
    }
}
