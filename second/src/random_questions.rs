//! Random questions why a word was not there: a channel count, a list of calls since power-up, and a place in it.

use crate::calls::{Call, Item};
use crate::layout::{CHANNELS, COMMANDS, INDEXES, MESSAGES, SETTINGS};
use crate::lists::{self, Dice, Event};
use crate::ops::*;
use crate::registers::Register;
use crate::why::{reasons, ITEM_BYTES, MOST_CALLS};

#[derive(Clone, Debug)]
pub struct Question {
    pub count: u32,
    pub bytes: Vec<u8>,
    pub place: u32,
}

impl Question {
    /// The item at a place of the list, where it is whole.
    pub fn item(&self, place: u32) -> Option<Item> {
        Item::of_bytes(self.bytes.chunks(ITEM_BYTES).nth(place.checked_sub(1)? as usize)?)
    }

    /// How many items the list has, a cut one too.
    pub fn items(&self) -> usize {
        self.bytes.chunks(ITEM_BYTES).len()
    }
}

pub fn bytes_of(items: &[Item]) -> Vec<u8> {
    items.iter().flat_map(|item| [item.op, item.channel, item.a, item.b]).flat_map(u32::to_le_bytes).collect()
}

/// Ops that are none, beside those that are, and with a good op in another byte.
const NO_OPS: [u32; 12] = [0, 12, 31, 44, 63, 76, 127, 157, 159, 162, ARRIVAL << 8, u32::MAX];

/// Sizes that are full soon.
const SIZES: [u32; 8] = [1, 1, 2, 2, 3, 4, 6, 255];

struct Writer<'a> {
    dice: &'a mut Dice,
    count: u32,
    /// Indexes that come up again and again, so that marks, matches and mailboxes meet.
    indexes: [u32; 4],
    /// How many of 100 calls are arrivals, and how many are reads of a FIFO.
    arrivals: u32,
    reads: u32,
    items: Vec<Item>,
}

impl Writer<'_> {
    fn call(&mut self, op: u32, channel: u32, a: u32, b: u32) {
        self.items.push(Item { op, channel, a, b });
    }

    /// A channel of the module; seldom one that it has not.
    fn channel(&mut self) -> u32 {
        if self.dice.chance(3) {
            let any = self.dice.word();
            return self.dice.one_of(&[0, self.count + 1, CHANNELS, CHANNELS + 1, any, 0x1_0001]);
        }
        1 + self.dice.below(self.count)
    }

    fn index(&mut self) -> u32 {
        let any = self.dice.below(INDEXES as u32 + 2);
        if self.dice.chance(92) {
            let indexes = self.indexes;
            self.dice.one_of(&indexes)
        } else {
            any
        }
    }

    /// What matters to arrivals, written for a channel: small sizes of both kinds, both modes, matches.
    fn set_up(&mut self, channel: u32) {
        let (off, matching, mailbox, circular) = (
            u32::from(self.dice.chance(5)),
            u32::from(self.dice.chance(25)),
            u32::from(self.dice.chance(50)),
            u32::from(self.dice.chance(50)),
        );
        let size = self.dice.one_of(&SIZES);
        self.call(WRITE_RECEIVER, channel, 1 - off, 0);
        self.call(WRITE_RECEIVE_MODE, channel, mailbox, 0);
        self.call(WRITE_FIFO_KIND, channel, circular, 0);
        self.call(WRITE_RECEIVE_SIZE, channel, size, 0);
        if matching == 1 {
            self.call(WRITE_MATCH, channel, 1, 0);
            for place in 0..1 + self.dice.below(3) {
                self.call(MATCH_WRITE, channel, self.indexes[place as usize], 1);
            }
        }
    }

    /// An access to a register: the accesses that arrivals know nothing of, and those that are refused.
    fn access(&mut self) {
        let channel = 1 + self.dice.below(CHANNELS);
        let address = self.dice.below(COMMANDS as u32);
        let register = match self.dice.below(8) {
            0 => Register::Rate { channel },
            1 => Register::Async { channel },
            2 => Register::Command { channel, address },
            3 => Register::Message { channel, address: address % MESSAGES as u32 },
            4 => Register::Status { channel },
            5 => Register::Trigger,
            6 => Register::Pause,
            _ => Register::Stop,
        };
        let (any, value) = (self.dice.word(), self.dice.below(128));
        let off = if self.dice.chance(15) { self.dice.one_of(&[1, 2, 4, 0x100, 0x2000, any]) } else { 0 };
        let op = self.dice.one_of(&[REGISTER_READ, REGISTER_WRITE, REGISTER_WRITE]);
        let ignored = self.dice.below(3);
        self.call(op, ignored, register.address().wrapping_add(off), value);
    }

    /// A call that no entry of a receive FIFO goes by.
    fn other(&mut self) {
        let channel = self.channel();
        let op = self.dice.one_of(&[
            STAMP_ADVANCE,
            STAMP_READ,
            THRESHOLD_WRITE,
            WRITE_TRANSMITTER,
            WRITE_PARITY,
            WRITE_STAMPS,
            WRITE_TRANSMIT_MODE,
            FIFO_WRITE,
            ASYNC_WRITE,
            TRIGGER,
            PAUSE,
            STOP,
            STEP,
            SAMPLE,
            TEST_RESET,
            STATUS_READ,
            LATCH_CLEAR,
            PENDING_READ,
            COUNTS_READ,
            RECEIVE_LEVEL_READ,
            MATCH_READ,
        ]);
        let a = self.dice.below(4);
        self.call(op, channel, a, 0);
    }

    fn any_call(&mut self) {
        let channel = self.channel();
        if self.dice.chance(self.arrivals) {
            let (high, index) = (self.dice.word(), self.index());
            let word = high / INDEXES as u32 * INDEXES as u32 + index;
            return self.call(ARRIVAL, channel, word, high);
        }
        if self.dice.chance(self.reads) {
            return self.call(FIFO_READ, channel, 0, 0);
        }
        match self.dice.below(100) {
            0..=17 => {
                let index = self.index();
                self.call(MAILBOX_READ, channel, index, 0);
            }
            18..=25 => {
                let value = self.dice.one_of(&[0, 1, 1, 1, 2]);
                self.call(WRITE_RECEIVER, channel, value, 0);
            }
            26..=31 => {
                let value = self.dice.one_of(&[0, 0, 0, 1, 2]);
                self.call(WRITE_MATCH, channel, value, 0);
            }
            32..=39 => {
                let (index, mark) = (self.index(), self.dice.one_of(&[0, 1, 1, 2]));
                self.call(MATCH_WRITE, channel, index, mark);
            }
            // Mostly the mode that is held or the other; 2 is refused.
            40..=49 => {
                let value = self.dice.one_of(&[0, 1, 0, 1, 0, 1, 2]);
                self.call(WRITE_RECEIVE_MODE, channel, value, 0);
            }
            50..=55 => {
                let value = self.dice.one_of(&[0, 1, 0, 1, 2]);
                self.call(WRITE_FIFO_KIND, channel, value, 0);
            }
            // A size below the level is refused.
            56..=63 => {
                let size = self.dice.one_of(&[0, 1, 1, 2, 3, 5, 255, 256]);
                self.call(WRITE_RECEIVE_SIZE, channel, size, 0);
            }
            64..=67 => {
                let result = self.dice.one_of(&[0, 1, 2]);
                self.call(INITIATED_TEST, channel, result, 0);
            }
            68..=71 => {
                let any = self.dice.word();
                self.call(MODULE_RESET, any, 0, 0);
                self.set_up_all();
            }
            72..=75 => self.power_up(),
            76..=85 => self.access(),
            86..=88 => {
                let (setting, value) = (self.dice.below(SETTINGS as u32), self.dice.below(300));
                self.call(SETTING_READ + setting, channel, value, 0);
            }
            _ => self.other(),
        }
    }

    /// Power-up again: with the same count, a smaller one, one for which the memory is too small, or none.
    fn power_up(&mut self) {
        let below = 1 + self.dice.below(self.count);
        let asked =
            self.dice.one_of(&[self.count, self.count, below, below, self.count + 1, CHANNELS, 0, CHANNELS + 1]);
        self.call(POWER_UP, below, asked, 0);
        if self.dice.chance(85) {
            self.set_up_all();
        }
    }

    fn set_up_all(&mut self) {
        for channel in 1..=self.count {
            if self.dice.chance(85) {
                self.set_up(channel);
            }
        }
    }
}

/// A list that is mostly about arrivals; so many calls stand behind those that set up the channels.
fn arrivals(dice: &mut Dice, count: u32, calls: usize) -> Vec<Item> {
    let indexes = std::array::from_fn(|_| dice.below(INDEXES as u32));
    let (arrivals, reads) = (dice.one_of(&[40, 60, 60, 90]), dice.one_of(&[5, 30, 50]));
    let mut writer = Writer { dice, count, indexes, arrivals, reads, items: vec![] };
    if writer.dice.chance(95) {
        writer.set_up_all();
    }
    let length = writer.items.len() + calls;
    while writer.items.len() < length {
        writer.any_call();
    }
    writer.items
}

/// The calls of a list of all rules, behind the power-up with which most of them begin, and the count of that; some more arrivals among them.
fn mixed(dice: &mut Dice, calls: usize) -> (u32, Vec<Item>) {
    let seed = u64::from(dice.word());
    let events = lists::list(seed, calls).events;
    let mut calls = events.into_iter().filter_map(|event| match event {
        // An item that is no call stands in few lists here.
        Event::Call(item) => Call::of(item).map(|_| item),
        _ => None,
    });
    let mut items = vec![];
    let count = match calls.next() {
        Some(Item { op: POWER_UP, a, .. }) if (1..=CHANNELS).contains(&a) => a,
        first => {
            items.extend(first);
            1 + dice.below(3)
        }
    };
    let word = dice.word();
    for item in calls {
        items.push(item);
        if dice.chance(10) {
            items.push(Item { op: ARRIVAL, channel: 1 + dice.below(count), a: word ^ dice.below(3), b: 0 });
        }
    }
    (count, items)
}

/// A place of the list with a reason that is given seldom, of another arrival, of another call, 0, or behind the end.
fn place(dice: &mut Dice, count: u32, items: &[Item]) -> u32 {
    let length = items.len() as u32;
    let arrivals: Vec<u32> = (1..).zip(items).filter(|(_, item)| item.op == ARRIVAL).map(|(place, _)| place).collect();
    match dice.below(40) {
        0 => 0,
        1 => {
            let (any, near) = (dice.word(), dice.below(3));
            let far = dice.one_of(&[near, MOST_CALLS as u32, any]);
            dice.one_of(&[length + 1, (length + 1).saturating_add(far), u32::MAX])
        }
        2 => 1 + dice.below(length.max(1)),
        // One of the reasons that the list has, each as often as the others.
        3..=25 if !arrivals.is_empty() => {
            let given = reasons(count, items);
            let mut kinds: Vec<u32> = given.iter().flatten().map(|reason| reason.kind() as u32).collect();
            kinds.sort_unstable();
            kinds.dedup();
            let kind = dice.one_of(&kinds) as usize;
            let of_kind: Vec<u32> = (1..)
                .zip(&given)
                .filter(|(_, reason)| reason.is_some_and(|reason| reason.kind() == kind))
                .map(|(place, _)| place)
                .collect();
            dice.one_of(&of_kind)
        }
        _ if !arrivals.is_empty() => dice.one_of(&arrivals),
        _ => 1 + dice.below(length.max(1)),
    }
}

pub fn question(dice: &mut Dice) -> Question {
    let length = match dice.below(200) {
        0 => MOST_CALLS,
        1 | 2 => MOST_CALLS + 1,
        3 => MOST_CALLS + 2 + dice.below(500) as usize,
        4..=100 => 1 + dice.below(40) as usize,
        _ => 1 + dice.below(300) as usize,
    };
    let few = 1 + dice.below(3);
    let count = if dice.chance(92) { few } else { 1 + dice.below(CHANNELS) };
    let (mut count, mut items) = if length > MOST_CALLS || dice.chance(75) {
        (count, arrivals(dice, count, length))
    } else {
        mixed(dice, length)
    };
    // Lists at the greatest length have exactly that one.
    if length >= MOST_CALLS {
        items.truncate(length);
    }
    let place = place(dice, count, &items);
    // Of the lists that are too long a good part has another thing wrong, so that it shows which refusal comes first.
    let wrong = if length > MOST_CALLS { 20 } else { 2 };
    if !items.is_empty() && dice.chance(wrong) {
        let at = dice.below(items.len() as u32) as usize;
        items[at].op = dice.one_of(&NO_OPS);
    }
    let mut bytes = bytes_of(&items);
    // A cut last item; of a list that is full it is one too many.
    if !items.is_empty() && dice.chance(2) {
        bytes.truncate(bytes.len() - 1 - dice.below(ITEM_BYTES as u32 - 1) as usize);
    } else if items.len() == MOST_CALLS && dice.chance(30) {
        bytes.push(0);
    }
    if dice.chance(wrong) {
        let any = dice.word();
        count = dice.one_of(&[0, CHANNELS + 1, CHANNELS + 1, u32::MAX, any.max(CHANNELS + 1)]);
    }
    if dice.chance(1) {
        bytes.clear();
    }
    Question { count, bytes, place }
}
