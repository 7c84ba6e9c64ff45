//! Mailbox mode with few indexes and a short list: each index again and again, in every order of what can happen to it.

use super::Writer;
use crate::layout::*;
use crate::ops::*;

impl Writer {
    /// A short list of indexes, with more arrivals than it holds.
    fn short_list(&mut self, channel: u32) {
        let size = 1 + self.dice.below(3);
        let kind = self.dice.one_of(&[0, 1, 1]);
        for (setting, value) in [(RECEIVER, 1), (MATCH, 0), (RECEIVE_MODE, 1), (FIFO_KIND, kind), (SIZE, size)] {
            self.loose(SETTING_WRITE + setting as u32, channel, value);
        }
    }

    /// A word with one of the first three indexes, most with the first, of either parity.
    fn word_of_few(&mut self) -> u32 {
        let place = self.dice.one_of(&[0, 0, 0, 1, 1, 2]);
        self.dice.word() & 0xFFFF_FC00 | self.indices[place as usize]
    }

    /// Arrivals, mailbox reads and list reads of few indexes, with tests, resets and modes between them.
    pub(super) fn floods(&mut self, channel: u32) {
        self.short_list(channel);
        for _ in 0..36 {
            let word = self.word_of_few();
            match self.dice.below(60) {
                0..=19 => self.loose(ARRIVAL, channel, word),
                // Listed a second time.
                20..=31 => {
                    self.loose(MAILBOX_READ, channel, word % INDEXES as u32);
                    self.loose(ARRIVAL, channel, word);
                }
                32..=37 => self.loose(MAILBOX_READ, channel, word % INDEXES as u32),
                38..=46 => self.loose(FIFO_READ, channel, 0),
                47 => self.listed_twice(channel, word),
                48..=52 => {
                    let kind = self.dice.one_of(&[0, 1, 1]);
                    self.loose(WRITE_FIFO_KIND, channel, kind);
                }
                53 => {
                    let size = 1 + self.dice.below(3);
                    self.loose(WRITE_RECEIVE_SIZE, channel, size);
                }
                // The mode held clears nothing.
                54 => self.loose(WRITE_RECEIVE_MODE, channel, 1),
                55 | 56 => {
                    let result = self.dice.below(2);
                    self.loose(INITIATED_TEST, channel, result);
                }
                57 | 58 => {
                    self.loose(WRITE_RECEIVE_MODE, channel, 0);
                    if self.dice.chance(50) {
                        for _ in 0..3 {
                            let word = self.word_of_few();
                            self.loose(ARRIVAL, channel, word);
                        }
                    } else {
                        self.loose(MAILBOX_READ, channel, word % INDEXES as u32);
                    }
                    self.loose(WRITE_RECEIVE_MODE, channel, 1);
                }
                _ => {
                    self.loose(MODULE_RESET, channel, 0);
                    self.switch_on();
                    self.short_list(channel);
                }
            }
        }
    }

    /// An index twice in a list of two, its mailbox read; then it arrives again, at once, behind a list read, or behind a drop.
    fn listed_twice(&mut self, channel: u32, word: u32) {
        for _ in 0..3 {
            self.loose(FIFO_READ, channel, 0);
        }
        self.loose(WRITE_RECEIVE_SIZE, channel, 2);
        self.loose(WRITE_FIFO_KIND, channel, 1);
        for op in [MAILBOX_READ, ARRIVAL, MAILBOX_READ, ARRIVAL, MAILBOX_READ] {
            let a = if op == ARRIVAL { word } else { word % INDEXES as u32 };
            self.loose(op, channel, a);
        }
        match self.dice.below(3) {
            0 => {
                let other = word ^ 1;
                self.loose(FIFO_READ, channel, 0);
                self.loose(MAILBOX_READ, channel, other % INDEXES as u32);
                self.loose(ARRIVAL, channel, other);
            }
            1 => {
                self.loose(WRITE_FIFO_KIND, channel, 0);
                self.loose(ARRIVAL, channel, word);
                self.loose(WRITE_FIFO_KIND, channel, 1);
            }
            _ => {}
        }
        let last = word ^ self.dice.one_of(&[0, 0, 2]);
        self.loose(ARRIVAL, channel, last);
    }

    /// Entries of any words, a list that is full or not, and mailboxes of any status; then all that takes or looks at a mark.
    pub(super) fn list_of_others(&mut self, channel: u32) {
        let first = block(channel);
        self.short_list(channel);
        self.loose(INITIATED_TEST, channel, 0);
        let (size, position) = (1 + self.dice.below(3), self.dice.below(SLOTS as u32));
        let level = size - self.dice.below(2);
        for (word, value) in [(SIZE, size), (RECEIVE_POSITION, position), (RECEIVE_LEVEL, level)] {
            self.overwrite(first + word, value);
        }
        for k in 0..level {
            let word = self.word_of_few();
            self.overwrite(first + RECEIVE_RING + 3 * ((position + k) as usize % SLOTS) + 1, word);
        }
        for place in 0..3 {
            let status = self.dice.word();
            self.overwrite(first + MAILBOXES + 3 * self.indices[place] as usize, status);
        }
        for _ in 0..self.dice.below(4) {
            let word = self.word_of_few();
            self.loose(ARRIVAL, channel, word);
        }
        match self.dice.below(8) {
            0 => self.loose(MAILBOX_READ, channel, self.indices[0]),
            1 | 2 => self.loose(INITIATED_TEST, channel, 0),
            3 | 4 => self.loose(WRITE_RECEIVE_MODE, channel, 0),
            5 => self.loose(FIFO_READ, channel, 0),
            _ => {
                self.loose(MODULE_RESET, channel, 0);
                self.switch_on();
            }
        }
    }
}
