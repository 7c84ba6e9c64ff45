//! Message commands in a row, and all that may stand between two of them.

use super::{Writer, JUMP, NINTH_BIT};
use crate::layout::*;
use crate::ops::*;

impl Writer {
    /// A schedule of messages, most with nothing between them, stepped with calls in between.
    pub(super) fn words_in_a_row(&mut self, channel: u32) {
        self.loose(WRITE_TRANSMITTER, channel, 1);
        self.scheduled_from_0(channel);
        // In some cases at the end of the RAM or over the ninth bit, reached by a jump.
        let first = self.dice.one_of(&[0, 0, 0, 0, LAST_COMMAND - 3, LAST_COMMAND - 3, NINTH_BIT - 3]);
        if first > 0 {
            self.call(SCHEDULE_WRITE, channel, 0, JUMP | first);
        }
        for address in first..(first + 6).min(COMMANDS as u32) {
            let command = self.command_beside_a_word(address);
            self.call(SCHEDULE_WRITE, channel, address, command);
        }
        if first == 0 {
            self.call(SCHEDULE_WRITE, channel, 6, JUMP);
        }
        for _ in 0..12 {
            self.loose(TRIGGER, channel, 0);
            for _ in 0..1 + self.dice.below(2) {
                self.loose(STEP, channel, 0);
            }
            if self.dice.chance(45) {
                self.call_behind_a_word(channel);
            }
        }
        self.loose(WRITE_TRANSMITTER, channel, 1);
    }

    /// A message in most cases; else one that clears the mark, or one that leaves it and goes on, waits or stops.
    fn command_beside_a_word(&mut self, address: u32) -> u32 {
        let low = self.dice.below(8);
        let command = match self.dice.below(16) {
            0..=8 => 0x1000 | low,
            9 => 0x2000 | low,
            10 => 0x3000 | low,
            11 => JUMP | (address + 1) % COMMANDS as u32,
            12 => 0x5000,
            13 => 0x4000,
            14 => 0x0000,
            _ => self.dice.one_of(&[0x7000, 0x8000, 0xF000]),
        };
        self.other_bits() | command
    }

    /// A call that keeps the word sent last in mind, or one that forgets it.
    fn call_behind_a_word(&mut self, channel: u32) {
        match self.dice.below(34) {
            0..=5 => self.loose(STOP, channel, 0),
            6..=8 => self.loose(PAUSE, channel, 0),
            9..=11 => self.async_word(channel),
            12 | 13 => self.loose(WRITE_TRANSMIT_MODE, channel, 2),
            14 | 15 => self.loose(WRITE_TRANSMITTER, channel, 1),
            16 | 17 => self.transmit_words(channel, 1),
            18 => self.arrivals(channel, 1),
            19..=22 => {
                let result = self.dice.below(2);
                self.loose(INITIATED_TEST, channel, result);
            }
            23..=26 => {
                self.loose(WRITE_TRANSMITTER, channel, 0);
                // Also when it is off.
                if self.dice.chance(30) {
                    self.loose(WRITE_TRANSMITTER, channel, 0);
                }
                self.loose(WRITE_TRANSMITTER, channel, 1);
            }
            27..=30 => {
                let mode = self.dice.below(2);
                self.loose(WRITE_TRANSMIT_MODE, channel, mode);
                self.loose(STEP, channel, 0);
                self.loose(WRITE_TRANSMIT_MODE, channel, 2);
            }
            31 | 32 => {
                self.loose(MODULE_RESET, channel, 0);
                self.switch_on();
                self.loose(WRITE_TRANSMIT_MODE, channel, 2);
            }
            _ => {
                self.call(POWER_UP, channel, self.count, 0);
                self.set_up();
            }
        }
    }

    /// A mark where no schedule sent a word: words of the FIFO, a change to scheduled mode, and transmitter off when it is off.
    pub(super) fn mark_set_by_others(&mut self, channel: u32) {
        let mark = block(channel) + WORD_MARK;
        self.transmit_words(channel, 2);
        self.loose(WRITE_TRANSMITTER, channel, 1);
        let mode = self.dice.below(2);
        self.loose(WRITE_TRANSMIT_MODE, channel, mode);
        self.loose(TRIGGER, channel, 0);
        self.overwrite(mark, 1);
        for op in [STEP, STOP, STEP] {
            self.loose(op, channel, 0);
        }
        if self.dice.chance(50) {
            self.loose(WRITE_TRANSMIT_MODE, channel, 2);
        } else {
            self.loose(WRITE_TRANSMITTER, channel, 0);
            self.overwrite(mark, 1);
            self.loose(WRITE_TRANSMITTER, channel, 0);
        }
        self.loose(WRITE_TRANSMITTER, channel, 1);
    }
}
