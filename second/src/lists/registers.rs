//! Accesses to registers: on them, beside them, between and past them, both ways, and masks of channels.

use super::{Writer, EDGES};
use crate::layout::*;
use crate::ops::*;
use crate::registers::Register;

/// The bits of a mask that name channels.
const CHANNEL_BITS: u32 = (1 << CHANNELS) - 1;

impl Writer {
    /// Reads or writes an address. The channel word of an access is ignored.
    fn at_address(&mut self, write: bool, address: u32, value: u32) {
        let any = self.dice.word();
        let ignored = self.dice.one_of(&[0, 1, CHANNELS, any]);
        self.call(if write { REGISTER_WRITE } else { REGISTER_READ }, ignored, address, value);
    }

    pub(super) fn register_read(&mut self, register: Register) {
        let ignored = self.dice.word();
        self.at_address(false, register.address(), ignored);
    }

    pub(super) fn register_write(&mut self, register: Register, value: u32) {
        self.at_address(true, register.address(), value);
    }

    /// A channel that is there, in some cases one of twelve that may not be, in few the thirteenth.
    fn register_channel(&mut self) -> u32 {
        match self.dice.below(20) {
            0..=14 => 1 + self.dice.below(self.count),
            15..=17 => 1 + self.dice.below(CHANNELS),
            18 => self.count + 1,
            _ => CHANNELS + 1,
        }
    }

    /// A register of the channel, or one that takes a mask. Behind a RAM's end there is none.
    fn register(&mut self, channel: u32) -> Register {
        match self.dice.below(12) {
            0 | 1 => Register::Rate { channel },
            2 | 3 => Register::Async { channel },
            4 | 5 => Register::Command { channel, address: self.command_address().min(COMMANDS as u32) },
            6 | 7 => Register::Message { channel, address: self.address(MESSAGES).min(MESSAGES as u32) },
            8 => Register::Status { channel },
            9 => Register::Trigger,
            _ => self.pause_or_stop(),
        }
    }

    fn pause_or_stop(&mut self) -> Register {
        if self.dice.chance(50) {
            Register::Pause
        } else {
            Register::Stop
        }
    }

    /// Its address, or one beside it: not aligned, the one before or behind, or any.
    fn address_near(&mut self, register: Register) -> u32 {
        let own = register.address();
        match self.dice.below(40) {
            0..=29 => own,
            30..=34 => own + 1 + self.dice.below(3),
            35 | 36 => own + 4,
            37 => own - 4,
            38 => self.any_address(),
            _ => self.any_address() & !3,
        }
    }

    /// Between the registers, past them, or anywhere.
    fn any_address(&mut self) -> u32 {
        match self.dice.below(5) {
            0 => 4 * self.dice.below(0x800),
            1 => 0x8_0000 + 4 * self.dice.below(0x8000),
            // Behind the RAM's end, within the channel's part of the map.
            2 => 0x9_0000 + 0x1000 * self.dice.below(CHANNELS) + 4 * (MESSAGES as u32 + self.dice.below(8)),
            3 => self.dice.one_of(&EDGES),
            _ => self.dice.word(),
        }
    }

    /// A mask of channels: some or all that are there, in some cases others of twelve, and ignored bits.
    pub(super) fn mask(&mut self) -> u32 {
        let there = (1 << self.count) - 1;
        let mut mask = match self.dice.below(10) {
            0 => 0,
            1..=5 => there,
            _ => self.dice.word() & there,
        };
        if self.dice.chance(30) {
            mask |= self.dice.word() & CHANNEL_BITS;
        }
        if self.dice.chance(30) {
            mask |= self.dice.word() & !CHANNEL_BITS;
        }
        mask
    }

    /// A value for a write of the register; most are in its range.
    fn value_for(&mut self, register: Register) -> u32 {
        match register {
            Register::Rate { .. } => self.rate(),
            Register::Async { .. } => self.data_word(),
            Register::Command { .. } => self.command(),
            Register::Message { .. } if self.dice.chance(60) => self.gap(),
            Register::Message { .. } => self.dice.word(),
            Register::Status { .. } => self.dice.word(),
            Register::Trigger | Register::Pause | Register::Stop => self.mask(),
        }
    }

    fn rate(&mut self) -> u32 {
        let sound = self.sound_value(RATE as u32);
        match self.dice.below(10) {
            0 | 1 => self.end_of(RANGES[RATE]),
            // Above the range, though its low bits are within it.
            2 => sound | (1 + self.dice.below(0xFFF)) << 20,
            3 => self.dice.one_of(&EDGES),
            _ => sound,
        }
    }

    /// One access, most on a register of a channel that is there, and the way it goes.
    pub(super) fn access(&mut self) {
        let channel = self.register_channel();
        self.access_to(channel);
    }

    pub(super) fn access_to(&mut self, channel: u32) {
        let register = self.register(channel);
        let address = self.address_near(register);
        let write = match register {
            Register::Status { .. } => self.dice.chance(35),
            Register::Trigger | Register::Pause | Register::Stop => self.dice.chance(82),
            _ => self.dice.chance(50),
        };
        let value = if write { self.value_for(register) } else { self.dice.word() };
        self.at_address(write, address, value);
    }

    /// A trigger, pause or stop of the channels of a mask.
    pub(super) fn masked_write(&mut self) {
        let register = if self.dice.chance(50) { Register::Trigger } else { self.pause_or_stop() };
        let mask = self.mask();
        self.register_write(register, mask);
    }

    /// A status written, or a mask read.
    pub(super) fn wrong_way(&mut self, channel: u32) {
        match self.dice.below(3) {
            0 => {
                let value = self.dice.word();
                self.register_write(Register::Status { channel }, value);
            }
            1 => self.register_read(Register::Trigger),
            _ => {
                let register = self.pause_or_stop();
                self.register_read(register);
            }
        }
    }

    /// A status read, by the call or by the register.
    pub(super) fn status_read(&mut self, channel: u32) {
        if self.dice.chance(50) {
            self.loose(STATUS_READ, channel, 0);
        } else {
            self.register_read(Register::Status { channel });
        }
    }

    /// Transmitters on and off in every mode, triggered, paused and stopped by masks, with steps between.
    pub(super) fn masks(&mut self, channel: u32) {
        for channel in 1..=self.count {
            let (on, mode) = (self.dice.chance(65), self.dice.below(3));
            self.loose(WRITE_TRANSMITTER, channel, on.into());
            self.loose(WRITE_TRANSMIT_MODE, channel, mode);
        }
        self.level_mask(channel);
        self.loose(LATCH_CLEAR, channel, 127);
        for _ in 0..8 {
            self.masked_write();
            match self.dice.below(4) {
                0 | 1 => self.loose(STEP, channel, 0),
                2 => self.status_read(channel),
                _ => self.transmit_words(channel, 1),
            }
        }
        for channel in 1..=self.count {
            self.loose(WRITE_TRANSMITTER, channel, 1);
        }
        self.every_channel();
    }

    /// A register of each channel, and a mask that names them all.
    pub(super) fn every_channel(&mut self) {
        for channel in 1..=self.count {
            match self.register(channel) {
                register if register.channel().is_none() => self.register_read(Register::Status { channel }),
                register if self.dice.chance(70) => self.register_read(register),
                register => {
                    let value = self.value_for(register);
                    self.register_write(register, value);
                }
            }
        }
        let register = self.pause_or_stop();
        self.register_write(register, CHANNEL_BITS);
    }

    /// Latches that others clear while their conditions hold by level: the rule of each access sets them again.
    pub(super) fn latches_of_others(&mut self, channel: u32) {
        for _ in 0..4 {
            for channel in 1..=self.count {
                let some = self.dice.below(128);
                let levels = self.dice.one_of(&[127, some]);
                self.overwrite(block(channel) + LEVEL_MASK, levels);
                self.overwrite(block(channel) + LATCH, 0);
            }
            match self.dice.below(5) {
                0 => self.loose(RECEIVE_LEVEL_READ, channel, 0),
                1 => self.register_read(Register::Status { channel }),
                2 => self.masked_write(),
                _ => self.access_to(channel),
            }
        }
    }

    /// A schedule written, started, watched and stopped through registers.
    pub(super) fn schedule_by_registers(&mut self, channel: u32) {
        let own = 1 << (channel - 1);
        self.scheduled_from_0(channel);
        for address in 0..4 {
            let (command, gap) = (self.command(), self.gap());
            self.register_write(Register::Command { channel, address }, command);
            self.register_write(Register::Message { channel, address }, gap);
        }
        self.level_mask(channel);
        for step in 0..10 {
            if step % 4 == 0 {
                self.register_write(Register::Trigger, own);
                self.loose(LATCH_CLEAR, channel, 127);
            }
            match self.dice.below(8) {
                0..=2 => {
                    let word = self.data_word();
                    self.register_write(Register::Async { channel }, word);
                }
                3 | 4 => self.register_read(Register::Async { channel }),
                5 => self.register_write(Register::Pause, own),
                _ => self.status_read(channel),
            }
            self.loose(STEP, channel, 0);
        }
        self.register_write(Register::Stop, own);
        let (address, rate) = (self.dice.below(4), self.rate());
        self.register_read(Register::Command { channel, address });
        self.register_read(Register::Message { channel, address });
        self.register_write(Register::Rate { channel }, rate);
        self.register_read(Register::Rate { channel });
    }
}
