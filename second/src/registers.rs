//! The registers that the old host reads and writes, of twelve channels whatever the count, and what each access is on the model.
//!
//! An access is refused with 30, 31 or 32 on any memory; else it is a call with its refusals and its rule, or, where a
//! register takes a channel mask, a call on each channel named.

use crate::calls::{Call, Item};
use crate::layout::{CHANNELS, COMMANDS, MESSAGES, RATE};
use crate::model::{Model, Refusal};
use crate::ops;

/// The address is not aligned to four.
pub const NOT_ALIGNED: Refusal = 30;
/// No register of twelve channels, also past a RAM's end.
pub const NO_REGISTER: Refusal = 31;
/// Status only reads; trigger, pause and stop only write.
pub const WRONG_WAY: Refusal = 32;

#[derive(Clone, Copy, PartialEq, Eq, PartialOrd, Ord, Debug)]
pub enum Register {
    Rate { channel: u32 },
    Async { channel: u32 },
    Command { channel: u32, address: u32 },
    Message { channel: u32, address: u32 },
    Status { channel: u32 },
    Trigger,
    Pause,
    Stop,
}

/// Registers of one kind: channel 1's first address, how far apart the channels are, and how many of them a channel has, four bytes apart.
struct Area {
    first: u32,
    apart: u32,
    registers: usize,
}

const RATES: Area = Area { first: 0x111C, apart: 0x100, registers: 1 };
const ASYNCS: Area = Area { first: 0x1120, apart: 0x100, registers: 1 };
const SCHEDULES: Area = Area { first: 0x8_0000, apart: 0x1000, registers: COMMANDS };
const MESSAGE_RAMS: Area = Area { first: 0x9_0000, apart: 0x1000, registers: MESSAGES };
const STATUSES: Area = Area { first: 0x0810, apart: 0x10, registers: 1 };
const TRIGGER: u32 = 0x1000;
const PAUSE: u32 = 0x1004;
const STOP: u32 = 0x1008;

impl Area {
    /// The channel and the register of it that an aligned address names.
    fn find(&self, address: u32) -> Option<(u32, u32)> {
        let behind = address.checked_sub(self.first)?;
        let (channel, register) = (1 + behind / self.apart, behind % self.apart / 4);
        (channel <= CHANNELS && (register as usize) < self.registers).then_some((channel, register))
    }

    fn address(&self, channel: u32, register: u32) -> u32 {
        self.first + self.apart * (channel - 1) + 4 * register
    }
}

impl Register {
    /// The register at an address; refused with 30 or 31.
    pub fn at(address: u32) -> Result<Register, Refusal> {
        if address % 4 != 0 {
            return Err(NOT_ALIGNED);
        }
        Ok(match address {
            TRIGGER => Register::Trigger,
            PAUSE => Register::Pause,
            STOP => Register::Stop,
            _ => {
                if let Some((channel, _)) = RATES.find(address) {
                    Register::Rate { channel }
                } else if let Some((channel, _)) = ASYNCS.find(address) {
                    Register::Async { channel }
                } else if let Some((channel, address)) = SCHEDULES.find(address) {
                    Register::Command { channel, address }
                } else if let Some((channel, address)) = MESSAGE_RAMS.find(address) {
                    Register::Message { channel, address }
                } else if let Some((channel, _)) = STATUSES.find(address) {
                    Register::Status { channel }
                } else {
                    return Err(NO_REGISTER);
                }
            }
        })
    }

    /// Where it stands. Channels count from 1; one above twelve has no register there.
    pub fn address(self) -> u32 {
        match self {
            Register::Rate { channel } => RATES.address(channel, 0),
            Register::Async { channel } => ASYNCS.address(channel, 0),
            Register::Command { channel, address } => SCHEDULES.address(channel, address),
            Register::Message { channel, address } => MESSAGE_RAMS.address(channel, address),
            Register::Status { channel } => STATUSES.address(channel, 0),
            Register::Trigger => TRIGGER,
            Register::Pause => PAUSE,
            Register::Stop => STOP,
        }
    }

    /// The channel that it names; none where it takes a mask.
    pub fn channel(self) -> Option<u32> {
        match self {
            Register::Rate { channel }
            | Register::Async { channel }
            | Register::Command { channel, .. }
            | Register::Message { channel, .. }
            | Register::Status { channel } => Some(channel),
            Register::Trigger | Register::Pause | Register::Stop => None,
        }
    }

    pub fn name(self) -> &'static str {
        match self {
            Register::Rate { .. } => "transmit rate",
            Register::Async { .. } => "async",
            Register::Command { .. } => "schedule RAM",
            Register::Message { .. } => "message RAM",
            Register::Status { .. } => "channel status",
            Register::Trigger => "trigger",
            Register::Pause => "pause",
            Register::Stop => "stop",
        }
    }

    /// The channel, and the call on it that reading the register is.
    fn read(self) -> Result<(u32, Call), Refusal> {
        Ok(match self {
            Register::Rate { channel } => (channel, Call::ReadSetting { setting: RATE as u32 }),
            Register::Async { channel } => (channel, Call::ReadAsync),
            Register::Command { channel, address } => (channel, Call::ReadSchedule { address }),
            Register::Message { channel, address } => (channel, Call::ReadMessage { address }),
            Register::Status { channel } => (channel, Call::ReadStatus),
            Register::Trigger | Register::Pause | Register::Stop => return Err(WRONG_WAY),
        })
    }

    /// The call that writing a value to it is; with a mask, that on each channel named.
    fn write(self, value: u32) -> Result<Call, Refusal> {
        Ok(match self {
            Register::Rate { .. } => Call::WriteSetting { setting: RATE as u32, value },
            Register::Async { .. } => Call::WriteAsync { word: value },
            Register::Command { address, .. } => Call::WriteSchedule { address, command: value },
            Register::Message { address, .. } => Call::WriteMessage { address, word: value },
            Register::Status { .. } => return Err(WRONG_WAY),
            Register::Trigger => Call::Trigger,
            Register::Pause => Call::Pause,
            Register::Stop => Call::Stop,
        })
    }
}

/// The channels that a mask names: bits 0 to 11, other bits ignored.
pub fn named(mask: u32) -> impl Iterator<Item = u32> {
    (1..=CHANNELS).filter(move |channel| mask >> (channel - 1) & 1 == 1)
}

/// The conditions that 004's Channel Status has at D0, D1 and so on.
const STATUS_BITS: [Option<u32>; 14] = [
    None,    // receive data available
    Some(0), // receive FIFO almost full
    Some(1), // receive FIFO full
    None,    // receive FIFO overflow
    Some(3), // transmit FIFO empty
    Some(2), // transmit FIFO almost empty
    None,    // transmit FIFO full
    Some(4), // parity error
    None,    // receive error
    Some(6), // built-in-test error
    Some(5), // schedule interrupt
    None,    // async data available
    None,    // transmit run
    None,    // transmit pause
];

/// The latch mask of a status read as the register shows it; other bits read 0.
fn shown_status(latch: u32) -> u32 {
    let latched = |condition: Option<u32>| condition.is_some_and(|condition| latch >> condition & 1 == 1);
    (0..STATUS_BITS.len()).filter(|&bit| latched(STATUS_BITS[bit])).map(|bit| 1 << bit).sum()
}

impl Model {
    pub(crate) fn read_register(&mut self, lent: usize, address: u32) -> Result<Vec<u32>, Refusal> {
        let register = Register::at(address)?;
        let (channel, call) = register.read()?;
        let values = self.call(lent, channel, call)?;
        Ok(vec![match register {
            // The waiting word or 0, in any mode.
            Register::Async { .. } => values[1],
            // Only bits 0 to 15 are utilized for schedule commands.
            Register::Command { .. } => values[0] % 0x1_0000,
            Register::Status { .. } => shown_status(values[0]),
            _ => values[0],
        }])
    }

    /// Gives the mask of the channels that refused, 0 where no mask is taken.
    pub(crate) fn write_register(&mut self, lent: usize, address: u32, value: u32) -> Result<Vec<u32>, Refusal> {
        let register = Register::at(address)?;
        let call = register.write(value)?;
        if let Some(channel) = register.channel() {
            self.call(lent, channel, call)?;
            return Ok(vec![0]);
        }
        // Short memory or an unsound module part refuses the whole write. Else each named channel is tried in order.
        self.sound_part(lent)?;
        let mut refused = 0;
        for channel in named(value) {
            if self.call(lent, channel, call).is_err() {
                refused |= 1 << (channel - 1);
            }
        }
        Ok(vec![refused])
    }
}

/// The accepted calls that an accepted item is: itself, the call of an access, or those on the channels that a masked write's answer leaves out.
pub fn accepted_calls(item: Item, answer: &[u32]) -> Vec<Item> {
    let reads = item.op == ops::REGISTER_READ;
    if !reads && item.op != ops::REGISTER_WRITE {
        return vec![item];
    }
    let Ok(register) = Register::at(item.a) else {
        return vec![];
    };
    let channels: Vec<u32> = match register.channel() {
        Some(channel) => vec![channel],
        None => named(item.b & !answer[1]).collect(),
    };
    let (op, a, b) = match register {
        Register::Rate { .. } if reads => (ops::READ_RATE, 0, 0),
        Register::Rate { .. } => (ops::WRITE_RATE, item.b, 0),
        Register::Async { .. } if reads => (ops::ASYNC_READ, 0, 0),
        Register::Async { .. } => (ops::ASYNC_WRITE, item.b, 0),
        Register::Command { address, .. } if reads => (ops::SCHEDULE_READ, address, 0),
        Register::Command { address, .. } => (ops::SCHEDULE_WRITE, address, item.b),
        Register::Message { address, .. } if reads => (ops::MESSAGE_READ, address, 0),
        Register::Message { address, .. } => (ops::MESSAGE_WRITE, address, item.b),
        Register::Status { .. } => (ops::STATUS_READ, 0, 0),
        Register::Trigger => (ops::TRIGGER, 0, 0),
        Register::Pause => (ops::PAUSE, 0, 0),
        Register::Stop => (ops::STOP, 0, 0),
    };
    channels.into_iter().map(|channel| Item { op, channel, a, b }).collect()
}
