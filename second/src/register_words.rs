//! Register accesses on lent words: the item `op channel a b` of the call that an access is, and its answer as the register shows it.

use crate::layout::*;
use crate::ops::*;
use crate::words::{part_refusal, perform};

/// What stands at an address: the ops of reading and writing it (0 for none), the channel (0 where it takes a mask of them), and the address in a RAM.
struct Place {
    read: u32,
    write: u32,
    channel: u32,
    in_ram: u32,
}

/// The bit of 004's Channel Status that each condition, 0 to 6, has.
const STATUS_BIT: [u32; 7] = [1, 2, 5, 4, 7, 10, 9];

fn place(address: u32) -> Option<Place> {
    let whole = |read, write, channel| Some(Place { read, write, channel, in_ram: 0 });
    match address {
        0x1000 => return whole(0, TRIGGER, 0),
        0x1004 => return whole(0, PAUSE, 0),
        0x1008 => return whole(0, STOP, 0),
        _ => {}
    }
    for channel in 1..=CHANNELS {
        let further = channel - 1;
        if address == 0x111C + 0x100 * further {
            return whole(READ_RATE, WRITE_RATE, channel);
        }
        if address == 0x1120 + 0x100 * further {
            return whole(ASYNC_READ, ASYNC_WRITE, channel);
        }
        if address == 0x0810 + 0x10 * further {
            return whole(STATUS_READ, 0, channel);
        }
        let schedule = 0x80000 + 0x1000 * further;
        if schedule <= address && address < schedule + 4 * COMMANDS as u32 {
            let in_ram = (address - schedule) >> 2;
            return Some(Place { read: SCHEDULE_READ, write: SCHEDULE_WRITE, channel, in_ram });
        }
        let message = 0x90000 + 0x1000 * further;
        if message <= address && address < message + 4 * MESSAGES as u32 {
            let in_ram = (address - message) >> 2;
            return Some(Place { read: MESSAGE_READ, write: MESSAGE_WRITE, channel, in_ram });
        }
    }
    None
}

/// Performs a register read or write: the answer's number, and the value or the mask of the channels that refused.
pub(crate) fn access(mem: &mut [u32], op: u32, address: u32, value: u32) -> Vec<u32> {
    if address & 3 != 0 {
        return vec![30, 0];
    }
    let Some(place) = place(address) else {
        return vec![31, 0];
    };
    let call = if op == REGISTER_READ { place.read } else { place.write };
    if call == 0 {
        return vec![32, 0];
    }
    if place.channel == 0 {
        return masked(mem, call, value);
    }
    let (a, b) = match call {
        SCHEDULE_WRITE..=MESSAGE_READ => (place.in_ram, value),
        _ => (value, 0),
    };
    let answer = perform(mem, call, place.channel, a, b);
    let shown = match call {
        SCHEDULE_READ => answer[1] & 0xFFFF,
        ASYNC_READ => answer[2],
        STATUS_READ => (0..7).fold(0, |shown, condition| shown | (answer[1] >> condition & 1) << STATUS_BIT[condition]),
        _ => answer.get(1).copied().unwrap_or(0),
    };
    vec![answer[0], shown]
}

/// The call on each channel of the mask's low twelve bits, in order.
fn masked(mem: &mut [u32], call: u32, mask: u32) -> Vec<u32> {
    let refusal = part_refusal(mem);
    let mut refused = 0;
    if refusal == 0 {
        for bit in 0..CHANNELS {
            if mask & 1 << bit != 0 && perform(mem, call, bit + 1, 0, 0)[0] != 0 {
                refused |= 1 << bit;
            }
        }
    }
    vec![refusal, refused]
}
