//! The comparison finds an engine whose accesses to registers have one thing wrong.

use second::calls::Item;
use second::compare::compare;
use second::engine::{AsModel, Engine, OnWords};
use second::layout::*;
use second::ops::*;
use second::registers::{named, Register};
use second::words;

/// Performs an access and then does something wrong.
struct Slip(fn(&mut [u32], &[u32], Item, &mut Vec<u32>));

impl Engine for Slip {
    fn perform(&mut self, mem: &mut [u32], op: u32, channel: u32, a: u32, b: u32) -> Vec<u32> {
        if ![REGISTER_READ, REGISTER_WRITE].contains(&op) {
            return words::perform(mem, op, channel, a, b);
        }
        let before = mem.to_vec();
        let mut answer = words::perform(mem, op, channel, a, b);
        (self.0)(mem, &before, Item { op, channel, a, b }, &mut answer);
        answer
    }
}

/// Each is found against the model and against the words.
fn found(name: &str, slip: fn(&mut [u32], &[u32], Item, &mut Vec<u32>)) {
    let (_, by_model) = compare(200_000, 7, &mut AsModel::new(), &mut Slip(slip));
    assert!(by_model.is_some(), "{name}: not found against the model");
    let (_, by_words) = compare(200_000, 7, &mut OnWords, &mut Slip(slip));
    assert!(by_words.is_some(), "{name}: not found against the words");
}

fn is_mask(item: Item) -> bool {
    item.op == REGISTER_WRITE && (0x1000..=0x1008).contains(&item.a) && item.a % 4 == 0
}

/// Performs another access in place of the one that was done or refused.
fn instead(mem: &mut [u32], before: &[u32], op: u32, address: u32, value: u32) -> Vec<u32> {
    mem.copy_from_slice(before);
    words::perform(mem, op, 0, address, value)
}

/// Performs a call in place of the access.
fn call_instead(mem: &mut [u32], before: &[u32], item: Item) -> Vec<u32> {
    mem.copy_from_slice(before);
    let answer = words::perform(mem, item.op, item.channel, item.a, item.b);
    vec![answer[0], answer.get(1).copied().unwrap_or(0)]
}

#[test]
fn wrong_maps_and_refusals_are_found() {
    found("a read with the address not aligned answered", |mem, before, item, answer| {
        if answer[0] == 30 && item.op == REGISTER_READ {
            *answer = instead(mem, before, item.op, item.a & !3, item.b);
        }
    });
    found("a write with the address not aligned done", |mem, before, item, answer| {
        if answer[0] == 30 && item.op == REGISTER_WRITE {
            *answer = instead(mem, before, item.op, item.a & !3, item.b);
        }
    });
    found("no register told before not aligned", |_, _, item, answer| {
        if answer[0] == 30 && Register::at(item.a & !3).is_err() {
            answer[0] = 31;
        }
    });
    found("the wrong way told before not aligned", |mem, before, item, answer| {
        if answer[0] == 30 && instead(mem, before, item.op, item.a & !3, item.b)[0] == 32 {
            answer[0] = 32;
        }
        mem.copy_from_slice(before);
    });
    found("a write to no register answered with 32", |_, _, item, answer| {
        if answer[0] == 31 && item.op == REGISTER_WRITE {
            answer[0] = 32;
        }
    });
    found("short memory told first", |_, before, _, answer| {
        if answer[0] >= 30 && before.len() < MODULE_WORDS {
            answer[0] = 1;
        }
    });
    found("an unsound module part told first", |_, before, _, answer| {
        if answer[0] >= 30 && before.len() >= MODULE_WORDS && before[LAYOUT] != LAYOUT_NUMBER {
            answer[0] = 2;
        }
    });
    found("channel 13's address taken", |_, _, item, answer| {
        let thirteenth = [0x1D1C, 0x1D20, 0x8D0].contains(&item.a) || [0x8C, 0x9C].contains(&(item.a >> 12));
        if answer[0] == 31 && thirteenth {
            answer[0] = 3;
        }
    });
    found("a channel above the count has no register", |_, _, _, answer| {
        if answer[0] == 3 {
            answer[0] = 31;
        }
    });
    found("the schedule RAM's end one too far", |_, _, item, answer| {
        if answer[0] == 31 && item.a >> 16 == 8 && item.a % 0x1000 == 0x800 {
            answer[0] = 4;
        }
    });
    found("the message RAM's end one too far", |_, _, item, answer| {
        if answer[0] == 31 && item.a >> 16 == 9 && item.a % 0x1000 == 0x400 {
            answer[0] = 4;
        }
    });
    found("the schedule RAM ends at 255", |mem, before, item, answer| {
        if item.a >> 16 == 8 && item.a % 0x1000 >= 0x400 && answer[0] < 30 {
            mem.copy_from_slice(before);
            *answer = vec![31, 0];
        }
    });
    found("a value beside a refusal", |_, _, item, answer| {
        if answer[0] == 32 {
            answer[1] = item.b & 0xFFF;
        }
    });
}

#[test]
fn wrong_single_accesses_are_found() {
    found("status in house bits", |mem, before, item, answer| {
        if let (0, Ok(Register::Status { channel })) = (answer[0], Register::at(item.a)) {
            *answer = call_instead(mem, before, Item { op: STATUS_READ, channel, a: 0, b: 0 });
        }
    });
    found("transmit empty and almost empty exchanged", |_, _, item, answer| {
        if let (0, Ok(Register::Status { .. })) = (answer[0], Register::at(item.a)) {
            answer[1] = answer[1] & !0x30 | (answer[1] & 0x10) << 1 | (answer[1] & 0x20) >> 1;
        }
    });
    found("interrupt and built-in-test error exchanged", |_, _, item, answer| {
        if let (0, Ok(Register::Status { .. })) = (answer[0], Register::at(item.a)) {
            answer[1] = answer[1] & !0x600 | (answer[1] & 0x200) << 1 | (answer[1] & 0x400) >> 1;
        }
    });
    found("the latch before the rule shown", |_, before, item, answer| {
        if let (0, Ok(Register::Status { channel })) = (answer[0], Register::at(item.a)) {
            if before[block(channel) + LATCH] & 4 == 0 {
                answer[1] &= !0x20;
            }
        }
    });
    found("a rate cut to 20 bits before the test", |mem, before, item, answer| {
        if answer[0] == 4 && matches!(Register::at(item.a), Ok(Register::Rate { .. })) {
            *answer = instead(mem, before, item.op, item.a, item.b & 0xF_FFFF);
        }
    });
    found("an async read refused outside scheduled mode", |mem, before, item, answer| {
        if let (REGISTER_READ, 0, Ok(Register::Async { channel })) = (item.op, answer[0], Register::at(item.a)) {
            if before[block(channel) + TRANSMIT_MODE] != 2 {
                mem.copy_from_slice(before);
                *answer = vec![5, 0];
            }
        }
    });
    found("the mark in place of the waiting word", |mem, before, item, answer| {
        if let (REGISTER_READ, 0, Ok(Register::Async { channel })) = (item.op, answer[0], Register::at(item.a)) {
            *answer = call_instead(mem, before, Item { op: ASYNC_READ, channel, a: 0, b: 0 });
        }
    });
    found("a word that waits no more read", |_, before, item, answer| {
        if let (REGISTER_READ, 0, Ok(Register::Async { channel })) = (item.op, answer[0], Register::at(item.a)) {
            answer[1] = before[block(channel) + ASYNC_WORD];
        }
    });
    found("a command read whole", |mem, before, item, answer| {
        if let (REGISTER_READ, 0, Ok(Register::Command { channel, address })) =
            (item.op, answer[0], Register::at(item.a))
        {
            *answer = call_instead(mem, before, Item { op: SCHEDULE_READ, channel, a: address, b: 0 });
        }
    });
    found("a command cut as it is written", |mem, _, item, answer| {
        if let (REGISTER_WRITE, 0, Ok(Register::Command { channel, address })) =
            (item.op, answer[0], Register::at(item.a))
        {
            mem[block(channel) + SCHEDULE_RAM + address as usize] &= 0xFFFF;
        }
    });
    found("a written value handed back", |_, _, item, answer| {
        if item.op == REGISTER_WRITE && answer[0] == 0 && !is_mask(item) {
            answer[1] = item.b;
        }
    });
    found("no rule after a read", |mem, before, item, answer| {
        if item.op == REGISTER_READ && answer[0] == 0 && !matches!(Register::at(item.a), Ok(Register::Status { .. })) {
            mem.copy_from_slice(before);
        }
    });
    found("the channel word taken", |mem, before, item, answer| {
        if let (0, Ok(Register::Rate { .. })) = (answer[0], Register::at(item.a)) {
            let op = if item.op == REGISTER_READ { READ_RATE } else { WRITE_RATE };
            *answer = call_instead(mem, before, Item { op, channel: item.channel, a: item.b, b: 0 });
        }
    });
}

#[test]
fn wrong_masked_writes_are_found() {
    found("stops at the first refusal", |mem, before, item, answer| {
        if is_mask(item) && answer[0] == 0 && answer[1] != 0 {
            let first = 1 << answer[1].trailing_zeros();
            let tried = item.b & (first - 1);
            *answer = instead(mem, before, item.op, item.a, tried);
            answer[1] |= first;
        }
    });
    found("the mask of those that accepted", |_, _, item, answer| {
        if is_mask(item) && answer[0] == 0 {
            answer[1] = item.b & 0xFFF & !answer[1];
        }
    });
    found("an unsound module part, and channels are tried", |_, _, item, answer| {
        if is_mask(item) && answer[0] == 2 {
            *answer = vec![0, item.b & 0xFFF];
        }
    });
    found("an unsound channel refuses the whole write", |mem, before, item, answer| {
        if is_mask(item) && answer[0] == 0 {
            let unsound = |channel: &u32| words::perform(&mut mem.to_vec(), STATUS_READ, *channel, 0, 0)[0] == 2;
            if named(answer[1]).any(|channel| unsound(&channel)) {
                mem.copy_from_slice(before);
                *answer = vec![2, 0];
            }
        }
    });
    found("a channel above the count refuses the whole write", |mem, before, item, answer| {
        if is_mask(item) && answer[0] == 0 && answer[1] >> before[COUNT] != 0 {
            mem.copy_from_slice(before);
            *answer = vec![3, 0];
        }
    });
    found("channels above the count left out of the mask", |_, before, item, answer| {
        if is_mask(item) && answer[0] == 0 {
            answer[1] &= (1 << before[COUNT]) - 1;
        }
    });
    found("ignored bits refused", |mem, before, item, answer| {
        if is_mask(item) && answer[0] == 0 && item.b > 0xFFF {
            mem.copy_from_slice(before);
            *answer = vec![4, 0];
        }
    });
    found("ignored bits in the answer's mask", |_, _, item, answer| {
        if is_mask(item) && answer[0] == 0 {
            answer[1] |= item.b & !0xFFF;
        }
    });
    found("no channel named, and short memory is not told", |_, _, item, answer| {
        if is_mask(item) && answer[0] == 1 && item.b & 0xFFF == 0 {
            answer[0] = 0;
        }
    });
    found("a pause or stop refused with the transmitter off", |mem, before, item, answer| {
        if is_mask(item) && answer[0] == 0 && item.a != 0x1000 {
            let off = named(item.b & !answer[1]).filter(|&channel| before[block(channel) + TRANSMITTER] == 0);
            let off: u32 = off.map(|channel| 1 << (channel - 1)).sum();
            let refused = answer[1] | off;
            *answer = instead(mem, before, item.op, item.a, item.b & !off);
            answer[1] = refused;
        }
    });
    found("no rule on the channels named", |mem, before, item, answer| {
        if is_mask(item) && answer[0] == 0 {
            for channel in 1..=before[COUNT] {
                mem[block(channel) + LATCH] = before[block(channel) + LATCH];
            }
        }
    });
    found("the rule on every channel", |mem, before, item, answer| {
        if is_mask(item) && answer[0] == 0 {
            for channel in (1..=before[COUNT]).filter(|channel| item.b >> (channel - 1) & 1 == 0) {
                words::perform(mem, STATUS_READ, channel, 0, 0);
            }
        }
    });
    found("one bit up", |mem, before, item, answer| {
        if is_mask(item) && answer[0] == 0 {
            *answer = instead(mem, before, item.op, item.a, item.b >> 1);
        }
    });
    found("pause and stop exchanged", |mem, before, item, answer| {
        if is_mask(item) && answer[0] == 0 && item.a != 0x1000 {
            *answer = instead(mem, before, item.op, 0x1004 + 0x1008 - item.a, item.b);
        }
    });
}
