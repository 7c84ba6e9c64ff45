//! Registers for the old host: the map, the refusals before those of the calls, masks, and each access as the call that it is.

mod bench;
use bench::*;
use second::calls::Item;
use second::layout::*;
use second::ledger::Ledger;
use second::model::Model;
use second::registers::{accepted_calls, Register};
use second::words;

/// A channel word, which accesses ignore.
const IGNORED: u32 = 0xFFFF_FFFF;

impl Bench {
    fn read(&mut self, address: u32) -> Vec<u32> {
        self.call(REGISTER_READ, IGNORED, address, IGNORED)
    }

    fn write(&mut self, address: u32, value: u32) -> Vec<u32> {
        self.call(REGISTER_WRITE, IGNORED, address, value)
    }

    /// An access that must be refused: value 0, no word changed.
    fn read_refused(&mut self, refusal: u32, address: u32) {
        self.refused(refusal, REGISTER_READ, IGNORED, address, IGNORED);
    }

    fn write_refused(&mut self, refusal: u32, address: u32, value: u32) {
        self.refused(refusal, REGISTER_WRITE, IGNORED, address, value);
    }

    /// States of the channels, from channel 1 on.
    fn states(&self) -> Vec<u32> {
        (1..=self.mem[COUNT]).map(|channel| self.mem[block(channel) + STATE]).collect()
    }
}

/// A module of so many channels with every transmitter on, in triggered mode.
fn transmitting(count: u32) -> Bench {
    let mut bench = Bench::new(count);
    for channel in 1..=count {
        bench.call(WRITE_TRANSMITTER, channel, 1, 0);
        bench.call(WRITE_TRANSMIT_MODE, channel, 1, 0);
    }
    bench
}

// The map.

#[test]
fn the_addresses_of_the_manual() {
    let (first, last) = (1, 12);
    for (address, register) in [
        (0x111C, Register::Rate { channel: first }),
        (0x1C1C, Register::Rate { channel: last }),
        (0x1120, Register::Async { channel: first }),
        (0x1C20, Register::Async { channel: last }),
        (0x80000, Register::Command { channel: first, address: 0 }),
        (0x807FC, Register::Command { channel: first, address: 511 }),
        (0x81004, Register::Command { channel: 2, address: 1 }),
        (0x8B7FC, Register::Command { channel: last, address: 511 }),
        (0x90000, Register::Message { channel: first, address: 0 }),
        (0x903FC, Register::Message { channel: first, address: 255 }),
        (0x9B3FC, Register::Message { channel: last, address: 255 }),
        (0x0810, Register::Status { channel: first }),
        (0x08C0, Register::Status { channel: last }),
        (0x1000, Register::Trigger),
        (0x1004, Register::Pause),
        (0x1008, Register::Stop),
    ] {
        assert_eq!(Register::at(address), Ok(register));
        assert_eq!(register.address(), address);
        for beside in 1..4 {
            assert_eq!(Register::at(address + beside), Err(30));
        }
    }
    let around_status = [0, 4, 0x0800, 0x080C, 0x0814, 0x08BC, 0x08D0];
    let around_masks_and_rates = [0x0FFC, 0x100C, 0x1014, 0x101C, 0x1020, 0x1118, 0x1124, 0x1C24, 0x1D1C, 0x1D20];
    let around_schedules = [0x7_FFFC, 0x8_0800, 0x8_0FFC, 0x8_B800, 0x8_C000, 0x8_FFFC];
    let around_messages = [0x9_0400, 0x9_0FFC, 0x9_B400, 0x9_C000, 0xFFFF_FFFC];
    for address in [&around_status[..], &around_masks_and_rates, &around_schedules, &around_messages].concat() {
        assert_eq!(Register::at(address), Err(31), "{address:#x}");
        assert_eq!(Register::at(address + 1), Err(30));
    }
}

/// On no memory at all an access is refused with 30, 31 or 32, or else with 1: of every address, model and words say the same.
#[test]
fn every_address_both_ways_on_no_memory() {
    let mut model = Model::read(&[]);
    let mut answered = |op, address| {
        let answer = words::perform(&mut [], op, 1, address, 1);
        assert_eq!(model.perform(0, Item { op, channel: 9, a: address, b: 1 }), answer, "{address:#x}");
        assert_eq!(answer[1..], [0]);
        answer[0]
    };
    let mut counts = [[0; 4]; 2];
    for address in 0..0xA_0000 {
        for (way, op) in [REGISTER_READ, REGISTER_WRITE].into_iter().enumerate() {
            match answered(op, address) {
                1 => counts[way][0] += 1,
                number => counts[way][number as usize - 29] += 1,
            }
        }
    }
    // Read: rate, async, status and both RAMs of twelve channels; written: the same without status, and three masks.
    let (aligned, both_ways) = (0xA_0000 / 4, 12 * (1 + 1 + 512 + 256));
    let none = aligned - both_ways - 12 - 3;
    assert_eq!(counts[0], [both_ways + 12, 3 * aligned, none, 3]);
    assert_eq!(counts[1], [both_ways + 3, 3 * aligned, none, 12]);
    for address in (0..32).map(|bit| 1 << bit).chain([0xA_0000, 0x18_0000, 0x8008_0000, u32::MAX - 3]) {
        if address >= 0xA_0000 {
            assert_eq!([REGISTER_READ, REGISTER_WRITE].map(|op| answered(op, address)), [31; 2]);
            assert_eq!(answered(REGISTER_READ, address + 3), 30);
        }
    }
}

#[test]
fn in_number_order_before_those_of_the_calls() {
    // Short memory, an unsound module part, and an unsound channel.
    let mut unsound_part = Bench::new(2);
    unsound_part.overwrite(LAYOUT, 3);
    let mut unsound_channel = Bench::new(2);
    unsound_channel.overwrite(block(1) + STATE, 3);
    for (mut bench, refusal) in [(Bench::on(vec![]), 1), (unsound_part, 2), (unsound_channel, 2)] {
        for address in [0x111D, 0x112F, 0x80801, 0x811, 0x1001, 0x100A, 3] {
            bench.read_refused(30, address);
            bench.write_refused(30, address, 1);
        }
        for address in [0x1D1C, 0x80800, 0x90400, 0x8D0, 0x100C, 0] {
            bench.read_refused(31, address);
            bench.write_refused(31, address, 1);
        }
        bench.write_refused(32, 0x810, 1);
        for address in [0x1000, 0x1004, 0x1008] {
            bench.read_refused(32, address);
        }
        for address in [0x111C, 0x1120, 0x80000, 0x90000] {
            bench.read_refused(refusal, address);
            bench.write_refused(refusal, address, 0);
        }
        bench.read_refused(refusal, 0x810);
    }
    // Registers are those of twelve channels, whatever the count.
    let mut bench = Bench::new(2);
    for address in [0x131C, 0x1C1C, 0x1320, 0x82000, 0x8B7FC, 0x92000, 0x9B3FC] {
        bench.read_refused(3, address);
        bench.write_refused(3, address, 0);
    }
    bench.read_refused(3, 0x8C0);
    bench.write_refused(32, 0x8C0, 1);
    bench.write_refused(31, 0x1D1C, 1);
}

// Single registers.

#[test]
fn rate() {
    let mut bench = Bench::new(2);
    assert_eq!(bench.read(0x111C), [0, 4]);
    assert_eq!(bench.write(0x121C, 1_048_575), [0, 0]);
    assert_eq!(bench.read(0x121C), [0, 1_048_575]);
    assert_eq!([bench.mem[block(1) + RATE], bench.mem[block(2) + RATE]], [4, 1_048_575]);
    // A written rate is taken whole: its low 20 bits alone do not count.
    for rate in [0, 3, 1_048_576, 0x0010_0004, 0x8000_0004, u32::MAX] {
        bench.write_refused(4, 0x111C, rate);
    }
}

#[test]
fn async_word() {
    let mut bench = Bench::new(1);
    assert_eq!(bench.read(0x1120), [0, 0], "in any mode");
    bench.write_refused(5, 0x1120, 7);
    bench.setting(TRANSMIT_MODE, 2);
    assert_eq!(bench.write(0x1120, 0xFFFF_FFFF), [0, 0]);
    assert_eq!(bench.read(0x1120), [0, 0xFFFF_FFFF]);
    bench.write_refused(6, 0x1120, 7);
    bench.setting(TRANSMITTER, 0);
    assert_eq!(bench.mem[block(1) + ASYNC_WORD], 0xFFFF_FFFF);
    assert_eq!(bench.read(0x1120), [0, 0], "dropped: none waits");
    // One that waits outside scheduled mode is others' doing.
    bench.setting(TRANSMIT_MODE, 1);
    bench.overwrite(block(1) + ASYNC_MARK, 1);
    assert_eq!(bench.read(0x1120), [0, 0xFFFF_FFFF]);
}

#[test]
fn both_rams() {
    let mut bench = Bench::new(2);
    for (address, command) in
        [(0x80000, 0x1111_1005), (0x803FC, 0x2222_6100), (0x80400, 0xFFFF_FFFF), (0x817FC, 0x4444_0000)]
    {
        assert_eq!(bench.write(address, command), [0, 0]);
        assert_eq!(bench.read(address), [0, command & 0xFFFF], "only bits 0 to 15 are utilized");
    }
    assert_eq!(bench.done(SCHEDULE_READ, 0, 0), [0x1111_1005], "stored as it is");
    assert_eq!(bench.done(SCHEDULE_READ, 255, 0), [0x2222_6100]);
    assert_eq!(bench.done(SCHEDULE_READ, 256, 0), [0xFFFF_FFFF]);
    assert_eq!(bench.call(SCHEDULE_READ, 2, 511, 0), [0, 0x4444_0000]);
    for (address, word) in [(0x90000, 0x8000_0001), (0x913FC, 0xFFFF_FFFF)] {
        assert_eq!(bench.write(address, word), [0, 0]);
        assert_eq!(bench.read(address), [0, word]);
    }
    assert_eq!(bench.done(MESSAGE_READ, 0, 0), [0x8000_0001]);
    assert_eq!(bench.call(MESSAGE_READ, 2, 255, 0), [0, 0xFFFF_FFFF]);
}

#[test]
fn status_at_the_manuals_positions() {
    for (condition, position) in [(0, 1), (1, 2), (2, 5), (3, 4), (4, 7), (5, 10), (6, 9)] {
        let mut bench = Bench::new(2);
        bench.overwrite(block(2) + LATCH, 1 << condition);
        assert_eq!(bench.read(0x820), [0, 1 << position]);
        assert_eq!(bench.read(0x810), [0, 0]);
    }
    let mut bench = Bench::new(1);
    bench.overwrite(block(1) + LATCH, 127);
    assert_eq!(bench.read(0x810), [0, 0b110_1011_0110]);
    // Received and waiting words have no bit of their own here.
    bench.setting(RECEIVER, 1);
    bench.setting(TRANSMIT_MODE, 2);
    bench.done(ARRIVAL, 1, 0);
    bench.write(0x1120, 1);
    bench.done(LATCH_CLEAR, 127, 0);
    assert_eq!(bench.read(0x810), [0, 0]);
}

/// Every access is that call, its status rule included: the same memory afterwards, on the channel named by the address.
#[test]
fn every_access_is_that_call() {
    let accesses = [
        (REGISTER_READ, 0x121C, 0, [READ_RATE, 0, 0]),
        (REGISTER_WRITE, 0x121C, 40, [WRITE_RATE, 40, 0]),
        (REGISTER_READ, 0x1220, 0, [ASYNC_READ, 0, 0]),
        (REGISTER_WRITE, 0x1220, 9, [ASYNC_WRITE, 9, 0]),
        (REGISTER_READ, 0x81404, 0, [SCHEDULE_READ, 257, 0]),
        (REGISTER_WRITE, 0x81404, 9, [SCHEDULE_WRITE, 257, 9]),
        (REGISTER_READ, 0x91004, 0, [MESSAGE_READ, 1, 0]),
        (REGISTER_WRITE, 0x91004, 9, [MESSAGE_WRITE, 1, 9]),
        (REGISTER_READ, 0x820, 0, [STATUS_READ, 0, 0]),
        (REGISTER_WRITE, 0x1000, 2, [TRIGGER, 0, 0]),
        (REGISTER_WRITE, 0x1004, 2, [PAUSE, 0, 0]),
        (REGISTER_WRITE, 0x1008, 2, [STOP, 0, 0]),
    ];
    for (op, address, value, [call, a, b]) in accesses {
        let mut bench = transmitting(3);
        for channel in 1..=3 {
            bench.call(WRITE_TRANSMIT_MODE, channel, 2, 0);
            // By level a condition that holds is latched by each call; these words let it wait for the next.
            bench.overwrite(block(channel) + LEVEL_MASK, 0b1100);
            bench.overwrite(block(channel) + LATCH, 0);
        }
        let mut by_call = Bench::on(bench.mem.clone());
        assert_eq!(bench.call(op, IGNORED, address, value)[0], 0);
        assert_eq!(by_call.call(call, 2, a, b)[0], 0);
        assert_eq!(bench.mem, by_call.mem);
        assert_eq!([1, 2, 3].map(|channel| bench.mem[block(channel) + LATCH]), [0, 0b1100, 0]);
        let item = Item { op, channel: IGNORED, a: address, b: value };
        assert_eq!(accepted_calls(item, &[0, 0]), [Item { op: call, channel: 2, a, b }]);
    }
}

// Masks.

#[test]
fn each_named_channel_is_tried_in_order() {
    let mut bench = transmitting(4);
    bench.call(WRITE_TRANSMITTER, 2, 0, 0);
    assert_eq!(bench.write(0x1000, 0b0111), [0, 0b0010], "the transmitter of channel 2 is off");
    assert_eq!(bench.states(), [1, 0, 1, 0]);
    assert_eq!(bench.write(0x1000, 0xFFFF_F000), [0, 0], "other bits are ignored");
    assert_eq!(bench.states(), [1, 0, 1, 0]);
    assert_eq!(bench.write(0x1000, 0), [0, 0]);
    assert_eq!(bench.write(0x1004, 0xFFFF_FFFF), [0, 0xFF0], "channels above the count");
    assert_eq!(bench.states(), [2, 0, 2, 0]);
    assert_eq!(bench.write(0x1000, 0b1_0000_1000), [0, 0b1_0000_0000]);
    assert_eq!(bench.states(), [2, 0, 2, 1]);
    assert_eq!(bench.write(0x1008, 0b1110), [0, 0], "a stop, also with the transmitter off");
    assert_eq!(bench.states(), [2, 0, 0, 0]);
}

#[test]
fn all_twelve_channels() {
    let mut bench = transmitting(12);
    for channel in [1, 6, 12] {
        bench.call(WRITE_TRANSMITTER, channel, 0, 0);
    }
    assert_eq!(bench.write(0x1000, 0xFFFF_FFFF), [0, 0b1000_0010_0001]);
    assert_eq!(bench.states(), [0, 1, 1, 1, 1, 0, 1, 1, 1, 1, 1, 0]);
    assert_eq!(bench.write(0x1004, 0x0FFF), [0, 0]);
    assert_eq!(bench.states(), [0, 2, 2, 2, 2, 0, 2, 2, 2, 2, 2, 0]);
}

#[test]
fn an_unsound_channel_is_in_the_mask_and_the_others_are_tried() {
    let mut bench = transmitting(3);
    bench.overwrite(block(2) + WORD_MARK, 2);
    let before = bench.mem[block(2)..block(3)].to_vec();
    for (address, states) in [(0x1000, [1, 0, 1]), (0x1004, [2, 0, 2]), (0x1008, [0, 0, 0])] {
        assert_eq!(bench.write(address, 0b1111), [0, 0b1010]);
        assert_eq!(bench.states(), states);
    }
    assert_eq!(bench.mem[block(2)..block(3)], before);
}

#[test]
fn short_memory_or_an_unsound_module_part_refuses_the_whole_write() {
    for address in [0x1000, 0x1004, 0x1008] {
        for mask in [0, 0xFFFF_F000, 0b11] {
            let mut mem = transmitting(2).mem;
            mem.pop();
            Bench::on(mem).write_refused(1, address, mask);
            Bench::on(vec![2; MODULE_WORDS - 1]).write_refused(1, address, mask);
            for (word, value) in
                [(COUNT, 0), (COUNT, 13), (RESOLUTION, 4), (THRESHOLD, 0), (COUNTERS + 11, 65_537), (LAYOUT, 1)]
            {
                let mut bench = transmitting(2);
                bench.overwrite(word, value);
                bench.write_refused(2, address, mask);
            }
        }
    }
}

#[test]
fn the_history_takes_accesses_as_the_calls_that_they_are() {
    let items = [
        [POWER_UP, 0, 2, 0],
        [WRITE_TRANSMITTER, 2, 1, 0],
        [REGISTER_WRITE, 1, 0x121C, 40],
        [REGISTER_WRITE, 1, 0x121C, 3],
        [FIFO_WRITE, 2, 5, 0],
        [REGISTER_WRITE, 0, 0x1000, 0b111],
        [REGISTER_READ, 9, 0x820, 0],
        [STEP, 2, 0, 0],
    ];
    let mut mem = vec![0; need(2)];
    let mut ledger = Ledger::default();
    for [op, channel, a, b] in items {
        let answer = words::perform(&mut mem, op, channel, a, b);
        ledger.enter(Item { op, channel, a, b }, &answer).unwrap();
        ledger.check_words(&mem).unwrap();
    }
    assert_eq!(ledger.place, 8, "an access has one place in the list");
    assert_eq!([0, 1].map(|place| ledger.channels[place].settings[RATE]), [4, 40]);
    let sent = &ledger.channels[1].transmit.entries[0];
    assert_eq!([sent.accepted_at, sent.fate_at], [5, 8]);
    // A masked write with its answer: those that did not refuse.
    let item = Item { op: REGISTER_WRITE, channel: 0, a: 0x1000, b: 0xFFFF_F00F };
    let triggered: Vec<u32> = accepted_calls(item, &[0, 0b1101]).iter().map(|call| call.channel).collect();
    assert_eq!(triggered, [2]);
}
