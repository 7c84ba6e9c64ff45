//! Each row of the refusal table, and the order of the rows.

mod bench;
use bench::*;
use second::layout::*;
use second::words;

/// Every op that is a call, but for power-up and the accesses to registers.
fn ops() -> Vec<u32> {
    (2..=9).chain(32..=43).chain(64..=75).chain(128..=156).collect()
}

#[test]
fn an_item_that_is_no_call_is_42_alone() {
    let mut bench = Bench::new(1);
    let before = bench.mem.clone();
    for op in [0, 10, 11, 31, 44, 63, 76, 127, 157, 159, 162, 0xFFFF_FFFF] {
        assert_eq!(bench.call(op, 1, 0, 0), [42]);
        assert_eq!(words::perform(&mut [], op, 1, 0, 0), [42]);
    }
    assert_eq!(bench.mem, before);
}

#[test]
fn row_1_short() {
    for op in ops() {
        Bench::on(vec![]).refused(1, op, 1, 0, 0);
        Bench::on(vec![1; MODULE_WORDS - 1]).refused(1, op, 1, 0, 0);
        for count in [1, 2, 12] {
            let mut mem = vec![0; need(count) - 1];
            mem[COUNT] = count;
            // Also where the threshold, 0 here, is outside its range: 1 comes before 2.
            Bench::on(mem).refused(1, op, 1, 0, 0);
        }
    }
}

#[test]
fn row_1_at_power_up_is_the_asked_count_alone() {
    for count in 1..=12 {
        Bench::on(vec![7; need(count) - 1]).refused(1, POWER_UP, 1, count, 0);
    }
    let mut bench = Bench::on(vec![12; need(1)]);
    bench.done(POWER_UP, 1, 0);
}

#[test]
fn row_2_unsound_module_part() {
    for (word, value) in
        [(COUNT, 0), (COUNT, 13), (COUNT, u32::MAX), (RESOLUTION, 4), (THRESHOLD, 0), (THRESHOLD, 65_536)]
            .into_iter()
            .chain([0, 1, 3, u32::MAX].map(|number| (LAYOUT, number)))
            .chain((COUNTERS..LAYOUT).map(|word| (word, 65_537)))
    {
        let mut bench = Bench::new(2);
        bench.overwrite(word, value);
        for op in ops() {
            bench.refused(2, op, 1, 0, 0);
            // A wrong channel number comes after the module part.
            bench.refused(2, op, 99, 0, 0);
        }
        bench.done(POWER_UP, 2, 0);
    }
}

#[test]
fn row_2_unsound_channel() {
    let outside = [
        (RECEIVER, 2),
        (TRANSMITTER, 2),
        (PARITY, 2),
        (MATCH, 2),
        (STAMPS, 2),
        (RECEIVE_MODE, 2),
        (FIFO_KIND, 2),
        (TRANSMIT_MODE, 3),
        (SIZE, 0),
        (SIZE, 256),
        (ALMOST_FULL, 256),
        (ALMOST_EMPTY, 256),
        (RATE, 3),
        (RATE, 1_048_576),
        (RECEIVE_LEVEL, 256),
        (RECEIVE_POSITION, 255),
        (TRANSMIT_LEVEL, 256),
        (TRANSMIT_POSITION, 255),
        (STATE, 3),
        (COMMAND, 512),
        (ASYNC_MARK, 2),
        (LATCH, 128),
        (ENABLE, 128),
        (LEVEL_MASK, 128),
        (WORD_MARK, 2),
        (WORD_MARK, u32::MAX),
    ];
    for (word, value) in outside {
        let mut bench = Bench::new(2);
        bench.overwrite(block(2) + word, value);
        for op in ops() {
            bench.refused(2, op, 2, 0, 0);
            if op < 32 {
                bench.refused(2, op, 1, 0, 0);
            } else {
                // The other channel's calls go on; a wrong channel number is 3.
                assert_ne!(bench.call(op, 1, 1, 0)[0], 2);
                bench.refused(3, op, 3, 0, 0);
            }
        }
        bench.done(POWER_UP, 2, 0);
    }
}

#[test]
fn row_2_receive_level_above_size() {
    let mut bench = Bench::new(1);
    bench.overwrite(block(1) + SIZE, 2);
    bench.overwrite(block(1) + RECEIVE_LEVEL, 2);
    bench.latch();
    bench.overwrite(block(1) + RECEIVE_LEVEL, 3);
    bench.refused(2, STATUS_READ, 1, 0, 0);
}

#[test]
fn row_2_command_addresses_run_to_511() {
    let mut bench = Bench::new(1);
    for command in [255, 256, 511] {
        bench.overwrite(block(1) + COMMAND, command);
        bench.latch();
    }
    bench.overwrite(block(1) + COMMAND, 512);
    bench.refused(2, STATUS_READ, 1, 0, 0);
}

#[test]
fn row_2_contents_may_hold_anything() {
    let mut bench = Bench::new(1);
    for word in ASYNC_WORD..BLOCK_WORDS {
        bench.mem[block(1) + word] = u32::MAX;
    }
    bench.overwrite(STAMP, u32::MAX);
    bench.overwrite(block(1) + RECEIVE_LEVEL, 1);
    assert_eq!(bench.done(FIFO_READ, 0, 0), [3, u32::MAX, u32::MAX], "of a stored status the two low bits count");
    assert_eq!(bench.done(MAILBOX_READ, 9, 0), [3, u32::MAX, u32::MAX]);
    assert_eq!(bench.mem[block(1) + MAILBOXES + 27], 1);
    assert_eq!(bench.counts()[1], 0, "a count rolls over");
}

#[test]
fn row_3_channel() {
    let mut bench = Bench::new(3);
    for op in ops().into_iter().filter(|&op| op >= 32) {
        for channel in [0, 4, 12, 13, u32::MAX] {
            bench.refused(3, op, channel, u32::MAX, u32::MAX);
        }
        assert_ne!(bench.call(op, 3, 1, 0)[0], 3);
    }
}

#[test]
fn row_4_range() {
    let mut bench = Bench::new(1);
    for count in [0, 13, u32::MAX] {
        bench.refused(4, POWER_UP, 1, count, 0);
        Bench::on(vec![]).refused(4, POWER_UP, 1, count, 0);
    }
    let ends = [
        (RECEIVER, 0, 1),
        (TRANSMITTER, 0, 1),
        (PARITY, 0, 1),
        (MATCH, 0, 1),
        (STAMPS, 0, 1),
        (RECEIVE_MODE, 0, 1),
        (FIFO_KIND, 0, 1),
        (TRANSMIT_MODE, 0, 2),
        (SIZE, 1, 255),
        (ALMOST_FULL, 0, 255),
        (ALMOST_EMPTY, 0, 255),
        (RATE, 4, 1_048_575),
    ];
    for (setting, least, greatest) in ends {
        let op = SETTING_WRITE + setting as u32;
        if least > 0 {
            bench.refused(4, op, 1, least - 1, 0);
        }
        bench.refused(4, op, 1, greatest + 1, 0);
        bench.refused(4, op, 1, u32::MAX, 0);
        for value in [least, greatest] {
            bench.setting(setting, value);
            assert_eq!(bench.done(SETTING_READ + setting as u32, 0, 0), [value]);
        }
    }
    for (op, greatest) in [
        (RESOLUTION_WRITE, 3),
        (THRESHOLD_WRITE, 65_535),
        (MAILBOX_READ, 1023),
        (MATCH_WRITE, 1023),
        (MATCH_READ, 1023),
        (SCHEDULE_WRITE, 511),
        (SCHEDULE_READ, 511),
        (MESSAGE_WRITE, 255),
        (MESSAGE_READ, 255),
        (SAMPLE, 1),
        (INITIATED_TEST, 1),
        (LATCH_CLEAR, 127),
        (ENABLE_WRITE, 127),
        (LEVEL_WRITE, 127),
    ] {
        bench.refused(4, op, 1, greatest + 1, 0);
        bench.refused(4, op, 1, u32::MAX, 0);
        bench.done(op, greatest, 0);
    }
    bench.refused(4, MATCH_WRITE, 1, 0, 2);
}

#[test]
fn row_5_mode() {
    let mut bench = Bench::new(1);
    bench.refused(5, TRIGGER, 1, 0, 0);
    bench.refused(5, ASYNC_WRITE, 1, 0, 0);
    bench.setting(TRANSMIT_MODE, 1);
    bench.refused(5, ASYNC_WRITE, 1, 0, 0);
    bench.setting(TRANSMIT_MODE, 2);
    bench.done(ASYNC_WRITE, 0, 0);
    bench.setting(RECEIVER, 1);
    bench.done(ARRIVAL, 1, 0);
    bench.done(ARRIVAL, 1, 0);
    bench.refused(5, SETTING_WRITE + SIZE as u32, 1, 1, 0);
    bench.setting(SIZE, 2);
}

#[test]
fn row_6_full() {
    let mut bench = Bench::new(1);
    for word in 0..255 {
        bench.done(FIFO_WRITE, word, 0);
    }
    bench.refused(6, FIFO_WRITE, 1, 255, 0);
    bench.setting(TRANSMIT_MODE, 2);
    bench.done(ASYNC_WRITE, 1, 0);
    bench.refused(6, ASYNC_WRITE, 1, 1, 0);
}

#[test]
fn row_7_empty() {
    let mut bench = Bench::new(1);
    bench.refused(7, FIFO_READ, 1, 0, 0);
    bench.setting(RECEIVER, 1);
    bench.done(ARRIVAL, 1, 0);
    bench.done(FIFO_READ, 0, 0);
    bench.refused(7, FIFO_READ, 1, 0, 0);
}

#[test]
fn the_first_that_applies_is_given() {
    let mut bench = Bench::new(1);
    bench.refused(3, SETTING_WRITE + SIZE as u32, 2, 0, 0);
    bench.overwrite(block(1) + RECEIVE_LEVEL, 3);
    bench.refused(4, SETTING_WRITE + SIZE as u32, 1, 0, 0);
    bench.overwrite(block(1) + ASYNC_MARK, 1);
    bench.refused(5, ASYNC_WRITE, 1, 0, 0);
}

#[test]
fn words_beyond_the_need_are_never_touched() {
    let mut bench = Bench::on(vec![0xDEAD_BEEF; need(2) + 3]);
    bench.done(POWER_UP, 1, 0);
    for op in ops() {
        bench.call(op, 1, 1, 1);
    }
    assert!(bench.mem[need(1)..].iter().all(|&word| word == 0xDEAD_BEEF));
}
