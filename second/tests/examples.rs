//! The description's examples, marked P1 to P11 and unmarked.

mod bench;
use bench::*;
use second::layout::*;
use second::model::{gap, in_error, label, with_odd_parity};

fn receiving() -> Bench {
    let mut bench = Bench::new(1);
    bench.setting(RECEIVER, 1);
    bench
}

/// Scheduled, transmitter on, running, parity off; the schedule begins with these commands.
fn scheduled(commands: &[u32]) -> Bench {
    let mut bench = Bench::new(1);
    bench.setting(TRANSMITTER, 1);
    bench.setting(TRANSMIT_MODE, 2);
    bench.setting(PARITY, 0);
    for (address, &command) in commands.iter().enumerate() {
        bench.done(SCHEDULE_WRITE, address as u32, command);
    }
    bench.done(TRIGGER, 0, 0);
    bench
}

#[test]
fn p1_word_0_is_in_error_and_sent_with_parity_is_0x80000000() {
    assert!(in_error(0));
    assert_eq!(with_odd_parity(0), 0x8000_0000);
    let mut bench = receiving();
    bench.done(ARRIVAL, 0, 0);
    assert_eq!(bench.done(FIFO_READ, 0, 0), [1, 0, 0]);
    bench.setting(TRANSMITTER, 1);
    bench.done(FIFO_WRITE, 0, 0);
    assert_eq!(bench.done(STEP, 0, 0), [1, 0x8000_0000, 4, 0]);
}

#[test]
fn p2_low_byte_0xa1_is_label_octal_205() {
    assert_eq!(label(0xA1), 0o205);
    assert_eq!(label(0xFFFF_FFA1), 0o205);
}

#[test]
fn p3_size_1_bounded() {
    let mut bench = receiving();
    bench.setting(SIZE, 1);
    assert_eq!(bench.done(ARRIVAL, 0xA, 0), [2]);
    assert_eq!(bench.done(ARRIVAL, 0xB, 0), [3]);
    assert_eq!(bench.counts()[..4], [1, 0, 0, 0]);
    assert_eq!(bench.done(FIFO_READ, 0, 0)[1], 0xA);
}

#[test]
fn p4_size_1_circular() {
    let mut bench = receiving();
    bench.setting(SIZE, 1);
    bench.setting(FIFO_KIND, 1);
    assert_eq!(bench.done(ARRIVAL, 0xA, 0), [2]);
    assert_eq!(bench.done(ARRIVAL, 0xB, 0), [4]);
    assert_eq!(bench.counts()[..4], [2, 0, 0, 1]);
    assert_eq!(bench.done(FIFO_READ, 0, 0)[1], 0xB);
}

#[test]
fn p5_threshold_5_three_failures() {
    let mut bench = Bench::new(1);
    for (counter, fault) in [(2, 0), (4, 0), (6, 64)] {
        bench.done(SAMPLE, 1, 0);
        assert_eq!(bench.mem[COUNTERS], counter);
        assert_eq!(bench.latch() & 64, fault);
    }
    bench.done(SAMPLE, 0, 0);
    assert_eq!(bench.mem[COUNTERS], 5);
    assert_eq!(bench.latch() & 64, 64, "latch stays");
    bench.done(LATCH_CLEAR, 64, 0);
    assert_eq!(bench.latch() & 64, 0, "no fault at 5");
}

#[test]
fn p6_p7_p8_gaps() {
    let mut bench = scheduled(&[0x2000, 0x2001, 0x2002, 0x2002, 0x3001]);
    for (address, value) in [(0, 39), (1, 40), (2, 3)] {
        bench.done(MESSAGE_WRITE, address, value);
    }
    bench.done(ASYNC_WRITE, 0x1234, 0);
    assert_eq!(bench.done(STEP, 0, 0), [3, 39, 0, 0]);
    assert_eq!(bench.done(ASYNC_READ, 0, 0), [1, 0x1234], "still waiting");
    assert_eq!(bench.done(STEP, 0, 0), [4, 4, 0x1234, 4]);
    assert_eq!(bench.done(ASYNC_READ, 0, 0), [0, 0]);
    assert_eq!(bench.done(STEP, 0, 0), [3, 4, 0, 0]);
    bench.done(ASYNC_WRITE, 0x1234, 0);
    bench.done(MESSAGE_WRITE, 2, 0xFFFF_FFFF);
    assert_eq!(bench.done(STEP, 0, 0), [4, 4, 0x1234, 1_048_575 - 36]);
    bench.done(ASYNC_WRITE, 0x1234, 0);
    assert_eq!(bench.done(STEP, 0, 0), [3, 40, 0, 0], "in a fixed gap async is never sent");
    assert_eq!([gap(0), gap(4), gap(1_048_576)], [4, 4, 1_048_575]);
}

#[test]
fn p9_stamp_rolls_over() {
    let mut bench = Bench::new(1);
    bench.done(STAMP_ADVANCE, 0xFFFF_FFFF, 0);
    bench.done(STAMP_ADVANCE, 2, 0);
    assert_eq!(bench.done(STAMP_READ, 0, 0), [1]);
}

#[test]
fn p10_receiver_and_match_on_with_an_empty_set_filters() {
    let mut bench = receiving();
    bench.setting(MATCH, 1);
    assert_eq!(bench.done(ARRIVAL, 0x123, 0), [1]);
    bench.done(MATCH_WRITE, 0x123, 1);
    assert_eq!(bench.done(ARRIVAL, 0x8000_0123, 0), [2]);
}

#[test]
fn p11_commands() {
    let mut bench = scheduled(&[0x1F05, 0x7000]);
    bench.done(MESSAGE_WRITE, 5, 0x55AA);
    assert_eq!(bench.done(STEP, 0, 0), [2, 0x55AA, 0, 0]);
    assert_eq!(bench.done(STEP, 0, 0), [5, 1, 0, 0]);
    assert_eq!(bench.mem[block(1) + STATE], 0);
    let mut bench = scheduled(&[0x6100]);
    assert_eq!(bench.done(STEP, 0, 0), [0; 4]);
    assert_eq!(bench.mem[block(1) + STATE..][..2], [1, 256], "0x6100 is a jump to 256");
}

#[test]
fn level_3_size_2_is_5() {
    let mut bench = receiving();
    for word in 0..3 {
        bench.done(ARRIVAL, word, 0);
    }
    bench.refused(5, SETTING_WRITE + SIZE as u32, 1, 2, 0);
    bench.setting(SIZE, 3);
}

#[test]
fn read_at_level_0_is_7() {
    Bench::new(1).refused(7, FIFO_READ, 1, 0, 0);
}

#[test]
fn fault_threshold_0_or_65536_is_4() {
    let mut bench = Bench::new(1);
    bench.refused(4, THRESHOLD_WRITE, 0, 0, 0);
    bench.refused(4, THRESHOLD_WRITE, 0, 65_536, 0);
    bench.done(THRESHOLD_WRITE, 1, 0);
    bench.done(THRESHOLD_WRITE, 65_535, 0);
    assert_eq!(bench.done(THRESHOLD_READ, 0, 0), [65_535]);
}

#[test]
fn fault_on_the_last_of_32768_failures_with_threshold_65535() {
    let mut mem = vec![0; need(1)];
    let mut perform = |op, a| second::words::perform(&mut mem, op, 1, a, 0);
    perform(POWER_UP, 1);
    perform(THRESHOLD_WRITE, 65_535);
    for _ in 0..32_767 {
        perform(SAMPLE, 1);
    }
    assert_eq!(perform(STATUS_READ, 0)[1] & 64, 0);
    perform(SAMPLE, 1);
    assert_eq!(perform(STATUS_READ, 0)[1] & 64, 64);
    perform(SAMPLE, 1);
    assert_eq!(mem[COUNTERS], 65_536, "the counter stops");

    // The model, from the state before the last failure.
    let mut bench = Bench::new(1);
    bench.done(THRESHOLD_WRITE, 65_535, 0);
    bench.overwrite(COUNTERS, 65_534);
    assert_eq!(bench.latch() & 64, 0);
    bench.done(SAMPLE, 1, 0);
    assert_eq!(bench.latch() & 64, 64);
}

// Further sentences of Receive, Transmit, Faults and status.

#[test]
fn mailbox_mode() {
    let mut bench = receiving();
    bench.setting(RECEIVE_MODE, 1);
    bench.setting(STAMPS, 1);
    bench.setting(SIZE, 1);
    bench.done(STAMP_ADVANCE, 77, 0);
    assert_eq!(bench.done(ARRIVAL, 0x0800_0805, 0), [2], "index appended");
    assert_eq!(bench.done(ARRIVAL, 0x1406, 0), [3], "index dropped");
    assert_eq!(bench.done(MAILBOX_READ, 5, 0), [3, 0x0800_0805, 77], "D0 parity error, D1 new");
    assert_eq!(bench.done(MAILBOX_READ, 5, 0), [1, 0x0800_0805, 77], "D1 is cleared");
    assert_eq!(bench.done(MAILBOX_READ, 6, 0), [1, 0x1406, 77], "the mailbox always takes the word");
    assert_eq!(bench.done(FIFO_READ, 0, 0), [0, 5, 0]);
    bench.setting(STAMPS, 0);
    bench.done(ARRIVAL, 7, 0);
    assert_eq!(bench.done(MAILBOX_READ, 7, 0), [2, 7, 0], "stamp 0 with stamps off");
}

#[test]
fn a_parity_error_is_signalled_only_for_a_word_that_entered() {
    let mut bench = receiving();
    bench.setting(SIZE, 1);
    bench.done(ARRIVAL, 1, 0);
    assert_eq!(bench.done(ARRIVAL, 3, 0), [3]);
    assert_eq!(bench.latch() & 16, 0);
    bench.setting(RECEIVE_MODE, 1);
    bench.done(ARRIVAL, 1, 0);
    assert_eq!(bench.done(ARRIVAL, 3, 0), [3]);
    assert_eq!(bench.latch() & 16, 16, "the mailbox took the word");
}

#[test]
fn with_parity_off_the_word_passes_and_no_error_is_marked() {
    let mut bench = receiving();
    bench.setting(PARITY, 0);
    bench.done(ARRIVAL, 0, 0);
    assert_eq!(bench.done(FIFO_READ, 0, 0), [0, 0, 0]);
    assert_eq!(bench.latch() & 16, 0);
}

#[test]
fn a_change_of_receive_mode_clears_and_the_same_mode_does_not() {
    let mut bench = receiving();
    bench.done(ARRIVAL, 1, 0);
    bench.setting(RECEIVE_MODE, 0);
    assert_eq!(bench.done(RECEIVE_LEVEL_READ, 0, 0), [1]);
    bench.setting(RECEIVE_MODE, 1);
    assert_eq!(bench.done(RECEIVE_LEVEL_READ, 0, 0), [0]);
    assert_eq!(bench.counts()[..4], [1, 0, 1, 0]);
}

#[test]
fn transmitter_off_and_change_of_mode_drop_the_async_word_and_keep_the_fifo() {
    for (setting, value) in [(TRANSMITTER, 0), (TRANSMIT_MODE, 0)] {
        let mut bench = scheduled(&[0x5000, 0x5000]);
        bench.done(FIFO_WRITE, 9, 0);
        bench.done(ASYNC_WRITE, 7, 0);
        bench.done(STEP, 0, 0);
        bench.setting(TRANSMIT_MODE, 2);
        assert_eq!(bench.done(ASYNC_READ, 0, 0), [1, 7], "the mode already held changes nothing");
        assert_eq!(bench.mem[block(1) + COMMAND], 1);
        bench.setting(setting, value);
        assert_eq!(bench.done(ASYNC_READ, 0, 0), [0, 0]);
        assert_eq!(bench.mem[block(1) + STATE..][..3], [0, 0, 0]);
        assert_eq!(bench.mem[block(1) + ASYNC_WORD], 7, "the word stays as it was");
        assert_eq!(bench.done(TRANSMIT_LEVEL_READ, 0, 0), [1]);
    }
}

#[test]
fn triggered_mode_becomes_idle_when_empty() {
    let mut bench = Bench::new(1);
    bench.setting(TRANSMITTER, 1);
    bench.setting(TRANSMIT_MODE, 1);
    bench.done(FIFO_WRITE, 1, 0);
    assert_eq!(bench.done(STEP, 0, 0), [0; 4], "idle");
    bench.done(PAUSE, 0, 0);
    assert_eq!(bench.mem[block(1) + STATE], 0, "an idle transmitter pauses in immediate mode only");
    bench.done(TRIGGER, 0, 0);
    bench.done(PAUSE, 0, 0);
    assert_eq!(bench.done(STEP, 0, 0), [0; 4], "paused");
    bench.done(TRIGGER, 0, 0);
    assert_eq!(bench.done(STEP, 0, 0), [1, 1, 4, 0]);
    assert_eq!(bench.mem[block(1) + STATE], 1);
    assert_eq!(bench.done(STEP, 0, 0), [0; 4]);
    assert_eq!(bench.mem[block(1) + STATE], 0);
}

#[test]
fn immediate_mode_sends_unless_paused() {
    let mut bench = Bench::new(1);
    bench.done(FIFO_WRITE, 1, 0);
    assert_eq!(bench.done(STEP, 0, 0), [0; 4], "transmitter off");
    bench.done(PAUSE, 0, 0);
    bench.setting(TRANSMITTER, 1);
    assert_eq!(bench.done(STEP, 0, 0), [0; 4], "paused");
    bench.done(STOP, 0, 0);
    assert_eq!(bench.done(STEP, 0, 0), [1, 1, 4, 0]);
    assert_eq!(bench.done(STEP, 0, 0), [0; 4], "empty");
    assert_eq!(bench.counts()[4..], [1, 1, 0]);
}

#[test]
fn schedule_pause_interrupt_jump_and_stop() {
    let mut bench = scheduled(&[0x4000, 0x5000, 0x61FF]);
    bench.done(SCHEDULE_WRITE, 511, 0x4000);
    assert_eq!(bench.done(STEP, 0, 0), [0; 4]);
    assert_eq!(bench.mem[block(1) + STATE..][..2], [2, 1]);
    assert_eq!(bench.done(STEP, 0, 0), [0; 4]);
    assert_eq!(bench.latch() & 32, 0);
    bench.done(TRIGGER, 0, 0);
    bench.done(STEP, 0, 0);
    assert_eq!(bench.latch() & 32, 32);
    bench.done(STEP, 0, 0);
    assert_eq!(bench.mem[block(1) + STATE..][..2], [1, 511]);
    bench.done(STEP, 0, 0);
    assert_eq!(bench.mem[block(1) + STATE..][..2], [0, 0], "a pause at 511 too");
    bench.done(SCHEDULE_WRITE, 511, 0x6003);
    bench.done(SCHEDULE_WRITE, 0, 0x61FF);
    bench.done(TRIGGER, 0, 0);
    bench.done(STEP, 0, 0);
    bench.done(STEP, 0, 0);
    assert_eq!(bench.mem[block(1) + STATE..][..2], [1, 3], "only a jump there goes to its target");
    bench.done(ASYNC_WRITE, 8, 0);
    assert_eq!(bench.done(STEP, 0, 0), [0; 4], "stop");
    assert_eq!(bench.mem[block(1) + STATE..][..2], [0, 0]);
    assert_eq!(bench.done(ASYNC_READ, 0, 0), [1, 8], "a stop keeps the async word");
}

#[test]
fn every_reserved_code_names_its_own_address() {
    for code in 7..16 {
        let mut bench = scheduled(&[0x6009]);
        bench.done(SCHEDULE_WRITE, 9, 0xABCD_0123 & 0xFFFF_0FFF | code << 12);
        bench.done(STEP, 0, 0);
        assert_eq!(bench.done(STEP, 0, 0), [5, 9, 0, 0]);
        assert_eq!(bench.mem[block(1) + STATE..][..2], [0, 0]);
    }
}

#[test]
fn level_latches_hold_and_masks_enable() {
    let mut bench = Bench::new(1);
    bench.done(LEVEL_WRITE, 8, 0);
    assert_eq!(bench.latch(), 8, "transmit empty, by level; almost empty by edge does not begin");
    assert_eq!(bench.done(PENDING_READ, 0, 0), [0]);
    bench.done(ENABLE_WRITE, 8, 0);
    assert_eq!(bench.done(PENDING_READ, 0, 0), [1]);
    bench.done(LATCH_CLEAR, 127, 0);
    assert_eq!(bench.latch(), 8, "the rule runs after the clear");
    bench.done(FIFO_WRITE, 1, 0);
    bench.done(LATCH_CLEAR, 127, 0);
    assert_eq!(bench.latch(), 0);
}

#[test]
fn module_wide_writes_apply_the_rule_to_every_channel() {
    let mut bench = Bench::new(3);
    for channel in 1..=3 {
        bench.call(LEVEL_WRITE, channel, 0, 0);
        bench.call(SAMPLE, channel, 1, 0);
        bench.call(SAMPLE, channel, 1, 0);
    }
    bench.done(THRESHOLD_WRITE, 3, 0);
    for channel in 1..=3 {
        assert_eq!(bench.mem[block(channel) + LATCH] & 64, 64);
    }
}

#[test]
fn initiated_test_clears_both_fifos_and_keeps_the_async_word() {
    let mut bench = scheduled(&[0x5000]);
    bench.setting(RECEIVER, 1);
    bench.done(ARRIVAL, 1, 0);
    bench.done(ARRIVAL, 2, 0);
    bench.done(FIFO_WRITE, 3, 0);
    bench.done(ASYNC_WRITE, 7, 0);
    bench.done(STEP, 0, 0);
    bench.done(INITIATED_TEST, 0, 0);
    assert_eq!(bench.latch() & 64, 0);
    assert_eq!(bench.counts(), [2, 0, 2, 0, 1, 0, 1]);
    assert_eq!(bench.mem[block(1) + STATE..][..3], [0, 0, 1]);
    bench.done(INITIATED_TEST, 1, 0);
    assert_eq!(bench.latch() & 64, 64);
    assert_eq!(bench.mem[COUNTERS], 0);
}

#[test]
fn module_reset_keeps_what_the_description_keeps() {
    let mut bench = scheduled(&[0x5000, 0x4001]);
    bench.setting(RECEIVER, 1);
    bench.setting(RECEIVE_MODE, 1);
    bench.setting(SIZE, 3);
    bench.done(MATCH_WRITE, 1023, 1);
    bench.done(MESSAGE_WRITE, 3, 33);
    bench.done(ARRIVAL, 5, 0);
    bench.done(FIFO_WRITE, 3, 0);
    bench.done(ASYNC_WRITE, 7, 0);
    bench.done(STEP, 0, 0);
    bench.done(SAMPLE, 1, 0);
    bench.done(STAMP_ADVANCE, 9, 0);
    bench.done(RESOLUTION_WRITE, 3, 0);
    bench.done(THRESHOLD_WRITE, 9, 0);
    bench.done(ENABLE_WRITE, 127, 0);
    bench.done(LEVEL_WRITE, 127, 0);
    bench.done(MODULE_RESET, 0, 0);
    assert_eq!(bench.mem[..MODULE_WORDS], [1, 0, 0, 5, 0, 0, 0, 0, 0, 0, 0, 0, 0, 0, 0, 0, 2]);
    assert_eq!(
        bench.mem[block(1)..][..24],
        [0, 0, 1, 0, 0, 0, 0, 0, 255, 128, 32, 4, 0, 0, 0, 0, 0, 0, 0, 0, 0, 0, 0, 7]
    );
    assert_eq!(bench.counts(), [1, 0, 1, 0, 1, 0, 1]);
    assert_eq!(bench.done(MATCH_READ, 1023, 0), [1]);
    assert_eq!(bench.done(MESSAGE_READ, 3, 0), [33]);
    assert_eq!(bench.done(SCHEDULE_READ, 1, 0), [0x4001]);
    assert_eq!(bench.done(MAILBOX_READ, 5, 0), [0, 5, 0], "parity was off, and its index was cleared from the list");
    // Power-up zeroes those too.
    bench.done(POWER_UP, 1, 0);
    assert_eq!(bench.counts(), [0; 7]);
    assert_eq!(bench.done(MATCH_READ, 1023, 0), [0]);
    assert_eq!(bench.mem[block(1) + 24..].iter().filter(|&&word| word != 0).count(), 0);
}
