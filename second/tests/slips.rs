//! Slips seen at the bench: none of them is made here.

mod bench;
use bench::*;
use second::layout::*;

#[test]
fn the_counter_is_not_capped_at_65535() {
    let mut bench = Bench::new(1);
    bench.done(THRESHOLD_WRITE, 65_535, 0);
    bench.overwrite(COUNTERS, 65_535);
    bench.done(SAMPLE, 1, 0);
    assert_eq!(bench.mem[COUNTERS], 65_536);
    assert_eq!(bench.latch() & 64, 64);
}

#[test]
fn mailboxes_are_not_indexed_by_the_octal_label() {
    let mut bench = Bench::new(1);
    bench.setting(RECEIVER, 1);
    bench.setting(RECEIVE_MODE, 1);
    bench.done(ARRIVAL, 0x3A1, 0);
    assert_eq!(bench.done(MAILBOX_READ, 0x3A1, 0)[1], 0x3A1);
    assert_eq!(bench.done(MAILBOX_READ, 0o205, 0), [0, 0, 0]);
    assert_eq!(bench.done(FIFO_READ, 0, 0), [0, 0x3A1, 0]);
}

#[test]
fn fate_counts_are_not_zeroed_on_module_reset() {
    let mut bench = Bench::new(1);
    bench.done(FIFO_WRITE, 1, 0);
    bench.done(MODULE_RESET, 0, 0);
    assert_eq!(bench.counts()[4..], [1, 0, 1]);
}

#[test]
fn words_with_bad_parity_are_not_discarded() {
    let mut bench = Bench::new(1);
    bench.setting(RECEIVER, 1);
    assert_eq!(bench.done(ARRIVAL, 3, 0), [2]);
    assert_eq!(bench.done(FIFO_READ, 0, 0), [1, 3, 0]);
}

#[test]
fn counter_at_the_threshold_is_no_fault() {
    let mut bench = Bench::new(1);
    bench.done(THRESHOLD_WRITE, 4, 0);
    bench.done(LEVEL_WRITE, 64, 0);
    bench.done(SAMPLE, 1, 0);
    bench.done(SAMPLE, 1, 0);
    assert_eq!(bench.mem[COUNTERS], 4);
    assert_eq!(bench.latch(), 0);
    bench.done(SAMPLE, 1, 0);
    assert_eq!(bench.latch(), 64);
}

#[test]
fn an_edge_latch_is_not_set_again_while_the_condition_merely_holds() {
    let mut bench = Bench::new(1);
    bench.setting(RECEIVER, 1);
    bench.setting(ALMOST_FULL, 1);
    bench.done(ARRIVAL, 1, 0);
    assert_eq!(bench.latch() & 1, 1);
    bench.done(LATCH_CLEAR, 1, 0);
    assert_eq!(bench.latch() & 1, 0);
    bench.done(ARRIVAL, 1, 0);
    assert_eq!(bench.latch() & 1, 0);
}
