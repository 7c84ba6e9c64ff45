//! Words that no answer shows: positions, slots behind the level, a sent or dropped async word.

mod bench;
use bench::*;
use second::layout::*;

const RX: usize = MODULE_WORDS + RECEIVE_LEVEL;

#[test]
fn taking_and_overwriting_move_the_position_and_clearing_leaves_it() {
    let mut bench = Bench::new(1);
    bench.setting(RECEIVER, 1);
    bench.setting(FIFO_KIND, 1);
    bench.setting(SIZE, 2);
    for word in [1, 2, 4] {
        bench.done(ARRIVAL, word, 0);
    }
    assert_eq!(bench.mem[RX..RX + 2], [2, 1], "level and position");
    bench.done(FIFO_READ, 0, 0);
    assert_eq!(bench.mem[RX..RX + 2], [1, 2]);
    bench.done(INITIATED_TEST, 0, 0);
    assert_eq!(bench.mem[RX..RX + 2], [0, 2]);
    let ring = MODULE_WORDS + RECEIVE_RING;
    assert_eq!(bench.mem[ring..ring + 9], [0, 1, 0, 0, 2, 0, 0, 4, 0], "slots stay");
    bench.done(ARRIVAL, 8, 0);
    assert_eq!(bench.mem[ring + 6..ring + 9], [0, 8, 0]);
}

#[test]
fn the_rings_have_255_slots_whatever_the_size() {
    let mut bench = Bench::new(1);
    bench.setting(RECEIVER, 1);
    bench.setting(SIZE, 1);
    bench.setting(FIFO_KIND, 1);
    for _ in 0..255 {
        bench.done(ARRIVAL, 1, 0);
    }
    assert_eq!(bench.mem[RX..RX + 2], [1, 254]);
    bench.done(ARRIVAL, 2, 0);
    assert_eq!(bench.mem[RX..RX + 2], [1, 0]);
    assert_eq!(bench.mem[MODULE_WORDS + RECEIVE_RING + 1], 2);
}

#[test]
fn a_full_ring_of_255_overwrites_in_place() {
    let mut bench = Bench::new(1);
    bench.setting(RECEIVER, 1);
    bench.setting(FIFO_KIND, 1);
    for word in 0..256 {
        bench.done(ARRIVAL, word, 0);
    }
    assert_eq!(bench.mem[RX..RX + 2], [255, 1]);
    assert_eq!(bench.mem[MODULE_WORDS + RECEIVE_RING + 1], 255);
    assert_eq!(bench.done(FIFO_READ, 0, 0)[1], 1);
}

#[test]
fn a_sent_async_word_stays_as_it_was() {
    let mut bench = Bench::new(1);
    bench.setting(TRANSMITTER, 1);
    bench.setting(TRANSMIT_MODE, 2);
    bench.done(SCHEDULE_WRITE, 0, 0x2000);
    bench.done(MESSAGE_WRITE, 0, 40);
    bench.done(ASYNC_WRITE, 3, 0);
    bench.done(TRIGGER, 0, 0);
    assert_eq!(bench.done(STEP, 0, 0), [4, 4, 0x8000_0003, 4]);
    assert_eq!(bench.mem[MODULE_WORDS + ASYNC_WORD], 3, "without the parity it was sent with");
    assert_eq!(bench.mem[MODULE_WORDS + ASYNC_MARK], 0);
}

#[test]
fn a_triggered_step_that_finds_it_empty_sets_the_state_alone() {
    let mut bench = Bench::new(1);
    bench.setting(TRANSMITTER, 1);
    bench.setting(TRANSMIT_MODE, 1);
    bench.done(TRIGGER, 0, 0);
    bench.overwrite(block(1) + COMMAND, 9);
    bench.done(STEP, 0, 0);
    assert_eq!(bench.mem[block(1) + STATE..][..2], [0, 9]);
}

#[test]
fn power_up_writes_every_needed_word() {
    let mut bench = Bench::on(vec![u32::MAX; need(3)]);
    bench.done(POWER_UP, 3, 0);
    assert_eq!(bench.mem, Bench::new(3).mem);
    assert_eq!(bench.mem.iter().filter(|&&word| word != 0).count(), 3 + 3 * 5);
}
