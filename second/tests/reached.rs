//! The random lists reach each rule of the description often: counted over the lists that `compare` runs.
//! `cargo test --release --test reached -- --nocapture` prints the counts.

mod reach;
use reach::*;
use second::layout::*;
use second::lists::NINTH_BIT;

/// Rules that the calls of a list reach, with nothing changed by others.
const RULES: &[Rule] = &[
    // Refusals.
    ("a size below the level: 5", |s| s.refused(40, 5)),
    ("a size at the level", |s| s.done(40) && s.item.a == s.before.ch[RECEIVE_LEVEL]),
    ("size 0 with entries held: 4 before 5", |s| s.refused(40, 4) && s.item.a < s.before.ch[RECEIVE_LEVEL]),
    ("async outside scheduled mode: 5", |s| s.refused(134, 5)),
    ("trigger with the transmitter off: 5", |s| s.refused(135, 5)),
    ("transmit FIFO full: 6", |s| s.refused(133, 6)),
    ("the 255th word", |s| s.done(133) && s.is(TRANSMIT_LEVEL, 254)),
    ("async while one waits: 6", |s| s.refused(134, 6)),
    ("receive FIFO empty: 7", |s| s.refused(129, 7)),
    // Settings.
    ("receive mode changed, entries held", |s| {
        s.writes(RECEIVE_MODE) && !s.same(RECEIVE_MODE) && !s.is(RECEIVE_LEVEL, 0)
    }),
    ("receive mode kept, entries held", |s| s.writes(RECEIVE_MODE) && s.same(RECEIVE_MODE) && !s.is(RECEIVE_LEVEL, 0)),
    ("transmit mode changed, async waits", |s| s.writes(TRANSMIT_MODE) && !s.same(TRANSMIT_MODE) && s.waits()),
    ("transmit mode changed, not idle", |s| s.writes(TRANSMIT_MODE) && !s.same(TRANSMIT_MODE) && !s.is(STATE, 0)),
    ("transmit mode kept, async waits", |s| s.writes(TRANSMIT_MODE) && s.same(TRANSMIT_MODE) && s.waits()),
    ("transmit mode kept, not idle", |s| s.writes(TRANSMIT_MODE) && s.same(TRANSMIT_MODE) && !s.is(STATE, 0)),
    ("transmitter off, async waits", |s| s.writes(TRANSMITTER) && s.item.a == 0 && s.waits()),
    ("transmitter off when off, async waits", |s| {
        s.writes(TRANSMITTER) && s.item.a == 0 && s.same(TRANSMITTER) && s.waits()
    }),
    ("transmitter off, not idle", |s| s.writes(TRANSMITTER) && s.item.a == 0 && !s.is(STATE, 0)),
    // Receive.
    ("FIFO mode: ignored", |s| s.arrival(0, 0)),
    ("FIFO mode: filtered", |s| s.arrival(0, 1)),
    ("FIFO mode: appended", |s| s.arrival(0, 2)),
    ("FIFO mode: dropped", |s| s.arrival(0, 3)),
    ("FIFO mode: overwriting", |s| s.arrival(0, 4)),
    ("FIFO mode: a parity error dropped", |s| s.arrival(0, 3) && s.in_error()),
    ("mailbox mode: ignored", |s| s.arrival(1, 0)),
    ("mailbox mode: filtered", |s| s.arrival(1, 1)),
    ("mailbox mode: appended", |s| s.arrival(1, 2)),
    ("mailbox mode: dropped", |s| s.arrival(1, 3)),
    ("mailbox mode: overwriting", |s| s.arrival(1, 4)),
    ("mailbox mode: a parity error, its index dropped", |s| s.arrival(1, 3) && s.in_error()),
    ("dropped at size 255", |s| s.done(128) && s.answer[1] == 3 && s.is(SIZE, 255)),
    ("overwriting at size 255", |s| s.done(128) && s.answer[1] == 4 && s.is(SIZE, 255)),
    ("overwriting at size 1", |s| s.done(128) && s.answer[1] == 4 && s.is(SIZE, 1)),
    ("an entry with a parity error read", |s| s.done(129) && s.answer[1] == 1),
    ("an entry with a stamp read", |s| s.done(129) && s.answer[3] > 0),
    ("a new mailbox without error read", |s| s.done(130) && s.answer[1] == 2),
    ("a new mailbox with an error read", |s| s.done(130) && s.answer[1] == 3),
    ("a mailbox with an error read again", |s| s.done(130) && s.answer[1] == 1),
    ("a mailbox with a stamp read", |s| s.done(130) && s.answer[3] > 0),
    ("a new mailbox read in FIFO mode", |s| s.done(130) && s.answer[1] > 1 && s.is(RECEIVE_MODE, 0)),
    ("the stamp rolls over", |s| s.done(3) && s.before.part[STAMP].checked_add(s.item.a).is_none()),
    // Transmit.
    ("trigger when paused", |s| s.done(135) && s.is(STATE, 2)),
    ("trigger when running", |s| s.done(135) && s.is(STATE, 1)),
    ("pause when running", |s| s.done(136) && s.is(STATE, 1)),
    ("pause when idle, immediate", |s| s.from(136, 0, 0)),
    ("pause when idle, triggered", |s| s.from(136, 1, 0)),
    ("pause when idle, scheduled", |s| s.from(136, 2, 0)),
    ("pause when paused", |s| s.done(136) && s.is(STATE, 2)),
    ("stop when paused", |s| s.done(137) && s.is(STATE, 2)),
    ("stop when running, async waits", |s| s.done(137) && s.is(STATE, 1) && s.waits()),
    ("step with the transmitter off", |s| s.done(138) && s.is(TRANSMITTER, 0)),
    ("immediate step when paused", |s| s.step(0, 2)),
    ("immediate step that sends", |s| (s.step(0, 0) || s.step(0, 1)) && s.form(1)),
    ("immediate step that finds the FIFO empty", |s| (s.step(0, 0) || s.step(0, 1)) && s.form(0)),
    ("triggered step that sends", |s| s.step(1, 1) && s.form(1)),
    ("triggered step that finds the FIFO empty", |s| s.step(1, 1) && s.form(0)),
    ("triggered step when idle, words held", |s| s.step(1, 0) && !s.is(TRANSMIT_LEVEL, 0)),
    ("triggered step when paused", |s| s.step(1, 2)),
    ("scheduled step when paused", |s| s.step(2, 2)),
    // The schedule.
    ("command: stop", |s| s.runs(0)),
    ("command: message", |s| s.runs(1)),
    ("command: pause", |s| s.runs(4)),
    ("command: interrupt", |s| s.runs(5)),
    ("command: jump below 256", |s| s.runs(6) && s.target() < NINTH_BIT),
    ("command: jump to 256", |s| s.runs(6) && s.target() == NINTH_BIT && s.goes_to(1, NINTH_BIT)),
    ("command: jump to 257 to 510", |s| s.runs(6) && (NINTH_BIT + 1..LAST_COMMAND).contains(&s.target())),
    ("command: jump to 511", |s| s.runs(6) && s.target() == LAST_COMMAND && s.goes_to(1, LAST_COMMAND)),
    ("command: jump with bits 11 to 9 set", |s| s.runs(6) && s.before.command & 0xE00 != 0),
    ("command: reserved code", |s| s.runs_reserved()),
    ("from command 255 to 256", |s| s.step(2, 1) && s.before_ninth_bit() && !s.runs(6) && s.goes_to(1, NINTH_BIT)),
    ("pause at command 255, waiting at 256", |s| s.runs(4) && s.before_ninth_bit() && s.goes_to(2, NINTH_BIT)),
    ("a command of 256 to 510", |s| s.step(2, 1) && (NINTH_BIT..LAST_COMMAND).contains(&s.before.ch[COMMAND])),
    ("a word, gap or interrupt past command 511", |s| {
        (s.runs(1) || s.runs(2) || s.runs(3) || s.runs(5)) && s.last() && s.goes_to(0, 0)
    }),
    ("stop at command 511", |s| s.runs(0) && s.last()),
    ("message at command 511", |s| s.runs(1) && s.last()),
    ("gap at command 511", |s| s.runs(2) && s.last()),
    ("fixed gap at command 511", |s| s.runs(3) && s.last()),
    ("pause at command 511", |s| s.runs(4) && s.last() && s.goes_to(0, 0)),
    ("interrupt at command 511", |s| s.runs(5) && s.last()),
    ("jump below 256 at command 511", |s| s.runs(6) && s.target() < NINTH_BIT && s.last()),
    ("jump to 256 or above at command 511", |s| s.runs(6) && s.target() >= NINTH_BIT && s.last()),
    ("reserved code at command 511", |s| s.runs_reserved() && s.last()),
    ("gap below 4", |s| s.gap(2, 0, 3) || s.gap(3, 0, 3)),
    ("gap above 1,048,575", |s| s.gap(2, 1_048_576, u32::MAX) || s.gap(3, 1_048_576, u32::MAX)),
    ("gap of 36 to 39, async waits", |s| s.gap(2, 36, 39) && s.waits()),
    ("gap of 40, async waits", |s| s.gap(2, 40, 40) && s.waits()),
    ("gap of 41 to 44, async waits", |s| s.gap(2, 41, 44) && s.waits()),
    ("gap above 1,048,575, async waits", |s| s.gap(2, 1_048_576, u32::MAX) && s.waits()),
    ("gap of 40 or more, none waits", |s| s.gap(2, 40, u32::MAX) && !s.waits()),
    ("fixed gap of 40 or more, async waits", |s| s.gap(3, 40, u32::MAX) && s.waits()),
    ("form 4, D31 changed by the parity", |s| s.form(4) && s.before.ch[ASYNC_WORD] != s.answer[3]),
    ("form 4, the word as it is", |s| s.form(4) && s.before.ch[ASYNC_WORD] == s.answer[3]),
    // Faults.
    ("failing sample that surpasses the threshold", |s| {
        s.sample(1) && s.counter() <= s.threshold() && s.counter() + 2 > s.threshold()
    }),
    ("failing sample that reaches the threshold", |s| s.sample(1) && s.counter() + 2 == s.threshold()),
    ("good sample that ends the fault", |s| s.sample(0) && s.counter() == s.threshold() + 1),
    ("good sample at 0", |s| s.sample(0) && s.counter() == 0),
    ("test reset that ends a fault", |s| s.done(144) && s.counter() > s.threshold()),
    ("threshold that lets a fault begin", |s| s.done(8) && s.above(s.item.a) > s.above(s.threshold())),
    ("threshold that ends a fault", |s| s.done(8) && s.above(s.item.a) < s.above(s.threshold())),
    // Status.
    ("pending", |s| s.done(152) && s.answer[1] == 1),
    ("not pending though a bit is latched", |s| s.done(152) && s.answer[1] == 0 && !s.is(LATCH, 0)),
    ("almost full threshold that lets condition 0 begin", |s| s.writes(ALMOST_FULL) && s.begins(0)),
    ("size that lets condition 1 begin", |s| s.writes(SIZE) && s.begins(1)),
    ("almost empty threshold that lets condition 2 begin", |s| s.writes(ALMOST_EMPTY) && s.begins(2)),
    // Test and reset.
    ("initiated test, async waits", |s| s.done(145) && s.waits()),
    ("initiated test, not idle", |s| s.done(145) && !s.is(STATE, 0)),
    ("initiated test, entries held", |s| s.done(145) && !s.is(RECEIVE_LEVEL, 0)),
    ("initiated test, words held", |s| s.done(145) && !s.is(TRANSMIT_LEVEL, 0)),
    ("initiated test that latches bit 6", |s| s.done(145) && s.item.a == 1 && s.before.ch[LATCH] < 64),
    ("module reset", |s| s.done(2)),
];

/// Rules that only memory changed by others reaches: a list would need tens of thousands of calls, or cannot reach them.
const BY_OTHERS: &[Rule] = &[
    ("async outside scheduled mode while one waits: 5 before 6", |s| s.refused(134, 5) && s.waits()),
    ("an argument beside its range, unsound: 2 before 4", |s| s.beside() && s.number() == 2),
    ("level above size: 2", |s| {
        s.number() == 2
            && s.part_is_sound()
            && s.before.ch[RECEIVE_LEVEL] > s.before.ch[SIZE]
            && s.before.ch[RECEIVE_LEVEL] < 256
    }),
    ("resolution outside its range: 2", |s| s.number() == 2 && s.before.part[RESOLUTION] > 3),
    ("threshold outside its range: 2", |s| s.number() == 2 && s.threshold().wrapping_sub(1) > 65_534),
    ("a counter outside its range: 2", |s| s.number() == 2 && s.above(65_536) > 0),
    ("layout number 0: 2", |s| s.number() == 2 && s.only_layout(0)),
    ("layout number one below: 2", |s| s.number() == 2 && s.only_layout(LAYOUT_NUMBER - 1)),
    ("layout number one above: 2", |s| s.number() == 2 && s.only_layout(LAYOUT_NUMBER + 1)),
    ("another layout number, module-wide call: 2", |s| s.number() == 2 && s.item.op < 32 && s.only_layout_is_wrong()),
    ("another layout number, call on a channel: 2", |s| s.number() == 2 && s.item.op >= 32 && s.only_layout_is_wrong()),
    ("power-up over another layout number", |s| s.done(1) && s.before.part[LAYOUT] != LAYOUT_NUMBER),
    ("failing sample at 65,536", |s| s.sample(1) && s.counter() == 65_536),
    ("failing sample at 65,535", |s| s.sample(1) && s.counter() == 65_535),
    ("failing sample at 65,534", |s| s.sample(1) && s.counter() == 65_534),
    ("good sample at 65,536", |s| s.sample(0) && s.counter() == 65_536),
    ("fault with threshold 65,535 begins", |s| s.sample(1) && s.threshold() == 65_535 && s.begins(6)),
    ("a mailbox with a stored status above 3 read", |s| s.done(130) && s.before.mailbox > 3),
    ("the ring's last slot read", |s| s.done(129) && s.is(RECEIVE_POSITION, 254)),
    ("the ring's last slot overwritten", |s| s.done(128) && s.answer[1] == 4 && s.is(RECEIVE_POSITION, 254)),
    ("the ring's last slot sent", |s| s.form(1) && s.is(TRANSMIT_POSITION, 254)),
];

/// Addresses on both sides of the ninth bit, and at the RAM's end.
const EDGE_COMMANDS: [u32; 4] = [0, NINTH_BIT - 1, NINTH_BIT, LAST_COMMAND];
const EDGE_MESSAGES: [u32; 2] = [0, MESSAGES as u32 - 1];

const NUMBERED: &[NumberedRule] = &[
    ("setting, a value one beside its range: 4", &[0, 1, 2, 3, 4, 5, 6, 7, 8, 9, 10, 11], |s, setting| {
        s.refused(32 + setting, 4) && s.beside()
    }),
    (
        "op, an argument one beside its range: 4",
        &[130, 131, 132, 139, 140, 141, 142, 143, 145, 147, 148, 150],
        |s, op| s.refused(op, 4) && s.beside(),
    ),
    ("schedule RAM written at", &EDGE_COMMANDS, |s, address| s.done(139) && s.item.a == address),
    ("schedule RAM read at", &EDGE_COMMANDS, |s, address| s.done(140) && s.item.a == address),
    ("message RAM written at", &EDGE_MESSAGES, |s, address| s.done(141) && s.item.a == address),
    ("message RAM read at", &EDGE_MESSAGES, |s, address| s.done(142) && s.item.a == address),
    ("latch bit set by edge", &[0, 1, 2, 3, 4, 5, 6], |s, bit| s.latches(bit) && !s.by_level(bit)),
    ("latch bit set by level as the condition begins", &[0, 1, 2, 3, 4, 5, 6], |s, bit| {
        s.latches(bit) && s.by_level(bit) && !s.stays(bit)
    }),
    ("latch bit set by level as the condition stays", &[0, 1, 2, 3, 6], |s, bit| {
        s.latches(bit) && s.by_level(bit) && s.stays(bit)
    }),
    ("op, an address of the schedule RAM and not of the message RAM: 4", &[141, 142], |s, op| {
        s.refused(op, 4) && (MESSAGES..COMMANDS).contains(&(s.item.a as usize))
    }),
    ("latch bit cleared while the condition stays, edge", &[0, 1, 2, 3, 6], |s, bit| {
        s.done(147) && s.before.ch[LATCH] & !s.after.ch[LATCH] & 1 << bit != 0 && s.stays(bit)
    }),
];

const FATE_COUNTS: [u32; 7] = [
    RECEIVE_ACCEPTED as u32,
    RECEIVE_READ as u32,
    RECEIVE_CLEARED as u32,
    RECEIVE_OVERWRITTEN as u32,
    TRANSMIT_ACCEPTED as u32,
    TRANSMIT_SENT as u32,
    TRANSMIT_CLEARED as u32,
];

const NUMBERED_BY_OTHERS: &[NumberedRule] = &[
    (
        "word of the block outside its range: 2",
        &[0, 1, 2, 3, 4, 5, 6, 7, 8, 9, 10, 11, 12, 13, 14, 15, 16, 17, 18, 19, 20, 21, 22],
        |s, word| s.number() == 2 && s.outside(word as usize),
    ),
    ("fate count that rolls over, word", &FATE_COUNTS, |s, word| {
        s.on_channel() && s.after.ch[word as usize] < s.before.ch[word as usize]
    }),
];

#[test]
fn the_lists_reach_every_rule_as_compare_runs_them() {
    let tables =
        [rows(RULES, 80), rows(BY_OTHERS, 30), numbered_rows(NUMBERED, 20), numbered_rows(NUMBERED_BY_OTHERS, 20)];
    check(true, tables.into_iter().flatten().collect());
}

#[test]
fn the_calls_alone_reach_every_rule_as_replay_runs_them() {
    let tables = [rows(RULES, 80), numbered_rows(NUMBERED, 20)];
    check(false, tables.into_iter().flatten().collect());
}
