//! The kinds of calls that are timed: what sets them up, what comes before each timed round, and the calls of a round.

use second::calls::Item;
use second::ops::*;

/// Calls of a timed round, at most a FIFO's 255 on one channel.
pub const CALLS: u32 = 240;

pub struct Kind {
    pub name: &'static str,
    /// Calls once after power-up.
    pub set_up: Vec<Item>,
    /// Calls before each round, not timed.
    pub before: Vec<Item>,
    /// The timed calls.
    pub timed: Vec<Item>,
    /// Words lent to the timed calls fewer than the module needs.
    pub short_by: usize,
}

fn item(op: u32, channel: u32, a: u32, b: u32) -> Item {
    Item { op, channel, a, b }
}

/// An ARINC 429 word with a label that changes from call to call.
fn word(k: u32) -> u32 {
    k.wrapping_mul(0x9E37_79B9) ^ 0x6000_0000
}

/// One call on every channel.
fn each(channels: u32, op: u32, a: u32, b: u32) -> Vec<Item> {
    (1..=channels).map(|channel| item(op, channel, a, b)).collect()
}

/// A round of one op on the channels in turn.
fn round(channels: u32, op: u32, a: impl Fn(u32) -> u32) -> Vec<Item> {
    (0..CALLS).map(|k| item(op, 1 + k % channels, a(k), 1)).collect()
}

pub fn kinds(channels: u32) -> Vec<Kind> {
    let n = channels;
    let receiver = each(n, WRITE_RECEIVER, 1, 0);
    let transmitter = each(n, WRITE_TRANSMITTER, 1, 0);
    // An initiated test clears both FIFOs.
    let cleared = each(n, INITIATED_TEST, 0, 0);
    let kind = |name, set_up: &[&[Item]], before: Vec<Item>, timed: Vec<Item>| Kind {
        name,
        set_up: set_up.concat(),
        before,
        timed,
        short_by: 0,
    };
    // A schedule that runs for ever: message, gap, message, fixed gap, jump to its start.
    let schedule: Vec<Item> = [
        each(n, SCHEDULE_WRITE, 0, 0x1000),
        each(n, SCHEDULE_WRITE, 1, 0x2001),
        each(n, SCHEDULE_WRITE, 2, 0x1002),
        each(n, SCHEDULE_WRITE, 3, 0x3003),
        each(n, SCHEDULE_WRITE, 4, 0x6000),
        each(n, MESSAGE_WRITE, 0, 0x6000_00D4),
        each(n, MESSAGE_WRITE, 1, 100),
        each(n, MESSAGE_WRITE, 2, 0x6000_00D5),
        each(n, MESSAGE_WRITE, 3, 40),
        each(n, WRITE_TRANSMIT_MODE, 2, 0),
        each(n, TRIGGER, 0, 0),
    ]
    .concat();
    let small = [each(n, WRITE_RECEIVE_SIZE, 8, 0), each(n, WRITE_ALMOST_FULL, 6, 0)].concat();
    let filled: Vec<Item> = (0..8).flat_map(|k| each(n, ARRIVAL, word(k), 0)).collect();
    let mailbox_mode = each(n, WRITE_RECEIVE_MODE, 1, 0);
    // A list of indices at its greatest size: no two of these words have the same index.
    let full: Vec<Item> = (0..255).flat_map(|k| each(n, ARRIVAL, word(k), 0)).collect();
    let matched: Vec<Item> = (0..1024).step_by(2).flat_map(|k| each(n, MATCH_WRITE, k, 1)).collect();
    let mut kinds = vec![
        kind("arrival, appended", &[&receiver], cleared.clone(), round(n, ARRIVAL, word)),
        kind(
            "arrival, appended, stamps on",
            &[&receiver, &each(n, WRITE_STAMPS, 1, 0)],
            cleared.clone(),
            round(n, ARRIVAL, word),
        ),
        kind("arrival, dropped by a bounded FIFO", &[&receiver, &small, &filled], vec![], round(n, ARRIVAL, word)),
        kind(
            "arrival, over the oldest",
            &[&receiver, &small, &each(n, WRITE_FIFO_KIND, 1, 0), &filled],
            vec![],
            round(n, ARRIVAL, word),
        ),
        kind(
            "arrival, match on",
            &[&receiver, &each(n, WRITE_MATCH, 1, 0), &matched],
            cleared.clone(),
            round(n, ARRIVAL, word),
        ),
        kind("arrival, ignored", &[], vec![], round(n, ARRIVAL, word)),
        kind("arrival, mailbox mode", &[&receiver, &mailbox_mode], cleared.clone(), round(n, ARRIVAL, word)),
        kind(
            "arrival, mailbox mode, already listed",
            &[&receiver, &mailbox_mode, &round(n, ARRIVAL, word)],
            vec![],
            round(n, ARRIVAL, word),
        ),
        kind("initiated test of 255 indices", &[&receiver, &mailbox_mode], full, cleared.clone()),
        kind("receive FIFO read", &[&receiver], round(n, ARRIVAL, word), round(n, FIFO_READ, |_| 0)),
        kind("receive FIFO read, empty", &[&receiver], vec![], round(n, FIFO_READ, |_| 0)),
        kind("mailbox read", &[&receiver, &mailbox_mode], vec![], round(n, MAILBOX_READ, |k| word(k) % 1024)),
        kind("transmit FIFO write", &[], cleared.clone(), round(n, FIFO_WRITE, word)),
        kind("step, immediate", &[&transmitter], round(n, FIFO_WRITE, word), round(n, STEP, |_| 0)),
        kind("step, schedule", &[&transmitter, &schedule], vec![], round(n, STEP, |_| 0)),
        kind("trigger", &[&transmitter], vec![], round(n, TRIGGER, |_| 0)),
        kind("setting write", &[], vec![], round(n, WRITE_ALMOST_FULL, |k| k % 256)),
        kind("setting read", &[], vec![], round(n, SETTING_READ + 9, |_| 0)),
        kind("message RAM write", &[], vec![], round(n, MESSAGE_WRITE, |k| k % 256)),
        kind("match write", &[], vec![], round(n, MATCH_WRITE, |k| word(k) % 1024)),
        kind("background sample", &[], vec![], round(n, SAMPLE, |k| k / n % 2)),
        kind("status read", &[], vec![], round(n, STATUS_READ, |_| 0)),
        kind(
            "register read, status",
            &[],
            vec![],
            (0..CALLS).map(|k| item(REGISTER_READ, 0, 0x0810 + 0x10 * (k % n), 0)).collect(),
        ),
        kind(
            "register write, trigger of twelve",
            &[&transmitter],
            vec![],
            (0..CALLS).map(|_| item(REGISTER_WRITE, 0, 0x1000, 0xFFF)).collect(),
        ),
        kind("latch clear", &[], vec![], round(n, LATCH_CLEAR, |_| 127)),
        kind("pending read", &[], vec![], round(n, PENDING_READ, |_| 0)),
        kind("fate counts read", &[], vec![], round(n, COUNTS_READ, |_| 0)),
        kind("stamp advance", &[], vec![], round(n, STAMP_ADVANCE, |_| 50)),
        kind("stamp read", &[], vec![], round(n, STAMP_READ, |_| 0)),
        kind("fault threshold write", &[], vec![], round(n, THRESHOLD_WRITE, |k| 1 + k % 9)),
        kind("module reset", &[], vec![], round(n, MODULE_RESET, |_| 0)),
        kind("refused, wrong channel", &[], vec![], (0..CALLS).map(|_| item(STATUS_READ, n + 1, 0, 0)).collect()),
        kind("refused, argument out of range", &[], vec![], round(n, LATCH_CLEAR, |_| 128)),
        kind("no call", &[], vec![], round(n, 200, |_| 0)),
        kind("power-up", &[], vec![], (0..CALLS).map(|_| item(POWER_UP, 0, n, 0)).collect()),
    ];
    let mut short = kind("refused, one word short", &[], vec![], round(n, ARRIVAL, word));
    short.short_by = 1;
    kinds.insert(kinds.len() - 2, short);
    kinds
}
