//! Mailbox lists that a fast label does not flood: an index is listed while its mailbox has no new word.
//! `cargo test --release --test floods -- --nocapture` prints how often the random lists meet each rule and each order.

mod bench;
mod reach;
use std::collections::BTreeMap;

use bench::*;
use reach::{check, for_each_answer, rows, Rule, Seen};
use second::calls::Item;
use second::layout::*;
use second::ledger::{Fate, Ledger};
use second::words;

const APPENDED: [u32; 1] = [2];
const DROPPED: [u32; 1] = [3];
const OVERWRITING: [u32; 1] = [4];
const ALREADY_LISTED: [u32; 1] = [5];

/// Channel 1 in mailbox mode with a list of this size, bounded or circular.
fn listing(size: u32, kind: u32) -> Bench {
    let mut bench = Bench::new(1);
    for (setting, value) in [(RECEIVER, 1), (RECEIVE_MODE, 1), (SIZE, size), (FIFO_KIND, kind), (STAMPS, 1)] {
        bench.setting(setting, value);
    }
    bench
}

/// The stored status of a mailbox.
fn status(bench: &Bench, index: usize) -> u32 {
    bench.mem[block(1) + MAILBOXES + 3 * index]
}

/// The index in the word's low ten bits, and an odd count of ones.
fn good(index: u32) -> u32 {
    index | if index.count_ones() % 2 == 0 { 1 << 31 } else { 0 }
}

/// The same index, and an even count of ones.
fn bad(index: u32) -> u32 {
    good(index) ^ 1 << 30
}

#[test]
fn a_fast_label_is_listed_once() {
    let mut bench = listing(255, 0);
    assert_eq!(bench.done(ARRIVAL, good(5), 0), APPENDED);
    bench.done(STAMP_ADVANCE, 9, 0);
    for _ in 0..300 {
        assert_eq!(bench.done(ARRIVAL, bad(5), 0), ALREADY_LISTED);
    }
    assert_eq!(bench.done(RECEIVE_LEVEL_READ, 0, 0), [1]);
    assert_eq!(bench.counts()[..4], [1, 0, 0, 0], "an index not appended is not accepted");
    assert_eq!(bench.done(MAILBOX_READ, 5, 0), [3, bad(5), 9], "the mailbox takes the word, always");
    assert_eq!(bench.done(ARRIVAL, good(5), 0), APPENDED, "still listed, but its mailbox was read");
    assert_eq!(bench.done(RECEIVE_LEVEL_READ, 0, 0), [2]);
}

#[test]
fn it_goes_by_the_mark_and_not_by_the_list() {
    let mut bench = listing(3, 0);
    bench.done(ARRIVAL, good(5), 0);
    assert_eq!(bench.done(FIFO_READ, 0, 0), [0, 5, 0]);
    assert_eq!(bench.done(ARRIVAL, good(5), 0), ALREADY_LISTED, "taken from the list, its mailbox not read");
    assert_eq!(bench.done(RECEIVE_LEVEL_READ, 0, 0), [0]);
    bench.done(MAILBOX_READ, 5, 0);
    assert_eq!(bench.done(ARRIVAL, good(5), 0), APPENDED);
}

#[test]
fn a_full_bounded_list_loses_the_index_and_leaves_its_mark_clear() {
    let mut bench = listing(1, 0);
    bench.done(STAMP_ADVANCE, 7, 0);
    assert_eq!(bench.done(ARRIVAL, good(5), 0), APPENDED);
    assert_eq!(bench.done(ARRIVAL, bad(6), 0), DROPPED);
    assert_eq!(status(&bench, 6), 1, "D0 by the word");
    assert_eq!(bench.done(ARRIVAL, good(6), 0), DROPPED, "not listed");
    assert_eq!(bench.done(MAILBOX_READ, 6, 0), [0, good(6), 7]);
    assert_eq!(bench.done(ARRIVAL, good(5), 0), ALREADY_LISTED, "that the list is full does not matter to it");
    bench.done(FIFO_READ, 0, 0);
    assert_eq!(bench.done(ARRIVAL, good(6), 0), APPENDED);
    assert_eq!(bench.counts()[..4], [2, 1, 0, 0]);
}

#[test]
fn a_full_circular_list_takes_the_mark_of_the_oldest() {
    let mut bench = listing(2, 1);
    for index in [5, 6] {
        bench.done(ARRIVAL, bad(index), 0);
    }
    assert_eq!(bench.done(ARRIVAL, good(7), 0), OVERWRITING);
    assert_eq!([5, 6, 7].map(|index| status(&bench, index)), [1, 3, 2]);
    assert_eq!(bench.done(ARRIVAL, good(5), 0), OVERWRITING, "its mark is gone: it is listed again");
    assert_eq!([5, 6, 7].map(|index| status(&bench, index)), [2, 1, 2]);
    assert_eq!(bench.done(FIFO_READ, 0, 0), [0, 7, 0]);
    assert_eq!(bench.done(FIFO_READ, 0, 0), [0, 5, 0]);
    assert_eq!(bench.counts()[..4], [4, 2, 0, 2]);
}

/// The mark is taken before the arrival's own mailbox is written, so that its own entry's mark stays.
#[test]
fn an_index_that_overwrites_itself_has_its_mark() {
    let mut bench = listing(1, 1);
    bench.done(ARRIVAL, good(5), 0);
    bench.done(MAILBOX_READ, 5, 0);
    assert_eq!(bench.done(ARRIVAL, bad(5), 0), OVERWRITING);
    assert_eq!(status(&bench, 5), 3);
    assert_eq!(bench.done(ARRIVAL, good(5), 0), ALREADY_LISTED);
}

#[test]
fn a_test_a_reset_and_a_change_of_mode_take_the_marks_of_what_they_clear() {
    let clears: [fn(&mut Bench); 4] = [
        |bench| drop(bench.done(INITIATED_TEST, 0, 0)),
        |bench| drop(bench.done(INITIATED_TEST, 1, 0)),
        |bench| drop(bench.done(MODULE_RESET, 0, 0)),
        |bench| bench.setting(RECEIVE_MODE, 0),
    ];
    for clear in clears {
        let mut bench = listing(3, 0);
        for index in [4, 5, 6, 7] {
            bench.done(ARRIVAL, bad(index), 0);
            if index == 4 {
                // Taken from the list, not read: its mark stays.
                bench.done(FIFO_READ, 0, 0);
            }
        }
        clear(&mut bench);
        assert_eq!([4, 5, 6, 7].map(|index| status(&bench, index)), [3, 1, 1, 1]);
        assert_eq!(bench.counts()[..4], [4, 1, 3, 0]);
        for (setting, value) in [(RECEIVER, 1), (RECEIVE_MODE, 1)] {
            bench.setting(setting, value);
        }
        assert_eq!(bench.done(ARRIVAL, good(5), 0), APPENDED);
        assert_eq!(bench.done(ARRIVAL, good(4), 0), ALREADY_LISTED);
    }
}

#[test]
fn nothing_else_takes_a_mark() {
    let mut bench = listing(3, 0);
    bench.done(ARRIVAL, good(5), 0);
    bench.setting(RECEIVE_MODE, 1);
    bench.setting(FIFO_KIND, 1);
    bench.setting(SIZE, 1);
    bench.done(TEST_RESET, 0, 0);
    bench.done(STAMP_ZERO, 0, 0);
    assert_eq!(status(&bench, 5), 2);
    // In FIFO mode a test, a reset and the change to mailbox mode clear entries, and no index.
    for clear in [INITIATED_TEST, MODULE_RESET, WRITE_RECEIVE_MODE] {
        let mut bench = Bench::new(1);
        bench.setting(RECEIVER, 1);
        bench.done(ARRIVAL, good(5), 0);
        bench.overwrite(block(1) + MAILBOXES + 15, 2);
        bench.done(clear, 1, 0);
        assert_eq!(bench.done(RECEIVE_LEVEL_READ, 0, 0), [0]);
        assert_eq!(status(&bench, 5), 2);
    }
    // Nor does an entry that FIFO mode overwrites.
    let mut bench = Bench::new(1);
    for (setting, value) in [(RECEIVER, 1), (SIZE, 1), (FIFO_KIND, 1)] {
        bench.setting(setting, value);
    }
    bench.done(ARRIVAL, good(5), 0);
    bench.overwrite(block(1) + MAILBOXES + 15, 2);
    assert_eq!(bench.done(ARRIVAL, good(5), 0), OVERWRITING);
    assert_eq!(status(&bench, 5), 2);
    bench.setting(FIFO_KIND, 0);
    assert_eq!(bench.done(ARRIVAL, good(5), 0), DROPPED, "FIFO mode looks at no mailbox");
}

#[test]
fn power_up_zeroes_mailboxes_and_marks() {
    let mut bench = listing(3, 0);
    bench.done(ARRIVAL, good(5), 0);
    bench.done(POWER_UP, 1, 0);
    assert_eq!(status(&bench, 5), 0);
}

/// Entries and stored statuses may hold anything: the word modulo 1024 is the mailbox, D1 is the mark.
#[test]
fn entries_and_statuses_of_others() {
    let filled = |kind| {
        let mut bench = listing(2, kind);
        for index in [5, 6] {
            bench.done(ARRIVAL, good(index), 0);
        }
        for (word, value) in
            [(RECEIVE_RING + 1, 0xFFFF_FC07), (MAILBOXES + 21, 0xFFFF_FFFD), (MAILBOXES + 24, 0x8000_0003)]
        {
            bench.overwrite(block(1) + word, value);
        }
        bench
    };
    let mut bench = filled(1);
    assert_eq!(bench.done(ARRIVAL, good(8), 0), ALREADY_LISTED, "D1 of any status");
    assert_eq!(status(&bench, 8), 2);
    assert_eq!(bench.done(ARRIVAL, good(9), 0), OVERWRITING);
    assert_eq!([5, 7].map(|index| status(&bench, index)), [2, 1], "mailbox 7, also where the mark was not set");
    let mut bench = filled(1);
    assert_eq!(bench.done(ARRIVAL, bad(7), 0), OVERWRITING, "its own entry is the oldest");
    assert_eq!(status(&bench, 7), 3);
    let mut bench = filled(0);
    bench.done(INITIATED_TEST, 0, 0);
    assert_eq!([5, 6, 7, 8].map(|index| status(&bench, index)), [2, 0, 1, 0x8000_0003]);
}

#[test]
fn a_parity_error_is_signalled_for_an_already_listed_and_a_lost_arrival() {
    let mut bench = listing(1, 0);
    bench.done(ARRIVAL, good(5), 0);
    assert_eq!(bench.done(ARRIVAL, bad(5), 0), ALREADY_LISTED);
    assert_eq!(bench.latch() & 16, 16);
    bench.done(LATCH_CLEAR, 16, 0);
    assert_eq!(bench.done(ARRIVAL, bad(6), 0), DROPPED);
    assert_eq!(bench.latch() & 16, 16);
}

#[test]
fn the_history_accepts_no_index_that_is_already_listed() {
    let item = |op, a| Item { op, channel: 1, a, b: 0 };
    let mut mem = vec![0; need(1)];
    let mut ledger = Ledger::default();
    for (op, a) in
        [(POWER_UP, 1), (WRITE_RECEIVER, 1), (WRITE_RECEIVE_MODE, 1), (ARRIVAL, 5), (ARRIVAL, 5), (FIFO_READ, 0)]
    {
        let answer = words::perform(&mut mem, op, 1, a, 0);
        ledger.enter(item(op, a), &answer).unwrap();
        ledger.check_words(&mem).unwrap();
    }
    let entries = &ledger.channels[0].receive.entries;
    assert_eq!(entries.len(), 1);
    assert_eq!((entries[0].accepted_at, entries[0].fate, entries[0].fate_at), (4, Fate::Taken, 6));
    ledger.enter(item(WRITE_RECEIVE_MODE, 0), &[0]).unwrap();
    assert!(ledger.enter(item(ARRIVAL, 5), &[0, 5]).is_err(), "nothing is listed in FIFO mode");
    assert!(ledger.enter(item(ARRIVAL, 5), &[0, 6]).is_err());
}

// How often the random lists meet it.

impl Seen {
    /// The mailbox of the arrival, or of the index read, has the new mark.
    fn new(&self) -> bool {
        self.before.mailbox & 2 != 0
    }

    fn full(&self) -> bool {
        self.before.ch[RECEIVE_LEVEL] == self.before.ch[SIZE]
    }

    /// The oldest entry's mailbox is the arrival's own.
    fn own_oldest(&self) -> bool {
        self.before.held.first().is_some_and(|(word, _)| word % 1024 == self.item.a % 1024)
    }

    fn oldest_status(&self) -> u32 {
        self.before.held.first().map_or(0, |&(_, status)| status)
    }

    /// The call clears a list of mailbox mode that is not empty.
    fn clears(&self, op: u32) -> bool {
        let cleared = self.done(op) && self.is(RECEIVE_MODE, 1) && !self.is(RECEIVE_LEVEL, 0);
        cleared && (op != WRITE_RECEIVE_MODE || self.item.a == 0)
    }

    /// An entry held has a mailbox like this.
    fn some(&self, like: fn(u32) -> bool) -> bool {
        self.before.held.iter().any(|&(_, status)| like(status))
    }
}

const RULES: &[Rule] = &[
    ("already listed", |s| s.arrival(1, 5)),
    ("already listed, the list full and bounded", |s| s.arrival(1, 5) && s.full() && s.is(FIFO_KIND, 0)),
    ("already listed, the list full and circular", |s| s.arrival(1, 5) && s.full() && s.is(FIFO_KIND, 1)),
    ("already listed, the list empty", |s| s.arrival(1, 5) && s.is(RECEIVE_LEVEL, 0)),
    ("already listed with a parity error", |s| s.arrival(1, 5) && s.in_error()),
    ("appended", |s| s.arrival(1, 2)),
    ("appended though it is still listed", |s| {
        s.arrival(1, 2) && s.before.held.iter().any(|(word, _)| word % 1024 == s.item.a % 1024)
    }),
    ("lost with a parity error", |s| s.arrival(1, 3) && s.in_error()),
    ("lost without one", |s| s.arrival(1, 3) && !s.in_error()),
    ("overwriting another's index that has its mark", |s| s.arrival(1, 4) && s.oldest_status() & 2 != 0),
    ("overwriting another's index that has none", |s| s.arrival(1, 4) && s.oldest_status() & 2 == 0 && !s.own_oldest()),
    ("overwriting its own index", |s| s.arrival(1, 4) && s.own_oldest()),
    ("a mailbox read that takes the mark", |s| s.done(MAILBOX_READ) && s.new()),
    ("a test that takes marks", |s| s.clears(INITIATED_TEST) && s.some(|status| status & 2 != 0)),
    ("a test that finds marks taken", |s| s.clears(INITIATED_TEST) && s.some(|status| status & 2 == 0)),
    ("a reset that takes marks", |s| s.clears(MODULE_RESET) && s.some(|status| status & 2 != 0)),
    ("a change of mode that takes marks", |s| s.clears(WRITE_RECEIVE_MODE) && s.some(|status| status & 2 != 0)),
    ("the mailbox mode held, with marks", |s| {
        s.writes(RECEIVE_MODE) && s.item.a == 1 && s.is(RECEIVE_MODE, 1) && s.some(|status| status & 2 != 0)
    }),
    ("FIFO mode, an entry overwritten whose mailbox has a mark", |s| s.arrival(0, 4) && s.oldest_status() & 2 != 0),
];

/// Entries above 1023 and statuses above 3 are others' doing.
const BY_OTHERS: &[Rule] = &[
    ("already listed by a status above 3", |s| s.arrival(1, 5) && s.before.mailbox > 3),
    ("appended by a status above 3", |s| s.arrival(1, 2) && s.before.mailbox > 3),
    ("an entry above 1023 overwritten", |s| s.arrival(1, 4) && s.before.held[0].0 > 1023),
    ("its own index above 1023 overwritten", |s| s.arrival(1, 4) && s.own_oldest() && s.before.held[0].0 > 1023),
    ("an oldest entry's status above 3", |s| s.arrival(1, 4) && s.oldest_status() > 3),
    ("entries above 1023 cleared by a test", |s| s.clears(INITIATED_TEST) && s.before.held[0].0 > 1023),
    ("entries above 1023 cleared by a reset", |s| s.clears(MODULE_RESET) && s.before.held[0].0 > 1023),
    ("entries above 1023 cleared by a mode", |s| s.clears(WRITE_RECEIVE_MODE) && s.before.held[0].0 > 1023),
    ("statuses above 3 cleared by a test", |s| s.clears(INITIATED_TEST) && s.some(|status| status > 3)),
];

#[test]
fn the_lists_reach_every_rule_as_compare_runs_them() {
    check(true, [rows(RULES, 20), rows(BY_OTHERS, 5)].into_iter().flatten().collect());
}

#[test]
fn the_calls_alone_reach_every_rule_as_replay_runs_them() {
    check(false, rows(RULES, 20));
}

/// What can happen to one mailbox of one channel.
#[derive(Clone, Copy, PartialEq, Eq, PartialOrd, Ord, Debug)]
enum Event {
    Appended,
    AlreadyListed,
    MailboxRead,
    ListRead,
    OverwroteItself,
    OverwroteAnother,
    OverwrittenByAnother,
    Dropped,
    Test,
    Reset,
    ModeChange,
}
use Event::*;

const EVENTS: [Event; 11] = [
    Appended,
    AlreadyListed,
    MailboxRead,
    ListRead,
    OverwroteItself,
    OverwroteAnother,
    OverwrittenByAnother,
    Dropped,
    Test,
    Reset,
    ModeChange,
];

/// Whether the second can happen to a mailbox right behind the first, by the mark and by whether its index is listed.
fn can_follow(first: Event, second: Event) -> bool {
    let marked = matches!(first, Appended | AlreadyListed | OverwroteItself | OverwroteAnother);
    let unmarked = matches!(first, MailboxRead | OverwrittenByAnother | Dropped);
    let unlisted = matches!(first, Test | Reset | ModeChange);
    match second {
        Appended | OverwroteAnother | Dropped => !marked,
        AlreadyListed => !unmarked,
        OverwroteItself => !marked && !unlisted,
        ListRead | OverwrittenByAnother => !unlisted,
        MailboxRead | Test | Reset | ModeChange => true,
    }
}

/// The last event of each mailbox, by channel and index, and how often each pair was met.
#[derive(Default)]
struct Orders {
    last: BTreeMap<(u32, u32), Event>,
    pairs: BTreeMap<(Event, Event), u64>,
}

impl Orders {
    fn enter(&mut self, channel: u32, index: u32, event: Event) {
        if let Some(last) = self.last.insert((channel, index), event) {
            *self.pairs.entry((last, event)).or_default() += 1;
        }
    }

    /// An event of every mailbox of a channel, or of all.
    fn enter_all(&mut self, channel: Option<u32>, event: Event) {
        let touched = |key: &&(u32, u32)| channel.is_none_or(|channel| key.0 == channel);
        let keys: Vec<(u32, u32)> = self.last.keys().filter(touched).copied().collect();
        for (channel, index) in keys {
            self.enter(channel, index, event);
        }
    }

    fn meet(&mut self, seen: &Seen) {
        let Item { op, channel, a, .. } = seen.item;
        let index = a % 1024;
        match op {
            POWER_UP => self.last.clear(),
            MODULE_RESET => self.enter_all(None, Reset),
            INITIATED_TEST => self.enter_all(Some(channel), Test),
            WRITE_RECEIVE_MODE if a == 0 && seen.is(RECEIVE_MODE, 1) => self.enter_all(Some(channel), ModeChange),
            MAILBOX_READ => self.enter(channel, index, MailboxRead),
            FIFO_READ if seen.is(RECEIVE_MODE, 1) => self.enter(channel, seen.answer[2], ListRead),
            ARRIVAL if seen.is(RECEIVE_MODE, 1) => match seen.answer[1] {
                2 => self.enter(channel, index, Appended),
                3 => self.enter(channel, index, Dropped),
                4 if seen.own_oldest() => self.enter(channel, index, OverwroteItself),
                4 => {
                    self.enter(channel, seen.before.held[0].0, OverwrittenByAnother);
                    self.enter(channel, index, OverwroteAnother);
                }
                5 => self.enter(channel, index, AlreadyListed),
                _ => {}
            },
            _ => {}
        }
    }
}

/// Every order of two events of one mailbox that can be is met, and no other.
#[test]
fn the_lists_reach_every_order() {
    let mut orders = Orders::default();
    for_each_answer(1, false, |item, answer, seen| match seen {
        Some(seen) if answer[0] == 0 => orders.meet(&seen),
        None if item.op == POWER_UP && answer[0] == 0 => orders.last.clear(),
        _ => {}
    });
    let mut wrong = vec![];
    let (mut met, mut least) = (0, u64::MAX);
    for first in EVENTS {
        for second in EVENTS {
            let count = *orders.pairs.get(&(first, second)).unwrap_or(&0);
            if can_follow(first, second) {
                println!("{count:>7} {first:?}, then {second:?}");
                (met, least) = (met + 1, least.min(count));
            }
            if (count > 0) != can_follow(first, second) {
                wrong.push(format!("{count} times {first:?}, then {second:?}"));
            }
        }
    }
    println!("{met} orders, each at least {least} times");
    assert!(wrong.is_empty(), "{wrong:#?}");
}
