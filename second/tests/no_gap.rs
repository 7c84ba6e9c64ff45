//! Two message words in a row: 4 null before the second, what keeps the first in mind and what forgets it.
//! `cargo test --release --test no_gap -- --nocapture` prints how often the random lists meet each rule.

mod bench;
mod reach;
use std::collections::{BTreeMap, BTreeSet};

use bench::*;
use reach::{check, for_each_answer, rows, Rule, Seen};
use second::calls::Item;
use second::layout::*;
use second::spacing::Spacing;

/// Channel 1 scheduled and running with parity off; message RAM 0 is a word, 1 a gap of 40, 2 another word.
fn running(commands: &[u32]) -> Bench {
    let mut bench = Bench::new(1);
    bench.setting(TRANSMITTER, 1);
    bench.setting(TRANSMIT_MODE, 2);
    bench.setting(PARITY, 0);
    for (address, word) in [(0, 0xA), (1, 40), (2, 0xB)] {
        bench.done(MESSAGE_WRITE, address, word);
    }
    for (address, &command) in commands.iter().enumerate() {
        bench.done(SCHEDULE_WRITE, address as u32, command);
    }
    bench.done(TRIGGER, 0, 0);
    bench
}

const WORD: [u32; 4] = [2, 0xA, 0, 0];
const NULL_AND_WORD: [u32; 4] = [6, 4, 0xB, 0];
const FREE_WORD: [u32; 4] = [2, 0xB, 0, 0];
const QUIET: [u32; 4] = [0; 4];

/// One word, then this, then what a message of the other word gives.
fn behind_a_word(between: fn(&mut Bench)) -> Vec<u32> {
    let mut bench = running(&[0x1000]);
    assert_eq!(bench.done(STEP, 0, 0), WORD);
    between(&mut bench);
    // The next command of an idle or paused transmitter, or of a running one, is the message.
    for address in 0..=LAST_COMMAND {
        bench.done(SCHEDULE_WRITE, address, 0x1002);
    }
    bench.done(TRIGGER, 0, 0);
    bench.done(STEP, 0, 0)
}

#[test]
fn a_message_behind_a_message_has_4_null_first() {
    let mut bench = running(&[0x1000, 0x1002, 0x1002]);
    assert_eq!(bench.done(STEP, 0, 0), WORD);
    assert_eq!(bench.mem[block(1) + WORD_MARK], 1);
    assert_eq!(bench.done(STEP, 0, 0), NULL_AND_WORD);
    assert_eq!(bench.done(STEP, 0, 0), NULL_AND_WORD, "the mark stays set");
}

#[test]
fn the_word_behind_the_null_has_its_parity() {
    let mut bench = running(&[0x1000, 0x1000]);
    bench.setting(PARITY, 1);
    assert_eq!(bench.done(STEP, 0, 0), [2, 0x8000_000A, 0, 0]);
    assert_eq!(bench.done(STEP, 0, 0), [6, 4, 0x8000_000A, 0]);
}

#[test]
fn also_across_jump_interrupt_and_pause_commands() {
    let mut bench = running(&[0x1000, 0x6100]);
    bench.done(SCHEDULE_WRITE, 256, 0x1002);
    assert_eq!(bench.done(STEP, 0, 0), WORD);
    assert_eq!(bench.done(STEP, 0, 0), QUIET);
    assert_eq!(bench.done(STEP, 0, 0), NULL_AND_WORD);
    let mut bench = running(&[0x1000, 0x5000, 0x4000, 0x6006, 0, 0, 0x1002]);
    assert_eq!(bench.done(STEP, 0, 0), WORD);
    assert_eq!(bench.done(STEP, 0, 0), QUIET);
    assert_eq!(bench.done(STEP, 0, 0), QUIET);
    assert_eq!(bench.done(STEP, 0, 0), QUIET, "paused");
    bench.done(TRIGGER, 0, 0);
    assert_eq!(bench.done(STEP, 0, 0), QUIET);
    assert_eq!(bench.done(STEP, 0, 0), NULL_AND_WORD);
}

#[test]
fn a_stop_keeps_it_in_mind() {
    assert_eq!(behind_a_word(|bench| drop(bench.done(STOP, 0, 0))), NULL_AND_WORD);
    // The stop command, a reserved code, and the end of the RAM.
    for command in [0x0000, 0x7000, 0xFFFF] {
        let mut bench = running(&[0x1000, command]);
        assert_eq!(bench.done(STEP, 0, 0), WORD);
        bench.done(STEP, 0, 0);
        bench.done(SCHEDULE_WRITE, 0, 0x1002);
        bench.done(TRIGGER, 0, 0);
        assert_eq!(bench.done(STEP, 0, 0), NULL_AND_WORD);
    }
    let mut bench = running(&[0x61FF]);
    bench.done(SCHEDULE_WRITE, LAST_COMMAND, 0x1000);
    bench.done(STEP, 0, 0);
    assert_eq!(bench.done(STEP, 0, 0), WORD);
    assert_eq!(bench.mem[block(1) + STATE..][..2], [0, 0]);
    bench.done(SCHEDULE_WRITE, 0, 0x1002);
    bench.done(TRIGGER, 0, 0);
    assert_eq!(bench.done(STEP, 0, 0), NULL_AND_WORD);
}

#[test]
fn other_calls_keep_it_in_mind() {
    let calls: [fn(&mut Bench); 9] = [
        |_| {},
        |bench| drop(bench.done(PAUSE, 0, 0)),
        |bench| drop(bench.done(ASYNC_WRITE, 1, 0)),
        |bench| drop(bench.done(FIFO_WRITE, 1, 0)),
        |bench| bench.setting(TRANSMIT_MODE, 2),
        |bench| bench.setting(TRANSMITTER, 1),
        |bench| bench.setting(RATE, 40),
        |bench| bench.setting(RECEIVE_MODE, 1),
        |bench| drop(bench.done(STAMP_ADVANCE, 1_000, 0)),
    ];
    for call in calls {
        assert_eq!(behind_a_word(call), NULL_AND_WORD);
    }
}

#[test]
fn a_gap_of_either_kind_leaves_no_word_to_keep_away_from() {
    for gap in [0x2001, 0x3001] {
        let mut bench = running(&[0x1000, gap, 0x1002]);
        assert_eq!(bench.done(STEP, 0, 0), WORD);
        assert_eq!(bench.done(STEP, 0, 0), [3, 40, 0, 0]);
        assert_eq!(bench.mem[block(1) + WORD_MARK], 0);
        assert_eq!(bench.done(STEP, 0, 0), FREE_WORD);
    }
    // With an async word in it: at least 4 null follow that word.
    let mut bench = running(&[0x1000, 0x2001, 0x1002]);
    bench.done(ASYNC_WRITE, 0xC, 0);
    assert_eq!(bench.done(STEP, 0, 0), WORD);
    assert_eq!(bench.done(STEP, 0, 0), [4, 4, 0xC, 4]);
    assert_eq!(bench.done(STEP, 0, 0), FREE_WORD);
}

#[test]
fn forgotten_by_the_calls_that_the_request_names() {
    fn scheduled_again(bench: &mut Bench) {
        bench.setting(PARITY, 0);
        bench.done(MESSAGE_WRITE, 2, 0xB);
        bench.setting(TRANSMITTER, 1);
        bench.setting(TRANSMIT_MODE, 2);
    }
    let calls: [fn(&mut Bench); 6] = [
        |bench| drop(bench.done(POWER_UP, 1, 0)),
        |bench| drop(bench.done(MODULE_RESET, 0, 0)),
        |bench| drop(bench.done(INITIATED_TEST, 0, 0)),
        |bench| drop(bench.done(INITIATED_TEST, 1, 0)),
        |bench| bench.setting(TRANSMITTER, 0),
        |bench| bench.setting(TRANSMIT_MODE, 0),
    ];
    for call in calls {
        let mut bench = running(&[0x1000]);
        assert_eq!(bench.done(STEP, 0, 0), WORD);
        call(&mut bench);
        assert_eq!(bench.mem[block(1) + WORD_MARK], 0);
        scheduled_again(&mut bench);
        bench.done(SCHEDULE_WRITE, 0, 0x1002);
        bench.done(STOP, 0, 0);
        bench.done(TRIGGER, 0, 0);
        assert_eq!(bench.done(STEP, 0, 0), FREE_WORD);
    }
    assert_eq!(behind_a_word(|bench| drop(bench.done(INITIATED_TEST, 0, 0))), FREE_WORD);
}

/// A mark that others set outside scheduled mode, or with the transmitter off.
#[test]
fn a_mark_set_by_others() {
    let mut bench = Bench::new(1);
    bench.setting(TRANSMITTER, 1);
    bench.done(FIFO_WRITE, 1, 0);
    bench.overwrite(block(1) + WORD_MARK, 1);
    assert_eq!(bench.done(STEP, 0, 0), [1, 1, 4, 0], "words of the FIFO have their gap");
    assert_eq!(bench.mem[block(1) + WORD_MARK], 1);
    bench.setting(TRANSMIT_MODE, 0);
    assert_eq!(bench.mem[block(1) + WORD_MARK], 1, "the mode held");
    bench.setting(TRANSMIT_MODE, 1);
    assert_eq!(bench.mem[block(1) + WORD_MARK], 0);
    bench.setting(TRANSMITTER, 0);
    bench.overwrite(block(1) + WORD_MARK, 1);
    bench.setting(TRANSMITTER, 0);
    assert_eq!(bench.mem[block(1) + WORD_MARK], 0, "also when it is off");
}

#[test]
fn channels_have_a_mark_each() {
    let mut bench = Bench::new(2);
    for channel in [1, 2] {
        bench.call(WRITE_TRANSMITTER, channel, 1, 0);
        bench.call(WRITE_TRANSMIT_MODE, channel, 2, 0);
        bench.call(TRIGGER, channel, 0, 0);
        for address in 0..3 {
            bench.call(SCHEDULE_WRITE, channel, address, 0x1000);
        }
    }
    assert_eq!(bench.call(STEP, 1, 0, 0)[1], 2);
    assert_eq!(bench.call(STEP, 2, 0, 0)[1], 2);
    bench.call(INITIATED_TEST, 2, 0, 0);
    bench.call(TRIGGER, 2, 0, 0);
    assert_eq!(bench.call(STEP, 1, 0, 0)[1], 6);
    assert_eq!(bench.call(STEP, 2, 0, 0)[1], 2);
}

// The null time between words, as outputs tell it.

fn entered(outputs: &[[u32; 4]]) -> Result<(), String> {
    let mut spacing = Spacing::default();
    let item = |op, a| Item { op, channel: 1, a, b: 0 };
    spacing.enter(item(POWER_UP, 1), &[0]).unwrap();
    for &[form, x, y, z] in outputs {
        spacing.enter(item(STEP, 0), &[0, form, x, y, z])?;
    }
    Ok(())
}

#[test]
fn words_too_close_fall_to_the_spacing() {
    let (word, null_word) = ([2, 7, 0, 0], [6, 4, 7, 0]);
    assert!(entered(&[word, null_word, [0; 4], null_word, [3, 4, 0, 0], word]).is_ok());
    assert!(entered(&[word, [4, 4, 7, 4], word]).is_ok());
    assert!(entered(&[word, word]).is_err());
    assert!(entered(&[null_word]).is_err(), "no word before");
    assert!(entered(&[word, [3, 4, 0, 0], null_word]).is_err(), "a gap before");
    assert!(entered(&[word, [6, 3, 7, 0]]).is_err());
    assert!(entered(&[word, [3, 3, 0, 0], word]).is_err());
    assert!(entered(&[word, [4, 3, 7, 4]]).is_err());
    assert!(entered(&[word, [4, 4, 7, 3], word]).is_err());
}

// How often the random lists meet it.

impl Seen {
    /// The mark is set before an accepted call on a channel.
    fn marked(&self) -> bool {
        self.number() == 0 && self.item.op >= 32 && self.is(WORD_MARK, 1)
    }

    /// An accepted module-wide call, with the mark of some channel set.
    fn some_marked(&self, op: u32) -> bool {
        self.done(op) && self.before.marked > 0
    }

    /// The transmit mode is written with another mode than the one held.
    fn changes_mode(&self) -> bool {
        self.writes(TRANSMIT_MODE) && !self.same(TRANSMIT_MODE)
    }
}

const RULES: &[Rule] = &[
    ("form 6", |s| s.form(6)),
    ("form 6, D31 changed by the parity", |s| s.form(6) && s.before.stored != s.answer[3]),
    ("form 6, the word as it is", |s| s.form(6) && s.before.stored == s.answer[3]),
    ("form 6 at command 511", |s| s.form(6) && s.last()),
    ("form 6 while an async word waits", |s| s.form(6) && s.waits()),
    ("message with no mark", |s| s.runs(1) && s.is(WORD_MARK, 0)),
    // What clears the mark.
    ("gap clears it", |s| s.marked() && s.runs(2) && s.form(3)),
    ("gap with an async word clears it", |s| s.marked() && s.form(4)),
    ("fixed gap clears it", |s| s.marked() && s.runs(3)),
    // What forgets it.
    ("power-up forgets it", |s| s.some_marked(POWER_UP)),
    ("module reset forgets it", |s| s.some_marked(MODULE_RESET)),
    ("initiated test forgets it", |s| s.marked() && s.done(INITIATED_TEST)),
    ("transmitter off forgets it", |s| s.marked() && s.writes(TRANSMITTER) && s.item.a == 0),
    ("change to immediate mode forgets it", |s| s.marked() && s.changes_mode() && s.item.a == 0),
    ("change to triggered mode forgets it", |s| s.marked() && s.changes_mode() && s.item.a == 1),
    // What keeps it.
    ("jump keeps it", |s| s.marked() && s.runs(6)),
    ("interrupt keeps it", |s| s.marked() && s.runs(5)),
    ("pause command keeps it", |s| s.marked() && s.runs(4)),
    ("stop command keeps it", |s| s.marked() && s.runs(0)),
    ("reserved code keeps it", |s| s.marked() && s.form(5)),
    ("stop call keeps it", |s| s.marked() && s.done(STOP)),
    ("pause call keeps it", |s| s.marked() && s.done(PAUSE) && s.is(STATE, 1)),
    ("trigger keeps it, from idle", |s| s.marked() && s.done(TRIGGER) && s.is(STATE, 0)),
    ("trigger keeps it, from paused", |s| s.marked() && s.done(TRIGGER) && s.is(STATE, 2)),
    ("async write keeps it", |s| s.marked() && s.done(ASYNC_WRITE)),
    ("the mode held keeps it", |s| s.marked() && s.writes(TRANSMIT_MODE) && s.same(TRANSMIT_MODE)),
    ("transmitter on keeps it", |s| s.marked() && s.writes(TRANSMITTER) && s.item.a == 1),
    ("a quiet step keeps it", |s| s.marked() && s.done(STEP) && !s.step(2, 1)),
];

/// Only others set a mark there.
const BY_OTHERS: &[Rule] = &[
    ("a word of the FIFO keeps it", |s| s.marked() && s.form(1)),
    ("change to scheduled mode forgets it", |s| s.marked() && s.changes_mode() && s.item.a == 2),
    ("transmitter off when off forgets it", |s| {
        s.marked() && s.writes(TRANSMITTER) && s.item.a == 0 && s.same(TRANSMITTER)
    }),
    ("unsound by the mark: 2", |s| s.number() == 2 && s.outside(WORD_MARK)),
];

#[test]
fn the_lists_reach_every_rule_as_compare_runs_them() {
    check(true, [rows(RULES, 40), rows(BY_OTHERS, 20)].into_iter().flatten().collect());
}

#[test]
fn the_calls_alone_reach_every_rule_as_replay_runs_them() {
    check(false, rows(RULES, 40));
}

/// What stood between two words of a channel's schedule, by name.
fn between(seen: &Seen) -> Option<&'static str> {
    match seen.item.op {
        STOP => Some("stop call"),
        PAUSE if seen.is(STATE, 1) => Some("pause call"),
        TRIGGER if seen.is(STATE, 0) => Some("trigger from idle"),
        TRIGGER if seen.is(STATE, 2) => Some("trigger from paused"),
        ASYNC_WRITE => Some("async write"),
        WRITE_TRANSMIT_MODE => Some("mode held written"),
        STEP if seen.runs(0) => Some("stop command"),
        STEP if seen.runs(4) => Some("pause command"),
        STEP if seen.runs(5) => Some("interrupt command"),
        STEP if seen.form(5) => Some("reserved code"),
        STEP if seen.runs(6) => Some("jump command"),
        _ => None,
    }
}

const ALL_BETWEEN: [&str; 11] = [
    "stop call",
    "pause call",
    "trigger from idle",
    "trigger from paused",
    "async write",
    "mode held written",
    "stop command",
    "pause command",
    "interrupt command",
    "reserved code",
    "jump command",
];

/// Form 6 across each of these, counted; and every output keeps its distance.
#[test]
fn null_and_word_across_each_command_and_call_that_keeps_the_mark() {
    let mut counts: BTreeMap<&str, u64> = BTreeMap::new();
    let mut since: BTreeMap<u32, BTreeSet<&str>> = BTreeMap::new();
    let mut spacing = Spacing::default();
    let (mut words, mut in_a_row) = (0, 0);
    for_each_answer(1, false, |item, answer, seen| {
        spacing.enter(item, answer).unwrap();
        let Some(seen) = seen.filter(|seen| seen.number() == 0) else {
            return;
        };
        let since = since.entry(seen.item.channel).or_default();
        if seen.form(6) {
            in_a_row += u64::from(since.is_empty());
            for name in since.iter() {
                *counts.entry(name).or_default() += 1;
            }
        }
        words += u64::from(seen.form(2) || seen.form(6));
        match between(&seen) {
            _ if seen.form(2) || seen.form(6) => since.clear(),
            Some(name) => drop(since.insert(name)),
            None => {}
        }
    });
    println!("{words} words of schedules, {in_a_row} of them right behind another");
    for name in ALL_BETWEEN {
        println!("{:>7} form 6 across: {name}", counts.get(name).unwrap_or(&0));
    }
    assert!(in_a_row > 100);
    assert!(ALL_BETWEEN.iter().all(|name| counts.get(name) > Some(&20)), "{counts:?}");
}
