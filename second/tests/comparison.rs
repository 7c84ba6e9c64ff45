//! The comparison agrees where engines agree, and finds an engine that makes a slip.

use second::calls::Item;
use second::compare::{compare, run, Tally};
use second::engine::{AsModel, Engine, OnWords};
use second::layout::*;
use second::ledger::{Fate, Ledger};
use second::lists::{list, Dice, Event, List};
use second::words;

#[test]
fn model_and_words_agree() {
    let (tally, difference) = compare(60_000, 429, &mut AsModel::new(), &mut OnWords);
    assert!(difference.is_none(), "{difference:?}");
    assert!(tally.accepted * 2 > tally.calls);
    // Every refusal, outcome and form comes up.
    assert_eq!(tally.numbers.keys().copied().collect::<Vec<_>>(), [0, 1, 2, 3, 4, 5, 6, 7, 30, 31, 32, 42]);
    assert_eq!(tally.outcomes.len(), 6);
    assert_eq!(tally.forms.len(), 7);
}

#[test]
fn two_engines_on_words_agree() {
    let (_, difference) = compare(10_000, 1, &mut OnWords, &mut OnWords);
    assert!(difference.is_none());
}

/// The same seed gives the same list.
#[test]
fn a_list_is_fixed_by_its_seed() {
    assert_eq!(list(5, 300).events, list(5, 300).events);
    assert_ne!(list(5, 300).events, list(6, 300).events);
    assert_ne!(Dice::new(0).word(), Dice::new(1).word());
}

/// An engine that performs a call and then does something wrong.
struct Slip(fn(&mut [u32], &[u32], u32, u32, u32, &mut Vec<u32>));

impl Engine for Slip {
    fn perform(&mut self, mem: &mut [u32], op: u32, channel: u32, a: u32, b: u32) -> Vec<u32> {
        let before = mem.to_vec();
        let mut answer = words::perform(mem, op, channel, a, b);
        (self.0)(mem, &before, op, channel, a, &mut answer);
        answer
    }
}

fn found(slip: fn(&mut [u32], &[u32], u32, u32, u32, &mut Vec<u32>)) {
    let (_, by_model) = compare(200_000, 7, &mut AsModel::new(), &mut Slip(slip));
    assert!(by_model.is_some(), "not found against the model");
    let (_, by_words) = compare(200_000, 7, &mut OnWords, &mut Slip(slip));
    assert!(by_words.is_some(), "not found against the words");
}

#[test]
fn counts_zeroed_on_module_reset_are_found() {
    found(|mem, _, op, _, _, answer| {
        if op == 2 && answer[0] == 0 {
            mem[block(1) + RECEIVE_ACCEPTED..block(1) + TRANSMIT_CLEARED + 1].fill(0);
        }
    });
}

#[test]
fn a_counter_capped_at_65535_is_found() {
    found(|mem, _, op, channel, _, answer| {
        if op == 143 && answer[0] == 0 {
            let counter = &mut mem[COUNTERS + channel as usize - 1];
            *counter = (*counter).min(65_535);
        }
    });
}

#[test]
fn a_word_changed_by_a_refusal_is_found() {
    found(|mem, _, _, _, _, answer| {
        if answer[0] == 7 {
            mem[block(1) + RECEIVE_RING] ^= 1;
        }
    });
}

#[test]
fn an_edge_latch_set_again_is_found() {
    found(|mem, _, op, channel, _, answer| {
        if op == 147 && answer[0] == 0 {
            let ch = &mut mem[block(channel)..];
            ch[LATCH] |= u32::from(ch[TRANSMIT_LEVEL] == 0) << 3;
        }
    });
}

#[test]
fn a_dropped_async_word_on_stop_is_found() {
    found(|mem, _, op, channel, _, answer| {
        if op == 137 && answer[0] == 0 {
            mem[block(channel) + ASYNC_MARK] = 0;
        }
    });
}

#[test]
fn a_word_mark_forgotten_or_kept_where_it_must_not_be_is_found() {
    found(|mem, _, op, channel, _, answer| {
        if op == 137 && answer[0] == 0 {
            mem[block(channel) + WORD_MARK] = 0;
        }
    });
    // The mode held is no change.
    found(|mem, _, op, channel, _, answer| {
        if op == 39 && answer[0] == 0 {
            mem[block(channel) + WORD_MARK] = 0;
        }
    });
    // Kept by a test, by transmitter off, by a reset.
    found(|mem, before, op, channel, _, answer| {
        if op == 145 && answer[0] == 0 {
            mem[block(channel) + WORD_MARK] = before[block(channel) + WORD_MARK];
        }
    });
    found(|mem, before, op, channel, _, answer| {
        if op == 33 && answer[0] == 0 {
            mem[block(channel) + WORD_MARK] = before[block(channel) + WORD_MARK];
        }
    });
    found(|mem, before, op, _, _, answer| {
        if op == 2 && answer[0] == 0 {
            mem[block(1) + WORD_MARK] = before[block(1) + WORD_MARK];
        }
    });
    // An async word in a gap counts as the last word.
    found(|mem, _, op, channel, _, answer| {
        if op == 138 && answer[..2] == [0, 4] {
            mem[block(channel) + WORD_MARK] = 1;
        }
    });
}

#[test]
fn two_words_with_no_gap_are_found() {
    found(|_, _, op, _, _, answer| {
        if op == 138 && answer[..2] == [0, 6] {
            *answer = vec![0, 2, answer[3], 0, 0];
        }
    });
}

/// The status word of a mailbox of channel `channel`, by a word modulo 1024.
fn mailbox(channel: u32, word: u32) -> usize {
    block(channel) + MAILBOXES + 3 * (word as usize % 1024)
}

/// The word of the oldest entry of a channel's receive FIFO.
fn oldest(mem: &[u32], channel: u32) -> u32 {
    let ch = &mem[block(channel)..];
    ch[RECEIVE_RING + 3 * ch[RECEIVE_POSITION] as usize + 1]
}

fn mailboxes_as_before(mem: &mut [u32], before: &[u32], channel: u32) {
    let all = mailbox(channel, 0)..block(channel) + MATCH_SET;
    mem[all.clone()].copy_from_slice(&before[all]);
}

/// An arrival in mailbox mode with this outcome.
fn mailbox_arrival(before: &[u32], op: u32, channel: u32, answer: &[u32], outcome: u32) -> bool {
    op == 128 && *answer == [0, outcome] && before[block(channel) + RECEIVE_MODE] == 1
}

#[test]
fn a_new_mark_taken_or_left_where_it_must_not_be_is_found() {
    // The oldest keeps its mark.
    found(|mem, before, op, channel, a, answer| {
        let listed = mailbox_arrival(before, op, channel, answer, 4);
        if listed && oldest(before, channel) % 1024 != a % 1024 {
            let status = mailbox(channel, oldest(before, channel));
            mem[status] = before[status];
        }
    });
    // The mark is taken behind the arrival, so that an index that overwrites itself has none.
    found(|mem, before, op, channel, _, answer| {
        if mailbox_arrival(before, op, channel, answer, 4) {
            mem[mailbox(channel, oldest(before, channel))] %= 2;
        }
    });
    // An index that is lost leaves its mark.
    found(|mem, before, op, channel, a, answer| {
        if mailbox_arrival(before, op, channel, answer, 3) {
            mem[mailbox(channel, a)] += 2;
        }
    });
    // The mailbox of an already listed index keeps the first word.
    found(|mem, before, op, channel, a, answer| {
        if mailbox_arrival(before, op, channel, answer, 5) {
            let word = mailbox(channel, a) + 1;
            mem[word] = before[word];
        }
    });
    found(|_, _, op, _, _, answer| {
        if op == 128 && *answer == [0, 5] {
            answer[1] = 3;
        }
    });
    // Marks stay behind a test, a change of mode, a reset.
    found(|mem, before, op, channel, _, answer| {
        if op == 145 && answer[0] == 0 {
            mailboxes_as_before(mem, before, channel);
        }
    });
    found(|mem, before, op, channel, _, answer| {
        if op == 37 && answer[0] == 0 {
            mailboxes_as_before(mem, before, channel);
        }
    });
    found(|mem, before, op, _, _, answer| {
        if op == 2 && answer[0] == 0 {
            mailboxes_as_before(mem, before, 1);
        }
    });
    // FIFO mode takes marks too.
    found(|mem, before, op, channel, _, answer| {
        if op == 128 && *answer == [0, 4] && before[block(channel) + RECEIVE_MODE] == 0 {
            mem[mailbox(channel, oldest(before, channel))] %= 2;
        }
    });
}

#[test]
fn an_entry_taken_for_an_index_without_its_modulus_is_found() {
    found(|mem, before, op, channel, a, answer| {
        if mailbox_arrival(before, op, channel, answer, 4) {
            let word = oldest(before, channel);
            let status = mailbox(channel, word);
            if word > 1023 && status != mailbox(channel, a) {
                mem[status] = before[status];
            }
        }
    });
}

#[test]
fn a_word_beyond_the_need_that_is_touched_is_found() {
    found(|mem, _, op, _, a, answer| {
        if op == 1 && answer[0] == 0 {
            if let Some(word) = mem.get_mut(need(a)) {
                *word = !*word;
            }
        }
    });
}

#[test]
fn a_schedule_of_another_length_is_found() {
    // The implied stop behind 255, and none behind 511.
    found(|mem, before, op, channel, _, answer| {
        if op == 138 && answer[0] == 0 {
            let place = block(channel) + COMMAND;
            if [before[place], mem[place]] == [255, 256] {
                mem[place - 1..=place].fill(0);
            }
        }
    });
    found(|mem, before, op, channel, _, answer| {
        if op == 138 && answer[0] == 0 && before[block(channel) + COMMAND] == LAST_COMMAND {
            mem[block(channel) + STATE] = before[block(channel) + STATE];
        }
    });
    // A jump to 256 or above is reserved, or goes to the eight low bits of its address.
    found(|mem, before, op, channel, _, answer| {
        if op == 138 && answer[..] == [0; 5] {
            let place = block(channel) + COMMAND;
            if mem[place] > 255 && mem[place] != before[place] + 1 {
                mem[place - 1..=place].fill(0);
                answer[1..3].copy_from_slice(&[5, before[place]]);
            }
        }
    });
    found(|mem, before, op, channel, _, answer| {
        if op == 138 && answer[..] == [0; 5] {
            let place = block(channel) + COMMAND;
            if mem[place] != before[place] + 1 {
                mem[place] %= 256;
            }
        }
    });
    // Address 512 taken, read or written; address 256 of the message RAM taken.
    found(|_, _, op, _, a, answer| {
        if [139, 140].contains(&op) && answer[0] == 4 && a == 512 {
            answer[0] = 0;
        }
    });
    found(|_, _, op, _, a, answer| {
        if [141, 142].contains(&op) && answer[0] == 4 && (256..512).contains(&a) {
            answer[0] = 0;
        }
    });
}

#[test]
fn a_layout_number_not_tested_or_not_kept_is_found() {
    found(|mem, before, op, channel, a, answer| {
        if answer[0] == 2 && mem[LAYOUT] != LAYOUT_NUMBER {
            mem[LAYOUT] = LAYOUT_NUMBER;
            *answer = words::perform(mem, op, channel, a, 0);
            mem[LAYOUT] = before[LAYOUT];
        }
    });
    found(|mem, _, op, _, _, answer| {
        if op == 2 && answer[0] == 0 {
            mem[LAYOUT] = 0;
        }
    });
    // Power-up leaves what it finds.
    found(|mem, before, op, _, _, answer| {
        if op == 1 && answer[0] == 0 {
            mem[LAYOUT] = before[LAYOUT];
        }
    });
    // Only the next one above is known to be wrong.
    found(|mem, before, op, channel, a, answer| {
        if answer[0] == 2 && mem[LAYOUT] < LAYOUT_NUMBER {
            mem[LAYOUT] = LAYOUT_NUMBER;
            *answer = words::perform(mem, op, channel, a, 0);
            mem[LAYOUT] = before[LAYOUT];
        }
    });
}

#[test]
fn a_position_moved_by_a_clear_is_found_between_engines_on_words() {
    let slip = |mem: &mut [u32], before: &[u32], op: u32, channel: u32, _: u32, answer: &mut Vec<u32>| {
        if op == 145 && answer[0] == 0 && before[block(channel) + RECEIVE_LEVEL] > 0 {
            mem[block(channel) + RECEIVE_POSITION] = 0;
        }
    };
    let (_, difference) = compare(200_000, 7, &mut OnWords, &mut Slip(slip));
    assert!(difference.is_some());
}

// The history of fates.

fn item(op: u32, a: u32) -> Item {
    Item { op, channel: 1, a, b: 0 }
}

#[test]
fn each_entry_has_one_fate_in_number_order() {
    let items = [
        item(1, 1),
        item(32, 1),
        item(40, 2),
        item(38, 1),
        item(128, 1),
        item(128, 2),
        item(128, 4),
        item(129, 0),
        item(128, 8),
        item(128, 16),
        item(145, 0),
        item(128, 32),
    ];
    let mut mem = vec![0; need(1)];
    let mut ledger = Ledger::default();
    for Item { op, channel, a, b } in items {
        let answer = words::perform(&mut mem, op, channel, a, b);
        ledger.enter(Item { op, channel, a, b }, &answer).unwrap();
        ledger.check_words(&mem).unwrap();
    }
    ledger.check_fates().unwrap();
    let fates: Vec<_> = ledger.channels[0].receive.entries.iter().map(|e| (e.accepted_at, e.fate, e.fate_at)).collect();
    let (o, t, c, h) = (Fate::Overwritten, Fate::Taken, Fate::Cleared, Fate::Held);
    assert_eq!(fates, [(5, o, 7), (6, t, 8), (7, o, 10), (9, c, 11), (10, c, 11), (12, h, 0)]);
    assert_eq!(ledger.channels[0].counts()[..4], [6, 1, 2, 2]);
}

#[test]
fn a_made_up_count_and_a_made_up_entry_fall_to_the_history() {
    let mut mem = vec![0; need(1)];
    let mut ledger = Ledger::default();
    for Item { op, channel, a, b } in [item(1, 1), item(32, 1), item(128, 1)] {
        let answer = words::perform(&mut mem, op, channel, a, b);
        ledger.enter(Item { op, channel, a, b }, &answer).unwrap();
    }
    mem[block(1) + RECEIVE_READ] = 1;
    assert!(ledger.check_words(&mem).is_err());
    assert!(ledger.clone().enter(item(129, 0), &[0, 0, 2, 0]).is_err(), "not the oldest");
    assert!(ledger.enter(item(129, 0), &[0, 0, 1, 0]).is_ok());
    assert!(ledger.enter(item(129, 0), &[0, 0, 1, 0]).is_err(), "none held");
}

/// A list of its own choice runs too; a list with changes by others has no history.
#[test]
fn a_list_made_by_hand() {
    let events = vec![
        Event::Call(item(1, 1)),
        Event::Overwrite { word: COUNT, value: 13 },
        Event::Call(item(5, 0)),
        Event::Lend { words: MODULE_WORDS - 1 },
        Event::Call(item(5, 0)),
    ];
    let list = List { seed: 0, memory: vec![0; need(1)], events };
    let mut tally = Tally::default();
    run(&list, &mut AsModel::new(), &mut OnWords, &mut tally).unwrap();
    assert_eq!(tally.numbers.into_iter().collect::<Vec<_>>(), [(0, 1), (1, 1), (2, 1)]);
    assert_eq!(tally.in_history, 0);
}
