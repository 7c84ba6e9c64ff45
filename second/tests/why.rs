//! Why a word was not there: each reason and each refusal worked out by hand, the same reasons from the ledger of fates, and
//! programs with one thing wrong, which the comparison finds out.

use second::calls::{Call, Item};
use second::compare_reasons::{compare, Explainer, OwnReasons};
use second::engine::{Engine, OnWords};
use second::layout::{need, CHANNELS, RECEIVE_MODE};
use second::ledger::{Fate, Ledger};
use second::lists::Dice;
use second::ops::*;
use second::random_questions::{bytes_of, question, Question};
use second::registers::Register;
use second::why::{explain, line, Reason, ITEM_BYTES, MOST_CALLS, NAMES};

fn on(channel: u32, op: u32, a: u32) -> Item {
    Item { op, channel, a, b: 0 }
}

/// The first line for a place of a list.
fn asked(count: u32, items: &[Item], place: u32) -> String {
    line(explain(count, &bytes_of(items), place, need(CHANNELS)))
}

/// Channel 1 with its receiver on (place 1), of size 1 (2), in a mode (3), of a kind (4); what follows stands from place 5 on.
fn of_size_1(mailbox: u32, circular: u32, behind: &[Item]) -> Vec<Item> {
    let set_up = [
        on(1, WRITE_RECEIVER, 1),
        on(1, WRITE_RECEIVE_SIZE, 1),
        on(1, WRITE_RECEIVE_MODE, mailbox),
        on(1, WRITE_FIFO_KIND, circular),
    ];
    [&set_up, behind].concat()
}

#[test]
fn a_refused_arrival_has_the_number_beside_it() {
    assert_eq!(asked(2, &[on(3, ARRIVAL, 1)], 1), "0 refused 3");
    assert_eq!(asked(2, &[on(0, ARRIVAL, 1)], 1), "0 refused 3");
    assert_eq!(asked(2, &[on(2, ARRIVAL, 1)], 1), "0 receiver-off 0");
}

#[test]
fn receiver_off_and_filtered() {
    let list = [
        on(1, ARRIVAL, 7),
        on(1, WRITE_RECEIVER, 1),
        on(1, WRITE_MATCH, 1),
        // P10: an empty set.
        on(1, ARRIVAL, 7),
        Item { op: MATCH_WRITE, channel: 1, a: 7, b: 1 },
        on(1, ARRIVAL, 7 + 1024),
        on(1, ARRIVAL, 8),
    ];
    let said: Vec<String> = [1, 4, 6, 7].iter().map(|&place| asked(1, &list, place)).collect();
    assert_eq!(said, ["0 receiver-off 0", "0 filtered 0", "0 held 0", "0 filtered 0"]);
}

#[test]
fn full_and_bounded_drops_full_and_circular_overwrites() {
    // P3 and P4.
    let two = [on(1, ARRIVAL, 1), on(1, ARRIVAL, 2)];
    let bounded = of_size_1(0, 0, &two);
    assert_eq!([asked(1, &bounded, 5), asked(1, &bounded, 6)], ["0 held 0", "0 dropped 0"]);
    let circular = of_size_1(0, 1, &two);
    assert_eq!([asked(1, &circular, 5), asked(1, &circular, 6)], ["0 overwritten 6", "0 held 0"]);
    // In mailbox mode it is the index entry.
    let bounded = of_size_1(1, 0, &two);
    assert_eq!([asked(1, &bounded, 5), asked(1, &bounded, 6)], ["0 held 0", "0 dropped 0"]);
    let circular = of_size_1(1, 1, &two);
    assert_eq!([asked(1, &circular, 5), asked(1, &circular, 6)], ["0 overwritten 6", "0 held 0"]);
}

#[test]
fn a_mailbox_that_is_new_is_already_listed_full_or_not() {
    let list =
        of_size_1(1, 0, &[on(1, ARRIVAL, 1), on(1, ARRIVAL, 1 + 1024), on(1, MAILBOX_READ, 1), on(1, ARRIVAL, 1)]);
    assert_eq!(asked(1, &list, 6), "0 already-listed 0");
    // The mailbox was read, the entry stands in the list: it is held, and the next is lost.
    assert_eq!(asked(1, &list, 5), "0 held 0");
    assert_eq!(asked(1, &list, 8), "0 dropped 0");
    // Taken from the list with the mailbox not read: read, and the next is already listed.
    let list = of_size_1(1, 0, &[on(1, ARRIVAL, 1), on(1, FIFO_READ, 0), on(1, ARRIVAL, 1)]);
    assert_eq!([asked(1, &list, 5), asked(1, &list, 7)], ["0 read 6", "0 already-listed 0"]);
}

#[test]
fn entries_are_read_oldest_first_on_their_own_channel() {
    let list = [
        on(1, WRITE_RECEIVER, 1),
        on(2, WRITE_RECEIVER, 1),
        on(1, ARRIVAL, 1),
        on(2, ARRIVAL, 1),
        on(1, ARRIVAL, 1),
        on(2, FIFO_READ, 0),
        on(2, FIFO_READ, 0),
        on(3, FIFO_READ, 0),
        on(1, FIFO_READ, 0),
    ];
    let said: Vec<String> = [3, 4, 5].iter().map(|&place| asked(2, &list, place)).collect();
    assert_eq!(said, ["0 read 9", "0 read 6", "0 held 0"]);
}

#[test]
fn each_call_that_clears_is_named_by_its_place() {
    let clearing = [
        on(1, WRITE_RECEIVE_MODE, 1),
        on(1, INITIATED_TEST, 0),
        on(1, INITIATED_TEST, 1),
        on(0, MODULE_RESET, 0),
        on(0, POWER_UP, 2),
        on(0, POWER_UP, 1),
    ];
    for call in clearing {
        let list = [on(1, WRITE_RECEIVER, 1), on(1, ARRIVAL, 1), on(1, STATUS_READ, 0), call, call];
        assert_eq!(asked(2, &list, 2), "0 cleared 4", "{call}");
    }
    let keeping = [
        // The mode that is held, one that is none, another channel, a count of more words than there are, counts that are none.
        on(1, WRITE_RECEIVE_MODE, 0),
        on(1, WRITE_RECEIVE_MODE, 2),
        on(2, WRITE_RECEIVE_MODE, 1),
        on(2, INITIATED_TEST, 0),
        on(1, INITIATED_TEST, 2),
        on(0, POWER_UP, 3),
        on(0, POWER_UP, 12),
        on(0, POWER_UP, 0),
        on(0, POWER_UP, 13),
        on(1, WRITE_RECEIVER, 0),
    ];
    for call in keeping {
        let list = [on(1, WRITE_RECEIVER, 1), on(1, ARRIVAL, 1), on(1, STATUS_READ, 0), call, call];
        assert_eq!(asked(2, &list, 2), "0 held 0", "{call}");
    }
}

#[test]
fn the_first_power_up_clears_and_the_module_is_as_large_as_it_says() {
    let list = [
        on(2, WRITE_RECEIVER, 1),
        on(2, ARRIVAL, 1),
        on(0, POWER_UP, 1),
        on(2, ARRIVAL, 1),
        // The memory still has words for two.
        on(0, POWER_UP, 2),
        on(2, ARRIVAL, 1),
    ];
    let said: Vec<String> = [2, 4, 6].iter().map(|&place| asked(2, &list, place)).collect();
    assert_eq!(said, ["0 cleared 3", "0 refused 3", "0 receiver-off 0"]);
}

#[test]
fn registers_are_calls_of_the_list_and_clear_nothing() {
    let access = |op, register: Register, b| Item { op, channel: 9, a: register.address(), b };
    let list = [
        on(1, WRITE_RECEIVER, 1),
        on(1, ARRIVAL, 1),
        access(REGISTER_READ, Register::Status { channel: 1 }, 0),
        access(REGISTER_WRITE, Register::Stop, 0xFFF),
        access(REGISTER_WRITE, Register::Trigger, 0xFFF),
        access(REGISTER_WRITE, Register::Status { channel: 1 }, 0),
        on(1, ARRIVAL, 1),
        on(1, FIFO_READ, 0),
    ];
    assert_eq!([asked(1, &list, 2), asked(1, &list, 7)], ["0 read 8", "0 held 0"]);
    assert_eq!(asked(1, &list, 4), "40 none 0");
}

/// The list that docs/REASONS.md tells of, for two channels.
#[test]
fn the_list_of_the_docs() {
    let list = [
        on(2, WRITE_RECEIVER, 1),
        on(2, WRITE_RECEIVE_SIZE, 2),
        on(2, WRITE_FIFO_KIND, 1),
        on(2, ARRIVAL, 1),
        on(2, ARRIVAL, 2),
        on(2, STATUS_READ, 0),
        on(2, ARRIVAL, 3),
        on(2, FIFO_READ, 0),
        on(0, POWER_UP, 3),
        on(0, MODULE_RESET, 0),
        on(2, ARRIVAL, 4),
    ];
    let said: Vec<String> = [4, 5, 7, 11, 3].iter().map(|&place| asked(2, &list, place)).collect();
    assert_eq!(said, ["0 overwritten 7", "0 read 8", "0 cleared 10", "0 receiver-off 0", "40 none 0"]);
    assert_eq!(asked(13, &list, 4), "4 none 0");
}

#[test]
fn refusals_are_given_in_their_order() {
    let mut items = vec![on(1, STEP, 0); MOST_CALLS + 1];
    items[5].op = 0;
    let bytes = bytes_of(&items);
    // Everything is wrong; then one thing after the other is not.
    assert_eq!(explain(2, &bytes, 0, need(2) - 1), Err(1));
    assert_eq!(explain(13, &bytes, 0, 0), Err(4));
    assert_eq!(explain(0, &bytes, 0, 0), Err(4));
    assert_eq!(explain(2, &bytes, 0, need(2)), Err(41));
    // A cut item counts, and is no call.
    assert_eq!(explain(2, &bytes[..MOST_CALLS * ITEM_BYTES + 1], 0, need(2)), Err(41));
    assert_eq!(explain(2, &bytes[..MOST_CALLS * ITEM_BYTES], 0, need(2)), Err(42));
    assert_eq!(explain(2, &bytes[..5 * ITEM_BYTES + 15], 0, need(2)), Err(42));
    let whole = &bytes[..5 * ITEM_BYTES];
    for place in [0, 1, 5, 6, u32::MAX] {
        assert_eq!(explain(2, whole, place, need(2)), Err(40));
    }
    assert_eq!(explain(2, &[], 0, need(2)), Err(40));
    assert_eq!(explain(2, &[], 1, need(2)), Err(40));
    items[5] = on(1, ARRIVAL, 1);
    assert_eq!(explain(2, &bytes_of(&items[..MOST_CALLS]), 6, need(2)), Ok(Reason::ReceiverOff));
}

/// From the right answer to another.
type Change = fn(&Question, Result<Reason, u32>) -> Result<Reason, u32>;

/// The answers of this program, with one thing changed.
struct Changed(Change);

fn right(question: &Question) -> Result<Reason, u32> {
    explain(question.count, &question.bytes, question.place, need(CHANNELS))
}

impl Explainer for Changed {
    fn line(&mut self, question: &Question) -> Result<String, String> {
        Ok(line((self.0)(question, right(question))))
    }
}

/// The reason by the calls on lent words and the ledger of fates, up to the first accepted power-up behind the arrival.
fn by_ledger(question: &Question, answer: Result<Reason, u32>) -> Result<Reason, u32> {
    // What the question itself is refused for.
    answer?;
    let mut mem = vec![0; need(question.count)];
    let mut ledger = Ledger::default();
    let mut perform = |item: Item| OnWords.perform(&mut mem, item.op, item.channel, item.a, item.b);
    let start = on(0, POWER_UP, question.count);
    ledger.enter(start, &perform(start)).expect("an accepted power-up");
    let mut accepted = None;
    for (place, bytes) in (1..).zip(question.bytes.chunks(ITEM_BYTES)) {
        let item = Item::of_bytes(bytes).expect("a whole item");
        let answer = perform(item);
        if place > question.place && item.op == POWER_UP && answer[0] == 0 {
            // Those that left before have their fate; the others are cleared.
            let (channel, number): (usize, usize) = accepted.expect("an arrival was entered");
            if ledger.channels[channel].receive.entries[number].fate == Fate::Held {
                return Ok(Reason::Cleared { at: place });
            }
            break;
        }
        ledger.enter(item, &answer).expect("an answer that follows from the history");
        if place == question.place {
            match answer[..] {
                [0, 0] => return Ok(Reason::ReceiverOff),
                [0, 1] => return Ok(Reason::Filtered),
                [0, 3] => return Ok(Reason::Dropped),
                [0, 5] => return Ok(Reason::AlreadyListed),
                [0, _] => {
                    let channel = item.channel as usize - 1;
                    accepted = Some((channel, ledger.channels[channel].receive.entries.len() - 1));
                }
                _ => return Ok(Reason::Refused { number: answer[0] }),
            }
        }
    }
    let (channel, number) = accepted.expect("an arrival was entered");
    let entry = &ledger.channels[channel].receive.entries[number];
    // The ledger's places count the power-up before the list.
    let at = entry.fate_at.saturating_sub(1) as u32;
    Ok(match entry.fate {
        Fate::Held => Reason::Held,
        Fate::Taken => Reason::Read { at },
        Fate::Cleared => Reason::Cleared { at },
        Fate::Overwritten => Reason::Overwritten { at },
    })
}

#[test]
fn the_ledger_of_fates_gives_the_same_reasons() {
    let seen = compare(3_000, 1, &mut OwnReasons, &mut Changed(by_ledger)).expect("the same reasons");
    println!("{}", seen.shown());
    assert!(seen.reasons.iter().all(|&times| times > 50), "{seen:?}");
    assert!(seen.clearing.iter().all(|&times| times > 20), "{seen:?}");
    assert!(seen.refusals.iter().all(|&times| times > 20), "{seen:?}");
}

#[test]
fn every_reason_is_met_in_both_modes() {
    let mut dice = Dice::new(1);
    let mut met = [[0; NAMES.len()]; 2];
    for _ in 0..3_000 {
        let asked = question(&mut dice);
        let Ok(reason) = right(&asked) else {
            continue;
        };
        // The mode of the channel when the word arrived.
        let mut mem = vec![0; need(asked.count)];
        let arrival = asked.item(asked.place).expect("an arrival");
        OnWords.perform(&mut mem, POWER_UP, 0, asked.count, 0);
        for bytes in asked.bytes.chunks(ITEM_BYTES).take(asked.place as usize - 1) {
            let Item { op, channel, a, b } = Item::of_bytes(bytes).expect("a whole item");
            OnWords.perform(&mut mem, op, channel, a, b);
        }
        let mode = OnWords.perform(&mut mem, SETTING_READ + RECEIVE_MODE as u32, arrival.channel, 0, 0);
        met[mode[1] as usize][reason.kind()] += 1;
    }
    for (mode, met) in ["FIFO mode", "mailbox mode"].iter().zip(met) {
        for (name, times) in NAMES.iter().zip(met) {
            println!("{times:>5} {name}, {mode}");
            // A refused arrival has no channel, and FIFO mode has no list.
            let none =
                mode == &"mailbox mode" && *name == "refused" || mode == &"FIFO mode" && *name == "already-listed";
            assert!(if none { times == 0 } else { times > 20 }, "{name}, {mode}: {times}");
        }
    }
}

/// The first place behind the arrival with such an item.
fn later(question: &Question, is: impl Fn(Item, Item) -> bool) -> Option<u32> {
    let arrival = question.item(question.place)?;
    (question.place + 1..=question.items() as u32).find(|&at| question.item(at).is_some_and(|item| is(arrival, item)))
}

#[test]
fn wrong_programs_are_found_out() {
    let wrong: [(&str, Change); 27] = [
        ("held answered for cleared", |_, answer| match answer {
            Ok(Reason::Cleared { .. }) => Ok(Reason::Held),
            _ => answer,
        }),
        ("places from 0", |_, answer| match answer {
            Ok(Reason::Read { at }) => Ok(Reason::Read { at: at - 1 }),
            _ => answer,
        }),
        ("places that count the power-up before the list", |_, answer| match answer {
            Ok(Reason::Cleared { at }) => Ok(Reason::Cleared { at: at + 1 }),
            _ => answer,
        }),
        ("a power-up that clears nothing", |question, answer| match answer {
            Ok(Reason::Cleared { at }) if question.item(at).unwrap().op == POWER_UP => Ok(Reason::Held),
            _ => answer,
        }),
        ("a refused power-up that clears", |question, answer| {
            match (answer, later(question, |_, item| item.op == POWER_UP)) {
                (Ok(Reason::Held), Some(at)) => Ok(Reason::Cleared { at }),
                _ => answer,
            }
        }),
        ("the last power-up told", |question, answer| match answer {
            Ok(Reason::Cleared { at }) if question.item(at).unwrap().op == POWER_UP => {
                let again = |&at: &u32| {
                    question.item(at).unwrap().op == POWER_UP && question.item(at).unwrap().a <= question.count
                };
                Ok(Reason::Cleared { at: (at..=question.items() as u32).rev().find(again).unwrap() })
            }
            _ => answer,
        }),
        ("already listed taken for dropped", |_, answer| match answer {
            Ok(Reason::AlreadyListed) => Ok(Reason::Dropped),
            _ => answer,
        }),
        ("dropped taken for overwritten by itself", |question, answer| match answer {
            Ok(Reason::Dropped) => Ok(Reason::Overwritten { at: question.place }),
            _ => answer,
        }),
        ("filtered taken for receiver off", |_, answer| match answer {
            Ok(Reason::Filtered) => Ok(Reason::ReceiverOff),
            _ => answer,
        }),
        ("overwritten taken for read", |_, answer| match answer {
            Ok(Reason::Overwritten { at }) => Ok(Reason::Read { at }),
            _ => answer,
        }),
        ("overwritten by the next arrival of all", |question, answer| match answer {
            Ok(Reason::Overwritten { .. }) => {
                Ok(Reason::Overwritten { at: later(question, |_, item| item.op == ARRIVAL).unwrap() })
            }
            _ => answer,
        }),
        ("read by the next read of all", |question, answer| match answer {
            Ok(Reason::Read { .. }) => {
                Ok(Reason::Read { at: later(question, |_, item| item.op == FIFO_READ).unwrap() })
            }
            _ => answer,
        }),
        ("a mailbox read that takes the entry", |question, answer| {
            let reads = |arrival: Item, item: Item| {
                (item.op, item.channel, item.a) == (MAILBOX_READ, arrival.channel, arrival.a % 1024)
            };
            match (answer, later(question, reads)) {
                (Ok(Reason::Held), Some(at)) => Ok(Reason::Read { at }),
                _ => answer,
            }
        }),
        ("the mode that is held clears", |question, answer| {
            let writes = |arrival: Item, item: Item| {
                (item.op, item.channel) == (WRITE_RECEIVE_MODE, arrival.channel) && item.a < 2
            };
            match (answer, later(question, writes)) {
                (Ok(Reason::Held), Some(at)) => Ok(Reason::Cleared { at }),
                _ => answer,
            }
        }),
        ("a test of another channel clears", |question, answer| {
            match (answer, later(question, |_, item| item.op == INITIATED_TEST)) {
                (Ok(Reason::Held), Some(at)) => Ok(Reason::Cleared { at }),
                _ => answer,
            }
        }),
        ("a reset told as held", |question, answer| match answer {
            Ok(Reason::Cleared { at }) if question.item(at).unwrap().op == MODULE_RESET => Ok(Reason::Held),
            _ => answer,
        }),
        ("refused with no number", |_, answer| match answer {
            Ok(Reason::Refused { .. }) => Ok(Reason::Refused { number: 0 }),
            _ => answer,
        }),
        ("an arrival that was refused taken for none", |_, answer| match answer {
            Ok(Reason::Refused { .. }) => Err(40),
            _ => answer,
        }),
        ("held taken for read behind the list", |question, answer| match answer {
            Ok(Reason::Held) => Ok(Reason::Read { at: question.items() as u32 + 1 }),
            _ => answer,
        }),
        ("40 before 42", |question, answer| match (answer, question.item(question.place)) {
            (Err(42), None) => Err(40),
            (Err(42), Some(item)) if item.op != ARRIVAL => Err(40),
            _ => answer,
        }),
        ("41 before 4", |question, answer| match answer {
            Err(4) if question.items() > MOST_CALLS => Err(41),
            _ => answer,
        }),
        ("42 before 41", |question, answer| {
            let no_call = |bytes| Item::of_bytes(bytes).and_then(Call::of).is_none();
            match answer {
                Err(41) if question.bytes.chunks(ITEM_BYTES).any(no_call) => Err(42),
                _ => answer,
            }
        }),
        ("4,096 calls refused", |question, answer| match answer {
            Ok(_) | Err(40 | 42) if question.items() == MOST_CALLS => Err(41),
            _ => answer,
        }),
        ("4,097 calls taken", |question, answer| match answer {
            Err(41) if question.items() == MOST_CALLS + 1 => {
                explain(question.count, &question.bytes[..MOST_CALLS * ITEM_BYTES], question.place, need(CHANNELS))
            }
            _ => answer,
        }),
        ("a cut item passed over", |question, answer| match answer {
            Err(42) if question.bytes.len() % ITEM_BYTES != 0 => {
                let whole = question.bytes.len() / ITEM_BYTES * ITEM_BYTES;
                explain(question.count, &question.bytes[..whole], question.place, need(CHANNELS))
            }
            _ => answer,
        }),
        ("an unknown op behind the place passed over", |question, answer| match answer {
            Err(42) => {
                let until = (question.place as usize).min(question.bytes.len() / ITEM_BYTES) * ITEM_BYTES;
                explain(question.count, &question.bytes[..until], question.place, need(CHANNELS))
            }
            _ => answer,
        }),
        ("a count of 0 taken for 1", |question, answer| match question.count {
            0 => explain(1, &question.bytes, question.place, need(CHANNELS)),
            _ => answer,
        }),
    ];
    for (what, change) in wrong {
        let difference = compare(4_000, 1, &mut OwnReasons, &mut Changed(change));
        assert!(difference.as_ref().is_err_and(|told| told.contains("against")), "{what}: {difference:?}");
    }
}
