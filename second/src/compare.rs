//! Two engines on the same list: the answers and the state after every call.

use std::collections::BTreeMap;

use crate::calls::{self, Call, Item, NO_CALL};
use crate::engine::Engine;
use crate::ledger::Ledger;
use crate::lists::{lists, Event, List};
use crate::ops::{REGISTER_READ, REGISTER_WRITE};
use crate::registers::Register;
use crate::spacing::Spacing;
use crate::writes::stray_write;

/// Calls in a list, about.
pub const LIST_CALLS: usize = 400;

/// How many calls there were, of which kind, and how they were answered.
#[derive(Default, Debug)]
pub struct Tally {
    pub calls: u64,
    pub accepted: u64,
    pub lists: u64,
    /// Calls entered into a history.
    pub in_history: u64,
    /// Calls and accepted calls, by op.
    pub kinds: BTreeMap<u32, (u64, u64)>,
    /// Accesses and accepted accesses, by way and register.
    pub accesses: BTreeMap<String, (u64, u64)>,
    /// Answers by number: 0, 1 to 7, 30 to 32, and 42.
    pub numbers: BTreeMap<u32, u64>,
    /// Accepted arrivals by outcome, and accepted steps by form.
    pub outcomes: BTreeMap<u32, u64>,
    pub forms: BTreeMap<u32, u64>,
}

impl Tally {
    fn enter(&mut self, item: Item, answer: &[u32]) {
        let accepted = answer[0] == 0;
        self.calls += 1;
        self.accepted += u64::from(accepted);
        let op = if Call::of(item).is_some() { item.op } else { u32::MAX };
        let kind = self.kinds.entry(op).or_default();
        kind.0 += 1;
        kind.1 += u64::from(accepted);
        if [REGISTER_READ, REGISTER_WRITE].contains(&op) {
            let register = Register::at(item.a).map_or("none", Register::name);
            let access = self.accesses.entry(format!("{}, {register}", calls::kind(op))).or_default();
            access.0 += 1;
            access.1 += u64::from(accepted);
        }
        *self.numbers.entry(answer[0]).or_default() += 1;
        if accepted && item.op == 128 {
            *self.outcomes.entry(answer[1]).or_default() += 1;
        }
        if accepted && item.op == 138 {
            *self.forms.entry(answer[1]).or_default() += 1;
        }
    }

    pub fn print(&self) {
        println!("{:<32}{:>10}{:>10}", "kind of call", "calls", "accepted");
        for (&op, (calls, accepted)) in &self.kinds {
            println!("{:<32}{calls:>10}{accepted:>10}", calls::kind(op));
        }
        println!("{:<32}{:>10}{:>10}", "all", self.calls, self.accepted);
        for (access, (calls, accepted)) in &self.accesses {
            println!("{access:<32}{calls:>10}{accepted:>10}");
        }
        println!("answers by number: {:?}", self.numbers);
        println!("arrivals by outcome: {:?}", self.outcomes);
        println!("steps by form: {:?}", self.forms);
        println!("lists: {}, calls in a history: {}", self.lists, self.in_history);
    }
}

/// Where two engines first differ.
#[derive(Debug)]
pub struct Difference {
    pub seed: u64,
    pub event: usize,
    pub what: String,
    /// The last events in words, the differing call last.
    pub last: Vec<String>,
}

/// Runs one list. The second engine keeps its state in its lent words; the first may have a state of its own.
pub fn run(list: &List, first: &mut dyn Engine, second: &mut dyn Engine, tally: &mut Tally) -> Result<(), Difference> {
    let mut own = list.memory.clone();
    let mut mem = list.memory.clone();
    let mut before = list.memory.clone();
    let mut lent = mem.len();
    let mut history: Option<History> = None;
    let mut said: Vec<Vec<u32>> = vec![];
    first.resume(&mem);
    second.resume(&mem);
    tally.lists += 1;
    for (place, &event) in list.events.iter().enumerate() {
        said.push(vec![]);
        match event {
            Event::Lend { words } => lent = words,
            Event::Overwrite { word, value } => {
                own[word] = value;
                mem[word] = value;
                before[word] = value;
                first.resume(&mem);
                second.resume(&mem);
            }
            Event::Call(item) => {
                let Item { op, channel, a, b } = item;
                let answer = first.perform(&mut own[..lent], op, channel, a, b);
                let other = second.perform(&mut mem[..lent], op, channel, a, b);
                tally.enter(item, &other);
                said[place] = other.clone();
                if place == 0 && op == 1 && other == [0] && !list.is_damaged() {
                    history = Some(History::default());
                }
                let fault = if answer != other {
                    Some(format!("answers: first {answer:?}, second {other:?}"))
                } else if let Some(stray) = stray_write(&before, &mem, item, &other) {
                    Some(format!("second: {stray}"))
                } else if let Some(difference) = first.difference(&own, &mem) {
                    Some(difference)
                } else if let Some(history) = &mut history {
                    tally.in_history += 1;
                    history.enter(item, &other, &*first, &mem).err().map(|what| format!("history: {what}"))
                } else {
                    None
                };
                if let Some(what) = fault {
                    return Err(Difference { seed: list.seed, event: place, what, last: last(list, &said) });
                }
                if other[0] == 0 {
                    before.copy_from_slice(&mem);
                }
            }
        }
    }
    match history.map(|history| history.ledger.check_fates()) {
        Some(Err(what)) => Err(Difference { seed: list.seed, event: list.events.len(), what, last: last(list, &said) }),
        _ => Ok(()),
    }
}

/// What the calls and answers since power-up tell: the fates, and the null time between words.
#[derive(Default)]
struct History {
    ledger: Ledger,
    spacing: Spacing,
}

impl History {
    fn enter(&mut self, item: Item, answer: &[u32], first: &dyn Engine, mem: &[u32]) -> Result<(), String> {
        self.spacing.enter(item, answer)?;
        self.ledger.enter(item, answer)?;
        if let Some(model) = first.model() {
            self.ledger.check_model(model)?;
        }
        self.ledger.check_words(mem)
    }
}

/// The last events in words, with the second engine's answers.
fn last(list: &List, said: &[Vec<u32>]) -> Vec<String> {
    let from = said.len().saturating_sub(12);
    (from..said.len())
        .map(|place| match list.events[place] {
            Event::Call(item) if said[place].first() == Some(&NO_CALL) => format!("{place}: {item}: no call"),
            Event::Call(item) => format!("{place}: {item}: answer {:?}", said[place]),
            Event::Overwrite { word, value } => format!("{place}: others write {value:#x} to word {word}"),
            Event::Lend { words } => format!("{place}: the first {words} words are lent"),
        })
        .collect()
}

/// Runs the lists of a seed until at least `calls` calls are done, or the engines differ.
pub fn compare(calls: u64, seed: u64, first: &mut dyn Engine, second: &mut dyn Engine) -> (Tally, Option<Difference>) {
    let mut tally = Tally::default();
    for list in lists(seed, LIST_CALLS) {
        if tally.calls >= calls {
            break;
        }
        if let Err(difference) = run(&list, first, second, &mut tally) {
            return (tally, Some(difference));
        }
    }
    (tally, None)
}
