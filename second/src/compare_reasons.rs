//! Two programs that say why a word was not there, on the same random questions.

use crate::calls::Item;
use crate::layout::{need, CHANNELS};
use crate::lists::Dice;
use crate::ops::*;
use crate::program;
use crate::random_questions::{question, Question};
use crate::why::{self, explain, Reason, COUNT, NAMES, NO_ARRIVAL, NO_CALL, TOO_LONG};

pub trait Explainer {
    /// The first line of the program for a question, with working memory for twelve channels.
    fn line(&mut self, question: &Question) -> Result<String, String>;
}

/// The reasons of this program.
pub struct OwnReasons;

impl Explainer for OwnReasons {
    fn line(&mut self, question: &Question) -> Result<String, String> {
        Ok(why::line(answer(question)))
    }
}

fn answer(question: &Question) -> Result<Reason, u32> {
    explain(question.count, &question.bytes, question.place, need(CHANNELS))
}

/// A program with the arguments COUNT PLACE and the list on its standard input. Behind its first line stands a sentence.
pub struct Program {
    pub path: String,
}

impl Explainer for Program {
    fn line(&mut self, question: &Question) -> Result<String, String> {
        let arguments = [question.count.to_string(), question.place.to_string()];
        let output = program::output_of(&self.path, &arguments, &question.bytes)?;
        let lines: Vec<&str> = output.lines().collect();
        match lines.as_slice() {
            [first, sentence] if !sentence.trim().is_empty() => Ok(first.to_string()),
            _ => Err(format!("no line with a sentence behind it: {output:?}")),
        }
    }
}

/// Refusals that memory for twelve channels leaves possible.
const REFUSALS: [u32; 4] = [COUNT, TOO_LONG, NO_CALL, NO_ARRIVAL];

/// The calls that clear a receive FIFO.
const CLEARING: [(u32, &str); 4] = [
    (WRITE_RECEIVE_MODE, "change of mode"),
    (INITIATED_TEST, "initiated test"),
    (MODULE_RESET, "module reset"),
    (POWER_UP, "power-up"),
];

#[derive(Default, Debug)]
pub struct Seen {
    pub questions: u64,
    pub items: u64,
    /// By the place among the names.
    pub reasons: [u64; NAMES.len()],
    /// By the place among the clearing calls.
    pub clearing: [u64; CLEARING.len()],
    pub refusals: [u64; REFUSALS.len()],
}

impl Seen {
    fn enter(&mut self, question: &Question, answer: Result<Reason, u32>) {
        self.questions += 1;
        self.items += question.items() as u64;
        match answer {
            Ok(reason) => {
                self.reasons[reason.kind()] += 1;
                if let Reason::Cleared { at } = reason {
                    let op = question.item(at).map(|Item { op, .. }| op);
                    if let Some(place) = CLEARING.iter().position(|&(clearing, _)| Some(clearing) == op) {
                        self.clearing[place] += 1;
                    }
                }
            }
            Err(number) => {
                if let Some(place) = REFUSALS.iter().position(|&refusal| refusal == number) {
                    self.refusals[place] += 1;
                }
            }
        }
    }

    /// Each reason, what cleared, and each refusal, with how often it was given.
    fn given(&self) -> [Vec<(String, u64)>; 3] {
        let reasons = NAMES.iter().zip(self.reasons).map(|(name, times)| (name.to_string(), times));
        let clearing = CLEARING.iter().zip(self.clearing).map(|((_, name), times)| (name.to_string(), times));
        let refusals = REFUSALS.iter().zip(self.refusals).map(|(number, times)| (number.to_string(), times));
        [reasons.collect(), clearing.collect(), refusals.collect()]
    }

    /// For the summary line.
    pub fn shown(&self) -> String {
        let [reasons, clearing, refusals] = self.given().map(|given| {
            let parts: Vec<String> = given.into_iter().map(|(name, times)| format!("{name} {times}")).collect();
            parts.join(", ")
        });
        let (questions, items) = (self.questions, self.items);
        format!("{questions} questions, {items} items; {reasons}; cleared by {clearing}; refusals {refusals}")
    }
}

/// Asks both, or stops at the first difference, told in words; also where a reason or a refusal was never given.
pub fn compare(cases: u64, seed: u64, first: &mut dyn Explainer, second: &mut dyn Explainer) -> Result<Seen, String> {
    let mut dice = Dice::new(seed);
    let mut seen = Seen::default();
    for case in 1..=cases {
        let question = question(&mut dice);
        let (one, other) = (first.line(&question)?, second.line(&question)?);
        if one != other {
            let item = question.item(question.place).map_or("no item".to_string(), |item| item.to_string());
            let Question { count, place, .. } = question;
            let list = format!("{count} channels, {} items, place {place}: {item}", question.items());
            return Err(format!("case {case}, {list}: {one:?} against {other:?}"));
        }
        seen.enter(&question, answer(&question));
    }
    match seen.given().into_iter().flatten().find(|&(_, times)| times == 0) {
        Some((name, _)) => Err(format!("{name} was never given: {}", seen.shown())),
        None => Ok(seen),
    }
}
