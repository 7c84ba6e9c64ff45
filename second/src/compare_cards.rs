//! Two judges of bench cards on the same random cards.

use crate::judge::{judge_with_end, Card, End, Verdict, NULL, NULL_WORD, NULL_WORD_NULL, SHORT, TOO_LONG, WORD};
use crate::lists::Dice;
use crate::program;
use crate::random_cards::{card, text};

pub trait Judge {
    /// The line of the program for a card.
    fn line(&mut self, card: &Card) -> Result<String, String>;
}

/// The verdicts of this program.
pub struct OwnJudge;

impl Judge for OwnJudge {
    fn line(&mut self, card: &Card) -> Result<String, String> {
        Ok(judge_with_end(card).0.to_string())
    }
}

/// A program with the text of the card on its standard input.
pub struct Program {
    path: String,
    /// For what the text leaves free.
    dice: Dice,
}

impl Program {
    pub fn new(path: &str, seed: u64) -> Program {
        Program { path: path.to_string(), dice: Dice::new(seed) }
    }
}

impl Judge for Program {
    fn line(&mut self, card: &Card) -> Result<String, String> {
        let text = text(&mut self.dice, card);
        let output = program::output_of(&self.path, &[], text.as_bytes())?;
        output.strip_suffix('\n').map(str::to_string).ok_or_else(|| format!("no line: {output:?}"))
    }
}

/// The kinds of answers; of those with nothing due also why.
pub const KINDS: [&str; 12] = [
    "yes",
    "word due",
    "null due",
    "null, word and null due",
    "null and word due",
    "nothing after a stop",
    "after a pause",
    "after a reserved command",
    "after the end of the RAM",
    "after 512 quiet commands",
    "refused with 1",
    "with 70",
];

fn kind((verdict, end): (Verdict, Option<End>)) -> Option<usize> {
    Some(match verdict {
        Verdict::Yes => 0,
        Verdict::Differs { due: Some([WORD, ..]), .. } => 1,
        Verdict::Differs { due: Some([NULL, ..]), .. } => 2,
        Verdict::Differs { due: Some([NULL_WORD_NULL, ..]), .. } => 3,
        Verdict::Differs { due: Some([NULL_WORD, ..]), .. } => 4,
        Verdict::Differs { due: Some(_), .. } => return None,
        Verdict::Differs { due: None, .. } => match end? {
            End::Stop => 5,
            End::Pause => 6,
            End::Reserved => 7,
            End::OfRam => 8,
            End::Quiet => 9,
        },
        Verdict::Refused { number: SHORT } => 10,
        Verdict::Refused { number: TOO_LONG } => 11,
        Verdict::Refused { .. } => return None,
    })
}

#[derive(Default, Debug)]
pub struct Seen {
    pub cards: u64,
    pub outputs: u64,
    /// By the place among the kinds.
    pub kinds: [u64; KINDS.len()],
}

impl Seen {
    /// For the summary line.
    pub fn shown(&self) -> String {
        let parts: Vec<String> = KINDS.iter().zip(self.kinds).map(|(name, times)| format!("{name} {times}")).collect();
        format!("{} cards, {} outputs; {}", self.cards, self.outputs, parts.join(", "))
    }
}

/// Asks both, or stops at the first difference, told in words; also where a kind of answer was never given.
pub fn compare(cases: u64, seed: u64, first: &mut dyn Judge, second: &mut dyn Judge) -> Result<Seen, String> {
    let mut dice = Dice::new(seed);
    let mut seen = Seen::default();
    for case in 1..=cases {
        let card = card(&mut dice);
        let (one, other) = (first.line(&card)?, second.line(&card)?);
        if one != other {
            let (asyncs, outputs) = (card.asyncs.len(), card.outputs.len());
            let lists = format!("{asyncs} async words, {outputs} outputs");
            return Err(format!("case {case}, {lists}: {one:?} against {other:?}"));
        }
        seen.cards += 1;
        seen.outputs += card.outputs.len() as u64;
        let kind = kind(judge_with_end(&card)).ok_or("an answer of no kind")?;
        seen.kinds[kind] += 1;
    }
    match KINDS.iter().zip(seen.kinds).find(|&(_, times)| times == 0) {
        Some((name, _)) => Err(format!("{name}: never given; {}", seen.shown())),
        None => Ok(seen),
    }
}
