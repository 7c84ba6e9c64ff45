//! Judging a bench card: the sentences of the request worked out by hand, its text, and judges with one thing wrong, which the
//! comparison finds out. They run the schedule on their own; with nothing wrong they agree with the model.

use second::compare_cards::{compare, Judge, OwnJudge};
use second::judge::{card_of, judge, Card, Output};
use second::layout::{COMMANDS, LAST_COMMAND, MESSAGES};
use second::lists::Dice;
use second::random_cards::{card, text};

const STOP: u32 = 0x0000;
const PAUSE: u32 = 0x4000;
const INTERRUPT: u32 = 0x5000;

fn message(address: u32) -> u32 {
    0x1000 + address
}

fn gap(address: u32) -> u32 {
    0x2000 + address
}

fn fixed_gap(address: u32) -> u32 {
    0x3000 + address
}

fn jump(address: u32) -> u32 {
    0x6000 + address
}

/// Parity off; the first commands, stops behind them, and the first words of the message RAM.
fn of(commands: &[u32], words: &[u32]) -> Card {
    let (mut schedule, mut message) = (vec![STOP; COMMANDS], vec![0; MESSAGES]);
    schedule[..commands.len()].copy_from_slice(commands);
    message[..words.len()].copy_from_slice(words);
    Card { parity: 0, schedule, message, ..Card::default() }
}

/// The line for a record of a card.
fn said(card: &Card, outputs: &[Output]) -> String {
    judge(&Card { outputs: outputs.to_vec(), ..card.clone() }).to_string()
}

fn with_asyncs(card: &Card, asyncs: &[(u32, u32)]) -> Card {
    Card { asyncs: asyncs.to_vec(), ..card.clone() }
}

fn word(word: u32) -> Output {
    [2, word, 0, 0]
}

fn null(time: u32) -> Output {
    [3, time, 0, 0]
}

fn async_in(word: u32, rest: u32) -> Output {
    [4, 4, word, rest]
}

fn null_and_word(word: u32) -> Output {
    [6, 4, word, 0]
}

/// "The start is command 0, just triggered, no word sent before, parity as given".
#[test]
fn the_start() {
    let card = of(&[message(0), message(1)], &[0, 1]);
    assert_eq!(said(&card, &[word(0), null_and_word(1)]), "0 yes");
    // No word was sent before, so the first one has no null.
    assert_eq!(said(&card, &[null_and_word(0)]), "0 1 2 0 0 0");
    // P1. Any number but 0 is on.
    for parity in [1, 2, u32::MAX] {
        let card = Card { parity, ..card.clone() };
        assert_eq!(said(&card, &[word(0x8000_0000), null_and_word(1)]), "0 yes");
        assert_eq!(said(&card, &[word(0)]), "0 1 2 2147483648 0 0");
    }
    // No async word waits.
    assert_eq!(said(&of(&[gap(0)], &[60]), &[null(60)]), "0 yes");
}

/// "above 2,048 outputs is refused with 70"; RAMs below 512 and 256 words: 1, tested before.
#[test]
fn refusals() {
    let card = of(&[gap(0), jump(0)], &[9]);
    assert_eq!(said(&card, &[null(9); 2048]), "0 yes");
    assert_eq!(said(&card, &[null(9); 2049]), "70 0");
    let mut last = [null(9); 2048];
    last[2047] = null(8);
    assert_eq!(said(&card, &last), "0 2048 3 9 0 0");
    for (commands, words) in [(511, 256), (512, 255), (0, 0), (600, 255)] {
        let mut short = card.clone();
        short.schedule.resize(commands, 0);
        short.message.resize(words, 0);
        assert_eq!(said(&short, &[]), "1 0");
        assert_eq!(said(&short, &[null(9); 2049]), "1 0");
    }
    let mut longer = card.clone();
    longer.schedule.resize(700, 0);
    longer.message.resize(300, 0);
    assert_eq!(said(&longer, &[null(9); 3]), "0 yes");
}

/// "forms in docs/; an output in none differs".
#[test]
fn an_output_in_no_form_differs() {
    let card = of(&[message(0), gap(1)], &[5, 60]);
    for wrong in [[0, 0, 0, 0], [1, 5, 4, 0], [5, 0, 0, 0], [7, 5, 0, 0], [2, 5, 0, 1], [2, 5, 1, 0], [4, 5, 0, 0]] {
        assert_eq!(said(&card, &[wrong]), "0 1 2 5 0 0", "{wrong:?}");
    }
    assert_eq!(said(&card, &[word(5), [3, 60, 60, 0]]), "0 2 3 60 0 0");
    // A quiet step is not recorded, also where the schedule is quiet.
    assert_eq!(said(&of(&[INTERRUPT, message(0)], &[5]), &[[0, 0, 0, 0], word(5)]), "0 1 2 5 0 0");
    assert_eq!(said(&of(&[0x7000], &[]), &[[5, 0, 0, 0]]), "0 1 nothing");
}

/// "the rules (with (i) and (vii))": the mark goes over jumps and interrupts, a gap of either kind clears it.
#[test]
fn two_words_with_no_gap() {
    let card = of(&[message(0), INTERRUPT, jump(300)], &[1, 2, 0]);
    let mut far = card.clone();
    far.schedule[300] = message(1);
    far.schedule[301] = gap(2);
    far.schedule[302] = message(0);
    far.schedule[303] = message(1);
    let record = [word(1), null_and_word(2), null(4), word(1), null_and_word(2)];
    assert_eq!(said(&far, &record), "0 yes");
    far.schedule[301] = fixed_gap(2);
    assert_eq!(said(&far, &record), "0 yes");
    assert_eq!(said(&far, &[word(1), word(2)]), "0 2 6 4 2 0");
    // An async word in the gap is followed by null: the next message is one of its own.
    let card = with_asyncs(&of(&[message(0), gap(1), message(0)], &[7, 40]), &[(2, 9)]);
    assert_eq!(said(&card, &[word(7), async_in(9, 4), word(7)]), "0 yes");
}

/// "else the place, from 1, of the first output that differs and what was due".
#[test]
fn the_first_that_differs() {
    let card = of(&[message(0), gap(1), message(2)], &[1, 39, 2]);
    assert_eq!(said(&card, &[word(1), null(39), word(2)]), "0 yes");
    assert_eq!(said(&card, &[word(2), null(38), word(3)]), "0 1 2 1 0 0");
    assert_eq!(said(&card, &[word(1), null(38), word(3)]), "0 2 3 39 0 0");
    assert_eq!(said(&card, &[word(1), null(39), word(3)]), "0 3 2 2 0 0");
}

/// P6 to P8, and the greatest gap.
#[test]
fn gaps() {
    let waiting = |time: u32| with_asyncs(&of(&[gap(0), gap(1)], &[time, 40]), &[(1, 8)]);
    assert_eq!(said(&waiting(39), &[null(39), async_in(8, 4)]), "0 yes");
    assert_eq!(said(&waiting(40), &[async_in(8, 4), null(40)]), "0 yes");
    assert_eq!(said(&waiting(3), &[null(4)]), "0 yes");
    assert_eq!(said(&waiting(u32::MAX), &[async_in(8, 1_048_539)]), "0 yes");
    // The async word has the parity too, and is never sent in a fixed gap.
    let card = Card { parity: 1, ..with_asyncs(&of(&[fixed_gap(0), gap(0)], &[60]), &[(1, 3)]) };
    assert_eq!(said(&card, &[null(60), async_in(0x8000_0003, 24)]), "0 yes");
}

/// "Async writes for one step go in list order; those for no step taken, or refused by the rules, are skipped."
#[test]
fn async_writes() {
    let card = of(&[INTERRUPT, gap(0), gap(0), gap(0)], &[60]);
    let (sent, quiet) = (|word| async_in(word, 24), null(60));
    // Before step 2 the first of the list waits, and the second is refused; a step that sends nothing is a step.
    assert_eq!(said(&with_asyncs(&card, &[(2, 1), (2, 2)]), &[sent(1), quiet, quiet]), "0 yes");
    assert_eq!(said(&with_asyncs(&card, &[(1, 1), (2, 2)]), &[sent(1), quiet, quiet]), "0 yes");
    assert_eq!(said(&with_asyncs(&card, &[(3, 1), (2, 2)]), &[sent(2), sent(1), quiet]), "0 yes");
    assert_eq!(said(&with_asyncs(&card, &[(4, 1), (4, 2)]), &[quiet, quiet, sent(1)]), "0 yes");
    assert_eq!(said(&with_asyncs(&card, &[(0, 1), (6, 2), (u32::MAX, 3)]), &[quiet, quiet, quiet]), "0 yes");
}

/// "Each schedule step is matched as one output in its own form": null and word are no two outputs.
#[test]
fn one_output_for_a_step() {
    let card = of(&[message(0), message(1)], &[1, 2]);
    assert_eq!(said(&card, &[word(1), null(4), word(2)]), "0 2 6 4 2 0");
    let card = with_asyncs(&of(&[gap(0)], &[60]), &[(1, 5)]);
    assert_eq!(said(&card, &[null(4), word(5), null(24)]), "0 1 4 4 5 24");
}

/// "Stepping ends with the record, when the schedule stops or pauses"; "a longer record differs at its first surplus output, nothing due".
#[test]
fn shorter_and_longer_records() {
    for last in [STOP, PAUSE, 0x7000, 0xF123, jump(1)] {
        let card = of(&[message(0), last, message(1)], &[1, 2]);
        assert_eq!(said(&card, &[]), "0 yes");
        assert_eq!(said(&card, &[word(1)]), "0 yes");
        assert_eq!(said(&card, &[word(1), word(1)]), "0 2 nothing", "{last:x}");
        assert_eq!(said(&card, &[word(1), null_and_word(2), word(7)]), "0 2 nothing", "{last:x}");
    }
    let card = of(&[message(0), message(0), gap(1), jump(0)], &[1, 9]);
    assert_eq!(said(&card, &[word(1), null_and_word(1), null(9), word(1)]), "0 yes");
}

/// The implied stop is behind command 511, whose own output still counts; a jump there goes to its target.
#[test]
fn the_end_of_the_ram() {
    let last = |command| {
        let mut card = of(&[jump(LAST_COMMAND), gap(1)], &[1, 9]);
        card.schedule[LAST_COMMAND as usize] = command;
        card
    };
    assert_eq!(said(&last(message(0)), &[word(1)]), "0 yes");
    assert_eq!(said(&last(message(0)), &[word(1), null(9)]), "0 2 nothing");
    assert_eq!(said(&last(INTERRUPT), &[null(9)]), "0 1 nothing");
    assert_eq!(said(&last(PAUSE), &[null(9)]), "0 1 nothing");
    assert_eq!(said(&last(jump(1)), &[null(9)]), "0 yes");
}

/// "after 512 commands in a row that sent nothing (none ever will)": with one that sends, 511 can stand before it.
#[test]
fn quiet_commands_in_a_row() {
    let mut card = of(&[INTERRUPT; COMMANDS], &[1]);
    card.schedule[LAST_COMMAND as usize] = message(0);
    assert_eq!(said(&card, &[word(1)]), "0 yes");
    assert_eq!(said(&card, &[word(1), word(1)]), "0 2 nothing");
    card.schedule[LAST_COMMAND as usize] = jump(0);
    assert_eq!(said(&card, &[word(1)]), "0 1 nothing");
    // From the word once around the RAM to it again.
    card.schedule[200] = message(0);
    assert_eq!(said(&card, &[word(1), null_and_word(1), null_and_word(1)]), "0 yes");
    assert_eq!(said(&card, &[word(1), word(1)]), "0 2 6 4 1 0");
}

/// The card that docs/BENCH_CARDS.md tells of.
#[test]
fn the_card_of_the_docs() {
    let commands = [message(0), gap(1), message(2), INTERRUPT, message(3), fixed_gap(4), gap(1), jump(256), message(6)];
    let mut card = of(&commands, &[0x6000_0010, 60, 1, 2, 3, 4, 5]);
    card.schedule[256] = message(5);
    card.schedule[257] = PAUSE;
    card.parity = 1;
    let card = with_asyncs(&card, &[(2, 0x6000_01a0), (2, 7), (7, 0x6000_01a1)]);
    let record = [word(0x6000_0010), async_in(0x6000_01a0, 24), word(1), null_and_word(2), null(4)];
    assert_eq!(said(&card, &[&record[..], &[null(60)]].concat()), "0 6 4 4 3758096801 24");
    let whole = [&record[..], &[async_in(0xe000_01a1, 24), word(4)]].concat();
    assert_eq!(said(&card, &whole), "0 yes");
    assert_eq!(said(&card, &[&whole[..], &[word(5)]].concat()), "0 8 nothing");
}

#[test]
fn the_text_of_a_card_gives_it_back() {
    let mut dice = Dice::new(5);
    for _ in 0..300 {
        let card = card(&mut dice);
        let text = text(&mut dice, &card);
        let read = card_of(&text).expect("a good text");
        assert_eq!(read.parity, card.parity);
        assert_eq!((&read.schedule, &read.message), (&card.schedule, &card.message));
        assert_eq!((&read.asyncs, &read.outputs), (&card.asyncs, &card.outputs));
    }
}

#[test]
fn wrong_lines_are_named() {
    let whole = "0\n".to_string() + &"1000\n".repeat(768);
    let told = |text: &str| card_of(text).expect_err("a wrong line");
    assert_eq!(told(""), "line 1: no parity");
    assert_eq!(told("2\n"), "line 1: no parity");
    assert_eq!(told("\n0 0\n"), "line 2: no parity");
    assert_eq!(told("0\n123456789\n"), "line 2: no word");
    assert_eq!(told("0\n0x\n"), "line 2: no word");
    assert_eq!(told("0\n1 2\n"), "line 2: no word");
    for wrong in
        ["1000", "async 1", "async 1 +5", "async x 5", "out 1 2 3", "out 1 2 3 4 5", "out 1 2 3 4294967296", "-"]
    {
        assert_eq!(told(&format!("{whole}\n{wrong}\n")), "line 771: no async word and no output", "{wrong}");
    }
    assert!(card_of(&format!("{whole}async 1 0xFFFFFFFF\r\nout\t1 2  3 4294967295")).is_ok());
}

/// What a judge takes for the rules.
#[derive(Clone, Copy, PartialEq, Debug)]
enum Slip {
    None,
    AsyncInAGapOf39,
    NoAsyncInAGapOf40,
    AsyncInAFixedGap,
    RestCountsTheGapBefore,
    AsyncWithNoParity,
    ParityAlwaysOn,
    SecondAsyncTakenForTheFirst,
    AsyncOfOneStepLastFirst,
    AsyncBehindItsStep,
    AsyncOfStep0,
    StepsThatSendAlone,
    WordMarkForgottenAtAnInterrupt,
    WordMarkForgottenAtAJump,
    WordMarkKeptOverAGap,
    WordMarkKeptOverAFixedGap,
    WordMarkKeptOverAnAsyncWord,
    WordMarkFromTheStart,
    GapsBelow4,
    GapsAboveTheGreatest,
    JumpsOfEightBits,
    JumpsFrom256Reserved,
    JumpFromTheLastCommand,
    ImpliedStopAfter255,
    LastOutputLost,
    AroundTheEnd,
    PauseGoesOn,
    ReservedPassedOver,
    ReservedRecorded,
    After511QuietCommands,
    SurplusWithSomethingDue,
    ShorterRecordDiffers,
    OtherFormsPassedOver,
    SpareNumbersIgnored,
    PlacesFrom0,
    RefusedAt2048,
    Refused70Before1,
    NoRefusalAt2049,
}

/// A judge that steps on its own.
struct Stepping<'a> {
    card: &'a Card,
    slip: Slip,
    /// None where it has stopped or paused.
    address: Option<u32>,
    after_word: bool,
    waiting: Option<u32>,
    step: u32,
}

impl Stepping<'_> {
    fn as_sent(&self, word: u32) -> u32 {
        let data = word & 0x7FFF_FFFF;
        match self.card.parity != 0 || self.slip == Slip::ParityAlwaysOn {
            true => data | (1 - data.count_ones() % 2) << 31,
            false => word,
        }
    }

    fn write_asyncs(&mut self) {
        let (slip, list) = (self.slip, &self.card.asyncs);
        for place in 0..list.len() {
            let (step, word) = match slip {
                Slip::AsyncOfOneStepLastFirst => list[list.len() - 1 - place],
                _ => list[place],
            };
            let its_own = match slip {
                Slip::AsyncBehindItsStep => step == self.step - 1 && step > 0,
                Slip::AsyncOfStep0 => step == self.step || (step == 0 && self.step == 1),
                _ => step == self.step,
            };
            if its_own && (self.waiting.is_none() || slip == Slip::SecondAsyncTakenForTheFirst) {
                self.waiting = Some(word);
            }
        }
    }

    /// The next output, where one is due.
    fn due(&mut self) -> Option<Output> {
        let slip = self.slip;
        let limit = if slip == Slip::After511QuietCommands { 511 } else { 512 };
        for _ in 0..limit {
            let address = self.address?;
            let command = self.card.schedule[address as usize];
            let stored = self.card.message[(command & 255) as usize];
            let code = command >> 12 & 15;
            if slip != Slip::StepsThatSendAlone || matches!(code, 1..=3) {
                self.step += 1;
                self.write_asyncs();
            }
            let last = if slip == Slip::ImpliedStopAfter255 { 255 } else { 511 };
            self.address = match address == last {
                true if slip == Slip::AroundTheEnd => Some(0),
                true => None,
                false => Some((address + 1) % 512),
            };
            let lost = address == 511 && slip == Slip::LastOutputLost;
            match code {
                0 => self.address = None,
                1 => {
                    let word = self.as_sent(stored);
                    let before = self.after_word;
                    self.after_word = true;
                    if !lost {
                        return Some(if before { [6, 4, word, 0] } else { [2, word, 0, 0] });
                    }
                }
                2 | 3 => {
                    let fixed = code == 3;
                    let time = stored.max(if slip == Slip::GapsBelow4 { 0 } else { 4 });
                    let time = if slip == Slip::GapsAboveTheGreatest { time } else { time.min(1_048_575) };
                    let least = match slip {
                        Slip::AsyncInAGapOf39 => 39,
                        Slip::NoAsyncInAGapOf40 => 41,
                        _ => 40,
                    };
                    let may = time >= least && (!fixed || slip == Slip::AsyncInAFixedGap);
                    let word = if may { self.waiting.take() } else { None };
                    let kept = match slip {
                        Slip::WordMarkKeptOverAGap => !fixed,
                        Slip::WordMarkKeptOverAFixedGap => fixed,
                        Slip::WordMarkKeptOverAnAsyncWord => word.is_some(),
                        _ => false,
                    };
                    self.after_word &= kept;
                    if lost {
                        continue;
                    }
                    return Some(match word {
                        Some(word) => {
                            let word = if slip == Slip::AsyncWithNoParity { word } else { self.as_sent(word) };
                            [4, 4, word, time - if slip == Slip::RestCountsTheGapBefore { 32 } else { 36 }]
                        }
                        None => [3, time, 0, 0],
                    });
                }
                4 if slip == Slip::PauseGoesOn => {}
                4 => self.address = None,
                5 => self.after_word &= slip != Slip::WordMarkForgottenAtAnInterrupt,
                6 => {
                    let target = command & if slip == Slip::JumpsOfEightBits { 255 } else { 511 };
                    self.after_word &= slip != Slip::WordMarkForgottenAtAJump;
                    self.address = match slip {
                        Slip::JumpsFrom256Reserved if target > 255 => None,
                        Slip::JumpFromTheLastCommand if address == 511 => None,
                        _ => Some(target),
                    };
                }
                _ if slip == Slip::ReservedPassedOver => {}
                _ => {
                    self.address = None;
                    if slip == Slip::ReservedRecorded {
                        return Some([5, address, 0, 0]);
                    }
                }
            }
        }
        None
    }
}

impl Judge for Slip {
    fn line(&mut self, card: &Card) -> Result<String, String> {
        let slip = *self;
        let short = card.schedule.len() < 512 || card.message.len() < 256;
        let too_long = match slip {
            Slip::RefusedAt2048 => card.outputs.len() >= 2048,
            Slip::NoRefusalAt2049 => card.outputs.len() > 2049,
            _ => card.outputs.len() > 2048,
        };
        match (short, too_long) {
            (true, true) if slip == Slip::Refused70Before1 => return Ok("70 0".to_string()),
            (true, _) => return Ok("1 0".to_string()),
            (false, true) => return Ok("70 0".to_string()),
            _ => {}
        }
        let after_word = slip == Slip::WordMarkFromTheStart;
        let mut stepping = Stepping { card, slip, address: Some(0), after_word, waiting: None, step: 0 };
        for (place, &recorded) in (1..).zip(&card.outputs) {
            if slip == Slip::OtherFormsPassedOver && !matches!(recorded[0], 2 | 3 | 4 | 6) {
                continue;
            }
            let due = stepping.due();
            let agrees = match due {
                Some(due) if slip == Slip::SpareNumbersIgnored && due[0] < 4 => due[..2] == recorded[..2],
                Some(due) => due == recorded,
                None => false,
            };
            let place = if slip == Slip::PlacesFrom0 { place - 1 } else { place };
            match due {
                _ if agrees => {}
                Some([form, x, y, z]) => return Ok(format!("0 {place} {form} {x} {y} {z}")),
                None if slip == Slip::SurplusWithSomethingDue => return Ok(format!("0 {place} 0 0 0 0")),
                None => return Ok(format!("0 {place} nothing")),
            }
        }
        if slip == Slip::ShorterRecordDiffers {
            if let Some([form, x, y, z]) = stepping.due() {
                return Ok(format!("0 {} {form} {x} {y} {z}", card.outputs.len() + 1));
            }
        }
        Ok("0 yes".to_string())
    }
}

#[test]
fn a_judge_that_steps_on_its_own_agrees() {
    let seen = compare(1_500, 1, &mut OwnJudge, &mut Slip::None).expect("the same verdicts");
    println!("{}", seen.shown());
    assert!(seen.kinds.iter().all(|&times| times > 10), "{seen:?}");
}

#[test]
fn wrong_judges_are_found_out() {
    let wrong = [
        Slip::AsyncInAGapOf39,
        Slip::NoAsyncInAGapOf40,
        Slip::AsyncInAFixedGap,
        Slip::RestCountsTheGapBefore,
        Slip::AsyncWithNoParity,
        Slip::ParityAlwaysOn,
        Slip::SecondAsyncTakenForTheFirst,
        Slip::AsyncOfOneStepLastFirst,
        Slip::AsyncBehindItsStep,
        Slip::AsyncOfStep0,
        Slip::StepsThatSendAlone,
        Slip::WordMarkForgottenAtAnInterrupt,
        Slip::WordMarkForgottenAtAJump,
        Slip::WordMarkKeptOverAGap,
        Slip::WordMarkKeptOverAFixedGap,
        Slip::WordMarkKeptOverAnAsyncWord,
        Slip::WordMarkFromTheStart,
        Slip::GapsBelow4,
        Slip::GapsAboveTheGreatest,
        Slip::JumpsOfEightBits,
        Slip::JumpsFrom256Reserved,
        Slip::JumpFromTheLastCommand,
        Slip::ImpliedStopAfter255,
        Slip::LastOutputLost,
        Slip::AroundTheEnd,
        Slip::PauseGoesOn,
        Slip::ReservedPassedOver,
        Slip::ReservedRecorded,
        Slip::After511QuietCommands,
        Slip::SurplusWithSomethingDue,
        Slip::ShorterRecordDiffers,
        Slip::OtherFormsPassedOver,
        Slip::SpareNumbersIgnored,
        Slip::PlacesFrom0,
        Slip::RefusedAt2048,
        Slip::Refused70Before1,
        Slip::NoRefusalAt2049,
    ];
    for mut slip in wrong {
        let difference = compare(4_000, 1, &mut OwnJudge, &mut slip);
        assert!(difference.as_ref().is_err_and(|told| told.contains("against")), "{slip:?}: {difference:?}");
    }
}
