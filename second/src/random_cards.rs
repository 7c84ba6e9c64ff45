//! Random bench cards: a schedule, async words, and a record that the schedule's own run made, with at most a little changed.

use crate::judge::{Card, Output, Run, MOST_OUTPUTS, NULL_WORD_NULL};
use crate::layout::{COMMANDS, LAST_COMMAND, MESSAGES};
use crate::lists::Dice;

/// Gaps at and beside the ends of the rules, at the first addresses of the message RAM; words stand behind them.
const GAPS: [u32; 16] = [0, 1, 3, 4, 5, 35, 36, 37, 38, 39, 40, 41, 60, 1_048_575, 1_048_576, u32::MAX];

/// Commands by code, other bits 0.
const STOP: u32 = 0x0000;
const MESSAGE: u32 = 0x1000;
const GAP: u32 = 0x2000;
const FIXED_GAP: u32 = 0x3000;
const PAUSE: u32 = 0x4000;
const INTERRUPT: u32 = 0x5000;
const JUMP: u32 = 0x6000;

/// Bits of a command that no code reads.
const IGNORED: u32 = 0xFFFF_0000;

fn message_ram(dice: &mut Dice) -> Vec<u32> {
    let mut ram: Vec<u32> = (0..MESSAGES).map(|_| dice.word()).collect();
    ram[..GAPS.len()].copy_from_slice(&GAPS);
    // Words that parity changes and words that it leaves.
    ram[GAPS.len()..GAPS.len() + 4].copy_from_slice(&[0, 1, 0x8000_0000, 0x8000_0001]);
    ram
}

/// A command with a code, an address for it, and now and then bits that are ignored.
fn command(dice: &mut Dice, code: u32, address: u32) -> u32 {
    let reads_nine = code == JUMP;
    let ignored = if dice.chance(30) { dice.word() & (IGNORED | if reads_nine { 0x0E00 } else { 0x0F00 }) } else { 0 };
    code | address | ignored
}

fn sending(dice: &mut Dice) -> u32 {
    match dice.below(10) {
        0..=4 => {
            let any = dice.below(MESSAGES as u32);
            let address = dice.one_of(&[any, 16, 17, 18, 19, 20]);
            command(dice, MESSAGE, address)
        }
        5..=8 => {
            let address = dice.below(GAPS.len() as u32);
            command(dice, GAP, address)
        }
        _ => {
            let address = dice.below(GAPS.len() as u32);
            command(dice, FIXED_GAP, address)
        }
    }
}

fn reserved(dice: &mut Dice) -> u32 {
    let (code, rest) = (7 + dice.below(9), dice.below(4096));
    code * 4096 + rest
}

/// A command that ends the run, or one that leads it to an address.
fn last(dice: &mut Dice, target: u32) -> u32 {
    let reserved = reserved(dice);
    let jump = command(dice, JUMP, target);
    dice.one_of(&[STOP, PAUSE, reserved, jump, jump, jump, jump])
}

/// Any command; jumps lead to addresses near 0, a few on, or near the end of the RAM.
fn any_command(dice: &mut Dice, address: u32) -> u32 {
    match dice.below(100) {
        0..=71 => sending(dice),
        72..=85 => {
            let rest = dice.below(4096);
            INTERRUPT | rest
        }
        86..=95 => {
            let (near, any) = (dice.below(12), dice.below(COMMANDS as u32));
            let on = (address + 1 + dice.below(3)) % COMMANDS as u32;
            let target = dice.one_of(&[near, on, on, on, 256, LAST_COMMAND - near, any]);
            command(dice, JUMP, target)
        }
        96 => PAUSE,
        97 => STOP,
        98 => reserved(dice),
        _ => dice.word(),
    }
}

/// Commands from address 0 on, then one that ends or leads back.
fn plain(dice: &mut Dice) -> Vec<u32> {
    let behind = dice.one_of(&[STOP, MESSAGE, INTERRUPT]);
    let mut ram = vec![behind; COMMANDS];
    let length = 1 + dice.below(24);
    for address in 0..length {
        ram[address as usize] = any_command(dice, address);
    }
    let target = dice.below(length);
    let target = dice.one_of(&[0, 0, target]);
    ram[length as usize] = last(dice, target);
    ram
}

/// A loop of messages and gaps with nothing that ends it: it fills any record.
fn endless(dice: &mut Dice) -> Vec<u32> {
    let mut ram = vec![STOP; COMMANDS];
    let length = 1 + dice.below(8);
    for place in 0..length {
        ram[place as usize] = if dice.chance(80) { sending(dice) } else { INTERRUPT };
    }
    ram[0] = sending(dice);
    ram[length as usize] = command(dice, JUMP, 0);
    ram
}

/// A jump to the last commands, which run over the RAM's end; the last one of all may lead on.
fn over_the_end(dice: &mut Dice) -> Vec<u32> {
    let mut ram = vec![INTERRUPT; COMMANDS];
    let from = LAST_COMMAND - dice.below(6);
    ram[0] = if dice.chance(50) { sending(dice) } else { INTERRUPT };
    ram[1] = command(dice, JUMP, from);
    for address in from..LAST_COMMAND {
        ram[address as usize] = if dice.chance(80) { sending(dice) } else { any_command(dice, address) };
    }
    let (sending, jump) = (sending(dice), command(dice, JUMP, 0));
    ram[LAST_COMMAND as usize] = dice.one_of(&[sending, sending, PAUSE, INTERRUPT, jump, STOP]);
    ram
}

/// Some outputs, then commands that send nothing for ever.
fn quiet_for_ever(dice: &mut Dice) -> Vec<u32> {
    let mut ram = vec![INTERRUPT; COMMANDS];
    let from = dice.below(8);
    for address in 0..from {
        ram[address as usize] = sending(dice);
    }
    let on = dice.below(20);
    let target = from + dice.below(on + 1);
    ram[(from + on) as usize] = command(dice, JUMP, target);
    ram
}

/// Runs of about as many quiet commands as there are addresses: interrupts, or jumps over the whole RAM, around no output or few.
fn quiet_at_length(dice: &mut Dice) -> Vec<u32> {
    let end = COMMANDS as u32;
    // Quiet commands lead from each address to the next, in an order that begins with 0.
    let mut order: Vec<u32> = (0..end).collect();
    if dice.chance(40) {
        for place in (2..COMMANDS).rev() {
            let other = 1 + dice.below(place as u32) as usize;
            order.swap(place, other);
        }
    }
    let mut ram = vec![STOP; COMMANDS];
    for (place, &address) in order.iter().enumerate() {
        let next = order[(place + 1) % COMMANDS];
        ram[address as usize] = if next == address + 1 { INTERRUPT } else { command(dice, JUMP, next) };
    }
    // The last of all may end the run: it is the 512th that sends nothing.
    if dice.chance(20) {
        let reserved = reserved(dice);
        ram[order[COMMANDS - 1] as usize] = dice.one_of(&[STOP, PAUSE, reserved]);
    }
    // With one sending command the next output follows on 511 quiet ones, or on fewer.
    for _ in 0..dice.below(3) {
        let any = dice.below(end);
        let place = dice.one_of(&[0, 1, end - 3, end - 2, end - 1, end - 1, any]);
        ram[order[place as usize] as usize] = sending(dice);
    }
    ram
}

fn schedule_ram(dice: &mut Dice) -> Vec<u32> {
    match dice.below(20) {
        0..=9 => plain(dice),
        10..=12 => endless(dice),
        13..=15 => over_the_end(dice),
        16 => quiet_for_ever(dice),
        17 | 18 => quiet_at_length(dice),
        _ => (0..COMMANDS as u32).map(|address| any_command(dice, address)).collect(),
    }
}

/// Async words in no order: several for one step, for steps that are soon or late, for step 0 and for steps never taken.
fn asyncs(dice: &mut Dice) -> Vec<(u32, u32)> {
    let (many, crowd) = (dice.below(40), dice.below(4097));
    let length = dice.one_of(&[0, 1, 2, 3, 5, 8, many, many]);
    let length = if dice.chance(1) { crowd } else { length };
    let within = dice.one_of(&[4, 10, 30, 600]);
    let mut list: Vec<(u32, u32)> = vec![];
    for _ in 0..length {
        let (step, far) = (1 + dice.below(within), dice.word());
        let before = list.last().map_or(1, |&(step, _)| step);
        let step = match dice.below(30) {
            0 => 0,
            1 => far,
            2 => u32::MAX,
            3..=8 => before,
            _ => step,
        };
        list.push((step, dice.word()));
    }
    list
}

/// The steps after which no output is asked for any more: few outputs have hundreds of quiet commands between them.
const STEPS: u32 = 10_000;

/// The outputs of a card's own run, up to so many.
fn record(card: &Card, most: usize) -> Vec<Output> {
    let mut run = Run::new(card);
    std::iter::from_fn(|| if run.steps() < STEPS { run.output().ok() } else { None }).take(most).collect()
}

/// An output of any form, those that no step has among them.
fn any_output(dice: &mut Dice) -> Output {
    let (word, form) = (dice.word(), dice.one_of(&[0, 1, 2, 3, 4, 5, 6, 7]));
    match form {
        2 => [2, word, 0, 0],
        3 => [3, GAPS[dice.below(GAPS.len() as u32) as usize], 0, 0],
        4 => [4, 4, word, dice.one_of(&[3, 4, 5, 24])],
        6 => [6, 4, word, 0],
        0 => [0, 0, 0, 0],
        _ => [form, dice.one_of(&[0, 4, word]), dice.one_of(&[0, 4, word]), 0],
    }
}

/// One number of an output becomes another.
fn slip(dice: &mut Dice, output: &mut Output) {
    let place = dice.one_of(&[0, 1, 1, 2, 3]) as usize;
    let (any, bit) = (dice.word(), 1 << dice.below(32));
    let near = output[place];
    output[place] = match place {
        0 => dice.one_of(&[0, 1, 2, 3, 4, 5, 6, 7]),
        // D31 as it would be with the other parity, beside the right number, or any.
        _ => dice.one_of(&[near ^ 0x8000_0000, near.wrapping_add(1), near.wrapping_sub(1), near ^ bit, any]),
    };
}

/// The record with one thing changed, at its end or in it.
fn change(dice: &mut Dice, outputs: &mut Vec<Output>) {
    let end = outputs.len() as u32;
    let with_async: Vec<u32> =
        (0..).zip(&*outputs).filter(|(_, output)| output[0] == NULL_WORD_NULL).map(|(at, _)| at).collect();
    let at = match dice.below(10) {
        0..=2 => end.saturating_sub(1),
        // Outputs with an async word are few.
        3 | 4 if !with_async.is_empty() => dice.one_of(&with_async),
        _ => dice.below(end.max(1)),
    } as usize;
    match dice.below(8) {
        0..=2 if end > 0 => slip(dice, &mut outputs[at]),
        3 if end > 0 => {
            outputs.remove(at);
        }
        4 if end > 0 => outputs.insert(at, outputs[at]),
        5 if end > 1 => outputs.swap(at, (at + 1) % end as usize),
        6 if end > 0 => outputs[at] = any_output(dice),
        _ => outputs.push(any_output(dice)),
    }
}

pub fn card(dice: &mut Dice) -> Card {
    let mut card = Card {
        parity: u32::from(dice.chance(60)),
        schedule: schedule_ram(dice),
        message: message_ram(dice),
        asyncs: asyncs(dice),
        outputs: vec![],
    };
    let (few, more) = (dice.below(12), dice.below(200));
    let most = match dice.below(40) {
        0..=18 => few as usize,
        19..=36 => more as usize,
        _ => MOST_OUTPUTS,
    };
    card.outputs = record(&card, most);
    match dice.below(10) {
        0..=3 => {}
        // One more than the run gives, or, where it gives more, another.
        4 => card.outputs.push(any_output(dice)),
        _ => change(dice, &mut card.outputs),
    }
    if dice.chance(2) {
        card.outputs.resize(MOST_OUTPUTS + 1 + dice.below(3) as usize, [3, 4, 0, 0]);
    }
    if dice.chance(3) {
        // With fewer words in all, the schedule RAM alone may be whole.
        let (words, near) = (dice.below((COMMANDS + MESSAGES) as u32) as usize, COMMANDS + MESSAGES - 1);
        let words = if dice.chance(40) { near } else { words };
        card.schedule.truncate(words);
        card.message.truncate(words.saturating_sub(COMMANDS));
    }
    card
}

/// Blanks that are ignored around fields; at least one where two fields meet.
fn blank(dice: &mut Dice, least: bool) -> &'static str {
    let blanks = if least { [" ", " ", " ", "  ", "\t", " \t "] } else { ["", "", "", " ", "\t", "\r"] };
    blanks[dice.below(6) as usize]
}

fn word_text(dice: &mut Dice, word: u32) -> String {
    let digits = match dice.below(4) {
        0 => format!("{word:X}"),
        1 => format!("{word:x}"),
        _ => format!("{word:08x}"),
    };
    if dice.chance(20) {
        format!("0x{digits}")
    } else {
        digits
    }
}

/// The card as text: async words and outputs in any order among themselves, and blanks wherever they are ignored.
pub fn text(dice: &mut Dice, card: &Card) -> String {
    let mut lines = vec![vec![card.parity.to_string()]];
    for &word in card.schedule.iter().chain(&card.message) {
        lines.push(vec![word_text(dice, word)]);
    }
    let (mut asyncs, mut outputs) = (card.asyncs.iter().peekable(), card.outputs.iter().peekable());
    while asyncs.peek().is_some() || outputs.peek().is_some() {
        if outputs.peek().is_none() || (asyncs.peek().is_some() && dice.chance(50)) {
            let &(step, word) = asyncs.next().expect("one was seen");
            lines.push(vec!["async".to_string(), step.to_string(), word_text(dice, word)]);
        } else {
            let numbers = outputs.next().expect("one was seen").iter().map(u32::to_string);
            lines.push(std::iter::once("out".to_string()).chain(numbers).collect());
        }
    }
    let loose = dice.chance(30);
    let mut text = String::new();
    for fields in lines {
        if loose && dice.chance(3) {
            text += blank(dice, true);
            text += "\n";
        }
        for (place, field) in fields.iter().enumerate() {
            let between = if place > 0 { " " } else { "" };
            text += if loose { blank(dice, place > 0) } else { between };
            text += field;
        }
        text += if loose { blank(dice, false) } else { "" };
        text += "\n";
    }
    // The last line needs no end.
    if dice.chance(20) {
        text.pop();
    }
    text
}
