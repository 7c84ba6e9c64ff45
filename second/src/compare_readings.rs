//! Two consoles on the same words: every field in every kind, then random lists, words and values.

use crate::lists::Dice;
use crate::readings::{self, Reading, FIELD, FIRST_BIT, GREATEST_DECIMAL, GREATEST_DIVISOR, HALF_RANGE, SIGN};

/// What the C interface hands over.
pub trait Console {
    /// Number, kind and the bits of the value as a double; zeros beside a refusal.
    fn read(&mut self, list: &[u32], word: u32) -> (u32, u32, u64);
    /// 0 where reading is refused.
    fn whole(&mut self, list: &[u32], word: u32) -> i32;
    /// Number and word; 0 beside a refusal.
    fn encode(&mut self, list: &[u32], word: u32, value: i32) -> (u32, u32);
}

/// The readings of this program.
pub struct OwnConsole;

impl Console for OwnConsole {
    fn read(&mut self, list: &[u32], word: u32) -> (u32, u32, u64) {
        match readings::read(list, word) {
            Ok(Reading::Binary(units)) => (0, 1, units.to_bits()),
            Ok(Reading::Decimal(number)) => (0, 2, f64::from(number).to_bits()),
            Ok(Reading::Bits(field)) => (0, 3, f64::from(field).to_bits()),
            Err(number) => (number, 0, 0),
        }
    }

    fn whole(&mut self, list: &[u32], word: u32) -> i32 {
        readings::whole(list, word).unwrap_or(0)
    }

    fn encode(&mut self, list: &[u32], word: u32, value: i32) -> (u32, u32) {
        match readings::encode(list, word, value) {
            Ok(encoded) => (0, encoded),
            Err(number) => (number, 0),
        }
    }
}

/// Answers by number: 0, and 60 to 64 from place 1 on.
pub type Answers = [u64; 6];

#[derive(Default, Debug)]
pub struct Seen {
    /// Words of the first part, one for each field, kind, divisor and (decimal) sign.
    pub fields: u64,
    pub random: u64,
    pub read: Answers,
    pub wholes: u64,
    pub encoded: Answers,
}

fn enter(answers: &mut Answers, number: u32) {
    answers[if number == 0 { 0 } else { (number - 59) as usize }] += 1;
}

/// The numbers that were given and how often, for the summary line.
pub fn shown(answers: &Answers) -> String {
    let given = (0..6).filter(|&place| answers[place] > 0);
    let number = |place: usize| if place == 0 { 0 } else { place + 59 };
    let parts: Vec<String> = given.map(|place| format!("{}: {}", number(place), answers[place])).collect();
    parts.join(", ")
}

struct Pair<'a> {
    first: &'a mut dyn Console,
    second: &'a mut dyn Console,
    seen: Seen,
}

impl Pair<'_> {
    fn read(&mut self, list: &[u32], word: u32) -> Result<(u32, u32, u64), String> {
        let (one, other) = (self.first.read(list, word), self.second.read(list, word));
        if one != other {
            let told = |(number, kind, bits): (u32, u32, u64)| {
                format!("number {number}, kind {kind}, value {:?} ({bits:#018x})", f64::from_bits(bits))
            };
            return Err(format!("reading {word:#010x} by {list:?}: first {}; second {}", told(one), told(other)));
        }
        enter(&mut self.seen.read, one.0);
        Ok(one)
    }

    fn whole(&mut self, list: &[u32], word: u32) -> Result<i32, String> {
        let (one, other) = (self.first.whole(list, word), self.second.whole(list, word));
        if one != other {
            return Err(format!("whole number of {word:#010x} by {list:?}: first {one}; second {other}"));
        }
        self.seen.wholes += 1;
        Ok(one)
    }

    fn encode(&mut self, list: &[u32], word: u32, value: i32) -> Result<(u32, u32), String> {
        let (one, other) = (self.first.encode(list, word, value), self.second.encode(list, word, value));
        if one != other {
            let told = |(number, word): (u32, u32)| format!("number {number}, word {word:#010x}");
            let what = format!("encoding {value} into {word:#010x} by {list:?}");
            return Err(format!("{what}: first {}; second {}", told(one), told(other)));
        }
        enter(&mut self.seen.encoded, one.0);
        Ok(one)
    }

    /// Reads a word, and encodes its whole number into it and into a word with the same label.
    /// An accepted word is given back, minus zero excepted: that loses its sign.
    fn there_and_back(&mut self, list: &[u32], word: u32, same_label: u32) -> Result<(), String> {
        let (number, kind, _) = self.read(list, word)?;
        let whole = self.whole(list, word)?;
        let back = self.encode(list, word, whole)?;
        self.encode(list, same_label, whole)?;
        let expected = if kind == 2 && whole == 0 { word & !SIGN } else { word };
        if number == 0 && kind != 3 && back != (0, expected) {
            return Err(format!("{word:#010x} by {list:?} reads as {whole}, which encodes as {:#010x}", back.1));
        }
        Ok(())
    }

    fn every_field(&mut self, dice: &mut Dice) -> Result<(), String> {
        for field in 0..=FIELD >> FIRST_BIT {
            let word = dice.word() & !FIELD | field << FIRST_BIT;
            let same_label = dice.word() & !0xFF | word & 0xFF;
            let label = readings::label(word);
            for power in 0..=GREATEST_DIVISOR.ilog2() {
                self.there_and_back(&[label, 1, 1 << power], word, same_label)?;
            }
            for sign in 0..4 {
                let signed = word & !SIGN | sign << SIGN.trailing_zeros();
                self.there_and_back(&[label, 2, same_label], signed, same_label)?;
            }
            self.there_and_back(&[label, 3, same_label], word, same_label)?;
            self.seen.fields += 24;
        }
        Ok(())
    }

    fn random(&mut self, dice: &mut Dice) -> Result<(), String> {
        let list = random_list(dice);
        let word = random_word(dice, &list);
        let same_label = dice.word() & !0xFF | word & 0xFF;
        self.there_and_back(&list, word, same_label)?;
        for _ in 0..3 {
            self.encode(&list, word, random_value(dice))?;
        }
        self.seen.random += 1;
        Ok(())
    }
}

/// Runs both parts of the comparison, or stops at the first difference, told in words.
pub fn compare(lists: u64, seed: u64, first: &mut dyn Console, second: &mut dyn Console) -> Result<Seen, String> {
    let mut pair = Pair { first, second, seen: Seen::default() };
    let mut dice = Dice::new(seed);
    for _ in 0..lists {
        pair.random(&mut dice)?;
    }
    pair.every_field(&mut dice)?;
    Ok(pair.seen)
}

/// Short lists mostly, with labels that come again; in a part of them one number is a bad one, and some are cut.
fn random_list(dice: &mut Dice) -> Vec<u32> {
    let entries = if dice.chance(1) { dice.below(200) } else { dice.below(7) };
    // Few labels in some lists, so that a label is listed twice.
    let labels = dice.one_of(&[2, 8, 256]);
    let mut list = vec![];
    for _ in 0..entries {
        let label = if dice.chance(10) { dice.one_of(&[0, 255]) } else { 255 - dice.below(labels) };
        let kind = 1 + dice.below(3);
        let divisor = if kind == 1 { 1 << dice.below(19) } else { random_divisor(dice) };
        list.extend([label, kind, divisor]);
    }
    if entries > 0 && dice.chance(25) {
        let entry = 3 * dice.below(entries) as usize;
        match dice.below(3) {
            0 => {
                let above = list[entry] + (256 << dice.below(23));
                let any = dice.word();
                list[entry] = dice.one_of(&[256, above, u32::MAX, any]);
            }
            1 => {
                let above = list[entry + 1] + 4 * (1 << dice.below(30));
                let any = dice.word();
                list[entry + 1] = dice.one_of(&[0, 4, 5, above, u32::MAX, any]);
            }
            _ => {
                list[entry + 1] = 1;
                list[entry + 2] = random_divisor(dice);
            }
        }
    }
    if dice.chance(10) {
        if dice.chance(50) {
            list.truncate(list.len().saturating_sub(1 + dice.below(2) as usize));
        } else {
            for _ in 0..1 + dice.below(2) {
                list.push(dice.below(4));
            }
        }
    }
    list
}

/// Powers of two up to the last of 32 bits, their neighbours, and any number.
fn random_divisor(dice: &mut Dice) -> u32 {
    let power = 1 << dice.below(32);
    let near = dice.one_of(&[power - 1, power, power + 1, 3 * (power >> 2)]);
    let any = dice.word();
    dice.one_of(&[near, near, 0, 262_143, 262_144, 262_145, 524_288, u32::MAX, any])
}

/// A word with a listed label mostly, digits to 9 or to 15, a sign or any two bits, and the field's ends.
fn random_word(dice: &mut Dice, list: &[u32]) -> u32 {
    let mut word = dice.word();
    if !list.is_empty() && dice.chance(85) {
        let label = list[3 * dice.below((list.len() as u32).div_ceil(3)) as usize];
        // Reversed twice is the label again.
        word = word & !0xFF | readings::label(label);
    }
    let field = match dice.below(10) {
        0 => dice.one_of(&[0, 1, 0x3_FFFF, 0x4_0000, 0x4_0001, 0x7_9999, 0x7_FFFF]),
        1..=3 => dice.word() >> 13,
        _ => {
            let mut digits = dice.below(8);
            for _ in 0..4 {
                digits = digits << 4 | dice.below(10);
            }
            // One digit anywhere from 10 to 15.
            if dice.chance(30) {
                digits |= 0xA << (4 * dice.below(4));
            }
            digits
        }
    };
    let sign = if dice.chance(60) { dice.one_of(&[0, SIGN]) } else { dice.word() & SIGN };
    word & !(FIELD | SIGN) | field << FIRST_BIT | sign
}

/// Whole numbers in both ranges, at their ends and one outside, at the ends of 32 bits, and any.
fn random_value(dice: &mut Dice) -> i32 {
    let ends = [
        0,
        1,
        -1,
        GREATEST_DECIMAL,
        -GREATEST_DECIMAL,
        GREATEST_DECIMAL + 1,
        -GREATEST_DECIMAL - 1,
        HALF_RANGE - 1,
        HALF_RANGE,
        -HALF_RANGE,
        -HALF_RANGE - 1,
        2 * HALF_RANGE,
        -2 * HALF_RANGE,
        i32::MIN,
        i32::MIN + 1,
        i32::MAX,
    ];
    match dice.below(5) {
        0 | 1 => ends[dice.below(ends.len() as u32) as usize],
        2 => dice.below(2 * GREATEST_DECIMAL as u32 + 1) as i32 - GREATEST_DECIMAL,
        3 => dice.below(2 * HALF_RANGE as u32) as i32 - HALF_RANGE,
        _ => dice.word() as i32,
    }
}
