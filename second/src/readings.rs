//! Readings of a word by the site's label list, and a whole number put back into a word.
//!
//! A list is 32-bit numbers, three to an entry: octal label, kind (1 binary, 2 decimal, 3 bit field), divisor.
//! A reading stands in ARINC bits 11 to 29, D10 to D28; the sign of a decimal number in bits 30 and 31, D29 and D30.

/// An entry is cut short, or has a label above 255, an unknown kind or, where binary, another divisor.
pub const BAD_LIST: u32 = 60;
/// The label is not listed, or a bit field is to be encoded.
pub const NOT_LISTED: u32 = 61;
/// A sign that is neither plus nor minus.
pub const NO_SIGN: u32 = 62;
/// A digit above 9.
pub const NO_DIGIT: u32 = 63;
/// A value to encode is outside its range.
pub const OUT_OF_RANGE: u32 = 64;

/// ARINC bit 11.
pub const FIRST_BIT: u32 = 10;
/// Bits 11 to 29.
pub const FIELD: u32 = 0x1FFF_FC00;
/// Bits 30 and 31, both set for minus and both clear for plus.
pub const SIGN: u32 = 0x6000_0000;

/// The greatest binary number is one below this, the least is this below zero.
pub const HALF_RANGE: i32 = 262_144;
/// Four digits of 9 and the top one of three bits.
pub const GREATEST_DECIMAL: i32 = 79_999;
pub const GREATEST_DIVISOR: u32 = 262_144;

#[derive(Clone, Copy, PartialEq, Debug)]
pub enum Reading {
    /// In units: the whole number, divided by the list's divisor.
    Binary(f64),
    Decimal(i32),
    Bits(u32),
}

#[derive(Clone, Copy)]
enum Kind {
    Binary { divisor: u32 },
    Decimal,
    Bits,
}

/// The label as it is written in octal: bit 1 is its highest.
pub fn label(word: u32) -> u32 {
    (0..8).map(|bit| (word >> bit & 1) << (7 - bit)).sum()
}

/// An entry's label and kind; none for an entry that makes the list a bad one.
fn entry(numbers: &[u32]) -> Option<(u32, Kind)> {
    let &[label, kind, divisor] = numbers else {
        return None;
    };
    let kind = match kind {
        1 if divisor.is_power_of_two() && divisor <= GREATEST_DIVISOR => Kind::Binary { divisor },
        2 => Kind::Decimal,
        3 => Kind::Bits,
        _ => return None,
    };
    (label <= 255).then_some((label, kind))
}

/// The kind of a word by the first entry for its label. The whole list is tested, also behind that entry.
fn listed(list: &[u32], word: u32) -> Result<Kind, u32> {
    let asked = label(word);
    let mut first = None;
    for numbers in list.chunks(3) {
        let (label, kind) = entry(numbers).ok_or(BAD_LIST)?;
        if label == asked && first.is_none() {
            first = Some(kind);
        }
    }
    first.ok_or(NOT_LISTED)
}

fn field(word: u32) -> u32 {
    (word & FIELD) >> FIRST_BIT
}

/// Two's complement of 19 bits.
fn binary(word: u32) -> i32 {
    let field = field(word) as i32;
    if field < HALF_RANGE {
        field
    } else {
        field - 2 * HALF_RANGE
    }
}

fn decimal(word: u32) -> Result<i32, u32> {
    let minus = match word & SIGN {
        0 => false,
        SIGN => true,
        _ => return Err(NO_SIGN),
    };
    let mut number = 0;
    for place in (0..5).rev() {
        let digit = field(word) >> (4 * place) & 15;
        if digit > 9 {
            return Err(NO_DIGIT);
        }
        number = 10 * number + digit as i32;
    }
    Ok(if minus { -number } else { number })
}

/// The reading of a word, or the refusal's number.
pub fn read(list: &[u32], word: u32) -> Result<Reading, u32> {
    Ok(match listed(list, word)? {
        Kind::Binary { divisor } => Reading::Binary(f64::from(binary(word)) / f64::from(divisor)),
        Kind::Decimal => Reading::Decimal(decimal(word)?),
        Kind::Bits => Reading::Bits(field(word)),
    })
}

/// The whole number of a word: binary undivided, decimal, or the bit field. Refused as reading is.
pub fn whole(list: &[u32], word: u32) -> Result<i32, u32> {
    match listed(list, word)? {
        Kind::Binary { .. } => Ok(binary(word)),
        Kind::Decimal => decimal(word),
        Kind::Bits => Ok(field(word) as i32),
    }
}

/// The word with a whole number put into it, its other bits as they were, or the refusal's number.
pub fn encode(list: &[u32], word: u32, value: i32) -> Result<u32, u32> {
    match listed(list, word)? {
        Kind::Binary { .. } => {
            if !(-HALF_RANGE..HALF_RANGE).contains(&value) {
                return Err(OUT_OF_RANGE);
            }
            let field = if value < 0 { value + 2 * HALF_RANGE } else { value };
            Ok(word & !FIELD | (field as u32) << FIRST_BIT)
        }
        Kind::Decimal => {
            if !(-GREATEST_DECIMAL..=GREATEST_DECIMAL).contains(&value) {
                return Err(OUT_OF_RANGE);
            }
            let mut left = value.unsigned_abs();
            let mut field = 0;
            for place in 0..5 {
                field |= left % 10 << (4 * place);
                left /= 10;
            }
            let sign = if value < 0 { SIGN } else { 0 };
            Ok(word & !(FIELD | SIGN) | sign | field << FIRST_BIT)
        }
        Kind::Bits => Err(NOT_LISTED),
    }
}

#[cfg(test)]
mod tests {
    use super::*;

    /// Octal 203 binary in quarters, 201 decimal, 270 a bit field: low bytes 0xC1, 0x81 and 0x1D.
    const LIST: [u32; 9] = [0o203, 1, 4, 0o201, 2, 0, 0o270, 3, 77];

    #[test]
    fn the_label_is_the_low_byte_reversed() {
        assert_eq!(label(0xFFFF_FFA1), 0o205);
        assert_eq!([label(0xC1), label(0x81), label(0x1D)], [0o203, 0o201, 0o270]);
    }

    #[test]
    fn binary_from_its_least_to_its_greatest() {
        for (word, whole_number, units) in [
            (0x0000_00C1, 0, 0.0),
            (0x0000_04C1, 1, 0.25),
            (0x0FFF_FCC1, 262_143, 65_535.75),
            (0x1000_00C1, -262_144, -65_536.0),
            (0x1FFF_FCC1, -1, -0.25),
            // SDI and bits 30 to 32 are no part of it.
            (0xFFFF_FFC1, -1, -0.25),
            (0xE000_03C1, 0, 0.0),
        ] {
            assert_eq!(read(&LIST, word), Ok(Reading::Binary(units)));
            assert_eq!(whole(&LIST, word), Ok(whole_number));
            assert_eq!(encode(&LIST, word, whole_number), Ok(word));
        }
        assert_eq!(read(&[0o203, 1, 262_144], 0x0000_04C1), Ok(Reading::Binary(0.000003814697265625)));
        assert_eq!(read(&[0o203, 1, 1], 0x1000_00C1), Ok(Reading::Binary(-262_144.0)));
        let zero = read(&[0o203, 1, 2], 0xC1);
        assert!(matches!(zero, Ok(Reading::Binary(units)) if units.to_bits() == 0), "no minus zero");
    }

    #[test]
    fn binary_is_encoded_in_its_range_and_other_bits_stay() {
        assert_eq!(encode(&LIST, 0xE000_03C1, -262_144), Ok(0xF000_03C1));
        assert_eq!(encode(&LIST, 0xFFFF_FFC1, 262_143), Ok(0xEFFF_FFC1));
        assert_eq!(encode(&LIST, 0xA000_02C1, -1), Ok(0xBFFF_FEC1));
        for value in [-262_145, 262_144, i32::MIN, i32::MAX] {
            assert_eq!(encode(&LIST, 0xC1, value), Err(64));
        }
    }

    #[test]
    fn decimal_by_digits_and_sign() {
        assert_eq!(read(&LIST, 0x048D_1481), Ok(Reading::Decimal(12_345)));
        assert_eq!(read(&LIST, 0x648D_1481), Ok(Reading::Decimal(-12_345)));
        assert_eq!(read(&LIST, 0x248D_1481), Err(62));
        assert_eq!(read(&LIST, 0x448D_1481), Err(62));
        assert_eq!(read(&LIST, 0x9E66_6781), Ok(Reading::Decimal(79_999)));
        assert_eq!(read(&LIST, 0x7E66_6481), Ok(Reading::Decimal(-79_999)));
        assert_eq!(read(&LIST, 0x6000_0081), Ok(Reading::Decimal(0)));
        // 10 in each of the four lower digits; with a wrong sign the sign is told.
        for word in [0x0000_2881, 0x0002_8081, 0x0028_0081, 0x0280_0081] {
            assert_eq!(read(&LIST, word), Err(63));
            assert_eq!(whole(&LIST, word | SIGN), Err(63));
            assert_eq!(read(&LIST, word | 0x2000_0000), Err(62));
        }
        assert_eq!(read(&LIST, 0x1FFF_FC81), Err(63));
        assert_eq!(whole(&LIST, 0x648D_1481), Ok(-12_345));
        assert_eq!(whole(&LIST, 0x448D_1481), Err(62));
    }

    #[test]
    fn decimal_is_encoded_with_its_sign() {
        assert_eq!(encode(&LIST, 0x0000_0081, 12_345), Ok(0x048D_1481));
        assert_eq!(encode(&LIST, 0xFFFF_FF81, -12_345), Ok(0xE48D_1781));
        assert_eq!(encode(&LIST, 0xFFFF_FF81, 79_999), Ok(0x9E66_6781));
        assert_eq!(encode(&LIST, 0x0000_0081, -79_999), Ok(0x7E66_6481));
        // Zero is plus, also where the word held minus zero, a wrong sign or digits above 9.
        for word in [0x6000_0081, 0x2000_0081, 0x4000_2881, 0x7FFF_FC81] {
            assert_eq!(encode(&LIST, word, 0), Ok(0x81));
        }
        for value in [-80_000, 80_000, 262_143, i32::MIN, i32::MAX] {
            assert_eq!(encode(&LIST, 0x81, value), Err(64));
        }
    }

    #[test]
    fn a_bit_field_is_read_and_not_encoded() {
        assert_eq!(read(&LIST, 0xFFFF_FF1D), Ok(Reading::Bits(524_287)));
        assert_eq!(whole(&LIST, 0xFFFF_FF1D), Ok(524_287));
        assert_eq!(read(&LIST, 0x3000_041D), Ok(Reading::Bits(262_145)));
        assert_eq!(encode(&LIST, 0x1D, 0), Err(61));
        assert_eq!(encode(&LIST, 0x1D, i32::MAX), Err(61));
    }

    #[test]
    fn bad_lists() {
        let all = |list: &[u32], word: u32, number: u32| {
            assert_eq!(read(list, word), Err(number), "{list:?}");
            assert_eq!(whole(list, word), Err(number), "{list:?}");
            assert_eq!(encode(list, word, i32::MAX), Err(number), "{list:?}");
        };
        all(&[], 0xC1, 61);
        all(&LIST, 0xA1, 61);
        // Cut short behind a good entry for the label, and at the start.
        all(&LIST[..4], 0xC1, 60);
        all(&LIST[..8], 0xC1, 60);
        all(&[0o203], 0xC1, 60);
        // The bad entry stands before or behind the one that counts, or the label is not listed at all.
        for bad in [[256, 2, 1], [u32::MAX, 3, 1], [0, 0, 1], [0, 4, 1], [0, u32::MAX, 1]] {
            all(&[&bad[..], &LIST].concat(), 0xC1, 60);
            all(&[&LIST, &bad[..]].concat(), 0xC1, 60);
            all(&[&LIST, &bad[..]].concat(), 0xA1, 60);
        }
        for divisor in [0, 3, 6, 262_143, 262_145, 524_288, 0x8000_0000, u32::MAX] {
            all(&[0o203, 1, divisor], 0xC1, 60);
            // 60 stands before a bit field to encode, a wrong sign and a value out of range.
            all(&[&LIST[..], &[7, 1, divisor]].concat(), 0x1D, 60);
            all(&[&LIST[..], &[7, 1, divisor]].concat(), 0x2000_0081, 60);
            // Only a binary entry's divisor is read.
            assert_eq!(read(&[0o203, 2, divisor], 0x4C1), Ok(Reading::Decimal(1)));
            assert_eq!(read(&[0o203, 3, divisor], 0x4C1), Ok(Reading::Bits(1)));
        }
        assert_eq!(read(&[255, 3, 0], 0x4FF), Ok(Reading::Bits(1)));
    }

    #[test]
    fn the_first_entry_for_a_label_counts() {
        assert_eq!(read(&[0o203, 3, 0, 0o203, 1, 2], 0x1FFF_FCC1), Ok(Reading::Bits(524_287)));
        assert_eq!(read(&[0o203, 1, 2, 0o203, 3, 0], 0x1FFF_FCC1), Ok(Reading::Binary(-0.5)));
        assert_eq!(encode(&[0o203, 3, 0, 0o203, 1, 2], 0xC1, 0), Err(61));
        assert_eq!(encode(&[1, 2, 0, 0o203, 2, 0, 0o203, 1, 2], 0xC1, 80_000), Err(64));
    }
}
