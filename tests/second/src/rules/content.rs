//! Content: whether it is valid, its first wrong byte, the digits and the sign
//! of numeric content.

use super::tables::Row;

/// "Valid content: kind 3, every byte hex 30 to 39. Kind 4, all but the last
/// byte so; the last has left half 3 (plus) or 4 (minus) and right half 0 to 9.
/// Kinds 5, 6: one + or −, else digits (hex 2B, 2D)." Kind 5 has the sign
/// leading, kind 6 trailing. Kinds 8, 9 are packed. Other kinds have no rule.
pub fn valid_content(row: &Row, bytes: &[u8]) -> bool {
    match (row.kind, bytes) {
        (3, _) => all_digits(bytes),
        (4, [rest @ .., last]) => all_digits(rest) && matches!(last, 0x30..=0x39 | 0x40..=0x49),
        (5, [sign, rest @ ..]) | (6, [rest @ .., sign]) => {
            matches!(sign, 0x2B | 0x2D) && all_digits(rest)
        }
        (8 | 9, [rest @ .., last]) => valid_packed(row, rest, *last),
        _ => true,
    }
}

/// What document 001 examines in its NUMERIC test of a packed item: both halves
/// of all bytes but the last, the left half of the last, "a zero half leads
/// where their count is even, and the last half is 3 for plus or 4 for minus,
/// kind 9 only 3" (02, f).
fn valid_packed(row: &Row, rest: &[u8], last: u8) -> bool {
    let digit = |half: u8| half <= 9;
    let first = rest.first().unwrap_or(&last);
    rest.iter().all(|byte| digit(byte >> 4) && digit(byte & 15))
        && digit(last >> 4)
        && (row.digits % 2 == 1 || first >> 4 == 0)
        && (last & 15 == 3 || (row.kind == 8 && last & 15 == 4))
}

/// The place in invalid content of "the item's first wrong byte" (02, c).
pub fn first_wrong(row: &Row, bytes: &[u8]) -> Option<usize> {
    let last = bytes.len() - 1;
    let fits = |place: usize, byte: u8| match row.kind {
        4 if place == last => matches!(byte, 0x30..=0x39 | 0x40..=0x49),
        5 if place == 0 => matches!(byte, 0x2B | 0x2D),
        6 if place == last => matches!(byte, 0x2B | 0x2D),
        3..=6 => byte.is_ascii_digit(),
        _ => true,
    };
    if row.packed() {
        return first_wrong_half(row, bytes).map(|half| half / 2);
    }
    (0..=last).find(|&place| !fits(place, bytes[place]))
}

/// The half-bytes from the left: a zero where the digits are even, the digits,
/// the sign.
fn halves(bytes: &[u8]) -> impl Iterator<Item = u8> + '_ {
    bytes.iter().flat_map(|byte| [byte >> 4, byte & 15])
}

fn first_wrong_half(row: &Row, bytes: &[u8]) -> Option<usize> {
    let sign = 2 * bytes.len() - 1;
    let fits = |(place, half): (usize, u8)| match place {
        0 if row.digits.is_multiple_of(2) => half == 0,
        _ if place < sign => half <= 9,
        _ if row.kind == 9 => half == 3,
        _ => matches!(half, 3 | 4),
    };
    halves(bytes).enumerate().position(|half| !fits(half))
}

/// The place of the first "byte other than a letter or space" (02, g).
pub fn first_no_letter(bytes: &[u8]) -> Option<usize> {
    let fits = |byte: &u8| matches!(byte, b'A'..=b'Z' | b'a'..=b'z' | b' ');
    bytes.iter().position(|byte| !fits(byte))
}

pub fn all_digits(bytes: &[u8]) -> bool {
    bytes.iter().all(u8::is_ascii_digit)
}

/// The digits of a numeric operand as characters, 1 to 18 of them.
pub struct Digits {
    pub characters: [u8; 18],
    pub count: usize,
}

impl Digits {
    pub fn bytes(&self) -> &[u8] {
        &self.characters[..self.count]
    }
}

/// The digits of valid content. The last digit of kind 4 is its right half.
pub fn digits(row: &Row, bytes: &[u8]) -> Digits {
    let part = match row.kind {
        5 => &bytes[1..],
        6 => &bytes[..bytes.len() - 1],
        _ => bytes,
    };
    let mut characters = [0; 18];
    if row.packed() {
        let leading = usize::from(row.digits.is_multiple_of(2));
        put_digits(&mut characters, halves(part).skip(leading));
    } else {
        put_digits(&mut characters, part.iter().copied());
    }
    let count = row.digits as usize;
    Digits { characters, count }
}

/// The digits lie in right halves; what comes behind them is not asked for.
fn put_digits(characters: &mut [u8], digits: impl Iterator<Item = u8>) {
    for (character, digit) in characters.iter_mut().zip(digits) {
        *character = 0x30 | (digit & 0x0F);
    }
}

/// The sign of valid content.
pub fn is_minus(row: &Row, bytes: &[u8]) -> bool {
    let (first, last) = (bytes[0], bytes[bytes.len() - 1]);
    match row.kind {
        4 => last >> 4 == 4,
        5 => first == b'-',
        6 => last == b'-',
        8 => last & 15 == 4,
        _ => false,
    }
}

/// The signed digit value; none of invalid content. "Zero has one value whatever
/// its sign."
pub fn value(row: &Row, bytes: &[u8]) -> Option<i64> {
    if !valid_content(row, bytes) {
        return None;
    }
    let text = digits(row, bytes);
    let add_digit = |value: i64, &character: &u8| 10 * value + i64::from(character - b'0');
    let value = text.bytes().iter().fold(0, add_digit);
    Some(if is_minus(row, bytes) { -value } else { value })
}

#[cfg(test)]
mod tests {
    use super::*;

    fn row(kind: u32, digits: u32, bytes: &[u8]) -> Row {
        Row::of(&[kind, 0, bytes.len() as u32, 0, digits])
    }

    /// Every byte at every place of otherwise valid content, before and behind
    /// another wrong byte.
    #[test]
    fn first_wrong_byte_at_every_place() {
        let samples: [(u32, u32, &[u8]); 11] = [
            (3, 5, b"12345"),
            (4, 5, b"1234E"),
            (4, 1, b"7"),
            (5, 4, b"+1234"),
            (6, 4, b"1234-"),
            (8, 5, b"\x12\x34\x54"),
            (8, 4, b"\x01\x23\x43"),
            (8, 1, b"\x93"),
            (9, 2, b"\x09\x93"),
            (9, 3, b"\x00\x03"),
            (9, 1, b"\x03"),
        ];
        for (kind, digits, valid) in samples {
            let row = row(kind, digits, valid);
            assert_eq!(first_wrong(&row, valid), None);
            for place in 0..valid.len() {
                for byte in 0..=255 {
                    let mut changed = valid.to_vec();
                    changed[place] = byte;
                    let wrong = (!valid_content(&row, &changed)).then_some(place);
                    assert_eq!(first_wrong(&row, &changed), wrong, "{kind} {changed:?}");
                    changed[valid.len() - 1] = b' ';
                    let wrong = wrong.unwrap_or(valid.len() - 1);
                    assert_eq!(first_wrong(&row, &changed), Some(wrong));
                }
            }
        }
    }

    #[test]
    fn letters_and_spaces() {
        let fine = |byte: u8| byte.is_ascii_alphabetic() || byte == 0x20;
        assert_eq!((0..=255).filter(|&byte| fine(byte)).count(), 53);
        for byte in 0..=255 {
            let wrong = (!fine(byte)).then_some(2);
            assert_eq!(first_no_letter(&[b'A', b' ', byte, b'z']), wrong);
        }
        assert_eq!(first_no_letter(b"7-"), Some(0));
    }

    #[test]
    fn signs_by_their_own_rule() {
        let check = |kind, digits, bytes: &[u8], wrong| {
            assert_eq!(first_wrong(&row(kind, digits, bytes), bytes), wrong);
        };
        check(5, 3, b"1234", Some(0));
        check(5, 3, b"++12", Some(1));
        check(6, 3, b"+12+", Some(0));
        check(6, 3, b"1234", Some(3));
        check(6, 2, b"   ", Some(0));
        check(4, 2, b"1E", None);
        check(4, 2, b"1J", Some(1));
        check(4, 2, b"E1", Some(0));
        check(3, 2, b"1E", Some(1));
    }

    /// The packed items among the examples of document 001 for NUMERIC.
    #[test]
    fn packed_examples_of_the_maker() {
        for (kind, digits, bytes, numeric) in [
            (9, 4, [0x00, 0x00, 0x00], false),
            (9, 4, [0x02, 0x34, 0x53], true),
            (9, 4, [0x02, 0x34, 0x54], false),
            (9, 4, [0x12, 0x34, 0x53], false),
            (8, 4, [0x02, 0x34, 0x54], true),
            (9, 5, [0x12, 0x34, 0x53], true),
        ] {
            assert_eq!(valid_content(&row(kind, digits, &bytes), &bytes), numeric);
        }
    }

    /// Every digit count, the digits 1 to 9 in turn: what is picked out, and each
    /// half put to every value.
    #[test]
    fn halves_of_every_digit_count() {
        for count in 1..=18_u32 {
            let text: String = (0..count)
                .map(|i| char::from(b'1' + (i % 9) as u8))
                .collect();
            let lead = if count % 2 == 0 { "0" } else { "" };
            for (kind, sign) in [(8, "3"), (8, "4"), (9, "3")] {
                let hexadecimal = format!("{lead}{text}{sign}");
                let bytes = packed(&hexadecimal);
                let row = row(kind, count, &bytes);
                assert!(row.keeps_rules() && valid_content(&row, &bytes));
                assert_eq!(digits(&row, &bytes).bytes(), text.as_bytes());
                assert_eq!(is_minus(&row, &bytes), sign == "4");
                for place in 0..hexadecimal.len() {
                    for half in 0..16 {
                        let mut other = hexadecimal.clone();
                        other.replace_range(place..=place, &format!("{half:X}"));
                        let allowed: &[u32] = match (place, kind) {
                            (0, _) if count % 2 == 0 => &[0],
                            (_, 9) if place + 1 == other.len() => &[3],
                            (_, _) if place + 1 == other.len() => &[3, 4],
                            _ => &[0, 1, 2, 3, 4, 5, 6, 7, 8, 9],
                        };
                        let wrong = (!allowed.contains(&half)).then_some(place / 2);
                        let bytes = packed(&other);
                        assert_eq!(first_wrong(&row, &bytes), wrong, "{kind} {other}");
                        assert_eq!(valid_content(&row, &bytes), wrong.is_none());
                    }
                }
            }
        }
    }

    fn packed(hexadecimal: &str) -> Vec<u8> {
        let byte = |place| u8::from_str_radix(&hexadecimal[place..place + 2], 16).unwrap();
        (0..hexadecimal.len()).step_by(2).map(byte).collect()
    }
}
