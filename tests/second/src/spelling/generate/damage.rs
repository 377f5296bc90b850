//! Damaged texts, and words in no order: near words, quotes doubled and unclosed,
//! points and signs in all places.

use super::writer;
use crate::descriptions;
use crate::random::Random;
use crate::spelling::names::Names;

/// Bytes that stand in texts, and some that do not.
const NEAR: &[u8] = b"  \n()<>==\"\"..+--0159AIOSTUZ'\t;a\0\x80";

fn any_byte(random: &mut Random) -> u8 {
    if random.chance(50) {
        random.any() as u8
    } else {
        random.pick(NEAR)
    }
}

pub fn damage(random: &mut Random, text: &mut Vec<u8>) {
    if text.is_empty() {
        text.push(any_byte(random));
        return;
    }
    let place = random.index(text.len());
    match random.below(14) {
        0..=2 => text[place] = any_byte(random),
        3..=5 => text.insert(place, any_byte(random)),
        6..=7 => drop(text.remove(place)),
        8 => text.swap(place, place.saturating_sub(1)),
        9 => text.truncate(place),
        10 => text.insert(place, text[place]),
        _ => {
            let start = text[..place].iter().rposition(|&byte| byte == b' ');
            let start = start.map_or(0, |at| at + 1);
            let mut word = odd_word(random);
            word.push(b' ');
            text.splice(start..start, word);
        }
    }
}

const WORDS: &[&str] = &[
    "(",
    ")",
    "NOT",
    "AND",
    "OR",
    "GREATER",
    "LESS",
    "EQUAL",
    ">",
    "<",
    "=",
    ">=",
    "<=",
    "=>",
    "=<",
    "<>",
    "NUMERIC",
    "ALPHABETIC",
    "ALPHABETIC-LOWER",
    "ALPHABETIC-UPPER",
    "POSITIVE",
    "NEGATIVE",
    "ZERO",
    "IS",
    "THAN",
    "TO",
    "UPSI-0",
    "UPSI-7",
    "OR EQUAL",
    "OR EQUAL TO",
    "THAN OR EQUAL",
];

/// Words that are nearly others, keywords of descriptions, unknown names.
const NEAR_WORDS: &[&str] = &[
    "UPSI-8",
    "UPSI",
    "UPSI-",
    "UPSI-00",
    "ZEROS",
    "NOTA",
    "ANDOR",
    "IS-",
    "-TO",
    "GREATE",
    "not",
    "Or",
    "FILLER",
    "PIC",
    "SIGN",
    "LEADING",
    "SEPARATE",
    "COMP-3",
    "COMP-4",
    "VALUE",
    "THRU",
    "THROUGH",
    "NAME-",
    "A--B",
    "1A",
    "X",
    "N234567890123456789012345678901",
    "A.",
    "A,",
    "&",
    "N23456789012345678901234567890",
];

const NUMBERS: &[&str] = &[
    "5",
    "05",
    "-5",
    "+5",
    "5.",
    ".5",
    "-.5",
    "+0.50",
    ".",
    "+",
    "-",
    "+.",
    "-.",
    "5-",
    "5+",
    "+-5",
    "1.2.3",
    "..5",
    "1,5",
    "1E5",
    "12-34",
    "123456789012345678",
    "1234567890123456789",
    "-123456789.123456789",
    ".123456789012345678",
    "+.1234567890123456789",
    "0",
    "-0.0",
];

const QUOTED: &[&str] = &[
    "\"A\"",
    "\"\"",
    "\"\"\"\"",
    "\"A\"\"B\"",
    "\"A\"B\"",
    "\"A B\"",
    "\"(>=)\"",
    "\"A",
    "\"",
    "A\"B\"",
    "\"A\"5",
    "\"A\"\"B\"\"\"",
    "\"\"A\"",
    "\"A\"\"\"",
    "\"a\nb\"",
    "\"A\"\"",
    "5\"A\"",
    "'A'",
    "\"NOT\"",
    "\"\"\"\"\"\"",
];

pub fn odd_word(random: &mut Random) -> Vec<u8> {
    let word = match random.below(8) {
        0..=2 => random.pick(WORDS),
        3..=4 => random.pick(NEAR_WORDS),
        5..=6 => random.pick(NUMBERS),
        _ => random.pick(QUOTED),
    };
    word.as_bytes().to_vec()
}

/// The names of items and conditions that are their own.
pub fn named<'a>(names: &Names<'a>) -> Vec<&'a [u8]> {
    let tokens = names.tokens().into_iter();
    tokens.filter_map(|token| names.name(token)).collect()
}

/// Words in any order, most of them fine.
pub fn soup(random: &mut Random, description: &[u8]) -> Vec<u8> {
    let described = descriptions::read(description).ok();
    let names = described.map(|described| Names::of(description, &described));
    let named: Vec<&[u8]> = match &names {
        Some(names) => named(names),
        None => vec![b"A"],
    };
    let odd = random.pick(&[0, 0, 60, 200, 500]);
    let mut words = Vec::new();
    for _ in 0..random.below(14) {
        words.push(match random.below(10) {
            _ if random.chance(odd) => odd_word(random),
            0..=3 if !named.is_empty() => random.pick(&named).to_vec(),
            4 => writer::quoted(random.pick(&["A", "\"", "<B> ", "\0\n"]).as_bytes()),
            5 => random.pick(&["0", "-5", "+.5", "1.50"]).as_bytes().to_vec(),
            _ => random.pick(WORDS).as_bytes().to_vec(),
        });
    }
    writer::join(random, &words)
}
