//! Damaged texts: a byte changed, inserted, removed or swapped, a text cut, words
//! exchanged.

use super::writer::WORDS;
use crate::descriptions::words::{level, words, Word, KEYWORDS};
use crate::random::Random;

/// Bytes that stand in texts, and some that do not.
const NEAR: &[u8] = b"  \n..()-+0123456789AXSV9PICSGNLEADTRFZOM3HU\t,x\"\"\"\0\x80";

fn any_byte(random: &mut Random) -> u8 {
    if random.chance(50) {
        random.any() as u8
    } else {
        random.pick(NEAR)
    }
}

/// Words that are nearly literals, and quotes that stay open.
const NO_LITERALS: &[&str] = &[
    "\"A", "\"", "\"A\"\"", "\"A\"B", "5-", "+", ".", "1,5", "1.2.3", "ZERO", "5\"A\"", "THROUGH",
];

pub fn damage(random: &mut Random, text: &mut Vec<u8>) {
    if text.is_empty() {
        text.push(any_byte(random));
        return;
    }
    let place = random.index(text.len());
    match random.below(17) {
        0..=2 => text[place] = any_byte(random),
        3..=4 => text.insert(place, any_byte(random)),
        5..=6 => drop(text.remove(place)),
        7 => text.swap(place, place.saturating_sub(1)),
        8 => {
            let other = random.index(text.len());
            text.swap(place, other);
        }
        9..=10 => text.truncate(place),
        11 => text.push(any_byte(random)),
        12 => text.insert(place, text[place]),
        13 => keyword_for_name(random, text, place),
        _ => exchange_word(random, text, place),
    }
}

/// Puts a keyword for the name of the next entry.
fn keyword_for_name(random: &mut Random, text: &mut Vec<u8>, place: usize) {
    let words: Vec<Word> = words(&text[place..]).collect();
    let named = words.windows(2).find(|pair| level(pair[0].text).is_some());
    if let Some([_, name]) = named {
        let range = place + name.range().start..place + name.range().end;
        let keyword = random.pick(&KEYWORDS);
        text.splice(range, keyword.bytes());
    }
}

/// Puts another word for the one at a place, leaves it out, or doubles it.
fn exchange_word(random: &mut Random, text: &mut Vec<u8>, place: usize) {
    let blank = |byte: &u8| matches!(byte, b' ' | b'\n' | b'.');
    let start = text[..place].iter().rposition(blank).map_or(0, |at| at + 1);
    let end = text[start..]
        .iter()
        .position(blank)
        .map_or(text.len(), |at| start + at);
    let word = match random.below(6) {
        0 => Vec::new(),
        1 => [&text[start..end], b" ", &text[start..end]].concat(),
        2 => format!("{:02}", random.below(100)).into_bytes(),
        3 => random.pick(NO_LITERALS).as_bytes().to_vec(),
        _ => random.pick(WORDS).as_bytes().to_vec(),
    };
    text.splice(start..end, word);
}

/// Words in no order.
pub fn soup(random: &mut Random) -> Vec<u8> {
    let mut text = Vec::new();
    for _ in 0..random.below(12) {
        text.extend_from_slice(random.pick(WORDS).as_bytes());
        let behind = random.pick(&[" ", " ", " ", "\n", ". ", ".", "", "-", "("]);
        text.extend_from_slice(behind.as_bytes());
    }
    text
}
