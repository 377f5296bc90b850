//! Texts of conditions: the words of each token in every spelling, joined with
//! blanks of all sorts, or without where none is needed.

use crate::descriptions;
use crate::generate::over_tables;
use crate::random::Random;
use crate::rules::tables::ROW;
use crate::show::WORDS;
use crate::spelling::names::Names;

/// The text of a random condition over a description's items and names.
pub fn text(random: &mut Random, description: &[u8]) -> Vec<u8> {
    let case = over_tables(random, super::tables(description));
    let described = descriptions::read(description).ok();
    let names = described.map(|described| Names::of(description, &described));
    let mut words = Vec::new();
    for &token in &case.tokens {
        match token >> 16 {
            0 | 5 => words.push(name(random, names.as_ref(), token)),
            1 => words.push(literal(random, &case.literals, &case.bytes, token)),
            2 => words.push(format!("UPSI-{}", token & 0xFFFF).into_bytes()),
            3 => words.extend([b"NOT".to_vec(), format!("UPSI-{}", token & 7).into_bytes()]),
            _ => spell(random, token & 0xFFFF, &mut words),
        }
        let is = match token >> 16 {
            0 | 1 => 150,
            5 => 10,
            _ => 0,
        };
        if random.chance(is) {
            words.push(b"IS".to_vec());
        }
    }
    join(random, &words)
}

fn name(random: &mut Random, names: Option<&Names>, token: u32) -> Vec<u8> {
    let name = names.and_then(|names| names.name(token));
    match name {
        Some(name) => name.to_vec(),
        None => random.pick(&["A", "B", "ZZ", "FILLER"]).as_bytes().to_vec(),
    }
}

/// A literal row's content as a word; a number sometimes with zeros before it.
fn literal(random: &mut Random, literals: &[u32], bytes: &[u8], token: u32) -> Vec<u8> {
    let start = ROW * (token & 0xFFFF) as usize;
    let row = literals.get(start..start + ROW);
    let content = row.and_then(|row| bytes.get(row[1] as usize..)?.get(..row[2] as usize));
    let (Some(row), Some(content)) = (row, content) else {
        return b"1".to_vec();
    };
    if row[0] == 2 || content.is_empty() {
        return quoted(content);
    }
    let (sign, digits) = match content {
        [sign @ (b'+' | b'-'), rest @ ..] => (vec![*sign], rest),
        _ => (Vec::new(), content),
    };
    let whole = digits.len().saturating_sub(row[3] as usize);
    let (before, behind) = digits.split_at(whole);
    let zeros = vec![b'0'; random.pick(&[0, 0, 0, 1])];
    let point: &[u8] = if behind.is_empty() { b"" } else { b"." };
    [&sign, &zeros, before, point, behind].concat()
}

pub fn quoted(content: &[u8]) -> Vec<u8> {
    let mut word = vec![b'"'];
    for &byte in content {
        word.push(byte);
        if byte == b'"' {
            word.push(b'"');
        }
    }
    word.push(b'"');
    word
}

/// A word of document 01; relations as symbols or with words that may follow.
fn spell(random: &mut Random, word: u32, words: &mut Vec<Vec<u8>>) {
    let (greater, than) = (random.pick(&["GREATER", ">"]), random.chance(500));
    let spelled: Vec<&str> = match word {
        5 | 6 if greater == ">" => vec![WORDS[word as usize]],
        7 if greater == ">" => vec!["="],
        8 | 9 if greater == ">" => vec![WORDS[word as usize]],
        5 => vec!["GREATER"],
        6 => vec!["LESS"],
        7 => vec!["EQUAL"],
        8 => vec!["GREATER", "OR", "EQUAL"],
        9 => vec!["LESS", "OR", "EQUAL"],
        0..=16 => vec![WORDS[word as usize]],
        _ => vec!["ZEROES"],
    };
    for part in spelled {
        words.push(part.as_bytes().to_vec());
        match part {
            "GREATER" | "LESS" if than => words.push(b"THAN".to_vec()),
            "EQUAL" if random.chance(500) => words.push(b"TO".to_vec()),
            _ => {}
        }
    }
}

/// Blanks between words; none, often, beside brackets and symbols.
pub fn join(random: &mut Random, words: &[Vec<u8>]) -> Vec<u8> {
    let wide = random.pick(&[0, 0, 50, 300]);
    let tight = random.pick(&[0, 300, 900]);
    let mut text = Vec::new();
    let blanks = |random: &mut Random, text: &mut Vec<u8>| {
        for _ in 0..if random.chance(wide) { 3 } else { 1 } {
            text.push(if random.chance(100) { b'\n' } else { b' ' });
        }
    };
    if random.chance(80) {
        blanks(random, &mut text);
    }
    for (place, word) in words.iter().enumerate() {
        let alone = |word: &[u8]| matches!(word, [b'(' | b')' | b'>' | b'<' | b'=', ..]);
        let beside = place > 0 && (alone(word) || alone(&words[place - 1]));
        if place > 0 && !(beside && random.chance(tight)) {
            blanks(random, &mut text);
        }
        text.extend_from_slice(word);
    }
    if random.chance(80) {
        blanks(random, &mut text);
    }
    text
}
