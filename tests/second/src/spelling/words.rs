//! "A word runs to the next space, line feed, bracket or symbol outside quotes."

use crate::descriptions::words::{is_blank, is_name};
use crate::literals::is_literal;

/// A word with its place.
#[derive(Clone, Copy, Debug)]
pub struct Word<'a> {
    pub text: &'a [u8],
    pub start: usize,
}

/// Brackets and symbols, words of their own; the longest first.
const SIGNS: [&[u8]; 7] = [b">=", b"<=", b"(", b")", b">", b"<", b"="];

fn sign(text: &[u8]) -> Option<&'static [u8]> {
    SIGNS.into_iter().find(|sign| text.starts_with(sign))
}

/// The words of a text, whatever they are.
pub fn words(text: &[u8]) -> Vec<Word<'_>> {
    let mut words = Vec::new();
    let mut start = 0;
    while start < text.len() {
        if is_blank(text[start]) {
            start += 1;
            continue;
        }
        let rest = &text[start..];
        let length = sign(rest).map_or_else(|| plain_length(rest), <[u8]>::len);
        let text = &rest[..length];
        words.push(Word { text, start });
        start += length;
    }
    words
}

/// Up to the first byte outside quotes that ends a word: one with an even number
/// of quotes before it.
fn plain_length(rest: &[u8]) -> usize {
    let mut quotes = 0;
    for (place, &byte) in rest.iter().enumerate() {
        let outside = quotes % 2 == 0;
        if outside && (is_blank(byte) || sign(&rest[place..]).is_some()) {
            return place;
        }
        quotes += usize::from(byte == b'"');
    }
    rest.len()
}

/// What a word is by itself.
#[derive(Clone, Copy, Debug, PartialEq, Eq)]
pub enum Sort {
    /// A word of document 01, with its number; a relation's symbol is apart from
    /// its word, since symbols "join with no word".
    Word(u32),
    Symbol(u32),
    Is,
    Than,
    To,
    Switch(u32),
    Name,
    /// A name that the description gives to a condition (02, h).
    Condition,
    /// A numeric or nonnumeric literal, its limits aside.
    Literal,
    Other,
}

/// "> < = >= <= give the same tokens" as the words; "UPSI-0 to UPSI-7 mean that
/// switch on".
pub fn sort(word: &[u8]) -> Sort {
    match word {
        b"(" => Sort::Word(0),
        b")" => Sort::Word(1),
        b"NOT" => Sort::Word(2),
        b"AND" => Sort::Word(3),
        b"OR" => Sort::Word(4),
        b"GREATER" => Sort::Word(5),
        b"LESS" => Sort::Word(6),
        b"EQUAL" => Sort::Word(7),
        b">" => Sort::Symbol(5),
        b"<" => Sort::Symbol(6),
        b"=" => Sort::Symbol(7),
        b">=" => Sort::Symbol(8),
        b"<=" => Sort::Symbol(9),
        b"NUMERIC" => Sort::Word(10),
        b"ALPHABETIC" => Sort::Word(11),
        b"ALPHABETIC-LOWER" => Sort::Word(12),
        b"ALPHABETIC-UPPER" => Sort::Word(13),
        b"POSITIVE" => Sort::Word(14),
        b"NEGATIVE" => Sort::Word(15),
        b"ZERO" => Sort::Word(16),
        b"IS" => Sort::Is,
        b"THAN" => Sort::Than,
        b"TO" => Sort::To,
        [b'U', b'P', b'S', b'I', b'-', number @ b'0'..=b'7'] => {
            Sort::Switch(u32::from(number - b'0'))
        }
        _ if is_literal(word) => Sort::Literal,
        _ if is_name(word) => Sort::Name,
        _ => Sort::Other,
    }
}
