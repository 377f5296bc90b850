//! "Words parted by spaces or line feeds", and what a word may be. A word that
//! begins with a quote is parted only outside quotes (02, h: "literals of e)").

use std::ops::Range;

pub fn is_blank(byte: u8) -> bool {
    matches!(byte, b' ' | b'\n')
}

/// The words of a text with their places.
#[derive(Clone)]
pub struct Words<'a> {
    text: &'a [u8],
    at: usize,
}

/// A word; `last` if a period stood at its end, which is no part of it.
#[derive(Clone)]
pub struct Word<'a> {
    pub text: &'a [u8],
    pub start: usize,
    pub last: bool,
}

impl Word<'_> {
    pub fn range(&self) -> Range<usize> {
        self.start..self.start + self.text.len()
    }
}

pub fn words(text: &[u8]) -> Words<'_> {
    Words { text, at: 0 }
}

impl<'a> Iterator for Words<'a> {
    type Item = Word<'a>;

    fn next(&mut self) -> Option<Word<'a>> {
        let rest = &self.text[self.at..];
        let start = self.at + rest.iter().position(|&byte| !is_blank(byte))?;
        let rest = &self.text[start..];
        let whole = &rest[..length(rest)];
        self.at = start + whole.len();
        let (text, last) = match whole {
            [text @ .., b'.'] => (text, true),
            text => (text, false),
        };
        Some(Word { text, start, last })
    }
}

/// Up to the first blank; of a word that begins with a quote, to the first with an
/// even number of quotes before it.
fn length(rest: &[u8]) -> usize {
    let quoted = rest.starts_with(b"\"");
    let mut outside = true;
    let ends = |&byte: &u8| {
        outside ^= quoted && byte == b'"';
        outside && is_blank(byte)
    };
    rest.iter().position(ends).unwrap_or(rest.len())
}

/// "No keyword (any here, 01's words, IS, THAN, TO, UPSI-0 to UPSI-7)"; "COMP-3,
/// a keyword now" (02, f); "VALUE and THRU are keywords" (02, h).
pub const KEYWORDS: [&str; 33] = [
    "COMP-3",
    "VALUE",
    "THRU",
    "FILLER",
    "PIC",
    "SIGN",
    "LEADING",
    "TRAILING",
    "SEPARATE",
    "NOT",
    "AND",
    "OR",
    "GREATER",
    "LESS",
    "EQUAL",
    "NUMERIC",
    "ALPHABETIC",
    "ALPHABETIC-LOWER",
    "ALPHABETIC-UPPER",
    "POSITIVE",
    "NEGATIVE",
    "ZERO",
    "IS",
    "THAN",
    "TO",
    "UPSI-0",
    "UPSI-1",
    "UPSI-2",
    "UPSI-3",
    "UPSI-4",
    "UPSI-5",
    "UPSI-6",
    "UPSI-7",
];

pub fn is_keyword(word: &[u8]) -> bool {
    KEYWORDS.iter().any(|keyword| keyword.as_bytes() == word)
}

/// "A name of 1 to 30 letters, digits and inner hyphens, a letter among them, no
/// keyword".
pub fn is_name(word: &[u8]) -> bool {
    let in_names = |byte: &u8| matches!(byte, b'A'..=b'Z' | b'0'..=b'9' | b'-');
    (1..=30).contains(&word.len())
        && word.iter().all(in_names)
        && word.iter().any(u8::is_ascii_uppercase)
        && !word.starts_with(b"-")
        && !word.ends_with(b"-")
        && !is_keyword(word)
}

/// "A two-digit level, 01 or 77 [...] outside groups, 02 to 49 within"; "level 88
/// entries" (02, h).
pub fn level(word: &[u8]) -> Option<u32> {
    match *word {
        [tens @ b'0'..=b'9', ones @ b'0'..=b'9'] => {
            let level = u32::from(tens - b'0') * 10 + u32::from(ones - b'0');
            matches!(level, 1..=49 | 77 | 88).then_some(level)
        }
        _ => None,
    }
}
