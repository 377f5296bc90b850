//! A case, and its binary form: little-endian words of 32 bits.
//!
//! A file is one word with the number of cases, then the cases. A case is one
//! word with the count of words that follow in it; then items, literals,
//! literal bytes, names, tokens, plan and record, each as a count and so many
//! words (one byte per word where they are bytes); then the switch byte, the room of
//! expand's output and the room of plan's output.

use crate::rules::{Edition, Tables};
use std::io::{self, Read, Write};

/// What the four calls are given.
#[derive(Clone, Debug, Default, PartialEq, Eq)]
pub struct Case {
    pub items: Vec<u32>,
    pub literals: Vec<u32>,
    pub bytes: Vec<u8>,
    pub names: Vec<u32>,
    pub tokens: Vec<u32>,
    pub plan: Vec<u32>,
    pub record: Vec<u8>,
    pub switches: u8,
    pub expand_room: usize,
    pub plan_room: usize,
    /// In no file: the rules by which a case was made and is answered.
    pub edition: Edition,
}

/// Outputs of more numbers and cases of more words than this are taken for a
/// damaged file.
const MOST_ROOM: u32 = 1 << 24;
const MOST_WORDS: usize = 1 << 24;

impl Case {
    pub fn tables(&self) -> Tables<'_> {
        Tables {
            items: &self.items,
            literals: &self.literals,
            bytes: &self.bytes,
            names: &self.names,
            edition: self.edition,
        }
    }

    /// The count of words that follow in the case's binary form.
    pub fn words(&self) -> usize {
        let tables = self.items.len() + self.literals.len() + self.names.len();
        let bytes = self.bytes.len() + self.record.len();
        tables + bytes + self.tokens.len() + self.plan.len() + 10
    }

    pub fn write(&self, output: &mut impl Write) -> io::Result<()> {
        let words = self.words();
        let mut raw = Vec::with_capacity(4 * words + 4);
        put_word(&mut raw, words);
        put_words(&mut raw, &self.items);
        put_words(&mut raw, &self.literals);
        put_bytes(&mut raw, &self.bytes);
        put_words(&mut raw, &self.names);
        put_words(&mut raw, &self.tokens);
        put_words(&mut raw, &self.plan);
        put_bytes(&mut raw, &self.record);
        put_word(&mut raw, usize::from(self.switches));
        put_word(&mut raw, self.expand_room);
        put_word(&mut raw, self.plan_room);
        output.write_all(&raw)
    }

    pub fn read(input: &mut impl Read) -> io::Result<Case> {
        let count = read_word(input)? as usize;
        if count > MOST_WORDS {
            return Err(damaged("a case without measure"));
        }
        let mut raw = vec![0; 4 * count];
        input.read_exact(&mut raw)?;
        let mut words = Words { raw: &raw };
        let case = words.case()?;
        match words.raw {
            [] => Ok(case),
            _ => Err(damaged("a case is longer than its parts")),
        }
    }
}

pub fn read_word(input: &mut impl Read) -> io::Result<u32> {
    let mut word = [0; 4];
    input.read_exact(&mut word)?;
    Ok(u32::from_le_bytes(word))
}

fn put_word(raw: &mut Vec<u8>, word: usize) {
    raw.extend_from_slice(&(word as u32).to_le_bytes());
}

fn put_words(raw: &mut Vec<u8>, part: &[u32]) {
    put_word(raw, part.len());
    for word in part {
        raw.extend_from_slice(&word.to_le_bytes());
    }
}

fn put_bytes(raw: &mut Vec<u8>, part: &[u8]) {
    put_word(raw, part.len());
    for &byte in part {
        raw.extend_from_slice(&[byte, 0, 0, 0]);
    }
}

fn damaged(what: &str) -> io::Error {
    io::Error::new(io::ErrorKind::InvalidData, what)
}

/// The words of one case, taken from the front.
struct Words<'a> {
    raw: &'a [u8],
}

impl<'a> Words<'a> {
    fn word(&mut self) -> io::Result<u32> {
        match self.raw.split_first_chunk::<4>() {
            Some((word, rest)) => {
                self.raw = rest;
                Ok(u32::from_le_bytes(*word))
            }
            None => Err(damaged("a part is longer than its case")),
        }
    }

    fn byte(&mut self) -> io::Result<u8> {
        u8::try_from(self.word()?).map_err(|_| damaged("a byte over 255"))
    }

    fn room(&mut self) -> io::Result<usize> {
        match self.word()? {
            room if room <= MOST_ROOM => Ok(room as usize),
            _ => Err(damaged("an output room without measure")),
        }
    }

    /// The raw bytes of a part, behind its count.
    fn part(&mut self) -> io::Result<&'a [u8]> {
        let length = 4 * self.word()? as usize;
        match self.raw.split_at_checked(length) {
            Some((part, rest)) => {
                self.raw = rest;
                Ok(part)
            }
            None => Err(damaged("a part is longer than its case")),
        }
    }

    fn words(&mut self) -> io::Result<Vec<u32>> {
        let word = |raw: &[u8]| u32::from_le_bytes([raw[0], raw[1], raw[2], raw[3]]);
        Ok(self.part()?.chunks_exact(4).map(word).collect())
    }

    fn bytes(&mut self) -> io::Result<Vec<u8>> {
        let part = self.part()?;
        if part.chunks_exact(4).any(|raw| raw[1..] != [0; 3]) {
            return Err(damaged("a byte over 255"));
        }
        Ok(part.iter().step_by(4).copied().collect())
    }

    fn case(&mut self) -> io::Result<Case> {
        Ok(Case {
            items: self.words()?,
            literals: self.words()?,
            bytes: self.bytes()?,
            names: self.words()?,
            tokens: self.words()?,
            plan: self.words()?,
            record: self.bytes()?,
            switches: self.byte()?,
            expand_room: self.room()?,
            plan_room: self.room()?,
            edition: Edition::CURRENT,
        })
    }
}

#[cfg(test)]
mod tests {
    use super::*;

    #[test]
    fn written_and_read_again() {
        for index in 0..200 {
            let case = crate::generate::case(5, index);
            let mut raw = Vec::new();
            case.write(&mut raw).unwrap();
            let words = u32::from_le_bytes(raw[..4].try_into().unwrap());
            assert_eq!(raw.len(), 4 + 4 * words as usize);
            assert_eq!(Case::read(&mut &raw[..]).unwrap(), case);
            assert!(Case::read(&mut &raw[..raw.len() - 1]).is_err());
        }
    }
}
