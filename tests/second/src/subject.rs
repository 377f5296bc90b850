//! What all subjects beside the four calls share: their cases in binary form,
//! and answers as lines.
//!
//! A file is four bytes with the number of cases, the lowest first, then the
//! cases. In a case, lengths and rooms are two bytes, the lowest first, numbers
//! four; a text is its length and so many bytes, a list of numbers its length and
//! so many numbers.

use crate::rules::Refusal;
use std::fmt::Display;
use std::io::{self, Read, Write};

/// A case of a subject; it shows itself in readable form.
pub trait Subject: Display + Sized {
    /// Case `index` of a seed.
    fn case(seed: u64, index: u64) -> Self;
    fn put(&self, raw: &mut Raw);
    fn take(input: &mut impl Read) -> io::Result<Self>;
    /// The answers as one line.
    fn line(&self) -> String;
}

/// Bytes to be written.
#[derive(Default)]
pub struct Raw {
    pub bytes: Vec<u8>,
}

impl Raw {
    /// A length or room, below 65,536.
    pub fn short(&mut self, number: usize) {
        self.bytes.extend_from_slice(&(number as u16).to_le_bytes());
    }

    pub fn number(&mut self, number: u32) {
        self.bytes.extend_from_slice(&number.to_le_bytes());
    }

    pub fn text(&mut self, text: &[u8]) {
        self.short(text.len());
        self.bytes.extend_from_slice(text);
    }

    pub fn numbers(&mut self, numbers: &[u32]) {
        self.short(numbers.len());
        numbers.iter().for_each(|&number| self.number(number));
    }
}

pub fn take_short(input: &mut impl Read) -> io::Result<usize> {
    let mut raw = [0; 2];
    input.read_exact(&mut raw)?;
    Ok(usize::from(u16::from_le_bytes(raw)))
}

pub fn take_text(input: &mut impl Read) -> io::Result<Vec<u8>> {
    let mut text = vec![0; take_short(input)?];
    input.read_exact(&mut text)?;
    Ok(text)
}

pub fn take_number(input: &mut impl Read) -> io::Result<u32> {
    let mut raw = [0; 4];
    input.read_exact(&mut raw)?;
    Ok(u32::from_le_bytes(raw))
}

pub fn take_numbers(input: &mut impl Read) -> io::Result<Vec<u32>> {
    let count = take_short(input)?;
    (0..count).map(|_| take_number(input)).collect()
}

pub fn generate<S: Subject>(seed: u64, count: u32, output: &mut impl Write) -> io::Result<()> {
    output.write_all(&count.to_le_bytes())?;
    for index in 0..u64::from(count) {
        let mut raw = Raw::default();
        S::case(seed, index).put(&mut raw);
        output.write_all(&raw.bytes)?;
    }
    output.flush()
}

pub fn answer<S: Subject>(input: &mut impl Read, output: &mut impl Write) -> io::Result<()> {
    for _ in 0..take_number(input)? {
        writeln!(output, "{}", S::take(input)?.line())?;
    }
    output.flush()
}

/// A refusal's number and place, or zeros.
pub fn told<T>(result: Result<T, Refusal>) -> String {
    match result {
        Ok(_) => "0 0".to_string(),
        Err(refusal) => format!("{} {}", refusal.number, refusal.place),
    }
}

/// Cases that are written, and read as the same again.
#[cfg(test)]
pub fn check_stored<S: Subject + PartialEq + std::fmt::Debug>() {
    for index in 0..200 {
        let case = S::case(5, index);
        let mut raw = Raw::default();
        case.put(&mut raw);
        assert_eq!(S::take(&mut &raw.bytes[..]).unwrap(), case);
        assert!(S::take(&mut &raw.bytes[..raw.bytes.len() - 1]).is_err());
    }
}
