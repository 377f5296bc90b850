//! A case of the reader and the printer of condition texts, its binary form, and
//! its answers as a line.
//!
//! The description and the text; the rooms of the tokens, of the literal rows and
//! of the literal bytes; then what the printer gets: literal rows, literal bytes,
//! tokens, and the room of the output.

use super::{condition, generate, print, read, Condition, LONGEST};
use crate::answers::{checksum, checksum_of_bytes, fresh_bytes, fresh_output};
use crate::rules::Refusal;
use crate::show;
use crate::subject::{take_numbers, take_short, take_text, told, Raw, Subject};
use std::fmt;
use std::io::{self, Read};

#[derive(Clone, Debug, Default, PartialEq, Eq)]
pub struct Case {
    pub description: Vec<u8>,
    pub text: Vec<u8>,
    pub rooms: [usize; 3],
    pub literals: Vec<u32>,
    pub bytes: Vec<u8>,
    pub tokens: Vec<u32>,
    pub print_room: usize,
}

/// What the calls gave, and the outputs after them.
#[derive(Clone, Debug, PartialEq, Eq)]
pub struct Answer {
    pub read: Result<[u32; 3], Refusal>,
    pub tokens: Vec<u32>,
    pub literals: Vec<u32>,
    pub bytes: Vec<u8>,
    pub print: Result<[u32; 1], Refusal>,
    pub printed: Vec<u8>,
    pub comes_back: bool,
}

impl Subject for Case {
    fn case(seed: u64, index: u64) -> Case {
        generate::case(seed, index)
    }

    fn put(&self, raw: &mut Raw) {
        raw.text(&self.description);
        raw.text(&self.text);
        self.rooms.iter().for_each(|&room| raw.short(room));
        raw.numbers(&self.literals);
        raw.text(&self.bytes);
        raw.numbers(&self.tokens);
        raw.short(self.print_room);
    }

    fn take(input: &mut impl Read) -> io::Result<Case> {
        Ok(Case {
            description: take_text(input)?,
            text: take_text(input)?,
            rooms: [take_short(input)?, take_short(input)?, take_short(input)?],
            literals: take_numbers(input)?,
            bytes: take_text(input)?,
            tokens: take_numbers(input)?,
            print_room: take_short(input)?,
        })
    }

    fn line(&self) -> String {
        self.answer().to_string()
    }
}

impl Case {
    pub fn answer(&self) -> Answer {
        let mut tokens = fresh_output(self.rooms[0]);
        let mut literals = fresh_output(self.rooms[1]);
        let mut bytes = fresh_bytes(self.rooms[2]);
        let mut printed = fresh_bytes(self.print_room);
        Answer {
            read: read(
                &self.description,
                &self.text,
                &mut tokens,
                &mut literals,
                &mut bytes,
            ),
            tokens,
            literals,
            bytes,
            print: print(
                &self.description,
                &self.literals,
                &self.bytes,
                &self.tokens,
                &mut printed,
            ),
            printed,
            comes_back: comes_back(&self.description, &self.text),
        }
    }
}

/// "What was read, printed in 2,048 bytes or fewer and read again, gives the same
/// tokens and literals."
fn comes_back(description: &[u8], text: &[u8]) -> bool {
    let Ok(first) = condition(description, text) else {
        return true;
    };
    let Condition {
        tokens,
        literals,
        bytes,
    } = &first;
    let mut output = vec![0; 65_536];
    match print(description, literals, bytes, tokens, &mut output) {
        Ok([length]) if length as usize > LONGEST => true,
        Ok([length]) => condition(description, &output[..length as usize]) == Ok(first),
        Err(_) => false,
    }
}

impl fmt::Display for Answer {
    fn fmt(&self, f: &mut fmt::Formatter) -> fmt::Result {
        let [tokens, rows, bytes] = self.read.unwrap_or_default();
        write!(f, "R {}", told(self.read))?;
        write!(f, " {tokens} {}", checksum(&self.tokens))?;
        write!(f, " {rows} {}", checksum(&self.literals))?;
        write!(f, " {bytes} {}", checksum_of_bytes(&self.bytes))?;
        let [length] = self.print.unwrap_or_default();
        let sum = checksum_of_bytes(&self.printed);
        write!(f, " P {} {length} {sum}", told(self.print))?;
        write!(f, " T {}", u8::from(self.comes_back))
    }
}

impl fmt::Display for Case {
    fn fmt(&self, f: &mut fmt::Formatter) -> fmt::Result {
        for (name, text) in [("description", &self.description), ("text", &self.text)] {
            writeln!(
                f,
                "{name}, {} bytes: \"{}\"",
                text.len(),
                text.escape_ascii()
            )?;
        }
        let (rooms, room) = (self.rooms, self.print_room);
        writeln!(f, "room: {rooms:?}, to print {room}")?;
        writeln!(f, "literals: {:?}", self.literals)?;
        writeln!(f, "bytes: \"{}\"", self.bytes.escape_ascii())?;
        writeln!(f, "tokens: {}", show::tokens(&self.tokens))
    }
}

#[cfg(test)]
mod tests {
    use super::*;

    #[test]
    fn written_and_read_again() {
        crate::subject::check_stored::<Case>();
    }

    #[test]
    fn lines() {
        let case = Case {
            description: b"77 A PIC 9.".to_vec(),
            text: b"A = \"X\"".to_vec(),
            rooms: [4, 5, 1],
            tokens: vec![0, 4 * 65_536 + 5, 0],
            print_room: 4,
            ..Case::default()
        };
        let tokens = checksum(&[0, 262_151, 65_536, 3_000_000_003]);
        let rows = checksum(&[2, 0, 1, 0, 0]);
        let bytes = checksum(&[u32::from(b'X')]);
        let untouched = checksum(&[151, 152, 153, 154]);
        let line = format!("R 0 0 3 {tokens} 5 {rows} 1 {bytes} P 10 5 0 {untouched} T 1");
        assert_eq!(case.answer().to_string(), line);
    }
}
