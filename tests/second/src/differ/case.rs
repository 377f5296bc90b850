//! A case of differ: items, two records, the room of the output. Its answer:
//! `n p c h`.

use super::{differ, generate};
use crate::answers::{checksum, fresh_output};
use crate::rules::Refusal;
use crate::show::show_rows;
use crate::subject::{take_numbers, take_short, take_text, told, Raw, Subject};
use std::fmt;
use std::io::{self, Read};

#[derive(Clone, Debug, Default, PartialEq, Eq)]
pub struct Case {
    pub items: Vec<u32>,
    pub first: Vec<u8>,
    pub second: Vec<u8>,
    pub room: usize,
}

/// What differ gave, and the output after the call.
pub struct Answer {
    pub result: Result<[u32; 1], Refusal>,
    pub output: Vec<u32>,
}

impl Case {
    pub fn answer(&self) -> Answer {
        let mut output = fresh_output(self.room);
        let result = differ(&self.items, &self.first, &self.second, &mut output);
        Answer { result, output }
    }
}

impl Subject for Case {
    fn case(seed: u64, index: u64) -> Case {
        generate::case(seed, index)
    }

    fn put(&self, raw: &mut Raw) {
        raw.numbers(&self.items);
        raw.text(&self.first);
        raw.text(&self.second);
        raw.short(self.room);
    }

    fn take(input: &mut impl Read) -> io::Result<Case> {
        Ok(Case {
            items: take_numbers(input)?,
            first: take_text(input)?,
            second: take_text(input)?,
            room: take_short(input)?,
        })
    }

    fn line(&self) -> String {
        let answer = self.answer();
        let [count] = answer.result.unwrap_or_default();
        format!(
            "{} {count} {}",
            told(answer.result),
            checksum(&answer.output)
        )
    }
}

impl fmt::Display for Case {
    fn fmt(&self, f: &mut fmt::Formatter) -> fmt::Result {
        show_rows(f, "item", &self.items, &self.first)?;
        writeln!(f, "first: \"{}\"", self.first.escape_ascii())?;
        writeln!(f, "second: \"{}\"", self.second.escape_ascii())?;
        writeln!(f, "room: {}", self.room)
    }
}
