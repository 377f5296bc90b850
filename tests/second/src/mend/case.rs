//! A case of mend: items, a record, the room of the list. Its answer: `n p c h r`,
//! r being the checksum of the record afterwards.

use super::{generate, mend};
use crate::answers::{checksum, checksum_of_bytes, fresh_output};
use crate::rules::Refusal;
use crate::show::show_rows;
use crate::subject::{take_numbers, take_short, take_text, told, Raw, Subject};
use std::fmt;
use std::io::{self, Read};

#[derive(Clone, Debug, Default, PartialEq, Eq)]
pub struct Case {
    pub items: Vec<u32>,
    pub record: Vec<u8>,
    pub room: usize,
}

/// What mend gave, the list and the record after the call.
pub struct Answer {
    pub result: Result<[u32; 1], Refusal>,
    pub changes: Vec<u32>,
    pub record: Vec<u8>,
}

impl Case {
    pub fn answer(&self) -> Answer {
        let mut changes = fresh_output(self.room);
        let mut record = self.record.clone();
        let result = mend(&self.items, &mut record, &mut changes);
        Answer {
            result,
            changes,
            record,
        }
    }
}

impl Subject for Case {
    fn case(seed: u64, index: u64) -> Case {
        generate::case(seed, index)
    }

    fn put(&self, raw: &mut Raw) {
        raw.numbers(&self.items);
        raw.text(&self.record);
        raw.short(self.room);
    }

    fn take(input: &mut impl Read) -> io::Result<Case> {
        Ok(Case {
            items: take_numbers(input)?,
            record: take_text(input)?,
            room: take_short(input)?,
        })
    }

    fn line(&self) -> String {
        let answer = self.answer();
        let [count] = answer.result.unwrap_or_default();
        format!(
            "{} {count} {} {}",
            told(answer.result),
            checksum(&answer.changes),
            checksum_of_bytes(&answer.record)
        )
    }
}

impl fmt::Display for Case {
    fn fmt(&self, f: &mut fmt::Formatter) -> fmt::Result {
        show_rows(f, "item", &self.items, &self.record)?;
        writeln!(f, "record: \"{}\"", self.record.escape_ascii())?;
        writeln!(f, "room: {}", self.room)
    }
}
