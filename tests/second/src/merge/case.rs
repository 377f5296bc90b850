//! A case of merge: items, literals, literal bytes, names, plan, the three copies,
//! the switch byte, the rooms of the record and of the list. Its answer: `n p c h c
//! h`, the record's and the list's counts and checksums.

use super::{generate, merge, Copies};
use crate::answers::{checksum, checksum_of_bytes, fresh_bytes, fresh_output};
use crate::rules::{Refusal, Tables};
use crate::show::{show_names, show_plan, show_rows};
use crate::subject::{take_numbers, take_short, take_text, told, Raw, Subject};
use std::fmt;
use std::io::{self, Read};

#[derive(Clone, Debug, Default, PartialEq, Eq)]
pub struct Case {
    pub items: Vec<u32>,
    pub literals: Vec<u32>,
    pub bytes: Vec<u8>,
    pub names: Vec<u32>,
    pub plan: Vec<u32>,
    pub old: Vec<u8>,
    pub first: Vec<u8>,
    pub second: Vec<u8>,
    pub switches: u8,
    pub record_room: usize,
    pub list_room: usize,
}

/// What merge gave, and the outputs after the call.
pub struct Answer {
    pub result: Result<[u32; 2], Refusal>,
    pub merged: Vec<u8>,
    pub contested: Vec<u32>,
}

impl Case {
    pub fn tables(&self) -> Tables<'_> {
        Tables {
            items: &self.items,
            literals: &self.literals,
            bytes: &self.bytes,
            names: &self.names,
            ..Tables::default()
        }
    }

    pub fn copies(&self) -> Copies<'_> {
        Copies {
            old: &self.old,
            first: &self.first,
            second: &self.second,
        }
    }

    pub fn answer(&self) -> Answer {
        let mut merged = fresh_bytes(self.record_room);
        let mut contested = fresh_output(self.list_room);
        let result = merge(
            &self.tables(),
            &self.plan,
            self.copies(),
            self.switches,
            &mut merged,
            &mut contested,
        );
        Answer {
            result,
            merged,
            contested,
        }
    }
}

impl Subject for Case {
    fn case(seed: u64, index: u64) -> Case {
        generate::case(seed, index)
    }

    fn put(&self, raw: &mut Raw) {
        raw.numbers(&self.items);
        raw.numbers(&self.literals);
        raw.text(&self.bytes);
        raw.numbers(&self.names);
        raw.numbers(&self.plan);
        raw.text(&self.old);
        raw.text(&self.first);
        raw.text(&self.second);
        raw.short(usize::from(self.switches));
        raw.short(self.record_room);
        raw.short(self.list_room);
    }

    fn take(input: &mut impl Read) -> io::Result<Case> {
        Ok(Case {
            items: take_numbers(input)?,
            literals: take_numbers(input)?,
            bytes: take_text(input)?,
            names: take_numbers(input)?,
            plan: take_numbers(input)?,
            old: take_text(input)?,
            first: take_text(input)?,
            second: take_text(input)?,
            switches: take_short(input)? as u8,
            record_room: take_short(input)?,
            list_room: take_short(input)?,
        })
    }

    fn line(&self) -> String {
        let answer = self.answer();
        let [bytes, rows] = answer.result.unwrap_or_default();
        format!(
            "{} {bytes} {} {rows} {}",
            told(answer.result),
            checksum_of_bytes(&answer.merged),
            checksum(&answer.contested)
        )
    }
}

impl fmt::Display for Case {
    fn fmt(&self, f: &mut fmt::Formatter) -> fmt::Result {
        show_rows(f, "item", &self.items, &self.old)?;
        show_rows(f, "literal", &self.literals, &self.bytes)?;
        show_names(f, &self.names)?;
        show_plan(f, &self.plan)?;
        for (name, copy) in [
            ("old", &self.old),
            ("first", &self.first),
            ("second", &self.second),
        ] {
            writeln!(f, "{name}: \"{}\"", copy.escape_ascii())?;
        }
        writeln!(f, "switches: {:08b}", self.switches)?;
        let (record, list) = (self.record_room, self.list_room);
        writeln!(f, "room: record {record}, list {list}")
    }
}
