//! A case of sweep: items, literals, literal bytes, names, plan, the file (its length
//! as one number), the size of its records (two numbers, the lower first), the switch
//! byte, the room of the answers (one number). Its answer: `n p c h`.

use super::{check, generate, sweep, File};
use crate::answers::{checksum, fresh_output};
use crate::rules::{Refusal, Tables};
use crate::show::{show_names, show_plan, show_rows};
use crate::subject::{take_number, take_numbers, take_short, take_text, told, Raw, Subject};
use std::fmt;
use std::io::{self, Read};

#[derive(Clone, Debug, Default, PartialEq, Eq)]
pub struct Case {
    pub items: Vec<u32>,
    pub literals: Vec<u32>,
    pub bytes: Vec<u8>,
    pub names: Vec<u32>,
    pub plan: Vec<u32>,
    pub file: Vec<u8>,
    pub size: usize,
    pub switches: u8,
    pub room: usize,
}

/// What sweep gave, and the answers after the call.
pub struct Answer {
    pub result: Result<[u32; 1], Refusal>,
    pub answers: Vec<u32>,
}

impl Case {
    pub fn tables(&self) -> Tables<'_> {
        Tables {
            items: &self.items,
            literals: &self.literals,
            bytes: &self.bytes,
            names: &self.names,
            ..Tables::default()
        }
    }

    pub fn file(&self) -> File<'_> {
        File {
            bytes: &self.file,
            size: self.size,
        }
    }

    /// How many records sweep takes, if it has room.
    pub fn checked(&self) -> Result<usize, Refusal> {
        check(&self.tables(), &self.plan, self.file())
    }

    pub fn answer(&self) -> Answer {
        let mut answers = fresh_output(self.room);
        let tables = self.tables();
        let result = sweep(
            &tables,
            &self.plan,
            self.file(),
            self.switches,
            &mut answers,
        );
        Answer { result, answers }
    }
}

impl Subject for Case {
    fn case(seed: u64, index: u64) -> Case {
        generate::case(seed, index)
    }

    fn put(&self, raw: &mut Raw) {
        raw.numbers(&self.items);
        raw.numbers(&self.literals);
        raw.text(&self.bytes);
        raw.numbers(&self.names);
        raw.numbers(&self.plan);
        raw.number(self.file.len() as u32);
        raw.bytes.extend_from_slice(&self.file);
        raw.number(self.size as u32);
        raw.number((self.size as u64 >> 32) as u32);
        raw.short(usize::from(self.switches));
        raw.number(self.room as u32);
    }

    fn take(input: &mut impl Read) -> io::Result<Case> {
        Ok(Case {
            items: take_numbers(input)?,
            literals: take_numbers(input)?,
            bytes: take_text(input)?,
            names: take_numbers(input)?,
            plan: take_numbers(input)?,
            file: take_file(input)?,
            size: take_size(input)?,
            switches: take_short(input)? as u8,
            room: take_number(input)? as usize,
        })
    }

    fn line(&self) -> String {
        let answer = self.answer();
        let [count] = answer.result.unwrap_or_default();
        let sum = checksum(&answer.answers);
        format!("{} {count} {sum}", told(answer.result))
    }
}

fn take_file(input: &mut impl Read) -> io::Result<Vec<u8>> {
    let mut file = vec![0; take_number(input)? as usize];
    input.read_exact(&mut file)?;
    Ok(file)
}

fn take_size(input: &mut impl Read) -> io::Result<usize> {
    let (lower, upper) = (take_number(input)?, take_number(input)?);
    Ok((u64::from(upper) << 32 | u64::from(lower)) as usize)
}

/// The items with the bytes of the first record.
impl fmt::Display for Case {
    fn fmt(&self, f: &mut fmt::Formatter) -> fmt::Result {
        show_rows(f, "item", &self.items, &self.file)?;
        show_rows(f, "literal", &self.literals, &self.bytes)?;
        show_names(f, &self.names)?;
        show_plan(f, &self.plan)?;
        writeln!(f, "file: {} bytes, size {}", self.file.len(), self.size)?;
        for (place, record) in self.file.chunks(self.size.max(1)).enumerate() {
            writeln!(f, "  record {place}: \"{}\"", record.escape_ascii())?;
        }
        writeln!(f, "switches: {:08b}", self.switches)?;
        writeln!(f, "room: {}", self.room)
    }
}
