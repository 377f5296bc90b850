//! A case of what a rule may look at: items, literals, literal bytes, names, tokens,
//! plan, record, another record that agrees with it on what the condition and the
//! plan look at, the switch byte, the rooms of the three lists. Its answer: `L n p c
//! h P n p c h N n p c h A a`, of looked_at, looked_at_plan and named_items, and 1
//! where the other record gives the same answers.

use super::{generate, looked_at, looked_at_plan, named_items};
use crate::answers::{checksum, fresh_output};
use crate::case::Case as Lent;
use crate::rules::{self, Edition, Refusal};
use crate::subject::{take_numbers, take_short, take_text, told, Raw, Subject};
use std::fmt;
use std::io::{self, Read};

#[derive(Clone, Debug, Default, PartialEq, Eq)]
pub struct Case {
    pub lent: Lent,
    pub other: Vec<u8>,
    pub rooms: [usize; 3],
}

/// What a call gave, and its list after it.
#[derive(Clone, Debug, PartialEq, Eq)]
pub struct Listed {
    pub result: Result<[u32; 1], Refusal>,
    pub rows: Vec<u32>,
}

/// In the order of the rooms.
pub struct Answer {
    pub lists: [Listed; 3],
    pub same_answers: bool,
}

impl Case {
    pub fn answer(&self) -> Answer {
        let Lent {
            tokens,
            plan,
            record,
            switches,
            ..
        } = &self.lent;
        let tables = self.lent.tables();
        let mut calls = 0..;
        let lists = self.rooms.map(|room| {
            let mut rows = fresh_output(room);
            let result = match calls.next() {
                Some(0) => looked_at(&tables, tokens, record, *switches, &mut rows),
                Some(1) => looked_at_plan(&tables, plan, record, *switches, &mut rows),
                _ => named_items(&tables, tokens, &mut rows),
            };
            Listed { result, rows }
        });
        Answer {
            lists,
            same_answers: self.same_answers(),
        }
    }

    /// "Two records of equal length which agree on the items named in the simple
    /// conditions judged on the first [...] give the same answer, count, place and
    /// byte, with tables, literals and switch byte the same."
    fn same_answers(&self) -> bool {
        let Lent {
            tokens,
            plan,
            record,
            switches,
            ..
        } = &self.lent;
        let tables = self.lent.tables();
        let judged = |record: &[u8]| {
            [
                rules::judge(&tables, tokens, record, *switches),
                rules::run(&tables, plan, record, *switches),
            ]
        };
        judged(record) == judged(&self.other)
    }
}

impl Subject for Case {
    fn case(seed: u64, index: u64) -> Case {
        generate::case(seed, index)
    }

    fn put(&self, raw: &mut Raw) {
        let lent = &self.lent;
        raw.numbers(&lent.items);
        raw.numbers(&lent.literals);
        raw.text(&lent.bytes);
        raw.numbers(&lent.names);
        raw.numbers(&lent.tokens);
        raw.numbers(&lent.plan);
        raw.text(&lent.record);
        raw.text(&self.other);
        raw.short(usize::from(lent.switches));
        self.rooms.iter().for_each(|&room| raw.short(room));
    }

    fn take(input: &mut impl Read) -> io::Result<Case> {
        let mut lent = Lent {
            items: take_numbers(input)?,
            literals: take_numbers(input)?,
            bytes: take_text(input)?,
            names: take_numbers(input)?,
            tokens: take_numbers(input)?,
            plan: take_numbers(input)?,
            record: take_text(input)?,
            edition: Edition::CURRENT,
            ..Lent::default()
        };
        let other = take_text(input)?;
        lent.switches = take_short(input)? as u8;
        let rooms = [take_short(input)?, take_short(input)?, take_short(input)?];
        Ok(Case { lent, other, rooms })
    }

    fn line(&self) -> String {
        let answer = self.answer();
        let shown = |listed: &Listed| {
            let [count] = listed.result.unwrap_or_default();
            let sum = checksum(&listed.rows);
            format!("{} {count} {sum}", told(listed.result))
        };
        let [looked, plan, named] = answer.lists.each_ref().map(shown);
        let same = u8::from(answer.same_answers);
        format!("L {looked} P {plan} N {named} A {same}")
    }
}

impl fmt::Display for Case {
    fn fmt(&self, f: &mut fmt::Formatter) -> fmt::Result {
        self.lent.fmt(f)?;
        writeln!(f, "other record: \"{}\"", self.other.escape_ascii())?;
        writeln!(f, "room: {:?}", self.rooms)
    }
}
