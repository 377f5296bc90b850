//! A case of the converters: items, literals, literal bytes, names, tokens, plan,
//! record, the switch byte, the rooms of the condition and of the plan. Its answer:
//! `C n p c h P n p c h M m`, of the condition, of the plan, and 1 where old and new
//! meaning agree on the record and switch byte.

use super::{convert_condition, convert_plan, generate};
use crate::answers::{checksum, fresh_output, ENOUGH};
use crate::case::Case as Lent;
use crate::rules::{self, Edition, Refusal, Tables};
use crate::subject::{take_numbers, take_short, take_text, told, Raw, Subject};
use std::fmt;
use std::io::{self, Read};

/// Expand's room is that of the condition.
#[derive(Clone, Debug, Default, PartialEq, Eq)]
pub struct Case {
    pub lent: Lent,
}

/// What a converter gave, and its output after the call.
#[derive(Clone, Debug, PartialEq, Eq)]
pub struct Converted {
    pub result: Result<[u32; 1], Refusal>,
    pub output: Vec<u32>,
}

pub struct Answer {
    pub condition: Converted,
    pub plan: Converted,
    pub same_meaning: bool,
}

type Converter = fn(&Tables, &[u32], &mut [u32]) -> Result<[u32; 1], Refusal>;

impl Case {
    fn converted(&self, converter: Converter, numbers: &[u32], room: usize) -> Converted {
        let mut output = fresh_output(room);
        let result = converter(&self.lent.tables(), numbers, &mut output);
        Converted { result, output }
    }

    pub fn answer(&self) -> Answer {
        let Lent {
            tokens,
            plan,
            expand_room,
            plan_room,
            ..
        } = &self.lent;
        Answer {
            condition: self.converted(convert_condition, tokens, *expand_room),
            plan: self.converted(convert_plan, plan, *plan_room),
            same_meaning: self.same_condition() && self.same_plan(),
        }
    }

    /// With room for all; None where it is refused.
    fn given(&self, converter: Converter, numbers: &[u32]) -> Option<Vec<u32>> {
        let Converted { result, mut output } = self.converted(converter, numbers, ENOUGH);
        output.truncate(result.ok()?[0] as usize);
        Some(output)
    }

    /// The tables by the old rules and by the new ones.
    pub fn both_rules(&self) -> [Tables<'_>; 2] {
        [Edition::WithOffSwitches, Edition::WithoutOffSwitches].map(|edition| Tables {
            edition,
            ..self.lent.tables()
        })
    }

    /// "Old meaning and new meaning agree on every record and switch byte, and where
    /// the condition converts, both ways give one plan."
    fn same_condition(&self) -> bool {
        let Some(condition) = self.given(convert_condition, &self.lent.tokens) else {
            return true;
        };
        let [old, new] = self.both_rules();
        let (record, switches) = (&self.lent.record, self.lent.switches);
        let mut plans = [[0; ENOUGH]; 2];
        let [before, after] = &mut plans;
        let planned = rules::plan(&old, &self.lent.tokens, before);
        let count = planned.unwrap_or(0) as usize;
        planned == rules::plan(&new, &condition, after)
            && self.given(convert_plan, &before[..count]).as_deref() == Some(&after[..count])
            && rules::judge(&old, &self.lent.tokens, record, switches)
                == rules::judge(&new, &condition, record, switches)
    }

    fn same_plan(&self) -> bool {
        let Some(plan) = self.given(convert_plan, &self.lent.plan) else {
            return true;
        };
        let [old, new] = self.both_rules();
        let (record, switches) = (&self.lent.record, self.lent.switches);
        rules::run(&old, &self.lent.plan, record, switches)
            == rules::run(&new, &plan, record, switches)
    }
}

impl Subject for Case {
    fn case(seed: u64, index: u64) -> Case {
        generate::case(seed, index)
    }

    fn put(&self, raw: &mut Raw) {
        let lent = &self.lent;
        raw.numbers(&lent.items);
        raw.numbers(&lent.literals);
        raw.text(&lent.bytes);
        raw.numbers(&lent.names);
        raw.numbers(&lent.tokens);
        raw.numbers(&lent.plan);
        raw.text(&lent.record);
        raw.short(usize::from(lent.switches));
        raw.short(lent.expand_room);
        raw.short(lent.plan_room);
    }

    fn take(input: &mut impl Read) -> io::Result<Case> {
        let lent = Lent {
            items: take_numbers(input)?,
            literals: take_numbers(input)?,
            bytes: take_text(input)?,
            names: take_numbers(input)?,
            tokens: take_numbers(input)?,
            plan: take_numbers(input)?,
            record: take_text(input)?,
            switches: take_short(input)? as u8,
            expand_room: take_short(input)?,
            plan_room: take_short(input)?,
            edition: Edition::WithOffSwitches,
        };
        Ok(Case { lent })
    }

    fn line(&self) -> String {
        let answer = self.answer();
        let shown = |converted: &Converted| {
            let [count] = converted.result.unwrap_or_default();
            let sum = checksum(&converted.output);
            format!("{} {count} {sum}", told(converted.result))
        };
        let (condition, plan) = (shown(&answer.condition), shown(&answer.plan));
        format!("C {condition} P {plan} M {}", u8::from(answer.same_meaning))
    }
}

impl fmt::Display for Case {
    fn fmt(&self, f: &mut fmt::Formatter) -> fmt::Result {
        self.lent.fmt(f)
    }
}
