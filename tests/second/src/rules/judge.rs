//! Judging a condition from left to right, and following a plan.

use super::grammar::DEEPEST;
use super::parts::{parts, Part, Simple};
use super::plan::{plan_row, VERDICT_FALSE, VERDICT_TRUE};
use super::tables::Tables;
use super::values::test;
use super::Judged;

/// A condition on its way: whether judging reached it, whether one of its
/// chains was true, and whether the current chain is true so far.
#[derive(Clone, Copy)]
pub struct Level {
    pub reached: bool,
    pub fixed: bool,
    pub chain: bool,
    pub not: bool,
}

impl Level {
    pub fn begin(reached: bool, not: bool) -> Level {
        Level {
            reached,
            fixed: false,
            chain: true,
            not,
        }
    }

    /// "Each level stops as soon as its value is fixed": whether the next term
    /// is reached.
    pub fn goes_on(&self) -> bool {
        self.reached && !self.fixed && self.chain
    }

    /// An OR ends a chain; a true one fixes the condition.
    pub fn next_chain(&mut self) {
        self.fixed |= self.chain;
        self.chain = true;
    }

    pub fn value(&self) -> bool {
        (self.fixed || self.chain) != self.not
    }
}

/// "Judging goes from left to right; each level stops as soon as its value is
/// fixed. A simple condition that is not reached is not read." "A stop ends
/// all judging and is the answer, with its refusal number and place."
/// The count "is that of the rules' own left-to-right judging" (02, i). Tells each
/// simple condition that is reached, before it is tested.
pub fn answer_of_tree(
    tables: &Tables,
    tokens: &[u32],
    record: &[u8],
    switches: u8,
    mut reached: impl FnMut(&Simple),
) -> Judged {
    let mut outer = [Level::begin(true, false); DEEPEST];
    let mut open = 0;
    let mut level = Level::begin(true, false);
    let mut number = 0;
    let mut count = 0;
    for part in parts(tokens) {
        match part {
            Part::Simple { simple, not } => {
                if level.goes_on() {
                    count += 1;
                    reached(&simple);
                    match test(tables, &simple, record, switches) {
                        Ok(value) => level.chain = value != not,
                        Err(stop) => {
                            let answer = Err(stop.at(number));
                            return Judged { answer, count };
                        }
                    }
                }
                number += 1;
            }
            Part::Open { not } => {
                outer[open] = level;
                open += 1;
                level = Level::begin(level.goes_on(), not);
            }
            Part::Close => {
                open -= 1;
                let inner = level;
                level = outer[open];
                if inner.reached {
                    level.chain = inner.value();
                }
            }
            Part::And => {}
            Part::Or => level.next_chain(),
        }
    }
    let answer = Ok(level.value());
    Judged { answer, count }
}

/// "A run starts at row 0 and follows targets." The count "is the rows it
/// reaches" (02, i).
pub fn answer_of_plan(
    tables: &Tables,
    plan: &[u32],
    record: &[u8],
    switches: u8,
    mut reached: impl FnMut(&Simple),
) -> Judged {
    let mut row = 0;
    let mut count = 0;
    let answer = loop {
        count += 1;
        let (simple, on_true, on_false) = plan_row(&plan[5 * row..5 * row + 5]);
        reached(&simple);
        let target = match test(tables, &simple, record, switches) {
            Ok(true) => on_true,
            Ok(false) => on_false,
            Err(stop) => break Err(stop.at(row)),
        };
        match target {
            VERDICT_TRUE => break Ok(true),
            VERDICT_FALSE => break Ok(false),
            later => row = later as usize,
        }
    };
    Judged { answer, count }
}
