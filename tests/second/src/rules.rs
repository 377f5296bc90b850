//! The rules, written a second time from the scope paper (document 01) and the
//! change requests (document 02) alone.
//! Comments in double quotes are their sentences.
//!
//! The way taken here: a recogniser that keeps the set of grammar spots after
//! each token; a reader that turns recognised tokens into parts; one pass over
//! the parts for each call. Nothing calls itself and nothing is kept on the heap.

pub(crate) mod apart;
pub(crate) mod content;
mod edition;
mod expand;
mod grammar;
mod judge;
pub(crate) mod names;
pub(crate) mod parts;
pub(crate) mod plan;
pub(crate) mod tables;
#[cfg(test)]
mod tests;
pub(crate) mod tokens;
mod typing;
pub(crate) mod values;

pub use edition::Edition;
pub use plan::{VERDICT_FALSE, VERDICT_TRUE};
pub use tables::Tables;

use parts::Simple;

/// "A refusal gives a number and a place, counted from 0, and changes nothing."
#[derive(Clone, Copy, Debug, PartialEq, Eq)]
pub struct Refusal {
    pub number: u32,
    pub place: u32,
    /// An offset in the record for the refusals that name one, else 0.
    pub byte: u32,
}

impl Refusal {
    pub fn at(number: u32, place: u32) -> Refusal {
        let byte = 0;
        Refusal {
            number,
            place,
            byte,
        }
    }
}

fn refuse<T>(number: u32, place: usize) -> Result<T, Refusal> {
    Err(Refusal::at(number, place as u32))
}

/// "Judge and run also report how many simple conditions were judged, a refused
/// one counted, 0 if refused earlier" (02, i).
#[derive(Clone, Copy, Debug, PartialEq, Eq)]
pub struct Judged {
    pub answer: Result<bool, Refusal>,
    pub count: u32,
}

impl Judged {
    fn refused_earlier(refusal: Refusal) -> Judged {
        let answer = Err(refusal);
        Judged { answer, count: 0 }
    }
}

/// "The relation is the word number, plus 32 where NOT belongs to it."
pub const WITH_NOT: u32 = 32;

/// "The expanded form is the same tokens with the omitted ones inserted where
/// they were left out, and no added brackets." Gives "the count of numbers
/// written from the start of the output, the rest of it unchanged".
pub fn expand(tables: &Tables, tokens: &[u32], output: &mut [u32]) -> Result<u32, Refusal> {
    check_condition(tables, tokens)?;
    let expanded = || parts::parts(tokens).flat_map(expand::spelled);
    let needed = expanded().count();
    check_room(output.len(), needed)?;
    for (number, token) in output.iter_mut().zip(expanded()) {
        *number = token;
    }
    Ok(needed as u32)
}

/// "One row of five numbers for each simple condition, in text order: subject
/// token, relation, object token, target if true, target if false."
pub fn plan(tables: &Tables, tokens: &[u32], output: &mut [u32]) -> Result<u32, Refusal> {
    let needed = 5 * check_condition(tables, tokens)?;
    check_room(output.len(), needed)?;
    let plan = &mut output[..needed];
    let structure = plan::write_simple_conditions(tokens, plan);
    plan::write_targets(&structure, plan);
    Ok(needed as u32)
}

/// "The rules' answer, for tokens and tables that none of 1 to 9 refuses, is
/// refusal 12 where the table below gives it, else the answer of the derived
/// tree."
pub fn judge(tables: &Tables, tokens: &[u32], record: &[u8], switches: u8) -> Judged {
    judge_and_tell(tables, tokens, record, switches, |_| {})
}

/// Tells each simple condition that judging reaches (02, n).
pub(crate) fn judge_and_tell(
    tables: &Tables,
    tokens: &[u32],
    record: &[u8],
    switches: u8,
    reached: impl FnMut(&Simple),
) -> Judged {
    let checked =
        check_condition(tables, tokens).and_then(|_| tables::check_record(tables.items, record));
    match checked {
        Ok(()) => judge::answer_of_tree(tables, tokens, record, switches, reached),
        Err(refusal) => Judged::refused_earlier(refusal),
    }
}

/// "A run starts at row 0 and follows targets."
pub fn run(tables: &Tables, plan: &[u32], record: &[u8], switches: u8) -> Judged {
    run_and_tell(tables, plan, record, switches, |_| {})
}

/// Tells the simple condition of each row that a run reaches (02, n).
pub(crate) fn run_and_tell(
    tables: &Tables,
    plan: &[u32],
    record: &[u8],
    switches: u8,
    reached: impl FnMut(&Simple),
) -> Judged {
    let checked = tables::check_tables(tables)
        .and_then(|()| plan::check_plan(tables, plan))
        .and_then(|()| tables::check_record(tables.items, record));
    match checked {
        Ok(()) => judge::answer_of_plan(tables, plan, record, switches, reached),
        Err(refusal) => Judged::refused_earlier(refusal),
    }
}

/// Refusals 1 to 4, 18, 5 to 9 in their order; 7 and 8 come out of one walk. Gives the
/// number of simple conditions.
pub(crate) fn check_condition(tables: &Tables, tokens: &[u32]) -> Result<usize, Refusal> {
    tables::check_tables(tables)?;
    tokens::check_tokens(tables, tokens)?;
    grammar::recognise(tokens)?;
    typing::check_typing(tables, tokens)
}

/// 10: "output shorter than needed (of several outputs, the first such)",
/// "numbers needed in it".
pub(crate) fn check_room(room: usize, needed: usize) -> Result<(), Refusal> {
    if room < needed {
        return refuse(10, needed);
    }
    Ok(())
}
