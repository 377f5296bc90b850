//! What a rule may look at (02, n), written from document 02 alone: the "items
//! named in the simple conditions judged (an omitted subject and a condition-name's
//! item too)".

pub mod case;
#[cfg(feature = "library")]
pub mod compare;
mod generate;
#[cfg(test)]
mod tests;

use crate::rules::names::name_of;
use crate::rules::parts::{simple_conditions, Simple};
use crate::rules::tokens::kind_of;
use crate::rules::{
    check_condition, check_room, judge_and_tell, run_and_tell, Judged, Refusal, Tables, WITH_NOT,
};
use std::collections::BTreeSet;

/// Item rows, rising, each once.
type Items = BTreeSet<u32>;

/// The items of the simple conditions that judging reaches on a record. Refusals 1
/// to 4, 18, 5 to 9, 12, then 10: a condition that stops is listed too.
pub fn looked_at(
    tables: &Tables,
    tokens: &[u32],
    record: &[u8],
    switches: u8,
    rows: &mut [u32],
) -> Result<[u32; 1], Refusal> {
    write(items_judged(tables, tokens, record, switches)?, rows)
}

/// The same of the rows that a run of a plan reaches. Refusals 1 to 4, 18, 11, 12,
/// then 10.
pub fn looked_at_plan(
    tables: &Tables,
    plan: &[u32],
    record: &[u8],
    switches: u8,
    rows: &mut [u32],
) -> Result<[u32; 1], Refusal> {
    write(items_run(tables, plan, record, switches)?, rows)
}

/// Every item that a condition names. Refusals 1 to 4, 18, 5 to 9, then 10.
pub fn named_items(tables: &Tables, tokens: &[u32], rows: &mut [u32]) -> Result<[u32; 1], Refusal> {
    check_condition(tables, tokens)?;
    let mut items = Items::new();
    simple_conditions(tokens).for_each(|simple| items.extend(items_of(tables, &simple)));
    write(items, rows)
}

fn items_judged(
    tables: &Tables,
    tokens: &[u32],
    record: &[u8],
    switches: u8,
) -> Result<Items, Refusal> {
    let mut items = Items::new();
    let judged = judge_and_tell(tables, tokens, record, switches, |simple| {
        items.extend(items_of(tables, simple))
    });
    unless_refused_earlier(judged, items)
}

fn items_run(tables: &Tables, plan: &[u32], record: &[u8], switches: u8) -> Result<Items, Refusal> {
    let mut items = Items::new();
    let judged = run_and_tell(tables, plan, record, switches, |simple| {
        items.extend(items_of(tables, simple))
    });
    unless_refused_earlier(judged, items)
}

/// Stops, 13 and 17, are no refusals here.
fn unless_refused_earlier(judged: Judged, items: Items) -> Result<Items, Refusal> {
    match judged.answer {
        Err(refusal) if !matches!(refusal.number, 13 | 17) => Err(refusal),
        _ => Ok(items),
    }
}

/// The items of one simple condition, both sides of a relation; an object of 0
/// elsewhere names none.
fn items_of(tables: &Tables, simple: &Simple) -> impl Iterator<Item = u32> {
    let item = |token: u32| match kind_of(token) {
        0 => Some(token),
        5 => Some(name_of(tables, token).item),
        _ => None,
    };
    let relates = matches!(simple.relation % WITH_NOT, 5..=9);
    let object = relates.then_some(simple.object).and_then(item);
    item(simple.subject).into_iter().chain(object)
}

fn write(items: Items, rows: &mut [u32]) -> Result<[u32; 1], Refusal> {
    check_room(rows.len(), items.len())?;
    for (row, item) in rows.iter_mut().zip(&items) {
        *row = *item;
    }
    Ok([items.len() as u32])
}
