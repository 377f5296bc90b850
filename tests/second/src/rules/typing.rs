//! Typing of simple conditions; refusal 9.

use super::parts::{simple_conditions, Simple};
use super::tables::Tables;
use super::tokens::{is_item, row_of};
use super::{refuse, Refusal, WITH_NOT};

/// 9: "typing broken", "first such simple condition". "Simple conditions are
/// numbered from 0 in text order"; gives their number.
pub fn check_typing(tables: &Tables, tokens: &[u32]) -> Result<usize, Refusal> {
    let mut count = 0;
    for simple in simple_conditions(tokens) {
        if !typed(tables, &simple) {
            return refuse(9, count);
        }
        count += 1;
    }
    Ok(count)
}

/// "Typing of a simple condition, over kinds": "class: the operand is an item;
/// NUMERIC for kinds 2 to 6, the alphabetic tests for 0 to 2"; "sign: an item
/// of kinds 3 to 6". Both class tests take kind 7, a group: "NUMERIC on it means
/// all digits" (02, b). "NUMERIC [...] and sign tests are allowed on packed
/// items" (02, f). A switch has no typing; a condition-name's values may be
/// compared with its item, or 18 was given.
pub fn typed(tables: &Tables, simple: &Simple) -> bool {
    let subject = simple.subject;
    let kind = || is_item(subject).then(|| row_of(tables, subject).kind);
    match simple.relation % WITH_NOT {
        5..=9 => relation_typed(tables, subject, simple.object),
        10 => matches!(kind(), Some(2..=9)),
        11..=13 => matches!(kind(), Some(0..=2 | 7)),
        14..=16 => matches!(kind(), Some(3..=6 | 8 | 9)),
        _ => true,
    }
}

/// "relation: not two literals; if exactly one side is numeric (3 to 6), its
/// scale is 0"; packed items "beside any nonnumeric operand [...] are refused
/// with 9" (02, f).
pub fn relation_typed(tables: &Tables, subject: u32, object: u32) -> bool {
    let (left, right) = (row_of(tables, subject), row_of(tables, object));
    let sides_fit = match (left.numeric(), right.numeric()) {
        (true, false) => left.scale == 0 && !left.packed(),
        (false, true) => right.scale == 0 && !right.packed(),
        _ => true,
    };
    (is_item(subject) || is_item(object)) && sides_fit
}
