//! The expanded form, part by part.

use super::parts::{Part, Simple};
use super::tokens::{WORD, WORD_AND, WORD_CLOSE, WORD_NOT, WORD_OPEN, WORD_OR};
use super::WITH_NOT;

/// A part written out in full.
pub fn spelled(part: Part) -> impl Iterator<Item = u32> {
    let only = |token| [Some(token), None, None, None, None];
    let tokens = match part {
        Part::Close => only(WORD_CLOSE),
        Part::And => only(WORD_AND),
        Part::Or => only(WORD_OR),
        Part::Open { not } => [not.then_some(WORD_NOT), Some(WORD_OPEN), None, None, None],
        Part::Simple { simple, not } => spelled_simple(simple, not),
    };
    tokens.into_iter().flatten()
}

/// Logical NOT, subject, NOT of the relation, relation, object; each if there.
pub fn spelled_simple(simple: Simple, not: bool) -> [Option<u32>; 5] {
    let word = simple.relation % WITH_NOT;
    [
        not.then_some(WORD_NOT),
        Some(simple.subject),
        (simple.relation >= WITH_NOT).then_some(WORD_NOT),
        (word != 0).then_some(WORD + word),
        matches!(word, 5..=9).then_some(simple.object),
    ]
}
