//! Words that belong together: which of them give a token, which only stand
//! beside one, and which stand where they may not.

use super::names::Names;
use super::words::{sort, words, Sort, Word};
use crate::rules::tokens::{kind_of, WORD};

/// What a word says, in its place.
pub struct Said<'a> {
    pub text: &'a [u8],
    pub start: usize,
    pub means: Joined,
}

#[derive(Clone, Copy, Debug, PartialEq, Eq)]
pub enum Joined {
    Token(u32),
    Name,
    Literal,
    /// 15 at the word.
    Faulty,
}

/// A token is kind × 65,536 + v.
const SWITCH_ON: u32 = 2 * 65_536;

const OR: Sort = Sort::Word(4);
const EQUAL: Sort = Sort::Word(7);

/// The words of a text that give a token or are faulty, in turn.
pub fn joined<'a>(names: &Names, text: &'a [u8]) -> Vec<Said<'a>> {
    let words = words(text);
    let sorts: Vec<Sort> = words.iter().map(|word| among(names, word.text)).collect();
    let said = |(place, word): (usize, Word<'a>)| {
        let means = means(&sorts, place)?;
        let Word { text, start } = word;
        Some(Said { text, start, means })
    };
    words.iter().copied().enumerate().filter_map(said).collect()
}

/// A name of a condition is no operand.
fn among(names: &Names, word: &[u8]) -> Sort {
    match (sort(word), names.token(word)) {
        (Sort::Name, Some(token)) if kind_of(token) == 5 => Sort::Condition,
        (sort, _) => sort,
    }
}

/// None for a word that says nothing by itself. "IS may follow an operand, THAN
/// follow GREATER or LESS, TO follow EQUAL; GREATER or LESS, OR, EQUAL with or
/// without THAN and TO is one relation; > < = >= <= [...] join with no word."
fn means(sorts: &[Sort], place: usize) -> Option<Joined> {
    let before = place.checked_sub(1).map(|place| sorts[place]);
    let only_after = |allowed: bool| (!allowed).then_some(Joined::Faulty);
    match sorts[place] {
        Sort::Is => only_after(matches!(before, Some(Sort::Name | Sort::Literal))),
        Sort::Than => only_after(matches!(before, Some(Sort::Word(5 | 6)))),
        Sort::To => only_after(before == Some(EQUAL)),
        OR if relation_goes_on(sorts, place) => None,
        EQUAL if place > 0 && relation_goes_on(sorts, place - 1) => None,
        Sort::Word(word @ (5 | 6)) if joins_equal(sorts, place) => {
            Some(Joined::Token(WORD + word + 3))
        }
        Sort::Word(word) | Sort::Symbol(word) => Some(Joined::Token(WORD + word)),
        Sort::Switch(number) => Some(Joined::Token(SWITCH_ON + number)),
        Sort::Name | Sort::Condition => Some(Joined::Name),
        Sort::Literal => Some(Joined::Literal),
        Sort::Other => Some(Joined::Faulty),
    }
}

/// Whether a GREATER or LESS goes on with OR EQUAL.
fn joins_equal(sorts: &[Sort], place: usize) -> bool {
    let behind = &sorts[place + 1..];
    behind.starts_with(&[OR, EQUAL]) || behind.starts_with(&[Sort::Than, OR, EQUAL])
}

/// Whether an OR is that of such a relation.
fn relation_goes_on(sorts: &[Sort], place: usize) -> bool {
    let begins = |back: usize| {
        let first = place.checked_sub(back);
        first.is_some_and(|first| {
            matches!(sorts[first], Sort::Word(5 | 6)) && joins_equal(sorts, first)
        })
    };
    sorts[place] == OR && (begins(1) || (begins(2) && sorts[place - 1] == Sort::Than))
}
