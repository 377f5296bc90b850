//! The recogniser against an enumeration of the grammar.

use super::super::grammar::{recognise, symbol, Symbol};
use super::super::refuse;
use super::super::tokens::{WORD, WORD_AND, WORD_CLOSE, WORD_NOT, WORD_OPEN, WORD_OR};
use std::collections::HashSet;

/// Sequences of symbols that the grammar derives, each with whether it leaves
/// a carry, up to a length, made by applying the paper's sentences literally.
type Derived = HashSet<(Vec<u8>, bool)>;

const OPERAND: u8 = 0;
const NOT: u8 = 4;

fn all_symbols() -> [Symbol; 10] {
    use Symbol::*;
    [
        Operand, Whole, Open, Close, Not, And, Or, Plain, Joined, Test,
    ]
}

/// A token with the symbol of that number.
fn sample(symbol: u8) -> u32 {
    [
        0,
        131072,
        WORD_OPEN,
        WORD_CLOSE,
        WORD_NOT,
        WORD_AND,
        WORD_OR,
        WORD + 5,
        WORD + 8,
        WORD + 10,
    ][symbol as usize]
}

fn derive_simple(carry: bool) -> Derived {
    let relations: [&[u8]; 3] = [&[7], &[NOT, 7], &[8]];
    let mut derived = Derived::new();
    for relation in relations {
        derived.insert(([&[OPERAND], relation, &[OPERAND]].concat(), true));
        if carry {
            derived.insert(([relation, &[OPERAND]].concat(), true));
        }
    }
    if carry {
        derived.insert((vec![OPERAND], true));
    }
    derived.insert((vec![OPERAND, 9], false));
    derived.insert((vec![OPERAND, NOT, 9], false));
    derived.insert((vec![1], false));
    derived
}

fn derive_terms(carry: bool, longest: usize) -> Derived {
    let mut bodies = derive_simple(carry);
    if longest >= 3 {
        for (inside, _) in derive_condition(false, longest - 2) {
            bodies.insert(([&[2], &inside[..], &[3]].concat(), false));
        }
    }
    let mut terms = bodies.clone();
    for (body, leaves) in bodies {
        if body[0] != NOT {
            terms.insert(([&[NOT], &body[..]].concat(), leaves));
        }
    }
    terms.retain(|(term, _)| term.len() <= longest);
    terms
}

/// Terms joined by AND and OR: as a set of sequences, chains joined by OR.
fn derive_condition(carry: bool, longest: usize) -> Derived {
    let firsts = derive_terms(carry, longest);
    let mut derived = firsts.clone();
    for (first, leaves) in firsts {
        if first.len() + 2 > longest {
            continue;
        }
        for (rest, leaves) in derive_condition(leaves, longest - first.len() - 1) {
            for joiner in [5, 6] {
                derived.insert(([&first[..], &[joiner], &rest[..]].concat(), leaves));
            }
        }
    }
    derived
}

/// Every sequence of up to four symbols: the place of refusal 7 against the
/// longest beginning that some derived sequence of up to nine symbols shares.
/// Nine are enough: four open brackets, a body of one, four closing ones.
#[test]
fn recogniser_against_enumeration() {
    let derived: HashSet<Vec<u8>> = derive_condition(false, 9)
        .into_iter()
        .map(|(sequence, _)| sequence)
        .collect();
    assert!(derived.len() > 1_000);
    let beginnings: HashSet<&[u8]> = derived
        .iter()
        .flat_map(|sequence| (0..=sequence.len().min(4)).map(move |length| &sequence[..length]))
        .collect();
    let mut checked = 0;
    for length in 1..=4 {
        for number in 0..10_usize.pow(length) {
            let sequence: Vec<u8> = (0..length)
                .map(|digit| (number / 10_usize.pow(digit) % 10) as u8)
                .collect();
            let shared = (0..=sequence.len())
                .rev()
                .find(|&length| beginnings.contains(&sequence[..length]))
                .unwrap();
            let expected = if derived.contains(&sequence) {
                Ok(())
            } else {
                refuse(7, shared)
            };
            let condition: Vec<u32> = sequence.iter().map(|&symbol| sample(symbol)).collect();
            assert_eq!(recognise(&condition), expected, "{sequence:?}");
            checked += 1;
        }
    }
    assert_eq!(checked, 11_110);
    for sequence in &derived {
        let condition: Vec<u32> = sequence.iter().map(|&symbol| sample(symbol)).collect();
        assert_eq!(recognise(&condition), Ok(()), "{sequence:?}");
    }
}

#[test]
fn samples_have_their_symbols() {
    for (number, known) in all_symbols().into_iter().enumerate() {
        assert_eq!(symbol(sample(number as u8)), known);
    }
}
