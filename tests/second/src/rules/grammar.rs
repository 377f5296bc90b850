//! The grammar as a recogniser of sequences of symbols; refusals 7 and 8.

use super::tokens::{kind_of, v_of};
use super::{refuse, Refusal};

/// 16 brackets may be open at once, 17 are refused.
pub const DEEPEST: usize = 16;

/// What the grammar sees of a token.
#[derive(Clone, Copy, PartialEq, Eq, Debug)]
pub enum Symbol {
    Operand,
    /// a simple condition of one token: a switch, or a condition-name (02, h)
    Whole,
    Open,
    Close,
    Not,
    And,
    Or,
    /// > < =, which may have NOT before them
    Plain,
    /// >= <=, which may not
    Joined,
    /// a class or sign word
    Test,
}

/// The words 0 to 16 as symbols.
pub const WORD_SYMBOLS: [Symbol; 17] = {
    use Symbol::*;
    [
        Open, Close, Not, And, Or, Plain, Plain, Plain, Joined, Joined, Test, Test, Test, Test,
        Test, Test, Test,
    ]
};

/// Only for tokens that refusal 6 has let through.
pub fn symbol(token: u32) -> Symbol {
    match kind_of(token) {
        0 | 1 => Symbol::Operand,
        2 | 3 | 5 => Symbol::Whole,
        _ => WORD_SYMBOLS[v_of(token) as usize],
    }
}

/// Spots of the grammar between two tokens, one bit each, so that a set of
/// spots is a number. "New" spots have no carried subject and relation.
mod spot {
    pub const TERM_NEW: u16 = 1;
    pub const TERM_CARRY: u16 = 1 << 1;
    /// A logical NOT was read; its body comes.
    pub const BODY_NEW: u16 = 1 << 2;
    pub const BODY_CARRY: u16 = 1 << 3;
    /// A NOT was read that belongs to the relation of an abbreviated condition.
    pub const RELATION_NOT: u16 = 1 << 4;
    /// A subject was read.
    pub const SUBJECT: u16 = 1 << 5;
    /// A subject and a NOT were read.
    pub const SUBJECT_NOT: u16 = 1 << 6;
    /// A relation was read; its object comes.
    pub const OBJECT: u16 = 1 << 7;
    /// A body has ended that leaves no carry, or one.
    pub const END_NEW: u16 = 1 << 8;
    pub const END_CARRY: u16 = 1 << 9;

    pub const BODY_COMES: u16 = TERM_NEW | TERM_CARRY | BODY_NEW | BODY_CARRY;
    pub const ENDS: u16 = END_NEW | END_CARRY;
}

/// The grammar as moves: from any spot of the first set to all spots of the
/// second. From every spot some sequence can be completed, so a beginning is
/// shared by some derived sequence as long as its set of spots is not empty.
///
/// "A condition is one or more AND-chains joined by OR; a chain is one or more
/// terms joined by AND; a term is a body, or NOT and a body; a body is a
/// bracketed condition or a simple condition." "No NOT stands directly after a
/// NOT." "Full simple conditions: operand, relation, operand; operand, class
/// word; operand, sign word; switch. A relation is > < = each with or without
/// NOT before it, or >= <= without. A class or sign word may have NOT before
/// it." "Abbreviation needs a carried subject and relation. Then a simple
/// condition may also be a relation and an object, or an object alone." "Class,
/// sign and switch conditions, each "(" and each ")" drop the carry. AND, OR
/// and a logical NOT keep it." "NOT directly before > < = belongs to the
/// relation". A condition-name "is a simple condition of its own, drops the
/// carry" (02, h).
pub const fn moves(symbol: Symbol) -> [(u16, u16); 3] {
    use spot::*;
    const NONE: (u16, u16) = (0, 0);
    match symbol {
        Symbol::Operand => [
            (BODY_COMES, SUBJECT),
            (TERM_CARRY | BODY_CARRY, END_CARRY),
            (OBJECT, END_CARRY),
        ],
        Symbol::Whole => [(BODY_COMES, END_NEW), NONE, NONE],
        Symbol::Open => [(BODY_COMES, TERM_NEW), NONE, NONE],
        Symbol::Close => [(ENDS, END_NEW), NONE, NONE],
        Symbol::Not => [
            (TERM_NEW, BODY_NEW),
            (TERM_CARRY, BODY_CARRY | RELATION_NOT),
            (SUBJECT, SUBJECT_NOT),
        ],
        Symbol::And | Symbol::Or => [(END_NEW, TERM_NEW), (END_CARRY, TERM_CARRY), NONE],
        Symbol::Plain => [
            (TERM_CARRY | RELATION_NOT, OBJECT),
            (SUBJECT | SUBJECT_NOT, OBJECT),
            NONE,
        ],
        Symbol::Joined => [(TERM_CARRY | BODY_CARRY, OBJECT), (SUBJECT, OBJECT), NONE],
        Symbol::Test => [(SUBJECT | SUBJECT_NOT, END_NEW), NONE, NONE],
    }
}

/// The moves of every symbol, in the order of `Symbol`.
pub const MOVES: [[(u16, u16); 3]; 10] = {
    use Symbol::*;
    [
        moves(Operand),
        moves(Whole),
        moves(Open),
        moves(Close),
        moves(Not),
        moves(And),
        moves(Or),
        moves(Plain),
        moves(Joined),
        moves(Test),
    ]
};

pub fn step(spots: u16, symbol: Symbol) -> u16 {
    let allowed = |&(from, to): &(u16, u16)| if spots & from != 0 { to } else { 0 };
    MOVES[symbol as usize]
        .iter()
        .map(allowed)
        .fold(0, |a, b| a | b)
}

/// 7: "the grammar derives no such sequence", "length of the longest beginning
/// that some derived sequence shares"; 8: "17 brackets open at once", "the
/// first "(" that makes 17 open"; "of 7 and 8 the smaller place wins, and 7 on
/// a tie; 7 ignores typing, depth and how long the derived sequence is."
pub fn recognise(tokens: &[u32]) -> Result<(), Refusal> {
    let mut spots = spot::TERM_NEW;
    let mut open = 0;
    for (place, &token) in tokens.iter().enumerate() {
        let symbol = symbol(token);
        spots = step(spots, symbol);
        if spots == 0 || (symbol == Symbol::Close && open == 0) {
            return refuse(7, place);
        }
        match symbol {
            Symbol::Open if open == DEEPEST => return refuse(8, place),
            Symbol::Open => open += 1,
            Symbol::Close => open -= 1,
            _ => {}
        }
    }
    if open > 0 || spots & spot::ENDS == 0 {
        return refuse(7, tokens.len());
    }
    Ok(())
}
