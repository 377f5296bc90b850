//! Parts: recognised tokens with the omitted parts supplied.

use super::grammar::{symbol, Symbol};
use super::tokens::v_of;
use super::WITH_NOT;

/// A simple condition with nothing omitted, as the first three numbers of a
/// plan row: "A switch has 0, 0 after its token; class and sign rows have
/// object 0." A condition-name's row "is the token, 0, 0" (02, h).
#[derive(Clone, Copy)]
pub struct Simple {
    pub subject: u32,
    pub relation: u32,
    pub object: u32,
}

/// A part of a condition; `not` tells of a logical NOT before it.
#[derive(Clone, Copy)]
pub enum Part {
    Simple { simple: Simple, not: bool },
    Open { not: bool },
    Close,
    And,
    Or,
}

/// Reads recognised tokens. The last subject and relation read are the carried
/// ones: the recogniser lets none be omitted where the carry was dropped. "A
/// full relation sets both carried parts; an abbreviated relation that states
/// its relation replaces that one."
pub struct Parts<'a> {
    pub tokens: &'a [u32],
    pub at: usize,
    pub subject: u32,
    pub relation: u32,
}

pub fn parts(tokens: &[u32]) -> Parts<'_> {
    Parts {
        tokens,
        at: 0,
        subject: 0,
        relation: 0,
    }
}

pub fn simple_conditions(tokens: &[u32]) -> impl Iterator<Item = Simple> + '_ {
    parts(tokens).filter_map(|part| match part {
        Part::Simple { simple, .. } => Some(simple),
        _ => None,
    })
}

impl Parts<'_> {
    pub fn ahead(&self, steps: usize) -> Option<Symbol> {
        self.tokens.get(self.at + steps).map(|&token| symbol(token))
    }

    /// "NOT directly before > < = belongs to the relation, and is carried with
    /// it." "A class or sign word may have NOT before it. That NOT belongs to
    /// the word." "Any other NOT before a body is logical and isn't carried."
    /// Asked with `at` behind the NOT.
    pub fn not_belongs_to_word(&self) -> bool {
        matches!(self.ahead(0), Some(Symbol::Plain | Symbol::Test))
    }

    /// "An operand followed by a relation, or by a class or sign word with or
    /// without NOT, is a subject; else it is an object." Asked with `at`
    /// behind the operand.
    pub fn is_subject(&self) -> bool {
        match self.ahead(0) {
            Some(Symbol::Plain | Symbol::Joined | Symbol::Test) => true,
            Some(Symbol::Not) => matches!(self.ahead(1), Some(Symbol::Plain | Symbol::Test)),
            _ => false,
        }
    }

    pub fn simple(&self, object: u32, not: bool) -> Part {
        let (subject, relation) = (self.subject, self.relation);
        let simple = Simple {
            subject,
            relation,
            object,
        };
        Part::Simple { simple, not }
    }
}

impl Iterator for Parts<'_> {
    type Item = Part;

    #[inline]
    fn next(&mut self) -> Option<Part> {
        let mut logical = false;
        let mut belonging = 0;
        loop {
            let token = *self.tokens.get(self.at)?;
            self.at += 1;
            match symbol(token) {
                Symbol::Open => return Some(Part::Open { not: logical }),
                Symbol::Close => return Some(Part::Close),
                Symbol::And => return Some(Part::And),
                Symbol::Or => return Some(Part::Or),
                Symbol::Not if self.not_belongs_to_word() => belonging = WITH_NOT,
                Symbol::Not => logical = true,
                Symbol::Plain | Symbol::Joined => self.relation = v_of(token) + belonging,
                Symbol::Test => {
                    self.relation = v_of(token) + belonging;
                    return Some(self.simple(0, logical));
                }
                Symbol::Whole => {
                    (self.subject, self.relation) = (token, 0);
                    return Some(self.simple(0, logical));
                }
                Symbol::Operand if self.is_subject() => self.subject = token,
                Symbol::Operand => return Some(self.simple(token, logical)),
            }
        }
    }
}
