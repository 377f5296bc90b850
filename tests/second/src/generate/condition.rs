//! Conditions: written by a walk along the grammar, then sometimes damaged.

use super::{any_operand, any_switch, any_whole, damage, find_operand, simple_condition, Facts};
use crate::case::Case;
use crate::random::Random;

const WORD: u32 = 4 * 65_536;
const OPEN: u32 = WORD;
const CLOSE: u32 = WORD + 1;
const NOT: u32 = WORD + 2;
pub const AND: u32 = WORD + 3;
pub const OR: u32 = WORD + 4;

pub fn tokens(random: &mut Random, case: &Case) -> Vec<u32> {
    let sort = random.below(1000);
    match sort {
        0..=549 => written(random, case),
        550..=899 => nearly_valid(random, case),
        900..=944 => no_such_token(random, case),
        945..=959 => Vec::new(),
        960..=964 => soup(random, case, 600),
        965..=996 => soup(random, case, 12),
        _ => longest_expansion(random, case),
    }
}

/// A well-typed condition as the grammar writes it.
pub fn written(random: &mut Random, case: &Case) -> Vec<u32> {
    let manner = Manner::choose(random);
    let mut writer = Writer {
        random,
        case,
        tokens: Vec::with_capacity(manner.goal + 40),
        manner,
    };
    writer.walk();
    writer.fill_up();
    writer.tokens
}

fn nearly_valid(random: &mut Random, case: &Case) -> Vec<u32> {
    let mut tokens = written(random, case);
    damage::change_tokens(random, case, &mut tokens);
    if random.chance(150) {
        damage::change_tokens(random, case, &mut tokens);
    }
    tokens
}

fn no_such_token(random: &mut Random, case: &Case) -> Vec<u32> {
    let mut tokens = written(random, case);
    let place = random.index(tokens.len());
    tokens[place] = damage::missing_token(random, case);
    tokens
}

/// Random tokens that exist, in no order.
fn soup(random: &mut Random, case: &Case, longest: u32) -> Vec<u32> {
    let length = random.between(1, longest);
    (0..length).map(|_| any_token(random, case)).collect()
}

/// A relation with NOT and as many objects as 256 tokens hold, or nearly: 634
/// tokens when expanded.
fn longest_expansion(random: &mut Random, case: &Case) -> Vec<u32> {
    let subject = any_operand(random, case).unwrap_or(0);
    let relation = WORD + random.between(5, 7);
    let mut tokens = vec![subject, NOT, relation];
    let objects = random.between(125, 127);
    for _ in 0..objects {
        tokens.push(any_operand(random, case).unwrap_or(0));
        tokens.push(random.pick(&[AND, OR]));
    }
    tokens.pop();
    tokens
}

pub fn any_token(random: &mut Random, case: &Case) -> u32 {
    match random.below(20) {
        0..=6 => any_operand(random, case).unwrap_or(NOT),
        7 => any_whole(random, case),
        8..=9 => NOT,
        10..=11 => random.pick(&[OPEN, CLOSE]),
        12..=14 => random.pick(&[AND, OR]),
        15..=18 => WORD + random.between(5, 9),
        _ => WORD + random.between(10, 16),
    }
}

/// How a walk goes: lengths, and chances in a thousand.
struct Manner {
    /// The walk ends when so many tokens are reached.
    goal: usize,
    /// The exact length that is filled up to, if any.
    exact: Option<usize>,
    deepest: usize,
    open: u32,
    close: u32,
    not: u32,
    or: u32,
    abbreviate: u32,
    /// An abbreviated condition states its relation.
    state: u32,
    guard: u32,
}

impl Manner {
    fn choose(random: &mut Random) -> Manner {
        let goal = match random.below(1000) {
            0..=699 => random.between(1, 14),
            700..=919 => random.between(8, 36),
            920..=964 => random.between(30, 110),
            965..=974 => random.between(235, 258),
            975..=989 => 245,
            _ => random.between(8, 36),
        };
        let exact = (goal == 245 && random.chance(900)).then(|| random.between(255, 258) as usize);
        let deep = random.chance(60);
        let least = if deep { random.between(20, 60) } else { 1 };
        Manner {
            goal: goal.max(least) as usize,
            exact,
            deepest: if deep {
                random.between(15, 18) as usize
            } else {
                16
            },
            open: if deep {
                random.between(850, 1000)
            } else {
                random.pick(&[0, 60, 150, 300, 450])
            },
            close: if deep {
                random.pick(&[0, 30, 300, 700])
            } else {
                random.pick(&[200, 400, 600])
            },
            not: random.pick(&[0, 100, 250, 500]),
            or: random.pick(&[0, 200, 400, 500, 600, 1000]),
            abbreviate: random.pick(&[0, 300, 600, 800, 1000]),
            state: random.pick(&[0, 200, 500, 900]),
            guard: random.pick(&[0, 0, 150, 400]),
        }
    }
}

struct Writer<'a> {
    random: &'a mut Random,
    case: &'a Case,
    tokens: Vec<u32>,
    manner: Manner,
}

impl Writer<'_> {
    fn chance(&mut self, thousandths: u32) -> bool {
        self.random.chance(thousandths)
    }

    fn ended(&self) -> bool {
        self.tokens.len() >= self.manner.goal
    }

    fn joiner(&mut self) -> u32 {
        if self.chance(self.manner.or) {
            OR
        } else {
            AND
        }
    }

    /// Terms with brackets and joiners between them, until the goal is reached.
    fn walk(&mut self) {
        let mut depth = 0;
        let mut carry = None;
        loop {
            self.maybe_not();
            while depth < self.manner.deepest && !self.ended() && self.chance(self.manner.open) {
                self.tokens.push(OPEN);
                depth += 1;
                carry = None;
                self.maybe_not();
            }
            carry = self.simple(carry);
            while depth > 0 && (self.ended() || self.chance(self.manner.close)) {
                self.tokens.push(CLOSE);
                depth -= 1;
                carry = None;
            }
            if self.ended() {
                return;
            }
            let joiner = self.joiner();
            self.tokens.push(joiner);
        }
    }

    fn maybe_not(&mut self) {
        if self.chance(self.manner.not) {
            self.tokens.push(NOT);
        }
    }

    /// One simple condition, abbreviated if there is a carried subject to omit
    /// and chance wills it; gives the subject carried on.
    fn simple(&mut self, carry: Option<u32>) -> Option<u32> {
        if let Some(subject) = carry {
            if self.chance(self.manner.abbreviate) && self.abbreviated(subject) {
                return carry;
            }
        }
        if self.chance(self.manner.guard) {
            if let Some(subject) = self.guarded() {
                return Some(subject);
            }
        }
        self.full()
    }

    fn full(&mut self) -> Option<u32> {
        let [subject, relation, object] = simple_condition(self.random, self.case);
        self.tokens.push(subject);
        match relation % 32 {
            0 => None,
            5..=9 => {
                self.relation(relation);
                self.tokens.push(object);
                Some(subject)
            }
            _ => {
                self.relation(relation);
                None
            }
        }
    }

    fn relation(&mut self, relation: u32) {
        if relation >= 32 {
            self.tokens.push(NOT);
        }
        self.tokens.push(WORD + relation % 32);
    }

    /// An object that fits the carried subject, with or without a relation.
    fn abbreviated(&mut self, subject: u32) -> bool {
        let facts = Facts::of(self.case, subject);
        let Some(object) = find_operand(self.random, self.case, |other| facts.fits(other)) else {
            return false;
        };
        if self.chance(self.manner.state) {
            let after_not = self.tokens.last() == Some(&NOT);
            let own_not = !after_not && self.chance(300);
            let relation = if own_not {
                32 + self.random.between(5, 7)
            } else {
                self.random.between(5, 9)
            };
            self.relation(relation);
        }
        self.tokens.push(object);
        true
    }

    /// x NUMERIC AND x > y, or x NOT NUMERIC OR x > y.
    fn guarded(&mut self) -> Option<u32> {
        let numeric = |facts: &Facts| facts.bears(16);
        let subject = find_operand(self.random, self.case, numeric)?;
        let facts = Facts::of(self.case, subject);
        let object = find_operand(self.random, self.case, |other| facts.fits(other))?;
        let (class, joiner) = self.random.pick(&[(10, AND), (42, OR)]);
        self.tokens.push(subject);
        self.relation(class);
        self.tokens.push(joiner);
        self.maybe_not();
        self.tokens.push(subject);
        let relation = self.random.pick(&[5, 6, 7, 8, 9, 37, 38, 39]);
        self.relation(relation);
        self.tokens.push(object);
        Some(subject)
    }

    /// Joins switches to reach an exact length, where two tokens still fit.
    fn fill_up(&mut self) {
        let Some(exact) = self.manner.exact else {
            return;
        };
        while self.tokens.len() + 2 <= exact {
            let joiner = self.joiner();
            self.tokens.push(joiner);
            if (exact - self.tokens.len()).is_multiple_of(2) {
                self.tokens.push(NOT);
            }
            let switch = any_switch(self.random, self.case);
            self.tokens.push(switch);
        }
    }
}
