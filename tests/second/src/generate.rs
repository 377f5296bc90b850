//! Random cases, the same for the same seed and index: well-typed abbreviated
//! conditions, nearly valid ones and damaged ones, with tables, records and
//! plans of the same sorts.

mod condition;
mod content;
mod damage;
mod names;
mod plans;
pub(crate) mod records;
mod tables;
#[cfg(test)]
mod tests;

use crate::answers::ENOUGH;
use crate::case::Case;
use crate::random::Random;
use crate::rules::names::NAME_ROW;
use crate::rules::tables::ROW;
use crate::rules::tokens::NAME;
use crate::rules::{self, Edition, Refusal};

/// Case `index` of a seed.
pub fn case(seed: u64, index: u64) -> Case {
    let mut random = Random::new(seed, index);
    let mut case = Case {
        switches: random.any() as u8,
        ..Case::default()
    };
    tables::fill(&mut random, &mut case);
    case.tokens = condition::tokens(&mut random, &case);
    case.plan = plans::plan(&mut random, &case);
    damage::cut_record(&mut random, &mut case);
    damage::damage_tables(&mut random, &mut case);
    choose_rooms(&mut random, &mut case);
    case
}

/// More literals and a condition over given tables, each sometimes damaged.
pub fn over_tables(random: &mut Random, mut case: Case) -> Case {
    let theme = content::Theme::choose(random);
    tables::fill_literals(random, &theme, &mut case);
    case.tokens = condition::tokens(random, &case);
    damage::damage_literals(random, &mut case);
    case
}

/// Literals, names, a condition and a plan over given items, both often damaged.
pub fn with_condition(random: &mut Random, mut case: Case) -> Case {
    fill_values(random, &mut case);
    case.tokens = condition::tokens(random, &case);
    case.plan = plans::plan(random, &case);
    case
}

fn fill_values(random: &mut Random, case: &mut Case) {
    let theme = content::Theme::choose(random);
    tables::fill_literals(random, &theme, case);
    names::fill(random, &theme, case);
}

/// Literals, names and a plan over given items, the plan damaged now and then.
pub fn with_sound_plan(random: &mut Random, mut case: Case) -> Case {
    fill_values(random, &mut case);
    case.tokens = condition::written(random, &case);
    case.plan = plans::sound_plan(random, &case);
    if random.chance(60) {
        damage::damage_plan(random, &mut case.plan);
    }
    case
}

/// Breaks one of the tables.
pub fn damage_one_table(random: &mut Random, case: &mut Case) {
    damage::damage_a_table(random, case);
}

/// Room for the outputs, around what is needed: expand tells it of an output
/// without room, and a condition has one simple condition more than joiners.
fn choose_rooms(random: &mut Random, case: &mut Case) {
    let told = rules::expand(&case.tables(), &case.tokens, &mut []);
    let (expanded, planned) = match told {
        Err(Refusal {
            number: 10, place, ..
        }) => (place, 5 * (joiners(&case.tokens) + 1)),
        _ => (random.below(30), random.below(30)),
    };
    case.expand_room = room(random, expanded);
    case.plan_room = room(random, planned);
}

fn joiners(tokens: &[u32]) -> u32 {
    let is_joiner = |&&token: &&u32| matches!(token, condition::AND | condition::OR);
    tokens.iter().filter(is_joiner).count() as u32
}

fn room(random: &mut Random, needed: u32) -> usize {
    let room = match random.below(100) {
        0..=39 => needed,
        40..=49 => needed.saturating_sub(1),
        50..=89 => needed + random.between(1, 12),
        90..=93 => random.below(needed + 1),
        94..=95 => ENOUGH as u32 + random.below(9),
        _ => 0,
    };
    room as usize
}

/// What the parts of the generator need to know of an operand's row.
#[derive(Clone, Copy)]
struct Facts {
    kind: u32,
    scale: u32,
    literal: bool,
}

impl Facts {
    fn of(case: &Case, token: u32) -> Facts {
        let literal = token >> 16 == 1;
        let table = if literal { &case.literals } else { &case.items };
        let row = ROW * (token & 0xFFFF) as usize;
        Facts {
            kind: table[row],
            scale: table[row + 3],
            literal,
        }
    }

    fn numeric(&self) -> bool {
        (3..=6).contains(&self.kind) || self.packed()
    }

    fn packed(&self) -> bool {
        self.kind >= 8
    }

    /// Whether this may stand in a relation with that side.
    fn fits(&self, other: &Facts) -> bool {
        let alone = |side: &Facts| side.scale > 0 || side.packed();
        let one_numeric = self.numeric() != other.numeric();
        let two_literals = self.literal && other.literal;
        !two_literals && !(one_numeric && (alone(self) || alone(other)))
    }

    /// Whether a class or sign word may stand behind this.
    fn bears(&self, word: u32) -> bool {
        let fits = match word {
            10 => self.kind >= 2,
            11..=13 => matches!(self.kind, 0..=2 | 7),
            _ => self.numeric(),
        };
        !self.literal && fits
    }
}

/// Any operand of the tables, items more often than literals.
fn any_operand(random: &mut Random, case: &Case) -> Option<u32> {
    let (items, literals) = (case.items.len() / ROW, case.literals.len() / ROW);
    let literal = match (items, literals) {
        (0, 0) => return None,
        (0, _) => true,
        (_, 0) => false,
        _ => random.chance(220),
    };
    Some(if literal {
        65_536 + random.below(literals as u32)
    } else {
        random.below(items as u32)
    })
}

/// A random operand with a wanted property, if a few tries find one.
fn find_operand(random: &mut Random, case: &Case, wanted: impl Fn(&Facts) -> bool) -> Option<u32> {
    (0..6)
        .map_while(|_| any_operand(random, case))
        .find(|&token| wanted(&Facts::of(case, token)))
}

/// Off switches as often as on ones, or hardly any where they are retired.
fn any_switch(random: &mut Random, case: &Case) -> u32 {
    let kind = match case.edition {
        Edition::WithOffSwitches => random.between(2, 3),
        Edition::WithoutOffSwitches => 2 + u32::from(random.chance(10)),
    };
    kind * 65_536 + random.below(8)
}

fn any_name(random: &mut Random, case: &Case) -> Option<u32> {
    let names = (case.names.len() / NAME_ROW) as u32;
    (names > 0).then(|| NAME + random.below(names))
}

/// A condition-name if there is one and chance wills it, or a switch.
fn any_whole(random: &mut Random, case: &Case) -> u32 {
    let name = any_name(random, case).filter(|_| random.chance(600));
    name.unwrap_or_else(|| any_switch(random, case))
}

/// A well-typed simple condition as the first three numbers of a plan row.
fn simple_condition(random: &mut Random, case: &Case) -> [u32; 3] {
    let triple = match random.below(20) {
        0..=1 => None,
        2 | 19 => any_name(random, case).map(|name| [name, 0, 0]),
        3..=5 => test_of(random, case, &[10, 10, 11, 12, 13]),
        6..=7 => test_of(random, case, &[14, 15, 16]),
        _ => relation_of(random, case),
    };
    triple.unwrap_or_else(|| [any_switch(random, case), 0, 0])
}

fn test_of(random: &mut Random, case: &Case, words: &[u32]) -> Option<[u32; 3]> {
    let word = random.pick(words);
    let subject = find_operand(random, case, |facts| facts.bears(word))?;
    let not = if random.chance(300) { 32 } else { 0 };
    Some([subject, word + not, 0])
}

fn relation_of(random: &mut Random, case: &Case) -> Option<[u32; 3]> {
    let subject = any_operand(random, case)?;
    let facts = Facts::of(case, subject);
    let object = find_operand(random, case, |other| facts.fits(other))?;
    let relation = random.pick(&[5, 6, 7, 7, 8, 9, 37, 38, 39]);
    Some([subject, relation, object])
}
