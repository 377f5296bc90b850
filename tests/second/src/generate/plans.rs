//! Plans: the planner's own, random ones that keep the rules, damaged ones.

use super::{condition, damage, simple_condition};
use crate::answers::ENOUGH;
use crate::case::Case;
use crate::random::Random;
use crate::rules::{self, VERDICT_FALSE, VERDICT_TRUE};

pub fn plan(random: &mut Random, case: &Case) -> Vec<u32> {
    let mut plan = match random.below(100) {
        0..=39 => planned(random, case),
        40..=97 => random_plan(random, case),
        _ => at_the_limits(random, case),
    };
    if random.chance(350) {
        damage::damage_plan(random, &mut plan);
    }
    plan
}

/// One that keeps the rules.
pub fn sound_plan(random: &mut Random, case: &Case) -> Vec<u32> {
    match random.chance(500) {
        true => planned(random, case),
        false => random_plan(random, case),
    }
}

/// The plan of the case's condition, or of another one where that has none.
fn planned(random: &mut Random, case: &Case) -> Vec<u32> {
    let mut output = [0; ENOUGH];
    let tables = case.tables();
    let own = rules::plan(&tables, &case.tokens, &mut output);
    let count = own.or_else(|_| {
        let other = condition::written(random, case);
        rules::plan(&tables, &other, &mut output)
    });
    match count {
        Ok(count) => output[..count as usize].to_vec(),
        Err(_) => random_plan(random, case),
    }
}

fn random_plan(random: &mut Random, case: &Case) -> Vec<u32> {
    let rows = match random.below(20) {
        0..=16 => random.between(1, 6),
        17..=18 => random.between(5, 20),
        _ => random.between(20, 60),
    };
    let mut plan = Vec::with_capacity(5 * rows as usize);
    for row in 0..rows {
        plan.extend(simple_condition(random, case));
        plan.push(any_target(random, row, rows));
        plan.push(any_target(random, row, rows));
    }
    plan
}

/// A later row, mostly a near one, or a verdict.
fn any_target(random: &mut Random, row: u32, rows: u32) -> u32 {
    let last = row + 1 == rows;
    match random.below(10) {
        0..=1 => VERDICT_FALSE,
        2..=3 => VERDICT_TRUE,
        _ if last => random.pick(&[VERDICT_FALSE, VERDICT_TRUE]),
        4..=7 => row + 1,
        _ => random.between(row + 1, rows - 1),
    }
}

/// No rows, 127 to 129 rows.
fn at_the_limits(random: &mut Random, case: &Case) -> Vec<u32> {
    let rows = random.pick(&[0, 127, 128, 128, 129, 129]);
    let simple = simple_condition(random, case);
    let mut plan = Vec::with_capacity(5 * rows as usize);
    for row in 0..rows {
        plan.extend(simple);
        plan.push(any_target(random, row, rows));
        plan.push(any_target(random, row, rows));
    }
    plan
}
