//! Conditions and plans with switch-off words made into ones without (02, l),
//! written from document 02 alone.

pub mod case;
#[cfg(feature = "library")]
pub mod compare;
mod generate;
#[cfg(test)]
mod tests;

use crate::rules::plan::check_plan;
use crate::rules::tables::check_tables;
use crate::rules::tokens::{kind_of, WORD_NOT};
use crate::rules::{check_condition, check_room, Edition, Refusal, Tables};

/// "A converter takes conditions accepted under the old rules [...]; it refuses with
/// 1 to 9 or 18 by those rules, else with 5 over 256 tokens, then 10."
pub fn convert_condition(
    tables: &Tables,
    tokens: &[u32],
    output: &mut [u32],
) -> Result<[u32; 1], Refusal> {
    check_condition(&by_old_rules(tables), tokens)?;
    let converted = converted_condition(tokens);
    if converted.len() > 256 {
        return Err(Refusal::at(5, 0));
    }
    write(&converted, output)
}

/// "Old plans get run's old refusals before 12, or 10, or are converted by naming
/// the on switch and exchanging that row's targets."
pub fn convert_plan(
    tables: &Tables,
    plan: &[u32],
    output: &mut [u32],
) -> Result<[u32; 1], Refusal> {
    let old = by_old_rules(tables);
    check_tables(&old)?;
    check_plan(&old, plan)?;
    write(&converted_plan(plan), output)
}

fn by_old_rules<'a>(tables: &Tables<'a>) -> Tables<'a> {
    let edition = Edition::WithOffSwitches;
    Tables { edition, ..*tables }
}

fn is_off(token: u32) -> bool {
    kind_of(token) == 3
}

/// The on token of the same switch.
fn on(token: u32) -> u32 {
    token - 65_536
}

/// "NOT before an off token becomes the on token alone, a bare off token becomes
/// NOT and the on token".
fn converted_condition(tokens: &[u32]) -> Vec<u32> {
    let mut converted = Vec::new();
    for &token in tokens {
        if !is_off(token) {
            converted.push(token);
        } else if converted.last() == Some(&WORD_NOT) {
            converted.pop();
            converted.push(on(token));
        } else {
            converted.extend([WORD_NOT, on(token)]);
        }
    }
    converted
}

fn converted_plan(plan: &[u32]) -> Vec<u32> {
    let rows = plan.chunks_exact(5);
    let converted = rows.flat_map(|row| match *row {
        [token, relation, object, on_true, on_false] if is_off(token) => {
            [on(token), relation, object, on_false, on_true]
        }
        _ => [row[0], row[1], row[2], row[3], row[4]],
    });
    converted.collect()
}

fn write(numbers: &[u32], output: &mut [u32]) -> Result<[u32; 1], Refusal> {
    check_room(output.len(), numbers.len())?;
    output[..numbers.len()].copy_from_slice(numbers);
    Ok([numbers.len() as u32])
}
