//! Random cases of the converters: conditions and plans by the old rules, sound
//! and damaged ones, and conditions of about 256 tokens when converted.

use super::case::Case;
use super::{converted_condition, converted_plan};
use crate::case::Case as Lent;
use crate::generate::records::{cut, laid_out, room};
use crate::generate::{damage_one_table, with_condition};
use crate::random::Random;
use crate::rules::tokens::{WORD_AND, WORD_NOT, WORD_OR};
use crate::rules::Edition;

/// Case `index` of a seed.
pub fn case(seed: u64, index: u64) -> Case {
    let mut random = Random::new(seed ^ 0xC0E2_7000, index);
    let laid = Lent {
        edition: Edition::WithOffSwitches,
        ..laid_out(&mut random, 100)
    };
    let mut lent = with_condition(&mut random, laid);
    if random.chance(80) {
        lent.tokens = about_256(&mut random);
    }
    cut(&mut random, &mut lent.record);
    if random.chance(70) {
        damage_one_table(&mut random, &mut lent);
    }
    lent.switches = random.any() as u8;
    let needed = converted_condition(&lent.tokens).len() as u32;
    lent.expand_room = room(&mut random, needed);
    let needed = converted_plan(&lent.plan).len() as u32;
    lent.plan_room = room(&mut random, needed);
    Case { lent }
}

/// Switches whose terms have so many tokens before and after: on, off, each with
/// NOT and without.
fn about_256(random: &mut Random) -> Vec<u32> {
    let goal = random.between(253, 259);
    let likely = random.pick(&[100, 500, 900]);
    let mut tokens = Vec::new();
    let mut converted = 0;
    loop {
        let left = goal - converted;
        let long = match left {
            1 => false,
            2 => true,
            _ => random.chance(likely),
        };
        let switch = 2 * 65_536 + random.below(8);
        let off = switch + 65_536;
        match (long, random.chance(500)) {
            (false, true) => tokens.push(switch),
            (false, false) => tokens.extend([WORD_NOT, off]),
            (true, true) => tokens.push(off),
            (true, false) => tokens.extend([WORD_NOT, switch]),
        }
        converted += 1 + u32::from(long);
        if converted + 2 > goal {
            return tokens;
        }
        tokens.push(random.pick(&[WORD_AND, WORD_OR]));
        converted += 1;
    }
}
