//! Random texts of record descriptions, the same for the same seed and index:
//! valid ones, damaged ones, and texts at every limit.

mod conditions;
mod damage;
mod limits;
mod writer;

use super::case::Case;
use super::read;
use crate::random::Random;
use writer::Writer;

/// Case `index` of a seed.
pub fn case(seed: u64, index: u64) -> Case {
    let mut random = Random::new(seed ^ 0xDE5C_0000, index);
    let text = text(&mut random);
    let mut case = Case {
        text,
        ..Case::default()
    };
    choose_rooms(&mut random, &mut case);
    case
}

fn text(random: &mut Random) -> Vec<u8> {
    match random.below(100) {
        0..=34 => valid(random),
        35..=79 => {
            let mut text = valid(random);
            for _ in 0..random.pick(&[1, 1, 1, 2]) {
                damage::damage(random, &mut text);
            }
            text
        }
        80..=94 => {
            let mut text = limits::text(random);
            if random.chance(200) {
                damage::damage(random, &mut text);
            }
            text
        }
        _ => damage::soup(random),
    }
}

/// A text that is valid but for its limits.
pub fn valid(random: &mut Random) -> Vec<u8> {
    let mut writer = Writer::new(random);
    writer.records();
    writer.finish()
}

/// Room for the outputs, around what is needed.
fn choose_rooms(random: &mut Random, case: &mut Case) {
    let needed = match read(&case.text) {
        Ok(described) => described.counts(),
        Err(_) => [9, 3, 19, 2, 6, 4].map(|most| random.below(most)),
    };
    let all = random.chance(500);
    case.rooms = needed.map(|needed| match all {
        true => needed as usize,
        false => room(random, needed),
    });
}

fn room(random: &mut Random, needed: u32) -> usize {
    let room = match random.below(100) {
        0..=64 => needed,
        65..=71 => needed.saturating_sub(1),
        72..=95 => needed + random.between(1, 6),
        96..=98 => random.below(needed + 1),
        _ => 0,
    };
    room as usize
}
