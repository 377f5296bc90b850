//! Random condition texts, the same for the same seed and index: spelled in every
//! way, damaged, words in no order, texts at every limit; and tokens to print.

mod damage;
mod limits;
mod writer;

use super::case::Case;
use super::names::Names;
use super::{condition, print};
use crate::case::Case as Tables;
use crate::descriptions;
use crate::generate::over_tables;
use crate::random::Random;

/// Case `index` of a seed.
pub fn case(seed: u64, index: u64) -> Case {
    let mut random = Random::new(seed ^ 0x5BE1_1000, index);
    let description = description(&mut random);
    let text = text(&mut random, &description);
    let printed = over_tables(&mut random, tables(&description));
    let mut case = Case {
        description,
        text,
        literals: printed.literals,
        bytes: printed.bytes,
        tokens: printed.tokens,
        ..Case::default()
    };
    only_named(&mut random, &mut case);
    choose_rooms(&mut random, &mut case);
    case
}

/// Mostly a short valid description, now and then any text of a).
fn description(random: &mut Random) -> Vec<u8> {
    if random.chance(60) {
        return descriptions::generate::case(random.any(), 0).text;
    }
    for _ in 0..8 {
        let text = descriptions::generate::valid(random);
        if text.len() <= 400 && descriptions::read(&text).is_ok() {
            return text;
        }
    }
    b"01 A. 02 B PIC 9(4). 88 F VALUE 1 THRU 9. 02 C PIC X(3). 02 D PIC S9V9 COMP-3. 77 E PIC A."
        .to_vec()
}

/// The tables of a description, or some where it is faulty.
fn tables(description: &[u8]) -> Tables {
    match descriptions::read(description) {
        Ok(described) => Tables {
            items: described.rows,
            names: described.names,
            literals: described.literals.rows,
            bytes: described.literals.bytes,
            ..Tables::default()
        },
        Err(_) => Tables {
            items: vec![3, 0, 1, 0, 1],
            ..Tables::default()
        },
    }
}

fn text(random: &mut Random, description: &[u8]) -> Vec<u8> {
    match random.below(100) {
        0..=44 => writer::text(random, description),
        45..=69 => {
            let mut text = writer::text(random, description);
            for _ in 0..random.pick(&[1, 1, 1, 2]) {
                damage::damage(random, &mut text);
            }
            text
        }
        70..=87 => damage::soup(random, description),
        _ => limits::text(random, description),
    }
}

/// In most cases, tokens that have no name of their own give way.
fn only_named(random: &mut Random, case: &mut Case) {
    let Ok(described) = descriptions::read(&case.description) else {
        return;
    };
    let names = Names::of(&case.description, &described);
    let (items, conditions) = (described.places.len(), described.name_places.len());
    let named = names.tokens();
    if random.chance(250) || named.is_empty() {
        return;
    }
    for token in &mut case.tokens {
        let v = (*token & 0xFFFF) as usize;
        let own = names.name(*token).is_some();
        match *token >> 16 {
            0 if !own && v < items => *token = random.pick(&named),
            5 if !own && v < conditions => *token = random.pick(&named),
            3 if random.chance(900) => *token -= 65_536,
            _ => {}
        }
    }
}

/// Room for the outputs, around what is needed.
fn choose_rooms(random: &mut Random, case: &mut Case) {
    let needed = match condition(&case.description, &case.text) {
        Ok(said) => [said.tokens.len(), said.literals.len(), said.bytes.len()],
        Err(_) => [random.index(9), random.index(6), random.index(9)],
    };
    case.rooms = needed.map(|needed| room(random, needed as u32));
    let mut output = vec![0; 65_536];
    let printed = print(
        &case.description,
        &case.literals,
        &case.bytes,
        &case.tokens,
        &mut output,
    );
    let [length] = printed.unwrap_or_else(|_| [random.below(40)]);
    case.print_room = room(random, length);
}

fn room(random: &mut Random, needed: u32) -> usize {
    let room = match random.below(100) {
        0..=69 => needed,
        70..=76 => needed.saturating_sub(1),
        77..=94 => needed + random.between(1, 6),
        95..=97 => random.below(needed + 1),
        _ => 0,
    };
    room as usize
}
