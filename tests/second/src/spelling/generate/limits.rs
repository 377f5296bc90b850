//! Texts at the limits: 64 and 65 literals, 256 and 257 tokens, byte 2,048, sizes
//! of literals.

use super::{damage, writer};
use crate::descriptions;
use crate::random::Random;
use crate::rules::tables::ROW;
use crate::spelling::names::Names;

pub fn text(random: &mut Random, description: &[u8]) -> Vec<u8> {
    match random.below(8) {
        0..=1 => literals(random, description),
        2..=3 => tokens(random, description),
        4..=5 => long(random, description),
        6 => sized(random),
        _ => Vec::new(),
    }
}

/// A name that the description has, or hasn't.
fn name(random: &mut Random, description: &[u8]) -> Vec<u8> {
    let described = descriptions::read(description).ok();
    let names = described.map(|described| Names::of(description, &described));
    let named = names.map_or_else(Vec::new, |names| damage::named(&names));
    if named.is_empty() || random.chance(50) {
        return b"NO-SUCH".to_vec();
    }
    random.pick(&named).to_vec()
}

/// 63 to 66 literals with the description's, some of them faulty or beyond their
/// limits.
fn literals(random: &mut Random, description: &[u8]) -> Vec<u8> {
    let mut words = vec![name(random, description), b"=".to_vec()];
    let odd = random.pick(&[0, 0, 10]);
    let described = descriptions::read(description).unwrap_or_default();
    let there = described.literals.rows.len() / ROW;
    for number in there..random.between(63, 66) as usize {
        if number > there {
            words.push(random.pick(&["OR", "AND"]).as_bytes().to_vec());
        }
        words.push(if random.chance(odd) {
            damage::odd_word(random)
        } else {
            random
                .pick(&["1", "\"A\"", "-2.5", "\"\"\"\""])
                .as_bytes()
                .to_vec()
        });
    }
    writer::join(random, &words)
}

/// 254 to 259 tokens, in no order that a condition has.
fn tokens(random: &mut Random, description: &[u8]) -> Vec<u8> {
    let count = random.between(254, 259);
    let mut words = Vec::new();
    while words.len() < count as usize {
        words.push(
            random
                .pick(&["(", ")", ">", "OR", "AND", "UPSI-1"])
                .as_bytes()
                .to_vec(),
        );
    }
    if random.chance(300) {
        words[random.index(250)] = name(random, description);
    }
    if random.chance(300) {
        let place = random.index(250);
        words.splice(
            place..place,
            ["LESS", "THAN", "OR", "EQUAL", "TO"].map(|word| word.as_bytes().to_vec()),
        );
    }
    if random.chance(100) {
        words[random.index(250)] = damage::odd_word(random);
    }
    writer::join(random, &words)
}

/// About 2,048 bytes: blanks, or a literal's bytes, before, inside or behind.
fn long(random: &mut Random, description: &[u8]) -> Vec<u8> {
    let mut text = writer::text(random, description);
    text.truncate(1_500);
    let goal = 2_048 + random.index(9) - 4;
    match random.below(4) {
        0 => {
            let fill = vec![b' '; goal.saturating_sub(text.len())];
            let place = if random.chance(500) { 0 } else { text.len() };
            text.splice(place..place, fill);
        }
        1 => {
            text.extend(b" \"");
            let size = (goal.saturating_sub(text.len() + 1)).min(random.pick(&[200, 300, 700]));
            text.extend(vec![b'x'; size]);
            text.push(b'"');
            text.resize(goal.max(text.len()), b' ');
        }
        2 => {
            text.resize(goal.saturating_sub(random.index(9)).max(text.len()), b' ');
            text.extend(damage::odd_word(random));
        }
        _ => {
            text.resize(goal.max(text.len()), b' ');
            for _ in 0..random.below(9) {
                text.extend(b" NO-NAME");
            }
        }
    }
    text
}

/// One literal at the limits of its size.
fn sized(random: &mut Random) -> Vec<u8> {
    let around = |random: &mut Random, limit: u32| (limit + random.below(3) - 1) as usize;
    match random.below(4) {
        0 => writer::quoted(&vec![b'A'; around(random, 256)]),
        1 => writer::quoted(&vec![b'"'; around(random, 256)]),
        2 => {
            let mut word = vec![b'7'; around(random, 18)];
            if random.chance(500) {
                word.insert(random.index(17), b'.');
            }
            word
        }
        _ => {
            let mut word = vec![b'0'; around(random, 18) + 1];
            word[0] = random.pick(b"+-");
            if random.chance(500) {
                word.insert(1 + random.index(16), b'.');
            }
            word
        }
    }
}
