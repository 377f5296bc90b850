//! Name tables (02, h): sound ones over the items and literals of a case, and
//! damaged ones.

use super::content::Theme;
use super::{tables, Facts};
use crate::case::Case;
use crate::random::Random;
use crate::rules::names::NAME_ROW;
use crate::rules::tables::{check_items, check_literals, ROW};
use crate::rules::tokens::LITERAL;
use crate::rules::values::literals_ordered;

/// No names in half of the cases.
pub fn fill(random: &mut Random, theme: &Theme, case: &mut Case) {
    let rows = match random.below(100) {
        0..=49 => 0,
        50..=94 => random.between(1, 4),
        95..=97 => random.between(5, 12),
        _ => random.between(62, 64),
    };
    for _ in 0..rows {
        if let Some(row) = sound_row(random, theme, case) {
            case.names.extend(row);
        }
    }
}

/// A row over any item, with literals of the table that fit it and new ones.
fn sound_row(random: &mut Random, theme: &Theme, case: &mut Case) -> Option<[u32; NAME_ROW]> {
    let items = case.items.len() / ROW;
    if items == 0 {
        return None;
    }
    let item = random.below(items as u32);
    for _ in 0..random.below(3) {
        add_fitting(random, theme, case, item);
    }
    let mut fitting = fitting(case, item);
    if fitting.is_empty() {
        add_fitting(random, theme, case, item);
        fitting = self::fitting(case, item);
    }
    if fitting.is_empty() {
        return None;
    }
    let mut row = [0; NAME_ROW];
    let count = random.pick(&[1, 1, 1, 2, 2, 3, 5, 8]);
    (row[0], row[1]) = (item, count);
    for pair in row[2..].chunks_exact_mut(2).take(count as usize) {
        pair.copy_from_slice(&ends(random, case, &fitting));
    }
    Some(row)
}

/// The literal rows that may be compared with an item.
fn fitting(case: &Case, item: u32) -> Vec<u32> {
    let item = Facts::of(case, item);
    let literals = 0..(case.literals.len() / ROW) as u32;
    literals
        .filter(|&row| item.fits(&Facts::of(case, LITERAL + row)))
        .collect()
}

/// Two ends in order, or one value.
fn ends(random: &mut Random, case: &Case, fitting: &[u32]) -> [u32; 2] {
    let (low, high) = (random.pick(fitting), random.pick(fitting));
    let tables = case.tables();
    if random.chance(400) {
        [low, low]
    } else if literals_ordered(&tables, [low, high]) {
        [low, high]
    } else if literals_ordered(&tables, [high, low]) {
        [high, low]
    } else {
        [low, low]
    }
}

/// A literal near the case's common number or text that fits an item.
fn add_fitting(random: &mut Random, theme: &Theme, case: &mut Case, item: u32) {
    if case.literals.len() == 64 * ROW {
        return;
    }
    let facts = Facts::of(case, item);
    let text = match (facts.numeric(), facts.packed() || facts.scale > 0) {
        (true, true) => false,
        (true, false) => random.chance(250),
        (false, _) => random.chance(750),
    };
    let kind = if text { 2 } else { random.pick(&[3, 3, 5]) };
    let [size, scale, digits] = tables::measures(random, kind);
    let scale = if facts.numeric() { scale } else { 0 };
    tables::add_literal_of(random, theme, kind, [size, scale, digits], case);
}

/// Breaks the table's length, or a row in one way.
pub fn damage(random: &mut Random, case: &mut Case) {
    if random.chance(150) {
        return break_length(random, &mut case.names);
    }
    if case.names.len() < NAME_ROW {
        case.names = vec![0; NAME_ROW];
        case.names[1] = random.below(3);
    }
    let start = NAME_ROW * random.index(case.names.len() / NAME_ROW);
    if random.chance(500) {
        return break_pair(random, case, start);
    }
    let (items, literals) = (case.items.len() / ROW, case.literals.len() / ROW);
    let row = &mut case.names[start..start + NAME_ROW];
    let used = 2 * row[1].min(8) as usize;
    let place = 2 + random.index(used.max(1));
    match random.below(13) {
        0 => row[0] = items as u32,
        1 => row[0] = random.any() as u32,
        2 => row[1] = 0,
        3 => row[1] = 9,
        4 => row[1] = random.pick(&[10, 16, 17, 256, 65_537, u32::MAX, 0x8000_0001]),
        5 => row[1] = row[1].wrapping_add(random.pick(&[1, u32::MAX])),
        6 => row[place] = literals as u32,
        7 => row[place] = random.any() as u32,
        8 => row[place] = random.below(literals as u32 + 1),
        9 if used < 16 => row[2 + used + random.index(16 - used)] = random.pick(&[1, 1, 65_536]),
        10 => row[0] = random.below(items as u32 + 1),
        11 => row[2..]
            .chunks_exact_mut(2)
            .for_each(|pair| pair.swap(0, 1)),
        _ => row[random.index(NAME_ROW)] ^= 1 << random.below(32),
    }
}

/// Puts two ends of which just one thing is wrong for a pair: the low or the high
/// one may not be compared with the item, one only is numeric, or their order. Not
/// where the other tables are damaged already.
fn break_pair(random: &mut Random, case: &mut Case, start: usize) {
    let [item, count] = [case.names[start], case.names[start + 1]];
    let tables = case.tables();
    let sound = check_items(tables.items).and_then(|()| check_literals(&tables));
    let there = (item as usize) < case.items.len() / ROW && (1..=8).contains(&count);
    if sound.is_err() || !there {
        return;
    }
    let theme = Theme::choose(random);
    for _ in 0..3 {
        if case.literals.len() < 64 * ROW {
            tables::add_literal(random, &theme, case);
        }
    }
    let literals = (case.literals.len() / ROW) as u32;
    let faulty = |pair: &[u32; 2]| faults(case, item, *pair) == 1;
    let pairs = (0..20).map(|_| [random.below(literals), random.below(literals)]);
    if let Some(pair) = pairs.into_iter().find(faulty) {
        let place = start + 2 + 2 * random.index(count as usize);
        case.names[place..place + 2].copy_from_slice(&pair);
    }
}

/// How many things are wrong for a pair.
fn faults(case: &Case, item: u32, pair: [u32; 2]) -> usize {
    let item = Facts::of(case, item);
    let [low, high] = pair.map(|row| Facts::of(case, LITERAL + row));
    let wrong = [
        !item.fits(&low),
        !item.fits(&high),
        low.numeric() != high.numeric() || !literals_ordered(&case.tables(), pair),
    ];
    wrong.into_iter().filter(|&wrong| wrong).count()
}

/// A length that is no multiple of 18, or 65 rows.
fn break_length(random: &mut Random, names: &mut Vec<u32>) {
    match random.below(4) {
        0 if !names.is_empty() => names.truncate(names.len() - 1),
        1 => {
            let row = match names.get(..NAME_ROW) {
                Some(row) => row.to_vec(),
                None => vec![0; NAME_ROW],
            };
            (names.len() / NAME_ROW..65).for_each(|_| names.extend(&row));
        }
        _ => names.extend(std::iter::repeat_n(0, random.between(1, 17) as usize)),
    }
}
