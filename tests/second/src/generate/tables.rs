//! Valid item and literal tables with their bytes.

use super::content::{self, Theme};
use super::names;
use crate::case::Case;
use crate::random::Random;
use crate::rules::tables::ROW;

pub fn fill(random: &mut Random, case: &mut Case) {
    let theme = Theme::choose(random);
    fill_items(random, case);
    fill_record(random, &theme, case);
    fill_literals(random, &theme, case);
    names::fill(random, &theme, case);
}

fn fill_items(random: &mut Random, case: &mut Case) {
    let rows = match random.below(100) {
        0..=1 => 0,
        2..=74 => random.between(1, 6),
        75..=94 => random.between(5, 14),
        95..=97 => random.between(15, 40),
        _ => random.between(62, 64),
    };
    let kinds: &[u32] = match random.below(4) {
        0 => &[0, 1, 2, 3, 4, 5, 6, 7, 8, 9],
        1 => &[3, 3, 4, 4, 5, 6, 8, 8, 9, 2],
        2 => &[0, 1, 2, 2, 2, 3, 4, 7, 8],
        _ => &[1, 1, 0, 7, 2, 3, 4, 5, 6, 9],
    };
    let mut end = 0;
    for _ in 0..rows {
        let kind = random.pick(kinds);
        let [size, scale, digits] = measures(random, kind);
        let offset = offset(random, end);
        case.items.extend([kind, offset, size, scale, digits]);
        end = end.max(offset + size);
    }
}

/// The bytes that so many digits take.
pub fn size(kind: u32, digits: u32) -> u32 {
    match kind {
        3 | 4 => digits,
        5 | 6 => digits + 1,
        _ => digits / 2 + 1,
    }
}

/// Size, scale and digits within the rules, now and then at their limits.
pub fn measures(random: &mut Random, kind: u32) -> [u32; 3] {
    let wide = random.chance(40);
    match kind {
        0 | 7 if wide && random.chance(10) => [65_535, 0, 0],
        0 | 7 if wide => [random.between(1, 300), 0, 0],
        0 | 7 => [random.between(1, 8), 0, 0],
        1 | 2 if wide => [random.between(250, 256), 0, 0],
        1 | 2 => [random.between(1, 6), 0, 0],
        _ => {
            let digits = if wide || random.chance(90) {
                random.between(16, 18)
            } else if kind >= 8 && random.chance(700) {
                random.between(1, 18)
            } else {
                random.between(1, 5)
            };
            let scale = match random.below(10) {
                0..=5 => 0,
                6 => digits,
                _ => random.below(digits + 1),
            };
            [size(kind, digits), scale, digits]
        }
    }
}

/// Mostly behind the rows before, sometimes over them, rarely at the limit.
fn offset(random: &mut Random, end: u32) -> u32 {
    let offset = match random.below(1000) {
        0..=799 => end,
        800..=829 => end + random.between(1, 4),
        830..=998 => random.below(end + 1),
        _ if random.chance(150) => 65_535,
        _ => end,
    };
    offset.min(65_535)
}

fn span(row: &[u32]) -> std::ops::Range<usize> {
    let start = row[1] as usize;
    start..start + row[2] as usize
}

/// A record that ends where the last item does.
pub fn fill_record(random: &mut Random, theme: &Theme, case: &mut Case) {
    let length = case.items.chunks(ROW).map(|row| span(row).end).max();
    case.record = vec![b' '; length.unwrap_or(0)];
    let mut filled = 0;
    for row in case.items.chunks(ROW) {
        let covers_others = span(row).start < filled;
        if !covers_others || random.chance(500) {
            let bytes = &mut case.record[span(row)];
            content::put(random, theme, row, bytes);
        }
        filled = filled.max(span(row).end);
    }
    for row in case.items.chunks(ROW) {
        let bytes = &mut case.record[span(row)];
        match row[0] {
            1 if random.chance(theme.rot / 2) => content::spoil_letters(random, bytes),
            3..=6 if random.chance(theme.rot) => content::spoil(random, bytes),
            8 | 9 if random.chance(theme.rot) => content::spoil_halves(random, bytes),
            _ => {}
        }
    }
}

pub fn fill_literals(random: &mut Random, theme: &Theme, case: &mut Case) {
    let rows = match random.below(100) {
        0..=19 => 0,
        20..=89 => random.between(1, 4),
        90..=98 => random.between(5, 9),
        _ => random.between(62, 64),
    };
    for _ in case.literals.len() / ROW..rows as usize {
        if case.literals.is_empty() || random.chance(850) {
            add_literal(random, theme, case);
        } else {
            view_literal_again(random, case);
        }
    }
    if random.chance(300) {
        case.bytes.push(random.any() as u8);
    }
}

pub fn add_literal(random: &mut Random, theme: &Theme, case: &mut Case) {
    let kind = random.pick(&[2, 2, 3, 3, 5]);
    let measures = measures(random, kind);
    add_literal_of(random, theme, kind, measures, case);
}

pub fn add_literal_of(
    random: &mut Random,
    theme: &Theme,
    kind: u32,
    [size, scale, digits]: [u32; 3],
    case: &mut Case,
) {
    let start = case.bytes.len();
    let row = [kind, start as u32, size, scale, digits];
    case.literals.extend(row);
    case.bytes.resize(start + size as usize, b' ');
    content::put(random, theme, &row, &mut case.bytes[start..]);
}

/// A row over bytes of an earlier row: the digits behind a sign, or characters.
fn view_literal_again(random: &mut Random, case: &mut Case) {
    let row = ROW * random.index(case.literals.len() / ROW);
    let (kind, offset, size) = (
        case.literals[row],
        case.literals[row + 1],
        case.literals[row + 2],
    );
    let view = match kind {
        5 if random.chance(500) => [3, offset + 1, size - 1, 0, size - 1],
        _ => [2, offset, random.between(1, size), 0, 0],
    };
    case.literals.extend(view);
}
