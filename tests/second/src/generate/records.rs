//! Items laid out in a record, and copies of the record that were changed.

use super::content::{self, Theme};
use super::{damage, tables};
use crate::case::Case;
use crate::random::Random;
use crate::rules::tables::{rows, Row, ROW};

/// Items and a record that holds them: elementary ones apart, but for so many in a
/// thousand, groups anywhere, rows in any order.
pub fn laid_out(random: &mut Random, overlapping: u32) -> Case {
    let theme = Theme::choose(random);
    let count = match random.below(20) {
        0 => 0,
        1..=15 => random.between(1, 7),
        16..=18 => random.between(8, 20),
        _ => random.between(62, 64),
    };
    let mut laid = Vec::new();
    let mut end = 0;
    for _ in 0..count {
        let row = laid_row(random, overlapping, end);
        end = end.max(row[1] + row[2]);
        laid.push(row);
    }
    if random.chance(300) {
        for place in 1..laid.len() {
            laid.swap(place, random.index(place + 1));
        }
    }
    let mut case = Case {
        items: laid.concat(),
        ..Case::default()
    };
    tables::fill_record(random, &theme, &mut case);
    let behind = random.pick(&[0, 0, 0, 1, 3]);
    case.record.extend((0..behind).map(|_| random.any() as u8));
    case
}

fn laid_row(random: &mut Random, overlapping: u32, end: u32) -> [u32; ROW] {
    let kind = random.pick(&[0, 1, 2, 3, 3, 4, 4, 5, 5, 6, 6, 7, 8, 9]);
    let [size, scale, digits] = tables::measures(random, kind);
    let anywhere = matches!(kind, 0 | 7) || random.chance(overlapping);
    let offset = match random.below(10) {
        _ if anywhere => random.below(end + 1),
        0 => end + random.between(1, 3),
        _ => end,
    };
    [kind, offset, size.min(300), scale, digits]
}

/// A copy of a record in which some items have other bytes: other values, the
/// other sign of zero, invalid content, or any byte.
pub fn changed(random: &mut Random, items: &[u32], record: &[u8]) -> Vec<u8> {
    let theme = Theme::choose(random);
    let often = random.pick(&[0, 100, 300, 600, 900]);
    let mut copy = record.to_vec();
    for row in rows(items) {
        let start = row.offset as usize;
        if let Some(bytes) = copy.get_mut(start..start + row.size as usize) {
            if random.chance(often) && !row.is_group() {
                change(random, &theme, &row, bytes);
            }
        }
    }
    if random.chance(100) && !copy.is_empty() {
        let place = random.index(copy.len());
        copy[place] = random.any() as u8;
    }
    copy
}

fn change(random: &mut Random, theme: &Theme, row: &Row, bytes: &mut [u8]) {
    let numbers = [row.kind, row.offset, row.size, row.scale, row.digits];
    match random.below(10) {
        0..=3 => content::put(random, theme, &numbers, bytes),
        4..=5 if row.numeric() => content::put_zero(random, row, bytes),
        6 if row.packed() => content::spoil_halves(random, bytes),
        6..=7 => content::spoil(random, bytes),
        _ => {
            let place = random.index(bytes.len());
            bytes[place] = bytes[place].wrapping_add(random.pick(&[1, 255, 16, 128]));
        }
    }
}

/// Zeros, of either sign, in some items of a record.
pub fn put_zeros(random: &mut Random, items: &[u32], record: &mut [u8]) {
    for row in rows(items) {
        let start = row.offset as usize;
        if row.numeric() && random.chance(250) {
            content::put_zero(random, &row, &mut record[start..start + row.size as usize]);
        }
    }
}

/// Unsigned numbers of a few digits, apart, and a record that holds them.
pub fn counters(random: &mut Random) -> Case {
    let theme = Theme::choose(random);
    let most = random.pick(&[1, 4, 8, 8, 10]);
    let mut case = Case::default();
    let mut end = 0;
    for _ in 0..random.between(1, 6) {
        let digits = match random.chance(500) {
            true => most,
            false => random.between(1, most),
        };
        let scale = random.pick(&[0, 0, 0, 1]);
        case.items.extend([3, end, digits, scale, digits]);
        end += digits + random.pick(&[0, 0, 0, 1]);
    }
    tables::fill_record(random, &theme, &mut case);
    case
}

/// Valid content in each elementary item that the record holds.
pub fn put_valid(random: &mut Random, items: &[u32], record: &mut [u8]) {
    let theme = Theme::choose(random);
    for numbers in items.chunks_exact(ROW) {
        let row = Row::of(numbers);
        if let Some(bytes) = record.get_mut(row.bytes()).filter(|_| !row.is_group()) {
            content::put(random, &theme, numbers, bytes);
        }
    }
}

/// A copy of a record with a fault in one byte of an elementary item: places count the
/// bytes of these items in row order, and begin again behind the last.
pub fn spoiled(random: &mut Random, items: &[u32], record: &[u8], place: usize) -> Vec<u8> {
    let held = |row: &Row| !row.is_group() && row.part(record).is_some();
    let places = || {
        rows(items)
            .filter(held)
            .flat_map(|row| row.bytes().map(move |at| (row, at)))
    };
    let mut copy = record.to_vec();
    let count = places().count();
    if let Some((row, at)) = places().nth(place.checked_rem(count).unwrap_or(0)) {
        let byte = &mut copy[at..=at];
        match row.kind {
            1 => content::spoil_letters(random, byte),
            8 | 9 => content::spoil_halves(random, byte),
            _ => content::spoil(random, byte),
        }
    }
    copy
}

/// The record mostly stays, or loses or gets bytes.
pub fn cut(random: &mut Random, record: &mut Vec<u8>) {
    let length = record.len();
    match random.below(40) {
        0 => record.truncate(length.saturating_sub(1)),
        1 => record.truncate(random.index(length + 1)),
        2 => record.push(b'0'),
        _ => {}
    }
}

/// Breaks the item table now and then.
pub fn damage_items(random: &mut Random, items: &mut Vec<u32>) {
    if random.chance(50) {
        let mut case = Case {
            items: std::mem::take(items),
            ..Case::default()
        };
        damage::damage_item_table(random, &mut case);
        *items = case.items;
    }
}

/// Room for an output, around what is needed.
pub fn room(random: &mut Random, needed: u32) -> usize {
    let room = match random.below(100) {
        0..=64 => needed,
        65..=74 => needed.saturating_sub(1),
        75..=92 => needed + random.between(1, 6),
        93..=96 => random.below(needed + 1),
        _ => 0,
    };
    room as usize
}
