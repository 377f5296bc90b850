//! Damage: one rule broken, mostly by one.

use super::{any_operand, any_whole, condition, find_operand, names, tables, Facts};
use crate::case::Case;
use crate::random::Random;
use crate::rules::names::NAME_ROW;
use crate::rules::tables::ROW;
use crate::rules::tokens::NAME;

const WORD: u32 = 4 * 65_536;
const WORD_10: u32 = WORD + 10;
const WORD_16: u32 = WORD + 16;

/// One change somewhere in a condition.
pub fn change_tokens(random: &mut Random, case: &Case, tokens: &mut Vec<u32>) {
    if tokens.is_empty() {
        return;
    }
    let place = random.index(tokens.len());
    match random.below(18) {
        0 => tokens[place] = condition::any_token(random, case),
        1 => drop(tokens.remove(place)),
        2 => tokens.insert(place, condition::any_token(random, case)),
        3 => tokens.insert(place, tokens[place]),
        4 => tokens.swap(place, place.saturating_sub(1)),
        5 => tokens.truncate(place),
        6 => tokens.insert(place, WORD + 2),
        7..=9 => other_operand(random, case, tokens, place),
        10 => other_word(random, tokens, place),
        11 => bracket(random, tokens, place),
        12 => tokens.push(condition::any_token(random, case)),
        13..=15 => break_typing(random, case, tokens, place),
        16 => drop_carry(random, case, tokens, place),
        _ => tokens.insert(place, WORD + random.below(2)),
    }
}

/// Puts any operand for the next one from a place on: often breaks the typing.
fn other_operand(random: &mut Random, case: &Case, tokens: &mut [u32], place: usize) {
    let is_operand = |&token: &u32| token >> 16 <= 1;
    let next = tokens[place..].iter().position(is_operand);
    if let (Some(next), Some(operand)) = (next, any_operand(random, case)) {
        tokens[place + next] = operand;
    }
}

/// Puts an operand that does not fit the one before, or a test word that the
/// operand does not bear.
fn break_typing(random: &mut Random, case: &Case, tokens: &mut [u32], place: usize) {
    let is_operand = |&place: &usize| tokens[place] >> 16 <= 1;
    let mut operands = (place..tokens.len()).chain(0..place).filter(is_operand);
    let (Some(first), Some(second)) = (operands.next(), operands.next()) else {
        return;
    };
    let facts = Facts::of(case, tokens[first]);
    match tokens.get(first + 1) {
        Some(WORD_10..=WORD_16) => {
            let word = random.between(10, 16);
            if !facts.bears(word) {
                tokens[first + 1] = WORD + word;
            }
        }
        _ => {
            if let Some(other) = find_operand(random, case, |other| !facts.fits(other)) {
                tokens[second] = other;
            }
        }
    }
}

/// Puts a switch or a condition-name behind the next condition that is joined to
/// another: what is abbreviated behind it has no carry.
fn drop_carry(random: &mut Random, case: &Case, tokens: &mut Vec<u32>, place: usize) {
    let is_joiner = |&token: &u32| matches!(token, condition::AND | condition::OR);
    if let Some(next) = tokens[place..].iter().position(is_joiner) {
        let whole = [tokens[place + next], any_whole(random, case)];
        tokens.splice(place + next..place + next, whole);
    }
}

/// Puts any other relation, class or sign word for the next one.
fn other_word(random: &mut Random, tokens: &mut [u32], place: usize) {
    let is_word = |&token: &u32| token >= WORD + 5;
    if let Some(next) = tokens[place..].iter().position(is_word) {
        tokens[place + next] = WORD + random.between(5, 16);
    }
}

/// Brackets around some of the tokens.
fn bracket(random: &mut Random, tokens: &mut Vec<u32>, place: usize) {
    let behind = place + random.index((tokens.len() - place).min(9)) + 1;
    tokens.insert(behind, WORD + 1);
    tokens.insert(place, WORD);
}

/// A token that does not exist, mostly by one.
pub fn missing_token(random: &mut Random, case: &Case) -> u32 {
    let (items, literals) = (case.items.len() / ROW, case.literals.len() / ROW);
    match random.below(9) {
        0 => items as u32,
        1 => 65_536 + literals as u32,
        2 => 2 * 65_536 + 8,
        3 => 3 * 65_536 + 8,
        4 => WORD + 17,
        5 => NAME + (case.names.len() / NAME_ROW) as u32,
        6 => random.below(7) * 65_536 + 65_535,
        7 => 0xFFFF_0000 + random.below(17),
        _ => random.any() as u32 | 0x8_0000,
    }
}

/// The record mostly stays, gets longer, or loses bytes.
pub fn cut_record(random: &mut Random, case: &mut Case) {
    let length = case.record.len();
    match random.below(100) {
        0..=84 => {}
        85..=92 => case.record.resize(length + random.index(5), 0x30),
        93..=97 => case.record.truncate(length.saturating_sub(1)),
        _ => case.record.truncate(random.index(length + 1)),
    }
}

/// Leaves the tables of nine cases in ten alone; sometimes breaks two rules.
pub fn damage_tables(random: &mut Random, case: &mut Case) {
    if random.chance(120) {
        damage_a_table(random, case);
        if random.chance(200) {
            damage_a_table(random, case);
        }
    }
}

/// The same for the literals alone.
pub fn damage_literals(random: &mut Random, case: &mut Case) {
    if random.chance(50) {
        match random.below(3) {
            0 => break_length(random, &mut case.literals),
            _ => break_literal_row(random, case),
        }
    }
}

/// The same for the items alone, always.
pub fn damage_item_table(random: &mut Random, case: &mut Case) {
    match random.below(3) {
        0 => break_length(random, &mut case.items),
        _ => break_item_row(random, case),
    }
}

pub fn damage_a_table(random: &mut Random, case: &mut Case) {
    match random.below(20) {
        0..=3 => break_length(random, &mut case.items),
        4..=8 => break_item_row(random, case),
        9..=10 => break_length(random, &mut case.literals),
        11..=15 => names::damage(random, case),
        _ => break_literal_row(random, case),
    }
}

/// A length that is no multiple of 5, or 65 rows.
fn break_length(random: &mut Random, table: &mut Vec<u32>) {
    match random.below(4) {
        0 if !table.is_empty() => table.truncate(table.len() - 1),
        1 => {
            let row = [2, 0, 1, 0, 0];
            let start = table.len() / ROW;
            (start..65).for_each(|_| table.extend(row));
        }
        _ => table.extend(std::iter::repeat_n(2, random.between(1, 4) as usize)),
    }
}

fn break_item_row(random: &mut Random, case: &mut Case) {
    if case.items.len() < ROW {
        case.items = vec![3, 0, 1, 0, 1];
    }
    let rows = case.items.len() / ROW;
    let row = ROW * random.index(rows);
    break_row(random, &mut case.items[row..row + ROW]);
}

/// Breaks one of a row's own limits by one, or wildly.
fn break_row(random: &mut Random, row: &mut [u32]) {
    let (largest, smallest) = match row[0] {
        0 | 7 => (65_535, 1),
        1 | 2 => (256, 1),
        3 | 4 => (18, 1),
        5 | 6 => (19, 2),
        _ => (10, 1),
    };
    match random.below(11) {
        0 => row[0] = 10,
        1 => row[1] = 65_536,
        2 => row[2] = largest + 1,
        3 => row[2] = smallest - 1,
        4 => row[3] = row[4].saturating_add(1),
        5 => row[4] = row[4].wrapping_add(random.pick(&[1, 2, u32::MAX])),
        6 => row[2] = row[2].wrapping_add(random.pick(&[1, u32::MAX])),
        7 => row[4] = 0,
        8 => nineteen_digits(random, row),
        9 => row[0] = random.below(10),
        _ => row[random.index(ROW)] = random.any() as u32 | 0x8000_0000,
    }
}

/// A size that agrees with one digit too many, or with none.
fn nineteen_digits(random: &mut Random, row: &mut [u32]) {
    let kind = random.pick(&[3, 4, 5, 6, 8, 9]);
    let digits = random.pick(&[0, 19, 19, 20]);
    row.copy_from_slice(&[kind, row[1], tables::size(kind, digits), 0, digits]);
}

/// Breaks a literal row: its limits, its kind, its place or its content.
fn break_literal_row(random: &mut Random, case: &mut Case) {
    if case.literals.len() < ROW {
        case.literals = vec![5, case.bytes.len() as u32, 3, 1, 2];
        case.bytes.extend(b"+12");
    }
    let rows = case.literals.len() / ROW;
    let start = ROW * random.index(rows);
    let row = &mut case.literals[start..start + ROW];
    let size = row[2];
    match random.below(6) {
        0 => break_row(random, row),
        1 => {
            let (kind, digits, content) = random.pick(&[
                (0, 0, b"AB1"),
                (1, 0, b"AB "),
                (4, 3, b"12E"),
                (6, 2, b"12+"),
                (7, 0, b"123"),
                (8, 5, b"\x12\x34\x54"),
                (9, 4, b"\x01\x23\x43"),
            ]);
            row.copy_from_slice(&[kind, case.bytes.len() as u32, 3, 0, digits]);
            case.bytes.extend(content);
        }
        2 => row[1] = (case.bytes.len() as u32 + 1).saturating_sub(size),
        3 => drop(case.bytes.pop()),
        4 => {
            let place = row[1] as usize + random.index(size as usize);
            if let Some(byte) = case.bytes.get_mut(place) {
                *byte = random.pick(&[0x20, 0x2B, 0x2D, 0x2F, 0x3A, 0x45]);
            }
        }
        _ => row[0] = if row[0] == 3 { 5 } else { 3 },
    }
}

/// Damages one row of a plan, or its length.
pub fn damage_plan(random: &mut Random, plan: &mut Vec<u32>) {
    if plan.is_empty() {
        plan.push(0);
        return;
    }
    if random.chance(120) {
        change_plan_length(random, plan);
        return;
    }
    let rows = plan.len() / 5;
    let row = random.index(rows);
    let (start, row, rows) = (5 * row, row as u32, rows as u32);
    let target = start + 3 + random.index(2);
    match random.below(14) {
        0 => plan[target] = row,
        1 => plan[target] = random.below(row + 1),
        2 => plan[target] = rows,
        3 => plan[target] = random.pick(&[65_533, 65_536, u32::MAX]),
        4 => plan[target] = rows + random.below(100),
        5 => plan[start + 1] = random.pick(&[40, 41, 0, 1, 4, 17, 31, 32, 36, 49, 64, 71]),
        6 => plan[start + 1] = plan[start + 1].wrapping_add(random.pick(&[1, 32, u32::MAX])),
        7 => plan[start + 1] = random.pick(&[5, 7, 9, 10, 11, 14, 37, 42]),
        8 => plan[start + 2] = plan[start + 2].wrapping_add(1),
        9 => plan[start + 2] = random.pick(&[0, 1, 64, 65_536, 65_600, 131_072, WORD]),
        10 => {
            let tokens = [
                0,
                1,
                64,
                65_536,
                131_079,
                131_080,
                196_616,
                WORD,
                NAME,
                NAME + 64,
            ];
            plan[start] = random.pick(&tokens);
        }
        11 => plan[start] = random.any() as u32,
        12 => plan[start + 2] = 0,
        _ => plan[start + random.index(5)] ^= 1 << random.below(32),
    }
}

fn change_plan_length(random: &mut Random, plan: &mut Vec<u32>) {
    match random.below(4) {
        0 => drop(plan.pop()),
        1 => plan.push(0),
        2 => plan.truncate(plan.len().saturating_sub(5)),
        _ => plan.clear(),
    }
}
