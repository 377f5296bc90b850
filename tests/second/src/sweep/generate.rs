//! Random cases of sweep: files of records that are alike, that differ, or that have
//! faults at one place after the other; numbers of records around 64; sizes and files
//! that do not go together.

use super::case::Case;
use super::ANSWER;
use crate::case::Case as Lent;
use crate::generate::records::{changed, counters, cut, laid_out, put_valid, room, spoiled};
use crate::generate::{damage_one_table, with_sound_plan};
use crate::random::Random;

/// No file is longer, but for the last record.
const LONGEST: usize = 1_500_000;

/// Case `index` of a seed.
pub fn case(seed: u64, index: u64) -> Case {
    let mut random = Random::new(seed ^ 0x53EE_9000, index);
    let laid = match random.chance(250) {
        true => counters(&mut random),
        false => laid_out(&mut random, 100),
    };
    let mut made = with_sound_plan(&mut random, laid);
    if made.record.is_empty() && random.chance(900) {
        made.record.push(b' ');
    }
    let count = count(&mut random, made.record.len());
    cut(&mut random, &mut made.record);
    let size = made.record.len();
    let file = filed(&mut random, &made, count);
    if random.chance(70) {
        damage_one_table(&mut random, &mut made);
    }
    let mut case = over_file(made, file, size);
    case.switches = random.any() as u8;
    if random.chance(150) {
        misfit(&mut random, &mut case);
    }
    let needed = case.checked().unwrap_or(count);
    case.room = room(&mut random, (ANSWER * needed) as u32);
    case
}

/// A file of so many records that sweep takes.
#[cfg(feature = "library")]
pub fn long_file(seed: u64, count: usize) -> Case {
    let mut random = Random::new(seed ^ 0x53EE_9001, 0);
    loop {
        let laid = counters(&mut random);
        let made = with_sound_plan(&mut random, laid);
        let (file, size) = (filed(&mut random, &made, count), made.record.len());
        let mut case = over_file(made, file, size);
        case.room = ANSWER * count;
        if case.checked() == Ok(count) {
            return case;
        }
    }
}

fn over_file(made: Lent, file: Vec<u8>, size: usize) -> Case {
    Case {
        items: made.items,
        literals: made.literals,
        bytes: made.bytes,
        names: made.names,
        plan: made.plan,
        file,
        size,
        ..Case::default()
    }
}

fn count(random: &mut Random, size: usize) -> usize {
    let count = match random.below(40) {
        0..=1 => 0,
        2..=4 => 1,
        5..=15 => random.between(2, 6),
        16..=21 => random.between(7, 62),
        22..=30 => random.between(63, 65),
        31..=34 => random.between(66, 126),
        35..=37 => random.between(127, 129),
        38 => random.between(130, 300),
        _ => random.between(301, 1000),
    };
    (count as usize).min(1 + LONGEST / size.max(1))
}

/// So many records: all alike, each changed, each changed from the one before it, or
/// valid ones with a fault in each place in turn.
fn filed(random: &mut Random, made: &Lent, count: usize) -> Vec<u8> {
    let Lent { items, record, .. } = made;
    let mut file = Vec::with_capacity(count * record.len());
    match random.below(8) {
        0 => (0..count).for_each(|_| file.extend_from_slice(record)),
        1..=3 => (0..count).for_each(|_| file.extend(changed(random, items, record))),
        4..=5 => {
            let mut last = record.clone();
            for _ in 0..count {
                last = changed(random, items, &last);
                file.extend_from_slice(&last);
            }
        }
        _ => {
            let mut valid = record.clone();
            put_valid(random, items, &mut valid);
            let first = random.index(valid.len() + 1);
            for place in first..first + count {
                file.extend(spoiled(random, items, &valid, place));
            }
        }
    }
    file
}

/// Another size, or a file with some bytes more or less.
fn misfit(random: &mut Random, case: &mut Case) {
    let (length, size) = (case.file.len(), case.size);
    match random.below(10) {
        0 => case.size = 0,
        1 => case.size = size + 1,
        2 => case.size = size.saturating_sub(1),
        3 => case.size = length,
        4 => case.size = 2 * size,
        5 => case.size = size / 2,
        6 => case.size = size.wrapping_add(random.pick(&[1 << 32, 1 << 63, usize::MAX])),
        7 => drop(case.file.pop()),
        8 => case.file.push(b'0'),
        _ => case.file.truncate(random.index(length + 1)),
    }
}
