//! Random cases of merge: copies with items that neither, one or both sides
//! changed, alike and apart; plans that decide, that stop and damaged ones.

use super::case::Case;
use super::{check, decided};
use crate::generate::records::{changed, cut, laid_out, room};
use crate::generate::{damage_one_table, with_sound_plan};
use crate::random::Random;
use crate::rules::tables::rows;

/// Case `index` of a seed.
pub fn case(seed: u64, index: u64) -> Case {
    let mut random = Random::new(seed ^ 0x3E26_E000, index);
    let overlapping = random.pick(&[0, 0, 0, 0, 60]);
    let laid = laid_out(&mut random, overlapping);
    let mut made = with_sound_plan(&mut random, laid);
    let old = made.record.clone();
    let first = changed(&mut random, &made.items, &old);
    let mut second = changed(&mut random, &made.items, &old);
    change_alike(&mut random, &made.items, &first, &mut second);
    let [old, first, second] = cut_copies(&mut random, [old, first, second]);
    if random.chance(70) {
        damage_one_table(&mut random, &mut made);
    }
    let mut case = Case {
        items: made.items,
        literals: made.literals,
        bytes: made.bytes,
        names: made.names,
        plan: made.plan,
        old,
        first,
        second,
        switches: random.any() as u8,
        ..Case::default()
    };
    choose_rooms(&mut random, &mut case);
    case
}

/// Some items of the second copy are as in the first.
fn change_alike(random: &mut Random, items: &[u32], first: &[u8], second: &mut [u8]) {
    let often = random.pick(&[0, 300, 700, 1000]);
    for row in rows(items).filter(|row| !row.is_group()) {
        if random.chance(often) {
            second[row.bytes()].copy_from_slice(&first[row.bytes()]);
        }
    }
}

/// Copies of one length mostly; all cut alike, or one of them alone.
fn cut_copies(random: &mut Random, mut copies: [Vec<u8>; 3]) -> [Vec<u8>; 3] {
    match random.below(20) {
        0 => {
            let length = copies[0].len();
            let kept = match random.below(3) {
                0 => random.index(length + 1),
                _ => length.saturating_sub(1),
            };
            copies.iter_mut().for_each(|copy| copy.truncate(kept));
        }
        1 | 2 => {
            let copy = random.index(3);
            cut(random, &mut copies[copy]);
            match random.below(3) {
                0 => copies[copy].push(b' '),
                1 => drop(copies[copy].pop()),
                _ => {}
            }
        }
        _ => {}
    }
    copies
}

fn choose_rooms(random: &mut Random, case: &mut Case) {
    let (tables, copies) = (case.tables(), case.copies());
    let needed = match check(&tables, &case.plan, copies) {
        Ok(()) => {
            let (record, list) = decided(&tables, &case.plan, copies, case.switches);
            [record.len() as u32, list.len() as u32]
        }
        Err(_) => [case.old.len() as u32, random.below(4)],
    };
    let all = random.chance(600);
    let [record, list] = needed.map(|needed| match all {
        true => needed as usize,
        false => room(random, needed),
    });
    (case.record_room, case.list_room) = (record, list);
}
