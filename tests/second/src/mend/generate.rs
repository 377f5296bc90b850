//! Random cases of mend: meters with blanks before, between, behind and instead of
//! their digits.

use super::case::Case;
use super::mend;
use crate::generate::records::{cut, damage_items, laid_out, room};
use crate::random::Random;
use crate::rules::tables::{rows, Row};

/// Case `index` of a seed.
pub fn case(seed: u64, index: u64) -> Case {
    let mut random = Random::new(seed ^ 0x3E4D_0000, index);
    let overlapping = random.pick(&[0, 0, 0, 60]);
    let laid = laid_out(&mut random, overlapping);
    let mut case = Case {
        items: laid.items,
        record: laid.record,
        room: 0,
    };
    let often = random.pick(&[200, 600, 900]);
    for row in rows(&case.items) {
        if matches!(row.kind, 3..=6) && random.chance(often) {
            blank(&mut random, &row, &mut case.record[row.bytes()]);
        }
    }
    cut(&mut random, &mut case.record);
    damage_items(&mut random, &mut case.items);
    let mut list = vec![0; 65_536];
    let needed = mend(&case.items, &mut case.record.clone(), &mut list);
    let [needed] = needed.unwrap_or_else(|_| [random.below(9)]);
    case.room = room(&mut random, needed);
    case
}

fn blank(random: &mut Random, row: &Row, bytes: &mut [u8]) {
    let start = usize::from(row.kind == 5);
    let digits = start..start + row.digits as usize;
    let leading = random.index(digits.len() + 1);
    bytes[digits.clone()][..leading].fill(b' ');
    match random.below(12) {
        0..=2 if row.kind == 5 => bytes[0] = b' ',
        0..=2 if row.kind == 6 => bytes[row.digits as usize] = b' ',
        3 => bytes[random.index(row.size as usize)] = b' ',
        4 => bytes[random.index(row.size as usize)] = random.any() as u8,
        5 => bytes.fill(b' '),
        6 => bytes[row.size as usize - 1] = random.pick(&[0x40, 0x49, 0x4A, 0x39, b' ', b'-']),
        _ => {}
    }
}
