//! Random cases of differ.

use super::case::Case;
use super::marks;
use crate::generate::records::{changed, cut, damage_items, laid_out, put_zeros, room};
use crate::random::Random;

/// Case `index` of a seed.
pub fn case(seed: u64, index: u64) -> Case {
    let mut random = Random::new(seed ^ 0xD1FF_0000, index);
    let overlapping = random.pick(&[0, 0, 100, 500]);
    let mut laid = laid_out(&mut random, overlapping);
    put_zeros(&mut random, &laid.items, &mut laid.record);
    let mut case = Case {
        second: changed(&mut random, &laid.items, &laid.record),
        items: laid.items,
        first: laid.record,
        room: 0,
    };
    cut(&mut random, &mut case.first);
    cut(&mut random, &mut case.second);
    damage_items(&mut random, &mut case.items);
    let needed = marks(&case.items, &case.first, &case.second);
    let needed = needed.map_or_else(|_| random.below(9), |marks| marks.len() as u32);
    case.room = room(&mut random, needed);
    case
}
