//! A case of the reader, its binary form, and its answer as a line: the text, and
//! the rooms of the six outputs in their order.

use super::{describe, generate, Outputs};
use crate::answers::{checksum, checksum_of_bytes, fresh_bytes, fresh_output};
use crate::rules::Refusal;
use crate::subject::{take_short, take_text, told, Raw, Subject};
use std::fmt;
use std::io::{self, Read};

#[derive(Clone, Debug, Default, PartialEq, Eq)]
pub struct Case {
    pub text: Vec<u8>,
    pub rooms: [usize; 6],
}

/// What describe gave, and the outputs after the call.
#[derive(Clone, Debug, PartialEq, Eq)]
pub struct Answer {
    pub result: Result<[u32; 6], Refusal>,
    pub numbers: [Vec<u32>; 5],
    pub bytes: Vec<u8>,
}

impl Subject for Case {
    fn case(seed: u64, index: u64) -> Case {
        generate::case(seed, index)
    }

    fn put(&self, raw: &mut Raw) {
        raw.text(&self.text);
        self.rooms.iter().for_each(|&room| raw.short(room));
    }

    fn take(input: &mut impl Read) -> io::Result<Case> {
        let text = take_text(input)?;
        let mut rooms = [0; 6];
        for room in &mut rooms {
            *room = take_short(input)?;
        }
        Ok(Case { text, rooms })
    }

    fn line(&self) -> String {
        self.answer().to_string()
    }
}

impl Case {
    pub fn answer(&self) -> Answer {
        let [rows, places, names, name_places, literals, bytes] = self.rooms;
        let mut numbers = [rows, places, names, name_places, literals].map(fresh_output);
        let mut bytes = fresh_bytes(bytes);
        let outputs = Outputs {
            numbers: numbers.each_mut().map(Vec::as_mut_slice),
            bytes: &mut bytes,
        };
        let result = describe(&self.text, outputs);
        Answer {
            result,
            numbers,
            bytes,
        }
    }
}

impl fmt::Display for Answer {
    fn fmt(&self, f: &mut fmt::Formatter) -> fmt::Result {
        let counts = self.result.unwrap_or_default();
        write!(f, "{}", told(self.result))?;
        for (count, output) in counts.iter().zip(&self.numbers) {
            write!(f, " {count} {}", checksum(output))?;
        }
        write!(f, " {} {}", counts[5], checksum_of_bytes(&self.bytes))
    }
}

impl fmt::Display for Case {
    fn fmt(&self, f: &mut fmt::Formatter) -> fmt::Result {
        let text = self.text.escape_ascii();
        writeln!(f, "{} bytes: \"{text}\"", self.text.len())?;
        writeln!(f, "room: {:?}", self.rooms)
    }
}

#[cfg(test)]
mod tests {
    use super::*;

    #[test]
    fn written_and_read_again() {
        crate::subject::check_stored::<Case>();
    }

    #[test]
    fn lines() {
        let mut case = Case {
            text: b"01 A. 02 B PIC X. 88 C VALUE \"D\".".to_vec(),
            rooms: [11, 2, 18, 1, 5, 1],
        };
        let rows = checksum(&[7, 0, 1, 0, 0, 2, 0, 1, 0, 0, 3_000_000_010]);
        let name = checksum(&[&[1, 1][..], &[0; 16]].concat());
        let sums = [
            (10, rows),
            (2, checksum(&[3, 9])),
            (18, name),
            (1, checksum(&[21])),
            (5, checksum(&[2, 0, 1, 0, 0])),
            (1, checksum(&[u32::from(b'D')])),
        ];
        let line = |begins: &str, sums: &[(u32, u32)]| {
            let shown = sums.iter().map(|(count, sum)| format!(" {count} {sum}"));
            format!("{begins}{}", shown.collect::<String>())
        };
        assert_eq!(case.answer().to_string(), line("0 0", &sums));
        case.rooms[3] = 0;
        let untouched = |case: &Case| {
            let [numbers @ .., bytes] = &case.rooms;
            let mut sums: Vec<(u32, u32)> = numbers
                .iter()
                .map(|&room| (0, checksum(&fresh_output(room))))
                .collect();
            sums.push((0, checksum_of_bytes(&fresh_bytes(*bytes))));
            sums
        };
        assert_eq!(case.answer().to_string(), line("10 1", &untouched(&case)));
        case.text.pop();
        assert_eq!(case.answer().to_string(), line("14 32", &untouched(&case)));
    }
}
