//! Answers in the shape of the C interface (include/oboecurlew.h): a call
//! returns the refusal's number, 0 for success, and writes nine numbers.

use crate::rules::{Judged, Refusal};

/// The nine numbers, all written at each call.
#[repr(C)]
#[derive(Clone, Copy, Debug, PartialEq, Eq)]
pub struct Answer {
    /// A refusal's place; else 1 or 0 for true or false (judge, run); else 0.
    pub value: u32,
    /// The offset in the record that a refusal names; else 0.
    pub byte: u32,
    /// Judge, run: how many simple conditions were judged; else 0.
    pub judged: u32,
    /// Writing calls: the count of numbers written to each output, in order; else 0.
    pub written: [u32; 6],
}

impl Answer {
    pub const NOTHING: Answer = Answer {
        value: 0,
        byte: 0,
        judged: 0,
        written: [0; 6],
    };

    /// What no call answers: all nine numbers are there to be written over.
    pub const UNWRITTEN: Answer = Answer {
        value: 0xA5A5_A5A5,
        byte: 0xA5A5_A5A5,
        judged: 0xA5A5_A5A5,
        written: [0xA5A5_A5A5; 6],
    };
}

/// What a call returns and what it writes to the lent answer.
pub type Said = (u32, Answer);

fn of_refusal(refusal: Refusal) -> Said {
    let answer = Answer {
        value: refusal.place,
        byte: refusal.byte,
        ..Answer::NOTHING
    };
    (refusal.number, answer)
}

/// The answer of a writing call with so many outputs.
pub fn of_written<const N: usize>(result: Result<[u32; N], Refusal>) -> Said {
    match result {
        Ok(counts) => {
            let mut answer = Answer::NOTHING;
            answer.written[..N].copy_from_slice(&counts);
            (0, answer)
        }
        Err(refusal) => of_refusal(refusal),
    }
}

pub fn of_judged(judged: Judged) -> Said {
    let (number, answer) = match judged.answer {
        Ok(truth) => {
            let value = u32::from(truth);
            (
                0,
                Answer {
                    value,
                    ..Answer::NOTHING
                },
            )
        }
        Err(refusal) => of_refusal(refusal),
    };
    let judged = judged.count;
    (number, Answer { judged, ..answer })
}

#[cfg(test)]
mod tests {
    use super::*;

    #[test]
    fn nine_numbers() {
        assert_eq!(std::mem::size_of::<Answer>(), 36);
        let numbers = |said: Said| {
            let (number, answer) = said;
            let first = [number, answer.value, answer.byte, answer.judged];
            [&first[..], &answer.written].concat()
        };
        let refusal = Refusal {
            number: 13,
            place: 2,
            byte: 40,
        };
        let written = of_written(Ok([13, 2]));
        assert_eq!(numbers(written), [0, 0, 0, 0, 13, 2, 0, 0, 0, 0]);
        let refused = of_written::<1>(Err(Refusal::at(10, 15)));
        assert_eq!(numbers(refused), [10, 15, 0, 0, 0, 0, 0, 0, 0, 0]);
        let truth = |answer| of_judged(Judged { answer, count: 3 });
        assert_eq!(numbers(truth(Ok(true))), [0, 1, 0, 3, 0, 0, 0, 0, 0, 0]);
        assert_eq!(numbers(truth(Ok(false))), [0, 0, 0, 3, 0, 0, 0, 0, 0, 0]);
        assert_eq!(
            numbers(truth(Err(refusal))),
            [13, 2, 40, 3, 0, 0, 0, 0, 0, 0]
        );
    }
}
