//! Level 88 entries: values that their item may have, ranges in order, and now and
//! then what bars an entry.

use super::writer::{Sort, Writer};
use crate::random::Random;

/// Barred things in a thousand literals or ranges.
const ODD: u32 = 25;

impl Writer<'_> {
    /// No names, or some behind an item's entry.
    pub fn conditions(&mut self, sort: Sort) {
        if !self.random.chance(self.named) {
            return;
        }
        for _ in 0..self.random.pick(&[1, 1, 1, 2, 3]) {
            let values = match self.random.below(30) {
                0 => 8,
                1 => 9,
                2..=8 => self.random.between(2, 5),
                _ => 1,
            };
            self.condition(sort, values);
        }
    }

    /// One entry with so many values.
    pub fn condition(&mut self, sort: Sort, values: u32) {
        self.put("88");
        self.blank();
        let name = self.own_name();
        self.put(&name);
        self.blank();
        self.put("VALUE");
        for _ in 0..values {
            self.blank();
            let value = self.value(sort);
            self.text.extend_from_slice(&value[0]);
            if let Some(high) = value.get(1) {
                self.blank();
                self.put("THRU");
                self.blank();
                self.text.extend_from_slice(high);
            }
        }
        self.text.push(b'.');
        self.blank();
    }

    /// A literal, or two.
    fn value(&mut self, sort: Sort) -> Vec<Vec<u8>> {
        let random = &mut *self.random;
        if random.chance(ODD) {
            return odd_value(random);
        }
        let text = match sort {
            Sort::Text => random.chance(700),
            Sort::Numeric => false,
            Sort::Whole => random.chance(300),
        };
        let whole = text || sort == Sort::Text || random.chance(500);
        let mut ends: Vec<Literal> = (0..random.pick(&[1, 1, 2]))
            .map(|_| match text {
                true => Literal::text(random),
                false => Literal::number(random, whole),
            })
            .collect();
        if !random.chance(ODD) {
            ends.sort();
        }
        ends.into_iter().map(|end| end.word).collect()
    }
}

/// A literal with what it is put in order by: characters, or a number.
#[derive(PartialEq, Eq, PartialOrd, Ord)]
struct Literal {
    value: i64,
    filled: Vec<u8>,
    word: Vec<u8>,
}

impl Literal {
    fn text(random: &mut Random) -> Literal {
        let length = random.pick(&[1, 1, 2, 3, 5]);
        let bytes: Vec<u8> = (0..length).map(|_| random.pick(b"AAZaz 079\".(")).collect();
        let mut filled = bytes.clone();
        filled.resize(8, b' ');
        let doubled: Vec<&[u8]> = bytes.split(|&byte| byte == b'"').collect();
        Literal {
            value: 0,
            filled,
            word: [b"\"", &doubled.join(&b"\"\""[..])[..], b"\""].concat(),
        }
    }

    fn number(random: &mut Random, whole: bool) -> Literal {
        let sign = random.pick(&["", "", "", "+", "-"]);
        let most = random.pick(&[10, 100, 5_000]);
        let digits = random.below(most);
        let (behind, hundredths) = match random.below(4) {
            _ if whole => (String::new(), 0),
            0 => (".5".to_string(), 50),
            1 => (".25".to_string(), 25),
            _ => (String::new(), 0),
        };
        let zeros = random.pick(&["", "", "", "0"]);
        let before = match digits {
            0 if !behind.is_empty() => String::new(),
            digits => format!("{zeros}{digits}"),
        };
        let size = 100 * i64::from(digits) + hundredths;
        Literal {
            value: if sign == "-" { -size } else { size },
            filled: Vec::new(),
            word: format!("{sign}{before}{behind}").into_bytes(),
        }
    }
}

/// Values that are barred, mostly.
fn odd_value(random: &mut Random) -> Vec<Vec<u8>> {
    let around = |random: &mut Random, limit: usize| limit + random.index(3) - 1;
    let one = |word: Vec<u8>| vec![word];
    let words = |words: &[&str]| words.iter().map(|word| word.as_bytes().to_vec()).collect();
    match random.below(10) {
        0 => words(&["9", "1"]),
        1 => words(&["5", "\"7\""]),
        2 => words(&["\"9\"", "\"10\""]),
        3 => words(&["\"\""]),
        4 => one(vec![b'9'; around(random, 18)]),
        5 => one([b"-.", &vec![b'0'; around(random, 18)][..]].concat()),
        6 => one([b"\"", &vec![b'A'; around(random, 256)][..], b"\""].concat()),
        7 => words(&["\"A\"", "\"A \""]),
        8 => words(&["5.50", "5.5"]),
        _ => words(&["1.5"]),
    }
}
