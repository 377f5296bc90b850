//! Writes entries: a tree of groups with names, pictures and blanks of all sorts.

use crate::descriptions::words::is_name;
use crate::random::Random;

/// Keywords and words near them.
pub const WORDS: &[&str] = &[
    "PIC",
    "SIGN",
    "LEADING",
    "TRAILING",
    "SEPARATE",
    "FILLER",
    "NOT",
    "OR",
    "ZERO",
    "IS",
    "TO",
    "THAN",
    "UPSI-0",
    "UPSI-7",
    "UPSI-8",
    "ALPHABETIC",
    "ALPHABETIC-LOWER",
    "NUMERIC",
    "EQUAL",
    "PICTURE",
    "COMP-3",
    "COMP-",
    "VALUE",
    "THRU",
    "VALUES",
    "SIG",
    "X",
    "9",
    "S9",
    "A",
    "V",
    "01",
    "77",
    "02",
    "88",
    "5",
    "-5.5",
    "\"A\"",
];

/// What may be compared with an item: texts and whole numbers, all numbers, or
/// both.
#[derive(Clone, Copy, PartialEq, Eq)]
pub enum Sort {
    Text,
    Numeric,
    Whole,
}

pub struct Writer<'a> {
    pub random: &'a mut Random,
    pub text: Vec<u8>,
    /// Blanks of more than one byte in a thousand.
    wide: u32,
    /// Groups in a thousand entries.
    groups: u32,
    /// Entries still to be written; a group's first member comes anyway.
    left: u32,
    /// Items with condition-names, in a thousand.
    pub named: u32,
}

impl Writer<'_> {
    pub fn new(random: &mut Random) -> Writer<'_> {
        let wide = random.pick(&[0, 0, 50, 300, 900]);
        let groups = random.pick(&[0, 200, 400, 600]);
        let left = match random.below(20) {
            0..=6 => 1,
            7..=15 => random.between(1, 4),
            16..=18 => random.between(3, 10),
            _ => random.between(10, 50),
        };
        let named = random.pick(&[0, 0, 200, 500, 900]);
        let text = Vec::new();
        let mut writer = Writer {
            random,
            text,
            wide,
            groups,
            left,
            named,
        };
        if writer.random.chance(150) {
            writer.blank();
        }
        writer
    }

    /// Blanks behind the last period stay now and then.
    pub fn finish(mut self) -> Vec<u8> {
        if !self.random.chance(150) {
            while matches!(self.text.last(), Some(b' ' | b'\n')) {
                self.text.pop();
            }
        }
        self.text
    }

    pub fn put(&mut self, word: &str) {
        self.text.extend_from_slice(word.as_bytes());
    }

    pub fn blank(&mut self) {
        if self.random.chance(self.wide) {
            for _ in 0..self.random.between(1, 5) {
                let blank = self.random.pick(b" \n");
                self.text.push(blank);
            }
        } else {
            let blank = if self.random.chance(80) { b'\n' } else { b' ' };
            self.text.push(blank);
        }
    }

    pub fn records(&mut self) {
        loop {
            if self.random.chance(self.groups) {
                self.group(1);
            } else {
                let level = self.random.pick(&[1, 77]);
                self.elementary(level);
            }
            if self.left == 0 {
                return;
            }
        }
    }

    pub fn group(&mut self, level: u32) {
        self.begin(level);
        self.text.push(b'.');
        self.blank();
        self.conditions(Sort::Text);
        let shared = match self.random.below(10) {
            0 => 49,
            1..=5 => (level + self.random.between(1, 5)).min(49),
            _ => self.random.between(level + 1, 49),
        };
        let members = self.random.between(1, 4);
        for member in 0..members {
            if member > 0 && self.left == 0 {
                return;
            }
            if shared < 49 && self.random.chance(self.groups / 2) {
                self.group(shared);
            } else {
                self.elementary(shared);
            }
        }
    }

    /// Level and name.
    pub fn begin(&mut self, level: u32) {
        self.left = self.left.saturating_sub(1);
        self.put(&format!("{level:02}"));
        self.blank();
        let name = self.name();
        self.put(&name);
    }

    pub fn elementary(&mut self, level: u32) {
        self.begin(level);
        self.blank();
        self.put("PIC");
        self.blank();
        let sort = self.picture();
        self.text.push(b'.');
        self.blank();
        self.conditions(sort);
    }

    fn name(&mut self) -> String {
        if self.random.chance(120) {
            return "FILLER".to_string();
        }
        self.own_name()
    }

    pub fn own_name(&mut self) -> String {
        loop {
            let name = self.nearly_a_name();
            if is_name(name.as_bytes()) {
                return name;
            }
        }
    }

    fn nearly_a_name(&mut self) -> String {
        const ANY: &[u8] = b"ABCPXVSZ0199-";
        match self.random.below(20) {
            0..=7 => characters_of(self.random, b"ABCDEXYZ", 1),
            8..=13 => {
                let length = self.random.between(1, 7);
                characters_of(self.random, ANY, length)
            }
            14 => {
                let length = self.random.between(28, 30);
                characters_of(self.random, ANY, length)
            }
            15 => {
                let length = self.random.between(1, 29);
                characters_of(self.random, b"0123456789", length) + "Z"
            }
            16..=17 => {
                self.random.pick(WORDS).to_string() + self.random.pick(&["A", "-0", "S", "1"])
            }
            _ => {
                let word = self.random.pick(WORDS);
                word[..self.random.index(word.len()) + 1].to_string()
            }
        }
    }

    pub fn picture(&mut self) -> Sort {
        match self.random.below(12) {
            0..=2 => self.repeated("X", 300),
            3..=4 => self.repeated("A", 300),
            5..=6 => return self.nines(),
            7 => {
                self.put("S");
                return self.nines();
            }
            8..=9 => return self.packed(),
            _ => {
                self.put("S");
                let sort = self.nines();
                self.blank();
                self.put("SIGN");
                self.blank();
                let side = self.random.pick(&["LEADING", "TRAILING"]);
                self.put(side);
                self.blank();
                self.put("SEPARATE");
                return sort;
            }
        }
        Sort::Text
    }

    /// With S or without, every digit count now and then.
    fn packed(&mut self) -> Sort {
        if self.random.chance(500) {
            self.put("S");
        }
        if self.random.chance(400) {
            let digits = self.random.between(1, 18);
            self.put(&format!("9({digits})"));
        } else {
            self.nines();
        }
        self.blank();
        self.put("COMP-3");
        Sort::Numeric
    }

    /// The symbol one to three times, with counts up to so many.
    fn repeated(&mut self, symbol: &str, most: u32) {
        for _ in 0..self.random.pick(&[1, 1, 1, 2, 3]) {
            self.put(symbol);
            if self.random.chance(500) {
                let most = if self.random.chance(900) {
                    most.min(20)
                } else {
                    most
                };
                let count = self.random.between(1, most);
                self.count(count);
            }
        }
    }

    fn count(&mut self, count: u32) {
        let zeros = if self.random.chance(150) {
            self.random.between(1, 4)
        } else {
            0
        };
        self.put(&format!("({}{count})", "0".repeat(zeros as usize)));
    }

    fn nines(&mut self) -> Sort {
        match self.random.below(8) {
            0..=4 => {
                self.repeated("9", 6);
                return Sort::Whole;
            }
            5 => {
                self.put("V");
                self.repeated("9", 6);
            }
            6 => {
                self.repeated("9", 6);
                self.put("V");
            }
            _ => {
                self.repeated("9", 6);
                self.put("V");
                self.repeated("9", 6);
            }
        }
        Sort::Numeric
    }
}

fn characters_of(random: &mut Random, set: &[u8], length: u32) -> String {
    (0..length).map(|_| random.pick(set) as char).collect()
}
