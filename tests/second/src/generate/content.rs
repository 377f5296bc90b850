//! Contents of items and literals: values near a common one, so that equal,
//! less and greater all occur, and invalid numeric contents.

use crate::random::Random;
use crate::rules::tables::Row;

/// What the contents of one case are gathered around.
pub struct Theme {
    number: u64,
    scale: u32,
    /// Minus signs in a thousand.
    minus: u32,
    text: [u8; 8],
    /// Invalid numeric contents in a thousand.
    pub rot: u32,
}

const LETTERS: &[u8] = b"AaBbZz  MmBBB";
const EDGES: &[u8] = &[
    0x00, 0x1F, 0x20, 0x21, 0x2F, 0x30, 0x39, 0x3A, 0x40, 0x41, 0x5A, 0x5B, 0x60, 0x61, 0x7A, 0x7B,
    0x7F, 0x80, 0xFF,
];

impl Theme {
    pub fn choose(random: &mut Random) -> Theme {
        let whole = random.any() % 1_000_000_000_000_000_000;
        let number = match random.below(8) {
            0 => 0,
            1 => 1,
            2 => 999_999_999_999_999_999,
            3 => 10_u64.pow(random.below(18)),
            4 => whole,
            _ => whole % 10_u64.pow(random.between(1, 5)),
        };
        let mut text = *b"        ";
        let length = random.between(1, 8) as usize;
        for byte in &mut text[..length] {
            *byte = random.pick(LETTERS);
        }
        Theme {
            number,
            scale: random.pick(&[0, 0, 0, 1, 2, 5, 18]),
            minus: random.pick(&[0, 100, 500, 900]),
            text,
            rot: random.pick(&[0, 0, 100, 300, 600, 900, 1000]),
        }
    }

    /// The common number for so many digits and such a scale, or one near it.
    fn near(&self, random: &mut Random, digits: u32, scale: u32) -> u64 {
        let limit = 10_u64.pow(digits);
        let scaled = u128::from(self.number) * 10_u128.pow(scale) / 10_u128.pow(self.scale);
        let exact = (scaled % u128::from(limit)) as u64;
        match random.below(10) {
            0..=4 => exact,
            5 => (exact + 1) % limit,
            6 => exact.saturating_sub(1),
            7 => 0,
            8 => limit - 1,
            _ => random.any() % limit,
        }
    }
}

/// Valid content for a row.
pub fn put(random: &mut Random, theme: &Theme, row: &[u32], bytes: &mut [u8]) {
    match row[0] {
        1 => put_letters(random, theme, bytes),
        7 if random.chance(500) => bytes.fill_with(|| random.pick(b"0123456789")),
        0 | 2 | 7 => put_text(random, theme, bytes),
        _ => put_number(random, theme, row, bytes),
    }
}

fn put_number(random: &mut Random, theme: &Theme, row: &[u32], bytes: &mut [u8]) {
    let (kind, digits) = (row[0], row[4] as usize);
    let value = theme.near(random, row[4], row[3]);
    let minus = random.chance(theme.minus);
    let sign = if minus { b'-' } else { b'+' };
    match kind {
        8 => return put_packed(value, if minus { 4 } else { 3 }, bytes),
        9 => return put_packed(value, 3, bytes),
        5 => {
            bytes[0] = sign;
            put_digits(value, &mut bytes[1..]);
        }
        6 => {
            put_digits(value, &mut bytes[..digits]);
            bytes[digits] = sign;
        }
        _ => put_digits(value, bytes),
    }
    if kind == 4 && minus {
        bytes[digits - 1] += 0x10;
    }
}

fn put_digits(mut value: u64, bytes: &mut [u8]) {
    for byte in bytes.iter_mut().rev() {
        *byte = b'0' + (value % 10) as u8;
        value /= 10;
    }
}

/// Zero with either sign, where the kind has one.
pub fn put_zero(random: &mut Random, row: &Row, bytes: &mut [u8]) {
    let minus = random.chance(500);
    let sign = if minus { b'-' } else { b'+' };
    let last = bytes.len() - 1;
    bytes.fill(if row.packed() { 0 } else { b'0' });
    match row.kind {
        4 if minus => bytes[last] = 0x40,
        5 => bytes[0] = sign,
        6 => bytes[last] = sign,
        8 if minus => bytes[last] = 4,
        8 | 9 => bytes[last] = 3,
        _ => {}
    }
}

/// The value's decimal digits and the sign as half-bytes, zeros before them.
fn put_packed(value: u64, sign: u8, bytes: &mut [u8]) {
    let mut rest = value;
    let mut take = || {
        let digit = (rest % 10) as u8;
        rest /= 10;
        digit
    };
    let mut right = sign;
    for byte in bytes.iter_mut().rev() {
        *byte = take() << 4 | right;
        right = take();
    }
}

fn put_text(random: &mut Random, theme: &Theme, bytes: &mut [u8]) {
    match random.below(12) {
        0..=2 => put_common(theme, bytes),
        3 => {
            put_common(theme, bytes);
            put_edge(random, bytes);
        }
        4..=6 => put_digit_text(random, theme, bytes),
        7..=9 => {
            put_any_letters(random, bytes);
            if random.chance(400) {
                put_edge(random, bytes);
            }
        }
        10 => bytes.fill_with(|| random.pick(b"0123456789")),
        _ => bytes.fill_with(|| random.pick(EDGES)),
    }
}

fn put_any_letters(random: &mut Random, bytes: &mut [u8]) {
    let letters = random.pick(&[b"AZBM ", b"azbm ", b"AbzZ "]);
    bytes.fill_with(|| random.pick(letters));
}

/// Letters and spaces, often the common ones or nearly.
fn put_letters(random: &mut Random, theme: &Theme, bytes: &mut [u8]) {
    if random.chance(300) {
        return put_any_letters(random, bytes);
    }
    put_common(theme, bytes);
    if random.chance(400) {
        bytes[random.index(bytes.len().min(9))] = random.pick(b"AZaz M");
    }
}

/// Bytes that are no letter and no space, near and far from them.
const NO_LETTERS: &[u8] = &[
    0x00, 0x1F, 0x21, 0x2D, 0x2D, 0x2F, 0x30, 0x31, 0x37, 0x39, 0x3A, 0x40, 0x5B, 0x60, 0x7B, 0x7F,
    0x80, 0xA0, 0xC1, 0xE1, 0xFF,
];

/// Puts one to three bytes that no alphabetic item may hold.
pub fn spoil_letters(random: &mut Random, bytes: &mut [u8]) {
    for _ in 0..random.pick(&[1, 1, 2, 3]) {
        bytes[random.index(bytes.len())] = random.pick(NO_LETTERS);
    }
}

/// One byte at the edge of a class, near the start.
fn put_edge(random: &mut Random, bytes: &mut [u8]) {
    let place = random.index(bytes.len().min(9));
    bytes[place] = random.pick(EDGES);
}

fn put_common(theme: &Theme, bytes: &mut [u8]) {
    bytes.fill(b' ');
    for (byte, &common) in bytes.iter_mut().zip(&theme.text) {
        *byte = common;
    }
}

/// The common number's digits from the left, then spaces.
fn put_digit_text(random: &mut Random, theme: &Theme, bytes: &mut [u8]) {
    bytes.fill(b' ');
    let widest = bytes.len().min(18);
    let width = if random.chance(600) {
        widest
    } else {
        1 + random.index(widest)
    };
    let value = theme.near(random, width as u32, 0);
    put_digits(value, &mut bytes[..width]);
}

/// Puts one to three halves that packed content may not hold, mostly, at any
/// place: the leading zero, a digit, the sign.
pub fn spoil_halves(random: &mut Random, bytes: &mut [u8]) {
    for _ in 0..random.pick(&[1, 1, 1, 1, 2, 3]) {
        let half = match random.below(4) {
            0 => random.below(16),
            1 => random.pick(&[1, 2, 4, 5, 12, 13]),
            _ => random.between(10, 15),
        } as u8;
        let place = match random.below(6) {
            0 => 0,
            1 => 2 * bytes.len() - 1,
            _ => random.index(2 * bytes.len()),
        };
        let byte = &mut bytes[place / 2];
        *byte = if place % 2 == 0 {
            *byte & 0x0F | half << 4
        } else {
            *byte & 0xF0 | half
        };
    }
    if random.chance(60) {
        bytes.fill(b' ');
    }
}

/// Makes numeric content invalid, nearly always.
pub fn spoil(random: &mut Random, bytes: &mut [u8]) {
    let last = bytes.len() - 1;
    match random.below(13) {
        0 => bytes.fill(b' '),
        1 => bytes[0] = b' ',
        2 => bytes[random.index(last + 1)] = random.pick(EDGES),
        3 => bytes[last] = random.pick(&[0x2F, 0x3A, 0x3F, 0x4A, 0x4F, 0x50, 0x59, 0x23, b'-']),
        4 => bytes[0] = random.pick(&[0x2A, 0x2B, 0x2C, 0x2D, 0x2E, 0x40, 0x41, 0x30]),
        5..=9 => bytes[random.index(last + 1)] = random.any() as u8,
        10..=11 => {
            for _ in 0..random.between(2, 3) {
                bytes[random.index(last + 1)] = random.pick(EDGES);
            }
        }
        _ => bytes.swap(0, last),
    }
}
