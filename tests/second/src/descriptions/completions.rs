//! The faulty byte, by trying: a beginning is shared by some valid text if one of
//! a few endings makes a valid text of it.

use super::entries::is_valid;

/// Endings such that every beginning of a valid text becomes valid with one of
/// them. A beginning ends
///
/// - in blanks before the first entry, in a level, a name or PIC: what is left of
///   an elementary entry, with every digit for a level's second;
/// - in a name that must not end yet (a keyword, no letter, a hyphen at its end):
///   a letter and the rest, tried as the tail that begins with A;
/// - behind an entry, with or without a blank: nothing, or a member of the group
///   that has none, at level 49, which every group but one of 49 can have;
/// - in a level 88 entry, which may be that of a group without a member yet: what
///   is left of it, in quotes a closing one, and then that member or not;
/// - in a picture: a symbol, a count's digit, its bracket, the period;
/// - in a SIGN clause or in COMP-3: what is left of it.
fn endings() -> Vec<Vec<u8>> {
    let mut endings = vec![Vec::new()];
    let member = " 49 A PIC X.";
    for condition in [" 88 A VALUE 5.", " THRU 5.", "\"."] {
        endings.extend(tails(condition));
        let begun = tails(condition);
        endings.extend(begun.map(|tail| [&tail, member.as_bytes()].concat()));
    }
    for whole in [
        member,
        "01 A PIC X.",
        " SIGN LEADING SEPARATE.",
        " SIGN TRAILING SEPARATE.",
        " COMP-3.",
    ] {
        endings.extend(tails(whole));
    }
    endings.extend((b'0'..=b'9').map(|digit| [&[digit], &b" A PIC X."[..]].concat()));
    endings.extend(["9.", "1).", ")."].map(|ending| ending.as_bytes().to_vec()));
    endings.sort();
    endings.dedup();
    endings
}

fn tails(whole: &str) -> impl Iterator<Item = Vec<u8>> + '_ {
    (0..whole.len()).map(|start| whole.as_bytes()[start..].to_vec())
}

/// Tries endings on beginnings; the one that fitted last is tried first.
pub struct Trier {
    endings: Vec<Vec<u8>>,
    text: Vec<u8>,
}

impl Trier {
    pub fn new() -> Trier {
        let text = Vec::new();
        let endings = endings();
        Trier { endings, text }
    }

    /// Whether some valid text shares a beginning.
    pub fn is_shared(&mut self, beginning: &[u8]) -> bool {
        let fits = |ending: &Vec<u8>| {
            self.text.clear();
            self.text.extend_from_slice(beginning);
            self.text.extend_from_slice(ending);
            is_valid(&self.text)
        };
        match self.endings.iter().position(fits) {
            Some(place) => {
                self.endings.swap(0, place);
                true
            }
            None => false,
        }
    }
}

/// The length of the longest beginning of a text that some valid text shares.
/// With a beginning all shorter ones are shared, so halving finds it.
pub fn longest_shared_beginning(text: &[u8]) -> usize {
    let mut trier = Trier::new();
    let (mut shared, mut too_long) = (0, text.len() + 1);
    while too_long - shared > 1 {
        let middle = (shared + too_long) / 2;
        if trier.is_shared(&text[..middle]) {
            shared = middle;
        } else {
            too_long = middle;
        }
    }
    shared
}
