//! What all comparisons with the library share.

use crate::answers::{fresh_bytes, fresh_output};
use crate::outside::Said;
use crate::subject::Subject;

/// Numbers or bytes behind an output that no call may touch.
pub const GUARDS: usize = 8;

/// Compares so many cases and gives the number of those that differ.
pub fn compare<S: Subject>(
    what: &str,
    seed: u64,
    count: u64,
    mut differences: impl FnMut(&S) -> Vec<String>,
) -> u64 {
    const PROGRESS: u64 = 50_000;
    const SHOWN: u64 = 5;
    let mut differing = 0;
    for index in 0..count {
        let case = S::case(seed, index);
        let differences = differences(&case);
        if !differences.is_empty() {
            differing += 1;
            if differing <= SHOWN {
                println!("{what} {index} of seed {seed} differs");
                for difference in differences {
                    println!("  {difference}");
                }
                println!("{case}");
            }
        }
        if (index + 1).is_multiple_of(PROGRESS) {
            println!("{} {what}s so far, {differing} differences", index + 1);
        }
    }
    println!("{count} {what}s, {differing} differences");
    differing
}

/// The answer of a call.
pub fn answers(call: &str, said: Said, wanted: Said, found: &mut Vec<String>) {
    if said != wanted {
        found.push(format!("{call}: library {said:?}, here {wanted:?}"));
    }
}

/// An output with its guards behind it, which was fresh before the call.
pub fn numbers(name: &str, buffer: &[u32], wanted: &[u32], found: &mut Vec<String>) {
    let (written, guards) = buffer.split_at(wanted.len());
    if written != wanted {
        found.push(format!("{name}: library {written:?}, here {wanted:?}"));
    }
    if guards != &fresh_output(buffer.len())[wanted.len()..] {
        found.push(format!("{name}: written behind the output"));
    }
}

/// The same for an output of bytes.
pub fn bytes(name: &str, buffer: &[u8], wanted: &[u8], found: &mut Vec<String>) {
    let (written, guards) = buffer.split_at(wanted.len());
    if written != wanted {
        found.push(format!(
            "{name}: library \"{}\", here \"{}\"",
            written.escape_ascii(),
            wanted.escape_ascii()
        ));
    }
    if guards != &fresh_bytes(buffer.len())[wanted.len()..] {
        found.push(format!("{name}: written behind the output"));
    }
}
