//! The cases that are kept as a text (crates/cases/stdin): the same lines with
//! the rules' answers, which is what the library's program must write.
//!
//! A line with a colon sets what is lent from there on; `expand in N`, `plan in
//! N`, `judge`, `run` and `answers in N` ask. Outputs held 7 everywhere.

use crate::rules::{self, Judged, Refusal, Tables};
use crate::show::WORDS;
use std::fmt::Write;

#[derive(Default)]
struct Lent {
    items: Vec<u32>,
    literals: Vec<u32>,
    bytes: Vec<u32>,
    names: Vec<u32>,
    tokens: Vec<u32>,
    record: Vec<u32>,
    plan: Vec<u32>,
    switches: Vec<u32>,
}

impl Lent {
    fn list(&mut self, name: &str) -> &mut Vec<u32> {
        match name {
            "items" => &mut self.items,
            "literals" => &mut self.literals,
            "bytes" => &mut self.bytes,
            "names" => &mut self.names,
            "condition" => &mut self.tokens,
            "record" => &mut self.record,
            "plan" => &mut self.plan,
            "switches" => &mut self.switches,
            _ => panic!("no such setting: {name}"),
        }
    }

    /// A condition has no plan until one is lent or written.
    fn set(&mut self, name: &str, value: &str) {
        if name == "condition" {
            self.plan.clear();
        }
        let hexadecimal = name == "bytes" || name == "record";
        *self.list(name) = match value.strip_prefix('"') {
            Some(text) => text
                .bytes()
                .take_while(|&b| b != b'"')
                .map(u32::from)
                .collect(),
            None => list(value, hexadecimal),
        };
    }

    fn ask(&mut self, line: &str, out: &mut String) {
        let mut words = line.split(' ');
        let room = line.rsplit(' ').next().and_then(|n| n.parse().ok());
        let mut output = vec![7; room.unwrap_or(0)];
        let asked = words.next().unwrap_or("");
        let all = asked == "answers";
        let bytes = narrow(&self.bytes);
        let record = narrow(&self.record);
        let switches = narrow(&self.switches).first().copied().unwrap_or(0);
        let tables = Tables {
            items: &self.items,
            literals: &self.literals,
            bytes: &bytes,
            names: &self.names,
            ..Tables::default()
        };
        if all || asked == "expand" {
            let given = rules::expand(&tables, &self.tokens, &mut output);
            written("expand", given, &output, out);
            output.fill(7);
        }
        if all || asked == "plan" {
            let given = rules::plan(&tables, &self.tokens, &mut output);
            written("plan", given, &output, out);
            if let Ok(count) = given {
                self.plan = output[..count as usize].to_vec();
            }
        }
        if all || asked == "judge" {
            let given = rules::judge(&tables, &self.tokens, &record, switches);
            judged("judge", given, out);
        }
        if asked == "run" || all && !self.plan.is_empty() {
            let given = rules::run(&tables, &self.plan, &record, switches);
            judged("run", given, out);
        }
    }
}

fn narrow(numbers: &[u32]) -> Vec<u8> {
    numbers.iter().map(|&n| n as u8).collect()
}

/// Words parted by spaces; `[ .. ] x3` is what stands between, three times.
fn list(value: &str, hexadecimal: bool) -> Vec<u32> {
    let mut numbers = Vec::new();
    let mut mark = 0;
    for word in value.split(' ').filter(|word| !word.is_empty()) {
        let times = word.strip_prefix('x').and_then(|n| n.parse::<usize>().ok());
        match (word, times) {
            ("[", _) => mark = numbers.len(),
            ("]", _) => {}
            (_, Some(times)) => {
                let piece = numbers[mark..].to_vec();
                numbers.truncate(mark);
                numbers.extend(piece.repeat(times));
            }
            _ if hexadecimal => numbers.push(u32::from_str_radix(word, 16).expect(word)),
            _ => numbers.push(token(word)),
        }
    }
    numbers
}

/// a to z are items 0 to 25, A to Z literals 0 to 25, s0 is switch 0 on, o0
/// switch 0 off, n0 condition-name 0; words and relations as document 01 has
/// them.
fn token(word: &str) -> u32 {
    if let Ok(number) = word.parse() {
        return number;
    }
    if let Some(v) = WORDS.iter().position(|&known| known == word) {
        return 4 * 65_536 + v as u32;
    }
    match word.as_bytes() {
        [item @ b'a'..=b'z'] => u32::from(item - b'a'),
        [literal @ b'A'..=b'Z'] => 65_536 + u32::from(literal - b'A'),
        [b's', number] => 2 * 65_536 + u32::from(number - b'0'),
        [b'o', number] => 3 * 65_536 + u32::from(number - b'0'),
        [b'n', number] => 5 * 65_536 + u32::from(number - b'0'),
        _ => panic!("no such word: {word}"),
    }
}

fn refusal(refused: Refusal, out: &mut String) {
    let _ = write!(out, "refused {} at {}", refused.number, refused.place);
    if refused.number == 13 || refused.number == 17 {
        let _ = write!(out, " byte {}", refused.byte);
    }
}

fn written(call: &str, given: Result<u32, Refusal>, output: &[u32], out: &mut String) {
    let _ = write!(out, "{call} in {}: ", output.len());
    match given {
        Ok(count) => out.push_str(&count.to_string()),
        Err(refused) => refusal(refused, out),
    }
    out.push_str(", then");
    for number in output {
        let _ = write!(out, " {number}");
    }
    out.push('\n');
}

fn judged(call: &str, given: Judged, out: &mut String) {
    let _ = write!(out, "{call}: ");
    match given.answer {
        Ok(truth) => out.push_str(if truth { "true" } else { "false" }),
        Err(refused) => refusal(refused, out),
    }
    let _ = writeln!(out, ", judged {}", given.count);
}

/// The lines of the text with their answers.
pub fn answers(text: &str) -> String {
    let mut lent = Lent::default();
    let mut out = String::new();
    for line in text.lines() {
        let setting = line.split_once(':').filter(|_| !line.starts_with('#'));
        if line.is_empty() || line.starts_with('#') || setting.is_some() {
            out.push_str(line);
            out.push('\n');
        }
        match setting {
            Some((name, value)) => lent.set(name, value.trim_start()),
            None if line.is_empty() || line.starts_with('#') => {}
            None => lent.ask(line, &mut out),
        }
    }
    out
}
