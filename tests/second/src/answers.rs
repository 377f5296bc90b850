//! The rules' answers to a case, as one line of text:
//! `E n p h P n p h J n v b c R n v b c D d`.

use crate::case::Case;
use crate::rules::{self, Judged, Refusal, Tables};
use std::fmt;

/// Room for every expanded form (634) and every plan (640).
pub const ENOUGH: usize = 640;

/// What expand or plan gave: the result and the output after the call.
#[derive(Clone, Debug, PartialEq, Eq)]
pub struct Written {
    pub result: Result<u32, Refusal>,
    pub output: Vec<u32>,
}

#[derive(Clone, Debug, PartialEq, Eq)]
pub struct Answers {
    pub expand: Written,
    pub plan: Written,
    pub judge: Judged,
    pub run: Judged,
    pub demand_three: bool,
}

/// An output before a call: number i holds 3,000,000,000 + i.
pub fn fresh_output(room: usize) -> Vec<u32> {
    (0..room as u32).map(|i| 3_000_000_000 + i).collect()
}

/// An output of bytes before a call: byte i holds 151 + i, modulo 256.
pub fn fresh_bytes(room: usize) -> Vec<u8> {
    (0..room).map(|i| (151 + i) as u8).collect()
}

/// The checksum of bytes, each as a number.
pub fn checksum_of_bytes(output: &[u8]) -> u32 {
    let numbers: Vec<u32> = output.iter().copied().map(u32::from).collect();
    checksum(&numbers)
}

pub fn checksum(output: &[u32]) -> u32 {
    let add = |sum: u32, &number: &u32| (sum ^ number).wrapping_mul(16_777_619);
    output.iter().fold(2_166_136_261, add)
}

type Call = fn(&Tables, &[u32], &mut [u32]) -> Result<u32, Refusal>;

fn write(call: Call, case: &Case, room: usize) -> Written {
    let mut output = fresh_output(room);
    let result = call(&case.tables(), &case.tokens, &mut output);
    Written { result, output }
}

impl Written {
    /// What the call writes when it has room enough; asks again if it had not.
    fn with_room(&self, call: Call, case: &Case) -> Option<Vec<u32>> {
        match self.result {
            Ok(count) => Some(self.output[..count as usize].to_vec()),
            Err(refusal) if refusal.number == 10 => {
                let again = write(call, case, refusal.place as usize);
                again.result.is_ok().then_some(again.output)
            }
            Err(_) => None,
        }
    }
}

pub fn answer(case: &Case) -> Answers {
    let tables = case.tables();
    let expand = write(rules::expand, case, case.expand_room);
    let plan = write(rules::plan, case, case.plan_room);
    let judge = rules::judge(&tables, &case.tokens, &case.record, case.switches);
    let run = rules::run(&tables, &case.plan, &case.record, case.switches);
    let demand_three = demand_three(case, &expand, &plan, judge);
    Answers {
        expand,
        plan,
        judge,
        run,
        demand_three,
    }
}

/// Where a plan is written: its run gives the rules' answer and count, expand
/// succeeds, and the expanded form, if at most 256 tokens, has the same plan.
fn demand_three(case: &Case, expand: &Written, plan: &Written, judge: Judged) -> bool {
    let Some(plan) = plan.with_room(rules::plan, case) else {
        return !matches!(plan.result, Err(Refusal { number: 10, .. }));
    };
    if rules::run(&case.tables(), &plan, &case.record, case.switches) != judge {
        return false;
    }
    let Some(expanded) = expand.with_room(rules::expand, case) else {
        return false;
    };
    if expanded.len() > 256 {
        return true;
    }
    let mut again = vec![0; plan.len()];
    let count = rules::plan(&case.tables(), &expanded, &mut again);
    count == Ok(plan.len() as u32) && again == plan
}

/// A refusal's number and place, or 0 and the value.
pub fn pair<T: Into<u32>>(result: Result<T, Refusal>) -> (u32, u32) {
    match result {
        Ok(value) => (0, value.into()),
        Err(refusal) => (refusal.number, refusal.place),
    }
}

impl fmt::Display for Answers {
    fn fmt(&self, f: &mut fmt::Formatter) -> fmt::Result {
        for (letter, written) in [("E", &self.expand), (" P", &self.plan)] {
            let (number, value) = pair(written.result);
            write!(f, "{letter} {number} {value} {}", checksum(&written.output))?;
        }
        for (letter, judged) in [("J", self.judge), ("R", self.run)] {
            let (number, value) = pair(judged.answer);
            let byte = judged.answer.err().map_or(0, |refusal| refusal.byte);
            write!(f, " {letter} {number} {value} {byte} {}", judged.count)?;
        }
        write!(f, " D {}", u8::from(self.demand_three))
    }
}

#[cfg(test)]
mod tests {
    use super::*;

    /// Case 1 of the scope paper on 01, 02, 03, 04: a > b is false, so
    /// a NOT < d is judged, which is false.
    #[test]
    fn line_of_case_one() {
        let case = Case {
            items: vec![3, 0, 2, 0, 2, 3, 2, 2, 0, 2, 3, 4, 2, 0, 2, 3, 6, 2, 0, 2],
            tokens: vec![0, 262149, 1, 262147, 262146, 262150, 2, 262148, 3],
            plan: vec![0, 5, 1, 1, 2, 0, 38, 2, 65535, 2, 0, 38, 3, 65535, 65534],
            record: b"01020304".to_vec(),
            expand_room: 13,
            plan_room: 0,
            ..Case::default()
        };
        let written = [
            0, 262149, 1, 262147, 0, 262146, 262150, 2, 262148, 0, 262146, 262150, 3,
        ];
        let line = format!(
            "E 0 13 {} P 10 15 2166136261 J 0 0 0 2 R 0 0 0 2 D 1",
            checksum(&written)
        );
        assert_eq!(answer(&case).to_string(), line);
    }

    #[test]
    fn checksum_is_as_described() {
        let mut sum = 2_166_136_261_u64;
        for number in [7_u64, 3_000_000_001] {
            sum = (sum ^ number) * 16_777_619 % (1 << 32);
        }
        assert_eq!(checksum(&[7, 3_000_000_001]), sum as u32);
    }

    #[test]
    fn demand_three_on_generated_cases() {
        for index in 0..20_000 {
            let case = crate::generate::case(11, index);
            assert!(answer(&case).demand_three, "case {index} of seed 11");
        }
    }
}
