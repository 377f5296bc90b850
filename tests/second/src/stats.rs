//! What occurs in a run of generated cases.

use crate::answers::{self, Answers, ENOUGH};
use crate::case::Case;
use crate::generate;
use crate::rules::{self, Refusal, VERDICT_FALSE, VERDICT_TRUE};
use std::fmt;

/// One more than the greatest refusal number.
const NUMBERS: usize = 19;

/// Counts of answers by refusal number; 0 is success.
type Histogram = [u64; NUMBERS];

#[derive(Default)]
pub struct Stats {
    cases: u64,
    expand: Histogram,
    plan: Histogram,
    judge: Histogram,
    run: Histogram,
    judge_true: u64,
    run_true: u64,
    guarded_stops: u64,
    abbreviated: u64,
    over_256_expanded: u64,
    longest_expanded: u32,
    tokens_255: u64,
    tokens_256: u64,
    tokens_257: u64,
    /// Cases whose greatest number of open brackets is 0, 1, .. 20 or more.
    depths: [u64; 21],
    plans_128: u64,
    room_left: u64,
    demand_three_broken: u64,
}

pub fn gather(seed: u64, count: u64) -> Stats {
    let mut stats = Stats::default();
    for index in 0..count {
        let case = generate::case(seed, index);
        stats.add(&case, &answers::answer(&case));
    }
    stats
}

fn number<T>(result: &Result<T, Refusal>) -> usize {
    result.as_ref().err().map_or(0, |r| r.number as usize)
}

impl Stats {
    fn add(&mut self, case: &Case, answers: &Answers) {
        self.cases += 1;
        self.expand[number(&answers.expand.result)] += 1;
        self.plan[number(&answers.plan.result)] += 1;
        self.judge[number(&answers.judge.answer)] += 1;
        self.run[number(&answers.run.answer)] += 1;
        self.judge_true += u64::from(answers.judge.answer == Ok(true));
        self.run_true += u64::from(answers.run.answer == Ok(true));
        self.plans_128 += u64::from(case.plan.len() == 640);
        self.demand_three_broken += u64::from(!answers.demand_three);
        self.add_lengths(case);
        self.add_guards(case, answers);
        if let Ok(count) = answers.expand.result {
            self.room_left += u64::from(case.expand_room > count as usize);
        }
    }

    fn add_lengths(&mut self, case: &Case) {
        match case.tokens.len() {
            255 => self.tokens_255 += 1,
            256 => self.tokens_256 += 1,
            257 => self.tokens_257 += 1,
            _ => {}
        }
        let mut output = [0; ENOUGH];
        if let Ok(length) = rules::expand(&case.tables(), &case.tokens, &mut output) {
            self.abbreviated += u64::from(length as usize > case.tokens.len());
            self.over_256_expanded += u64::from(length > 256);
            self.longest_expanded = self.longest_expanded.max(length);
        }
        self.depths[depth(&case.tokens).min(20)] += 1;
    }

    /// Counts a judged condition with a simple condition that would stop, had
    /// it been reached: a plan of that row alone stops.
    fn add_guards(&mut self, case: &Case, answers: &Answers) {
        if answers.judge.answer.is_err() {
            return;
        }
        let mut output = [0; ENOUGH];
        let count = rules::plan(&case.tables(), &case.tokens, &mut output).unwrap_or(0);
        let stops = output[..count as usize].chunks(5).any(|row| {
            let alone = [row[0], row[1], row[2], VERDICT_TRUE, VERDICT_FALSE];
            let judged = rules::run(&case.tables(), &alone, &case.record, case.switches);
            judged.answer.is_err()
        });
        self.guarded_stops += u64::from(stops);
    }
}

/// The greatest number of brackets open at once, by counting alone.
fn depth(tokens: &[u32]) -> usize {
    let (mut open, mut deepest) = (0_usize, 0);
    for token in tokens {
        match token {
            262_144 => open += 1,
            262_145 => open = open.saturating_sub(1),
            _ => {}
        }
        deepest = deepest.max(open);
    }
    deepest
}

impl fmt::Display for Stats {
    fn fmt(&self, f: &mut fmt::Formatter) -> fmt::Result {
        writeln!(f, "{} cases", self.cases)?;
        writeln!(f, "refusal   expand     plan    judge      run")?;
        for number in 0..NUMBERS {
            writeln!(
                f,
                "{number:7} {:8} {:8} {:8} {:8}",
                self.expand[number], self.plan[number], self.judge[number], self.run[number]
            )?;
        }
        let (judge_false, run_false) =
            (self.judge[0] - self.judge_true, self.run[0] - self.run_true);
        let lines = [
            ("judge true", self.judge_true),
            ("judge false", judge_false),
            ("run true", self.run_true),
            ("run false", run_false),
            (
                "judged, with a stop that is not reached",
                self.guarded_stops,
            ),
            ("abbreviated conditions", self.abbreviated),
            ("expanded to over 256 tokens", self.over_256_expanded),
            ("longest expanded form", u64::from(self.longest_expanded)),
            ("conditions of 255 tokens", self.tokens_255),
            ("conditions of 256 tokens", self.tokens_256),
            ("conditions of 257 tokens", self.tokens_257),
            ("plans of 128 rows", self.plans_128),
            ("expanded with room left", self.room_left),
            ("demand 3 broken", self.demand_three_broken),
        ];
        for (name, count) in lines {
            writeln!(f, "{count:8} {name}")?;
        }
        write!(f, "brackets open at once:")?;
        for (depth, count) in self.depths.iter().enumerate() {
            write!(f, " {depth}:{count}")?;
        }
        writeln!(f)
    }
}
