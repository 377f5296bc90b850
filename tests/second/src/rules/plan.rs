//! Plans: rows and targets of a condition, and what a given plan must keep (refusal 11).

use super::grammar::DEEPEST;
use super::parts::{parts, Part, Simple};
use super::tables::Tables;
use super::tokens::{exists, kind_of, operand_exists};
use super::typing::typed;
use super::{refuse, Refusal};

/// "Verdicts stand as 65,534 for false and 65,535 for true."
pub const VERDICT_FALSE: u32 = 65_534;
pub const VERDICT_TRUE: u32 = 65_535;

/// Where a term, a level or a row leads when it is true and when it is false.
#[derive(Clone, Copy)]
pub struct Targets {
    pub on_true: u32,
    pub on_false: u32,
}

impl Targets {
    /// "NOT exchanges true and false."
    pub fn under(self, not: bool) -> Targets {
        if not {
            Targets {
                on_true: self.on_false,
                on_false: self.on_true,
            }
        } else {
            self
        }
    }
}

/// The structure of a condition without its simple conditions' content; each
/// ")" knows the logical NOT before its "(".
#[derive(Clone, Copy)]
pub enum Mark {
    Simple { not: bool },
    Open,
    Close { not: bool },
    And,
    Or,
}

pub struct Structure {
    pub marks: [Mark; 256],
    pub count: usize,
}

/// Writes the first three numbers of each row and gives the structure, from
/// which the other two follow.
pub fn write_simple_conditions(tokens: &[u32], plan: &mut [u32]) -> Structure {
    let mut structure = Structure {
        marks: [Mark::And; 256],
        count: 0,
    };
    let mut rows = plan.chunks_exact_mut(5);
    let mut nots = [false; DEEPEST];
    let mut open = 0;
    for part in parts(tokens) {
        let mark = match part {
            Part::Simple { simple, not } => {
                if let Some(row) = rows.next() {
                    row[..3].copy_from_slice(&[simple.subject, simple.relation, simple.object]);
                }
                Mark::Simple { not }
            }
            Part::Open { not } => {
                nots[open] = not;
                open += 1;
                Mark::Open
            }
            Part::Close => {
                open -= 1;
                Mark::Close { not: nots[open] }
            }
            Part::And => Mark::And,
            Part::Or => Mark::Or,
        };
        structure.marks[structure.count] = mark;
        structure.count += 1;
    }
    structure
}

/// "A target is the row judged next, always a later one, or a verdict.
/// Targets are those that left-to-right judging makes, whichever way the row
/// was reached." One walk from right to left: `here` is where the term met
/// next leads, `whole` where its level leads; `row` is the first row to the
/// right, the one that judging reaches next behind an AND or OR.
pub fn write_targets(structure: &Structure, plan: &mut [u32]) {
    let verdicts = Targets {
        on_true: VERDICT_TRUE,
        on_false: VERDICT_FALSE,
    };
    let mut outer = [(verdicts, verdicts); DEEPEST];
    let mut open = 0;
    let (mut whole, mut here) = (verdicts, verdicts);
    let mut row = plan.len() / 5;
    for &mark in structure.marks[..structure.count].iter().rev() {
        match mark {
            Mark::Simple { not } => {
                row -= 1;
                let targets = here.under(not);
                plan[5 * row + 3] = targets.on_true;
                plan[5 * row + 4] = targets.on_false;
            }
            // "A bracketed condition gives what is inside."
            Mark::Close { not } => {
                outer[open] = (whole, here);
                open += 1;
                whole = here.under(not);
                here = whole;
            }
            Mark::Open => {
                open -= 1;
                (whole, here) = outer[open];
            }
            // "A chain judges its terms in order up to the first that is false
            // or stops, and is true if there is none."
            Mark::And => here.on_true = row as u32,
            // "A condition judges its chains in order up to the first that is
            // true or stops, and is false if there is none."
            Mark::Or => {
                here = Targets {
                    on_true: whole.on_true,
                    on_false: row as u32,
                }
            }
        }
    }
}

pub fn plan_row(numbers: &[u32]) -> (Simple, u32, u32) {
    let simple = Simple {
        subject: numbers[0],
        relation: numbers[1],
        object: numbers[2],
    };
    (simple, numbers[3], numbers[4])
}

/// 11: "plan not 1 to 128 rows of five (place 0), or a row that isn't as "The
/// plan" says", "first such row".
pub fn check_plan(tables: &Tables, plan: &[u32]) -> Result<(), Refusal> {
    if plan.is_empty() || !plan.len().is_multiple_of(5) || plan.len() > 5 * 128 {
        return refuse(11, 0);
    }
    let count = plan.len() / 5;
    for (place, numbers) in plan.chunks_exact(5).enumerate() {
        let (simple, on_true, on_false) = plan_row(numbers);
        let leads = |target| is_target(target, place, count);
        if !row_is_simple(tables, &simple) || !leads(on_true) || !leads(on_false) {
            return refuse(11, place);
        }
    }
    Ok(())
}

/// "each target a later row of this plan or a verdict"
pub fn is_target(target: u32, row: usize, count: usize) -> bool {
    let target_row = target as usize;
    (target_row > row && target_row < count) || target == VERDICT_FALSE || target == VERDICT_TRUE
}

/// "tokens within their tables, a relation of the grammar, typing kept, 0
/// where 0 is named"
pub fn row_is_simple(tables: &Tables, simple: &Simple) -> bool {
    if !exists(tables, simple.subject) {
        return false;
    }
    match (kind_of(simple.subject), simple.relation) {
        (2 | 3 | 5, 0) => simple.object == 0,
        (0 | 1, 5..=9 | 37..=39) => operand_exists(tables, simple.object) && typed(tables, simple),
        (0 | 1, 10..=16 | 42..=48) => simple.object == 0 && typed(tables, simple),
        _ => false,
    }
}
