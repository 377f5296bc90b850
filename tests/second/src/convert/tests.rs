//! What document 02, l) says, and what random cases hold.

use super::*;
use crate::rules::{self, VERDICT_FALSE, VERDICT_TRUE};
use crate::subject::{check_stored, Subject};
use case::Case;
use std::collections::HashMap;

const ON: u32 = 2 * 65_536;
const OFF: u32 = 3 * 65_536;
const FALSE: u32 = VERDICT_FALSE;
const TRUE: u32 = VERDICT_TRUE;

/// on0 to on7, off0 to off7, words as document 01 has them.
fn tokens(text: &str) -> Vec<u32> {
    let token = |word: &str| {
        let numbered = |begins: &str| word.strip_prefix(begins)?.parse::<u32>().ok();
        if let Some(number) = numbered("off") {
            return OFF + number;
        }
        if let Some(number) = numbered("on") {
            return ON + number;
        }
        let known = crate::show::WORDS.iter().position(|&known| known == word);
        4 * 65_536 + known.unwrap() as u32
    };
    text.split(' ').map(token).collect()
}

fn converted(text: &str) -> Result<Vec<u32>, Refusal> {
    let mut output = [7; 300];
    let [count] = convert_condition(&Tables::default(), &tokens(text), &mut output)?;
    assert!(output[count as usize..].iter().all(|&number| number == 7));
    Ok(output[..count as usize].to_vec())
}

#[test]
fn conditions() {
    for (old, new) in [
        ("off3", "NOT on3"),
        ("NOT off3", "on3"),
        ("on3", "on3"),
        ("NOT on3", "NOT on3"),
        (
            "off0 AND NOT off1 OR NOT ( off2 )",
            "NOT on0 AND on1 OR NOT ( NOT on2 )",
        ),
        (
            "NOT ( NOT off1 AND off1 ) OR off7",
            "NOT ( on1 AND NOT on1 ) OR NOT on7",
        ),
    ] {
        assert_eq!(converted(old), Ok(tokens(new)), "{old}");
    }
}

#[test]
fn plans() {
    let plan = [OFF + 1, 0, 0, 1, FALSE, ON + 2, 0, 0, TRUE, FALSE];
    let mut output = [7; 11];
    let tables = Tables::default();
    assert_eq!(convert_plan(&tables, &plan, &mut output), Ok([10]));
    let new = [ON + 1, 0, 0, FALSE, 1, ON + 2, 0, 0, TRUE, FALSE, 7];
    assert_eq!(output, new);
    let short = convert_plan(&tables, &plan, &mut output[..9]);
    assert_eq!(short, Err(Refusal::at(10, 10)));
    for (at, number) in [(0, OFF + 8), (1, 1), (3, 0), (4, 2)] {
        let mut damaged = plan;
        damaged[at] = number;
        let refused = convert_plan(&tables, &damaged, &mut output);
        assert_eq!(refused, Err(Refusal::at(11, 0)));
    }
    let names = Tables {
        names: &[0],
        ..tables
    };
    let refused = convert_plan(&names, &[], &mut output);
    assert_eq!(refused, Err(Refusal::at(18, 0)));
    assert_eq!(output, new);
}

#[test]
fn refusals_of_the_converter() {
    let refused = |text: &str| converted(text).map_err(|refusal| (refusal.number, refusal.place));
    assert_eq!(refused("off8"), Err((6, 0)));
    assert_eq!(refused("NOT NOT off1"), Err((7, 1)));
    assert_eq!(refused("off1 off1"), Err((7, 1)));
    // 128 off tokens and 127 joiners: 255 tokens become 383; with NOTs, fewer.
    let many = |term: &str, count: usize| vec![term; count].join(" AND ");
    assert_eq!(refused(&many("off1", 128)), Err((5, 0)));
    assert_eq!(refused(&many("off1", 86)), Err((5, 0)));
    assert_eq!(converted(&many("off1", 85)).unwrap().len(), 254);
    assert_eq!(converted(&many("NOT off1", 85)).unwrap().len(), 169);
    // 5 of what is converted stands before 10.
    let tables = Tables::default();
    let tokens = tokens(&many("off1", 86));
    let refused = convert_condition(&tables, &tokens, &mut []);
    assert_eq!(refused, Err(Refusal::at(5, 0)));
    let refused = convert_condition(&tables, &tokens[..3], &mut [7; 4]);
    assert_eq!(refused, Err(Refusal::at(10, 5)));
}

/// "Expand, plan and judge refuse it with 6, run with 11."
#[test]
fn the_new_rules() {
    let new = Tables {
        edition: Edition::WithoutOffSwitches,
        ..Tables::default()
    };
    let old = by_old_rules(&new);
    let condition = tokens("on1 AND off1");
    let refusal = Refusal::at(6, 2);
    let mut output = [7; 10];
    assert_eq!(rules::expand(&new, &condition, &mut output), Err(refusal));
    assert_eq!(rules::plan(&new, &condition, &mut output), Err(refusal));
    assert_eq!(rules::judge(&new, &condition, &[], 0).answer, Err(refusal));
    assert_eq!(rules::plan(&old, &condition, &mut output), Ok(10));
    assert_eq!(
        rules::run(&new, &output, &[], 0).answer,
        Err(Refusal::at(11, 1))
    );
    assert_eq!(rules::run(&old, &output, &[], 0).answer, Ok(false));
}

/// Old and new meaning agree; random cases hold every refusal.
#[test]
fn meanings_agree() {
    check_stored::<Case>();
    let mut seen: HashMap<(&str, u32), u32> = HashMap::new();
    let mut changed = 0;
    for index in 0..20_000 {
        let case = Case::case(71, index);
        let answer = case.answer();
        assert!(answer.same_meaning, "{case}");
        for (what, converted) in [("condition", &answer.condition), ("plan", &answer.plan)] {
            let number = converted.result.err().map_or(0, |refusal| refusal.number);
            *seen.entry((what, number)).or_default() += 1;
        }
        let tokens = &case.lent.tokens;
        if answer.condition.result.is_ok() && tokens.iter().any(|&token| is_off(token)) {
            changed += 1;
        }
        let long = tokens.len() <= 256 && answer.condition.result == Err(Refusal::at(5, 0));
        if long && !tokens.is_empty() {
            *seen.entry(("long", 0)).or_default() += 1;
        }
        if answer.condition.result == Ok([256]) {
            *seen.entry(("long", 256)).or_default() += 1;
        }
    }
    assert!(changed > 2_000, "{changed}");
    for number in [0, 1, 2, 3, 4, 5, 6, 7, 8, 9, 10, 18] {
        assert!(seen.contains_key(&("condition", number)), "{number}");
    }
    for number in [0, 1, 2, 3, 4, 10, 11, 18] {
        assert!(seen.contains_key(&("plan", number)), "{number}");
    }
    assert!(
        seen[&("long", 0)] > 200 && seen[&("long", 256)] > 50,
        "{seen:?}"
    );
}
