//! The comparison: both sides get the same words, call by call; every answer and every word
//! of lent memory must agree.

use crate::case::{Call, Case};
use crate::oracle::{Oracle, numbers};
use crate::side::{Answer, Linker, Sheets, SheetsMut};

/// The memory of a case as its calls hand it on.
#[derive(Clone, Debug, PartialEq, Eq)]
pub struct State {
    pub set: Vec<u32>,
    pub numbers: Vec<u32>,
    pub area: Vec<u32>,
    pub missing: Vec<u32>,
}

impl State {
    /// What a case lends to its first call.
    pub fn of(case: &Case) -> Self {
        Self { set: case.set.clone(), numbers: case.numbers.clone(), area: case.area.clone(), missing: case.missing.clone() }
    }

    /// What of both sheets a call reads, with the ABI words that it is lent.
    pub fn sheets<'a>(&'a self, abi: &'a [u32]) -> Sheets<'a> {
        Sheets { set: &self.set, abi, numbers: &self.numbers }
    }
}

/// One call as it was made: what was lent, what came back.
pub struct Step<'a> {
    pub case: &'a Case,
    pub call: Call,
    pub before: &'a State,
    pub answer: Answer,
    pub after: &'a State,
}

/// The first disagreement of a case.
#[derive(Debug)]
pub struct Disagreement {
    pub call: usize,
    pub oracle: Answer,
    pub other: Answer,
    /// What differs, in words.
    pub difference: String,
}

/// Runs a case on both sides. `observe` sees every step on which they agree. Answers the
/// memory after the last.
pub fn compare(
    oracle: &mut Oracle,
    other: &mut dyn Linker,
    case: &Case,
    observe: &mut dyn FnMut(&Step),
) -> Result<State, Box<Disagreement>> {
    oracle.new_case(case.rebuilds);
    let mut before = State::of(case);
    let mut expected = before.clone();
    let mut found = before.clone();
    let mut descriptors_held = false;
    for (number, &call) in case.calls.iter().enumerate() {
        let oracle_answer = perform(oracle, case, call, &mut expected);
        let other_answer = perform(other, case, call, &mut found);
        let difference = difference(&before, oracle_answer, &expected, other_answer, &found)
            .or_else(|| numbers::fault(&case.abi, call, oracle_answer, &before, &expected))
            .or_else(|| (descriptors_held && oracle_answer.refusal == 5).then(|| "row 5 refuses what a link left".to_owned()));
        if let Some(difference) = difference {
            return Err(Box::new(Disagreement { call: number, oracle: oracle_answer, other: other_answer, difference }));
        }
        descriptors_held |= oracle_answer.refusal == 0 || oracle_answer.refusal > 5;
        observe(&Step { case, call, before: &before, answer: oracle_answer, after: &expected });
        if oracle_answer.refusal == 0 {
            before.set.clone_from(&expected.set);
            before.numbers.clone_from(&expected.numbers);
            before.area.clone_from(&expected.area);
            before.missing.clone_from(&expected.missing);
        }
    }
    Ok(before)
}

/// Makes one call on a side.
pub fn perform(side: &mut dyn Linker, case: &Case, call: Call, state: &mut State) -> Answer {
    let State { set, numbers, area, missing } = state;
    let abi = &case.abi;
    match call {
        Call::Link { class, stubs } => side.link(SheetsMut { set, abi, numbers }, class, area, &case.stubs[stubs], missing),
        Call::Ask { class, interface, stubs } => side.ask(Sheets { set, abi, numbers }, class, interface, area, &case.stubs[stubs]),
        Call::Missing { class } => side.missing_slots(set, abi, missing, class),
        Call::Fill => side.number_signatures(set, abi, numbers),
    }
}

fn difference(before: &State, oracle: Answer, expected: &State, other: Answer, found: &State) -> Option<String> {
    if oracle.refusal != 0 && expected != before {
        return Some("the oracle changed memory in a refused call".to_owned());
    }
    if oracle != other {
        return Some(format!("answers: oracle {oracle:?}, other {other:?}"));
    }
    first_difference("class words", &expected.set, &found.set)
        .or_else(|| first_difference("list of numbers", &expected.numbers, &found.numbers))
        .or_else(|| first_difference("area", &expected.area, &found.area))
        .or_else(|| first_difference("list of missing slots", &expected.missing, &found.missing))
}

fn first_difference(what: &str, expected: &[u32], found: &[u32]) -> Option<String> {
    let at = expected.iter().zip(found).position(|(expected, found)| expected != found)?;
    Some(format!("{what}: word {at} is {} by the oracle, {} by the other", expected[at], found[at]))
}
