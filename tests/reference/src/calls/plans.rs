//! A call of the entry for plans, which has no tables.

use super::{put, Buffer, Tally, SHORT_ANSWER};
use crate::interface::{plan_words, Interface, PLAN_ANSWER};
use crate::planning::plan;
use crate::random::Random;

/// What it gave, and the answer's buffer.
pub struct PlanCall {
    given: bool,
    expected: bool,
    answer: Buffer,
    words: usize,
}

/// Calls the entry for plans with a board and an answer of some length, and the reference beside it. None where the library
/// has no such entry.
pub fn call_plan(
    with: &Interface,
    board: &[u32],
    length: usize,
    random: &mut Random,
    tally: &mut Tally,
) -> Option<PlanCall> {
    let entry = with.plan?;
    let mut answer = Buffer::new(length, random);
    let enough = length >= PLAN_ANSWER;
    if enough {
        let planned = plan(board);
        put(&mut answer, &plan_words(&planned));
        tally[planned.number as usize] += 1;
    } else {
        tally[SHORT_ANSWER] += 1;
    }
    // Both pointers are of live buffers of at least the length given with them.
    let given = unsafe { entry(board.as_ptr(), board.len(), answer.pointer(), length) };
    Some(PlanCall { given, expected: enough, answer, words: board.len() })
}

impl PlanCall {
    /// Holds the result and every word of the answer to the reference.
    pub fn hold(&self) -> Result<(), String> {
        if self.given != self.expected {
            return Err(format!("plan of {} words gives {}, not {}", self.words, self.given, self.expected));
        }
        self.answer.same("answer").map_err(|message| format!("plan of {} words: {message}", self.words))
    }

    /// The words of the answer; none where it is too short.
    pub fn said(&self) -> Option<[u32; PLAN_ANSWER]> {
        self.answer.given().first_chunk().copied().filter(|_| self.expected)
    }

    /// Holds the answer to these words, the reference left aside.
    pub fn hold_said(&self, right: [u32; PLAN_ANSWER]) -> Result<(), String> {
        match self.said() {
            Some(said) if said != right => Err(format!("plan of {} words: {said:?}, not {right:?}", self.words)),
            _ => Ok(()),
        }
    }
}
