//! Choices of costs: a program held against the second one.

use crate::compare::same;
use lyra2_reference::vectors::random::Random;
use lyra2_reference::vectors::{random_choice, run, Answer, Question, Subject};
use lyra2_reference::{choose, Choice, Limits, Refusal};

/// Chooses with both programs, asks the first for the cost of what is chosen, and returns what both answered.
pub fn compare_choice(
    subject: &impl Subject,
    limits: Limits,
) -> Result<Result<Choice, Refusal>, String> {
    let due = choose(&limits);
    let found = subject
        .choose(&limits)
        .ok_or("the program chooses no costs")?;
    let answer = found.map_or_else(Answer::Refused, Answer::Chosen);
    same("answer", &due, &found)
        .and_then(|()| run::agree(subject, &Question::Choose { limits }, &answer))
        .map_err(|what| format!("choose within {limits:?}: {what}"))?;
    Ok(due)
}

/// Draws the limits of a choice and puts them to both programs.
pub fn compare_random(
    subject: &impl Subject,
    random: &mut Random,
) -> Result<Result<Choice, Refusal>, String> {
    compare_choice(subject, random_choice::limits(random))
}
