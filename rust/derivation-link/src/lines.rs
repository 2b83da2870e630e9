//! Login lines: a program held against the second one, with everything that is lent between guards.

use crate::compare::{compare_used, same};
use crate::guarded::{byte, Guarded};
use lyra2_reference::vectors::random::Random;
use lyra2_reference::vectors::{random_line, Question, Subject};
use lyra2_reference::{line_read, line_write, LineParts, LineValues, Refusal};

/// Reads a line with both programs, into outputs of these lengths, and returns what both answered.
pub fn compare_read(
    subject: &impl Subject,
    line: &[u8],
    [salt_room, key_room]: [usize; 2],
    random: &mut Random,
) -> Result<Result<LineValues, Refusal>, String> {
    let line = Guarded::holding(random, line, byte);
    let mut salt = Guarded::random(random, salt_room, byte);
    let mut key = Guarded::random(random, key_room, byte);
    let (mut due_salt, mut due_key) = (vec![0; salt_room], vec![0; key_room]);
    let due = line_read(line.lent(), &mut due_salt, &mut due_key);
    let found = subject
        .line_read(line.lent(), salt.lent_mut(), key.lent_mut())
        .ok_or("the program reads no lines")?;
    let at_line = |what: String| {
        let text = line.lent().escape_ascii();
        format!("line_read of {text} with room for {salt_room} and {key_room}: {what}")
    };
    let [salt_len, key_len] = due.map_or([0; 2], |read| [read.salt_len, read.key_len]);
    same("answer", &due, &found)
        .and_then(|()| compare_used("salt", &due_salt[..salt_len as usize], &salt))
        .and_then(|()| compare_used("key", &due_key[..key_len as usize], &key))
        .and_then(|()| line.used("line", 0).map(drop))
        .map_err(at_line)?;
    Ok(due)
}

/// Writes a line with both programs, into outputs of this length, and returns what both answered and the line.
pub fn compare_written(
    subject: &impl Subject,
    parts: &LineParts,
    room: usize,
    random: &mut Random,
) -> Result<Result<Vec<u8>, Refusal>, String> {
    let salt = Guarded::holding(random, parts.salt, byte);
    let key = Guarded::holding(random, parts.key, byte);
    let mut line = Guarded::random(random, room, byte);
    let parts = LineParts {
        salt: salt.lent(),
        key: key.lent(),
        ..*parts
    };
    let mut due_line = vec![0; room];
    let due = line_write(&parts, &mut due_line);
    due_line.truncate(due.unwrap_or(0) as usize);
    let found = subject
        .line_write(&parts, line.lent_mut())
        .ok_or("the program writes no lines")?;
    same("answer", &due, &found)
        .and_then(|()| compare_used("line", &due_line, &line))
        .and_then(|()| salt.used("salt", 0).map(drop))
        .and_then(|()| key.used("key", 0).map(drop))
        .map_err(|what| format!("line_write of {parts:?} with room for {room}: {what}"))?;
    Ok(due.map(|_| due_line))
}

/// Draws a question of the second program about a line and puts it to both. An accepted line is also read back, or
/// written again.
pub fn compare_question(
    subject: &impl Subject,
    random: &mut Random,
) -> Result<Result<(), Refusal>, String> {
    match random_line::question(random) {
        Question::LineRead {
            line,
            salt_room,
            key_room,
        } => {
            let rooms = [salt_room, key_room].map(|room| room as usize);
            let answer = compare_read(subject, &line, rooms, random)?;
            if let Ok(values) = answer {
                compare_written_again(subject, &line, &values, random)?;
            }
            Ok(answer.map(drop))
        }
        Question::LineWrite { values, line_room } => {
            let parts = LineParts {
                t: values.t,
                r: values.r,
                c: values.c,
                salt: &values.salt.to_vec(),
                key: &values.key.to_vec(),
            };
            let answer = compare_written(subject, &parts, line_room as usize, random)?;
            if let Ok(line) = &answer {
                let rooms = [parts.salt.len(), parts.key.len()];
                let read = compare_read(subject, line, rooms, random)?;
                same("a line read back", &Ok(()), &read.map(drop))?;
            }
            Ok(answer.map(drop))
        }
        other => Err(format!("{other:?} is no question about a line")),
    }
}

/// Writes a line from the values that were read from it; it has to be the same line.
fn compare_written_again(
    subject: &impl Subject,
    line: &[u8],
    values: &LineValues,
    random: &mut Random,
) -> Result<(), String> {
    let mut salt = vec![0; values.salt_len as usize];
    let mut key = vec![0; values.key_len as usize];
    let again = line_read(line, &mut salt, &mut key);
    same("a line read again", &Ok(*values), &again)?;
    let parts = LineParts {
        t: values.t,
        r: values.r,
        c: values.c,
        salt: &salt,
        key: &key,
    };
    let written = compare_written(subject, &parts, line.len(), random)?;
    same("a line written again", &Ok(line.to_vec()), &written)
}
