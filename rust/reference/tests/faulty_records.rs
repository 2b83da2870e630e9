//! Faulty programs whose record is wrong, made on purpose: the cases of request #108 have to notice a wrong word, a wrong
//! room and a word that is written past the used ones.

mod common;

use lyra2_reference::record::{visits, word, Visit};
use lyra2_reference::refusal::{check_matrix, check_record};
use lyra2_reference::vectors::{run, Answer, Case, Question, Reference, Subject};
use lyra2_reference::{Checked, Counts, Inputs, Mixer, Parameters, Recorded, Refusal, Settings};

/// The first case that request #108 added.
const FIRST_CASE: u64 = 5097;

/// What the checks of a recorded derivation look at.
struct Call<'a> {
    given: Parameters,
    settings: Settings,
    matrix: &'a [u64],
    record: &'a [u64],
}

impl Call<'_> {
    fn refused_by_the_rules(&self) -> Result<(), Refusal> {
        check_record(&self.given, self.settings, self.matrix, self.record)
    }

    /// The room is only asked for where the numbers are within their limits, so that it can be worked out.
    fn refused_below(&self, room: fn(&Parameters) -> u64) -> Result<(), Refusal> {
        check_matrix(&self.given, self.settings, self.matrix)?;
        match (self.record.len() as u64) < room(&self.given) {
            true => Err(Refusal::RecordWords),
            false => Ok(()),
        }
    }
}

/// The checks of a program.
type Checks = fn(&Call) -> Result<(), Refusal>;
/// The words that a program writes for a visit.
type Words = fn(&Visit) -> Vec<u64>;
/// What a program does at last to the lent record, of which so many words are used.
type End = fn(&mut [u64], usize);

/// A program by what it does with the record; it puts down as many words as there is room for.
#[derive(Clone, Copy)]
struct Program {
    name: &'static str,
    refuses: Checks,
    words: Words,
    ends: End,
}

const RIGHT: Program = Program {
    name: "the rules as they stand",
    refuses: |call| call.refused_by_the_rules(),
    words: Visit::words,
    ends: |_, _| (),
};

impl Subject for Program {
    fn derive_recorded(
        &self,
        inputs: &Inputs,
        key: &mut [u8],
        matrix: &mut [u64],
        record: &mut [u64],
    ) -> Option<Result<Recorded, Refusal>> {
        let call = Call {
            given: inputs.parameters(key.len()),
            settings: inputs.settings,
            matrix,
            record,
        };
        let used = call.given.record_words() as usize;
        if let Err(refusal) = (self.refuses)(&call) {
            return Some(Err(refusal));
        }
        let mut right = vec![0; used];
        let answer = Reference.derive_recorded(inputs, key, matrix, &mut right)?;
        let made = visits(&right, inputs.c as usize);
        let words = made.iter().flat_map(self.words);
        record
            .iter_mut()
            .zip(words)
            .for_each(|(place, word)| *place = word);
        (self.ends)(record, used);
        Some(answer)
    }

    fn derive(
        &self,
        inputs: &Inputs,
        key: &mut [u8],
        matrix: &mut [u64],
    ) -> Result<Counts, Refusal> {
        Reference.derive(inputs, key, matrix)
    }

    fn check(
        &self,
        inputs: &Inputs,
        stored: &[u8],
        matrix: &mut [u64],
    ) -> Result<Checked, Refusal> {
        Reference.check(inputs, stored, matrix)
    }

    fn cost(&self, given: &Parameters, rho: u64) -> Result<Counts, Refusal> {
        Reference.cost(given, rho)
    }

    fn walk(&self, r: u64, row0: u64) -> Result<u64, Refusal> {
        Reference.walk(r, row0)
    }
}

/// The words of a visit, each made from its two numbers in a wrong way.
fn each(visit: &Visit, wrong: fn([u64; 2]) -> u64) -> Vec<u64> {
    let columns = visit.columns.iter().copied();
    let all = std::iter::once(visit.rows).chain(columns);
    all.map(wrong).collect()
}

/// A number in each word, the form from before request #108.
fn unpacked(visit: &Visit) -> Vec<u64> {
    [&visit.rows[..], visit.columns.as_flattened()].concat()
}

const WRONG_WORDS: [(&str, Words); 11] = [
    ("row1 and col1 are low", |visit| {
        each(visit, |[first, second]| word([second, first]))
    }),
    ("row1 is low", |visit| {
        let mut words = visit.words();
        words[0] = word([visit.rows[1], visit.rows[0]]);
        words
    }),
    ("col1 is low in the last column", |visit| {
        let mut words = visit.words();
        let column = visit.columns[visit.columns.len() - 1];
        words[visit.columns.len()] = word([column[1], column[0]]);
        words
    }),
    ("the factor is 256", |visit| {
        each(visit, |[first, second]| first + 256 * second)
    }),
    ("the factor is 65,535", |visit| {
        each(visit, |[first, second]| first + 65_535 * second)
    }),
    ("the factor is that of a half word", |visit| {
        each(visit, |[first, second]| first + (second << 32))
    }),
    ("numbers are cut to a byte", |visit| {
        each(visit, |numbers| word(numbers.map(|number| number % 256)))
    }),
    ("the rows' word is written twice", |visit| {
        [&visit.words()[..1], &visit.words()].concat()
    }),
    ("the rows' word comes last", |visit| {
        let mut words = visit.words();
        words.rotate_left(1);
        words
    }),
    ("the columns come from the last on", |visit| {
        let mut words = visit.words();
        words[1..].reverse();
        words
    }),
    ("a number in each word", unpacked),
];

const WRONG_CHECKS: [(&str, Checks); 8] = [
    ("the room of a number in each word is asked for", |call| {
        call.refused_below(|given| 2 * given.record_words())
    }),
    ("a word more is asked for", |call| {
        call.refused_below(|given| given.record_words() + 1)
    }),
    ("a word fewer is asked for", |call| {
        call.refused_below(|given| given.record_words().saturating_sub(1))
    }),
    ("no word is asked for the rows", |call| {
        call.refused_below(|given| given.r * given.t * given.c)
    }),
    (
        "the words of one visit for each row are asked for",
        |call| call.refused_below(|given| given.r * given.t.min(1) * (1 + given.c)),
    ),
    ("no record is too short", |call| call.refused_below(|_| 0)),
    ("the record comes before the matrix", |call| {
        match call.refused_by_the_rules() {
            Err(Refusal::MatrixWords) => {
                let short = (call.record.len() as u64) < call.given.record_words();
                Err(if short {
                    Refusal::RecordWords
                } else {
                    Refusal::MatrixWords
                })
            }
            due => due,
        }
    }),
    ("a short record is answered as a short matrix", |call| {
        call.refused_by_the_rules().map_err(|due| match due {
            Refusal::RecordWords => Refusal::MatrixWords,
            other => other,
        })
    }),
];

const WRONG_ENDS: [(&str, End); 4] = [
    ("the word after the used ones is cleared", |record, used| {
        record[used..].iter_mut().take(1).for_each(|word| *word = 0)
    }),
    (
        "the last word of the old length is cleared",
        |record, used| {
            if let Some(last) = record[used..].get_mut(used.wrapping_sub(1)) {
                *last = 0;
            }
        },
    ),
    (
        "as many words again as are used are cleared",
        |record, used| {
            record[used..]
                .iter_mut()
                .take(used)
                .for_each(|word| *word = 0)
        },
    ),
    ("the last used word is left", |record, used| {
        if let Some(last) = record[..used].last_mut() {
            *last = !*last;
        }
    }),
];

/// Every wrong program: one thing wrong, the others right.
fn wrong_programs() -> Vec<Program> {
    let words = WRONG_WORDS.map(|(name, words)| Program {
        name,
        words,
        ..RIGHT
    });
    let checks = WRONG_CHECKS.map(|(name, refuses)| Program {
        name,
        refuses,
        ..RIGHT
    });
    let ends = WRONG_ENDS.map(|(name, ends)| Program {
        name,
        ends,
        ..RIGHT
    });
    [&words[..], &checks, &ends].concat()
}

/// The recorded derivations with some mixer, but for the largest matrix and the most visits.
fn cases_with(mixer: Mixer) -> Vec<Case> {
    let mut cases: Vec<Case> = common::cases().into_iter().map(|(_, case)| case).collect();
    cases.retain(|case| match &case.question {
        Question::DeriveRecorded { given, .. } => {
            given.settings().mixer == mixer
                && given.matrix_words <= 200_000
                && (given.t <= 3 || given.r <= 3)
        }
        _ => false,
    });
    cases
}

fn is_noticed(program: &Program, case: &Case) -> bool {
    let found = run::ask(program, &case.question);
    found
        .and_then(|found| run::compare(&case.answer, &found))
        .is_err()
}

#[test]
fn every_wrong_record_is_noticed_by_the_new_cases_with_each_mixer() {
    for mixer in [Mixer::Plain, Mixer::BlaMka] {
        let mut cases = cases_with(mixer);
        cases.retain(|case| case.number >= FIRST_CASE);
        for program in wrong_programs() {
            let noticed = cases.iter().any(|case| is_noticed(&program, case));
            assert!(noticed, "{}, {mixer:?}", program.name);
        }
    }
}

/// It takes more rows than the new cases have with BlaMka, of which the checks know nothing.
#[test]
fn a_room_that_is_cut_to_16_bits_is_noticed() {
    let cut = Program {
        refuses: |call| call.refused_below(|given| given.record_words() % (1 << 16)),
        ..RIGHT
    };
    let cases = cases_with(Mixer::Plain);
    assert!(cases.iter().any(|case| is_noticed(&cut, case)));
}

/// Shows that above nothing but the fault is noticed.
#[test]
fn the_rules_as_they_stand_are_not_noticed() {
    for mixer in [Mixer::Plain, Mixer::BlaMka] {
        for case in cases_with(mixer) {
            assert!(!is_noticed(&RIGHT, &case), "case {}", case.number);
        }
    }
}

/// Old cases and new ones, however much they lend: an accepted derivation with visits shows the form of before.
#[test]
fn the_form_of_before_is_noticed_wherever_there_are_visits() {
    let [before_words, before_both] = [RIGHT.refuses, WRONG_CHECKS[0].1].map(|refuses| Program {
        name: "the form of before",
        refuses,
        words: unpacked,
        ..RIGHT
    });
    let mut with_visits = 0;
    for mixer in [Mixer::Plain, Mixer::BlaMka] {
        for case in cases_with(mixer) {
            let (Question::DeriveRecorded { given, .. }, Answer::Recorded { .. }) =
                (&case.question, &case.answer)
            else {
                continue;
            };
            let due = given.t > 0;
            for program in [&before_words, &before_both] {
                assert_eq!(is_noticed(program, &case), due, "case {}", case.number);
            }
            with_visits += usize::from(due);
        }
    }
    assert!(with_visits >= 1_500, "{with_visits}");
}
