//! Faulty programs, made on purpose: the run of the vectors file has to notice every fault. Those of the login lines, of
//! the record's form, of the choice of costs, of the book of accounts and of the lanes stand in files of their own.

mod common;

use lyra2_reference::refusal::{
    check_cost, check_matrix, check_record, COST_CHECKS, PLAIN_CHECKS, RECORDED_CHECKS, ROTATIONS,
    ROUNDS,
};
use lyra2_reference::vectors::{run, write, Answer, Case, Coverage, Question, Reference, Subject};
use lyra2_reference::{
    Account, AccountValues, Checked, Choice, Counts, Inputs, LaneInputs, Limits, LineParts,
    LineValues, Mixer, Parameters, Recorded, Refusal, Settings,
};

#[derive(Clone, Copy, Debug, PartialEq, Eq)]
enum Fault {
    Nothing,
    KeyByte,
    StateWord,
    UsedMatrixWord,
    UsedRecordWord,
    WordPastMatrix,
    WordPastRecord,
    KeyOnRefusal,
    MatrixOnRefusal,
    RecordOnRefusal,
    FullCount,
    ReducedCount,
    RoundCount,
    PlainKey,
    PlainMatrixKept,
    CheckSaysYes,
    CheckSaysNo,
    CheckMatrixKept,
    CostOfNoPadding,
    EverythingRefused,
    RefusalsSwapped,
    WalkRow,
    WalkEnd,
}

use Fault::*;

/// The reference program with a fault put into it.
struct Faulty(Fault);

impl Faulty {
    fn spoil_refusal<A>(&self, answer: Result<A, Refusal>) -> Result<A, Refusal> {
        match answer {
            Err(Refusal::SaltTooShort) if self.0 == RefusalsSwapped => Err(Refusal::TimeCost),
            Ok(_) if self.0 == EverythingRefused => Err(Refusal::Rows),
            other => other,
        }
    }

    fn spoil_counts(&self, counts: &mut Counts) {
        counts.full += u64::from(self.0 == FullCount);
        counts.reduced += u64::from(self.0 == ReducedCount);
        counts.rounds += u64::from(self.0 == RoundCount);
    }
}

fn flip(words: &mut [u64], place: usize) {
    if let Some(word) = words.get_mut(place) {
        *word ^= 1;
    }
}

impl Subject for Faulty {
    fn derive_recorded(
        &self,
        inputs: &Inputs,
        key: &mut [u8],
        matrix: &mut [u64],
        record: &mut [u64],
    ) -> Option<Result<Recorded, Refusal>> {
        let given = inputs.parameters(key.len());
        let mut answer = Reference.derive_recorded(inputs, key, matrix, record)?;
        if let Ok(recorded) = &mut answer {
            self.spoil_counts(&mut recorded.counts);
            match self.0 {
                KeyByte => key[key.len() - 1] ^= 1,
                StateWord => recorded.state[15] ^= 1,
                UsedMatrixWord => flip(matrix, given.matrix_words() as usize - 1),
                UsedRecordWord => flip(record, given.record_words() as usize - 1),
                WordPastMatrix => flip(matrix, given.matrix_words() as usize),
                WordPastRecord => flip(record, given.record_words() as usize),
                _ => (),
            }
        } else {
            match self.0 {
                KeyOnRefusal => key.fill(0),
                MatrixOnRefusal => matrix.fill(0),
                RecordOnRefusal => record.fill(0),
                _ => (),
            }
        }
        Some(self.spoil_refusal(answer))
    }

    fn derive(
        &self,
        inputs: &Inputs,
        key: &mut [u8],
        matrix: &mut [u64],
    ) -> Result<Counts, Refusal> {
        let before = matrix.to_vec();
        let counts = Reference.derive(inputs, key, matrix)?;
        match self.0 {
            PlainKey => key[0] ^= 1,
            PlainMatrixKept => matrix.copy_from_slice(&before),
            _ => (),
        }
        Ok(counts)
    }

    fn check(
        &self,
        inputs: &Inputs,
        stored: &[u8],
        matrix: &mut [u64],
    ) -> Result<Checked, Refusal> {
        let before = matrix.to_vec();
        let mut checked = Reference.check(inputs, stored, matrix)?;
        match self.0 {
            CheckSaysYes => checked.matches = true,
            CheckSaysNo => checked.matches = false,
            CheckMatrixKept => matrix.copy_from_slice(&before),
            _ => (),
        }
        Ok(checked)
    }

    fn cost(&self, given: &Parameters, rho: u64) -> Result<Counts, Refusal> {
        let mut counts = Reference.cost(given, rho)?;
        let fills = (given.password_len + given.salt_len + 24).is_multiple_of(64);
        if self.0 == CostOfNoPadding && fills {
            counts.full -= 1;
            counts.rounds -= 12;
        }
        Ok(counts)
    }

    fn walk(&self, r: u64, row0: u64) -> Result<u64, Refusal> {
        let row1 = Reference.walk(r, row0)?;
        let wrong = self.0 == WalkRow && row0 == 8191;
        Ok(row1 + u64::from(wrong))
    }

    fn walk_program(&self, input: &[u8]) -> Option<Vec<u8>> {
        let mut output = Reference.walk_program(input)?;
        if self.0 == WalkEnd && output.len() > 100_000 {
            output.pop();
        }
        Some(output)
    }

    fn line_read(
        &self,
        line: &[u8],
        salt: &mut [u8],
        key: &mut [u8],
    ) -> Option<Result<LineValues, Refusal>> {
        Reference.line_read(line, salt, key)
    }

    fn line_write(&self, parts: &LineParts, line: &mut [u8]) -> Option<Result<u64, Refusal>> {
        Reference.line_write(parts, line)
    }

    fn choose(&self, limits: &Limits) -> Option<Result<Choice, Refusal>> {
        Reference.choose(limits)
    }

    fn book_find(&self, book: &[u8], used: u64, number: u32) -> Option<Result<u64, Refusal>> {
        Reference.book_find(book, used, number)
    }

    fn book_add(
        &self,
        book: &mut [u8],
        used: u64,
        account: &Account,
    ) -> Option<Result<u64, Refusal>> {
        Reference.book_add(book, used, account)
    }

    fn book_remove(&self, book: &mut [u8], used: u64, number: u32) -> Option<Result<u64, Refusal>> {
        Reference.book_remove(book, used, number)
    }

    fn book_check(
        &self,
        password: &[u8],
        book: &[u8],
        used: u64,
        number: u32,
        matrix: &mut [u64],
    ) -> Option<Result<Checked, Refusal>> {
        Reference.book_check(password, book, used, number, matrix)
    }

    fn book_account(&self, used_part: &[u8], place: u64) -> Option<AccountValues> {
        Reference.book_account(used_part, place)
    }

    fn lanes_derive(
        &self,
        inputs: &LaneInputs,
        key: &mut [u8],
        matrix: &mut [u64],
    ) -> Option<Result<Counts, Refusal>> {
        Reference.lanes_derive(inputs, key, matrix)
    }

    fn lanes_check(
        &self,
        inputs: &LaneInputs,
        stored: &[u8],
        matrix: &mut [u64],
    ) -> Option<Result<Checked, Refusal>> {
        Reference.lanes_check(inputs, stored, matrix)
    }

    fn lanes_cost(&self, given: &Parameters, p: u64) -> Option<Result<Counts, Refusal>> {
        Reference.lanes_cost(given, p)
    }
}

/// The cases with buffers small enough to be asked over and over.
fn small_cases() -> Vec<Case> {
    let small = |question: &Question| match question {
        Question::DeriveRecorded { given, .. }
        | Question::Derive { given, .. }
        | Question::Check { given, .. } => given.matrix_words <= 2000,
        _ => true,
    };
    let cases = common::cases().into_iter().map(|(_, case)| case);
    cases.filter(|case| small(&case.question)).collect()
}

#[test]
fn every_fault_is_noticed() {
    let cases = small_cases();
    for fault in [
        KeyByte,
        StateWord,
        UsedMatrixWord,
        UsedRecordWord,
        WordPastMatrix,
        WordPastRecord,
        KeyOnRefusal,
        MatrixOnRefusal,
        RecordOnRefusal,
        FullCount,
        ReducedCount,
        RoundCount,
        PlainKey,
        PlainMatrixKept,
        CheckSaysYes,
        CheckSaysNo,
        CheckMatrixKept,
        CostOfNoPadding,
        EverythingRefused,
        RefusalsSwapped,
        WalkRow,
        WalkEnd,
    ] {
        let noticed = |case: &Case| run::check_case(&Faulty(fault), case).is_err();
        assert!(cases.iter().any(noticed), "{fault:?}");
    }
}

#[test]
fn no_fault_is_noticed_where_there_is_none() {
    for case in small_cases() {
        let outcome = run::check_case(&Faulty(Nothing), &case);
        assert_eq!(outcome, Ok(Coverage::Whole));
    }
}

/// A faulty program without the recorded derivation, the walk program, the login lines, the choice of costs, the book and the
/// lanes.
struct Partial(Faulty);

impl Subject for Partial {
    fn derive(
        &self,
        inputs: &Inputs,
        key: &mut [u8],
        matrix: &mut [u64],
    ) -> Result<Counts, Refusal> {
        self.0.derive(inputs, key, matrix)
    }

    fn check(
        &self,
        inputs: &Inputs,
        stored: &[u8],
        matrix: &mut [u64],
    ) -> Result<Checked, Refusal> {
        self.0.check(inputs, stored, matrix)
    }

    fn cost(&self, given: &Parameters, rho: u64) -> Result<Counts, Refusal> {
        self.0.cost(given, rho)
    }

    fn walk(&self, r: u64, row0: u64) -> Result<u64, Refusal> {
        self.0.walk(r, row0)
    }
}

/// The recorded derivations tell something about the other operations, also where a program lacks them.
#[test]
fn faults_of_a_partial_program_are_noticed_in_the_recorded_derivations() {
    let mut cases = small_cases();
    cases.retain(|case| matches!(case.question, Question::DeriveRecorded { .. }));
    for fault in [
        PlainKey,
        PlainMatrixKept,
        CheckSaysYes,
        CheckSaysNo,
        CheckMatrixKept,
        CostOfNoPadding,
    ] {
        let noticed = |case: &Case| run::check_case(&Partial(Faulty(fault)), case).is_err();
        assert!(cases.iter().any(noticed), "{fault:?}");
    }
}

/// The choices tell something about the cost question, also where a program chooses nothing.
#[test]
fn faults_of_the_cost_question_are_noticed_in_the_choices() {
    let mut cases = small_cases();
    cases.retain(|case| matches!(case.question, Question::Choose { .. }));
    let noticed = |case: &&Case| {
        let program = Partial(Faulty(CostOfNoPadding));
        run::check_case(&program, case).is_err()
    };
    let is_refused = |case: &&Case| matches!(case.answer, Answer::Refused(_));
    let (refused, accepted): (Vec<_>, Vec<_>) = cases.iter().filter(noticed).partition(is_refused);
    assert!(!refused.is_empty() && !accepted.is_empty());
}

/// A choice whose T is not the greatest, or that is refused with another number, is noticed by the cost question alone.
#[test]
fn wrong_choices_are_noticed_by_their_cost() {
    let program = Partial(Faulty(Nothing));
    for mut case in small_cases() {
        if !matches!(case.question, Question::Choose { .. }) {
            continue;
        }
        assert_eq!(run::check_case(&program, &case), Ok(Coverage::SharedPart));
        case.answer = match case.answer {
            Answer::Chosen(choice) => Answer::Chosen(Choice {
                t: if choice.t > 1 { choice.t - 1 } else { 2 },
                ..choice
            }),
            Answer::Refused(Refusal::KeyLength) => Answer::Refused(Refusal::Rounds),
            _ => Answer::Refused(Refusal::KeyLength),
        };
        assert!(run::check_case(&program, &case).is_err(), "{case:?}");
    }
}

#[test]
fn a_partial_program_is_held_against_what_it_has() {
    for case in small_cases() {
        let expected = match (&case.question, &case.answer) {
            (Question::WalkProgram { .. }, _) => Coverage::Nothing,
            (Question::LineRead { .. } | Question::LineWrite { .. }, _) => Coverage::Nothing,
            (_, Answer::Refused(Refusal::RecordWords)) => Coverage::Nothing,
            (Question::BookCheck { .. }, Answer::Checked { .. }) => Coverage::SharedPart,
            (
                Question::BookFind { .. }
                | Question::BookAdd { .. }
                | Question::BookRemove { .. }
                | Question::BookCheck { .. }
                | Question::BookAccount { .. }
                | Question::LanesDerive { .. }
                | Question::LanesCheck { .. }
                | Question::LanesCost { .. },
                _,
            ) => Coverage::Nothing,
            (Question::DeriveRecorded { .. } | Question::Choose { .. }, _) => Coverage::SharedPart,
            _ => Coverage::Whole,
        };
        let found = run::check_case(&Partial(Faulty(Fault::Nothing)), &case);
        assert_eq!(found, Ok(expected));
    }
}

/// The operations that derive a key or foretell what that costs.
const OPS: [&str; 4] = ["derive_recorded", "derive", "check", "cost"];

/// What the checks of a call look at, but for the record.
struct Asked {
    given: Parameters,
    settings: Settings,
    matrix_words: u64,
}

impl Asked {
    fn new(inputs: &Inputs, key_len: usize, matrix: &[u64]) -> Asked {
        Asked {
            given: inputs.parameters(key_len),
            settings: inputs.settings,
            matrix_words: matrix.len() as u64,
        }
    }

    fn has_wrong_rounds(&self) -> bool {
        !ROUNDS.contains(&self.settings.rho)
    }

    fn has_wrong_rotation(&self) -> bool {
        !ROTATIONS.contains(&self.settings.omega)
    }

    fn has_short_matrix(&self) -> bool {
        self.matrix_words < self.given.matrix_words()
    }

    fn has_blamka(&self) -> bool {
        self.settings.mixer == Mixer::BlaMka
    }
}

/// A wrong rule of refusal: to some calls it gives another answer than the one that is due.
#[derive(Clone, Copy)]
struct WrongRule {
    name: &'static str,
    due: Result<(), Refusal>,
    calls: fn(&Asked) -> bool,
    answer: Refusal,
}

impl WrongRule {
    /// Whether an operation has the checks that the rule is about.
    fn concerns(&self, op: &str) -> bool {
        let checks = match op {
            "derive_recorded" => RECORDED_CHECKS,
            "cost" => COST_CHECKS,
            _ => PLAIN_CHECKS,
        };
        let due = self.due.err().unwrap_or(self.answer);
        checks.contains(&due) && checks.contains(&self.answer)
    }
}

const WRONG_RULES: [WrongRule; 22] = [
    WrongRule {
        name: "a long salt is answered as a short one",
        due: Err(Refusal::SaltTooLong),
        calls: |_| true,
        answer: Refusal::SaltTooShort,
    },
    WrongRule {
        name: "a short salt is answered as a long one",
        due: Err(Refusal::SaltTooShort),
        calls: |_| true,
        answer: Refusal::SaltTooLong,
    },
    WrongRule {
        name: "the longest salt is refused",
        due: Ok(()),
        calls: |asked| asked.given.salt_len == 64,
        answer: Refusal::SaltTooLong,
    },
    WrongRule {
        name: "the shortest salt is refused",
        due: Ok(()),
        calls: |asked| asked.given.salt_len == 8,
        answer: Refusal::SaltTooShort,
    },
    WrongRule {
        name: "a long salt comes after T",
        due: Err(Refusal::SaltTooLong),
        calls: |asked| asked.given.t > 255,
        answer: Refusal::TimeCost,
    },
    WrongRule {
        name: "a long salt comes before the password",
        due: Err(Refusal::PasswordLength),
        calls: |asked| asked.given.salt_len > 64,
        answer: Refusal::SaltTooLong,
    },
    WrongRule {
        name: "the length of the salt is cut to 8 bits",
        due: Err(Refusal::SaltTooLong),
        calls: |asked| asked.given.salt_len % 256 < 8,
        answer: Refusal::SaltTooShort,
    },
    WrongRule {
        name: "the fewest rounds are refused",
        due: Ok(()),
        calls: |asked| asked.settings.rho == 1,
        answer: Refusal::Rounds,
    },
    WrongRule {
        name: "the most rounds are refused",
        due: Ok(()),
        calls: |asked| asked.settings.rho == 12,
        answer: Refusal::Rounds,
    },
    WrongRule {
        name: "the shortest rotation is refused",
        due: Ok(()),
        calls: |asked| asked.settings.omega == 1,
        answer: Refusal::Rotation,
    },
    WrongRule {
        name: "the longest rotation is refused",
        due: Ok(()),
        calls: |asked| asked.settings.omega == 11,
        answer: Refusal::Rotation,
    },
    WrongRule {
        name: "wrong rounds are answered as a wrong rotation",
        due: Err(Refusal::Rounds),
        calls: |_| true,
        answer: Refusal::Rotation,
    },
    WrongRule {
        name: "a wrong rotation is answered as wrong rounds",
        due: Err(Refusal::Rotation),
        calls: |_| true,
        answer: Refusal::Rounds,
    },
    WrongRule {
        name: "the rounds come before C",
        due: Err(Refusal::Columns),
        calls: Asked::has_wrong_rounds,
        answer: Refusal::Rounds,
    },
    WrongRule {
        name: "the rotation comes before C",
        due: Err(Refusal::Columns),
        calls: Asked::has_wrong_rotation,
        answer: Refusal::Rotation,
    },
    WrongRule {
        name: "the rounds come before all else",
        due: Err(Refusal::KeyLength),
        calls: Asked::has_wrong_rounds,
        answer: Refusal::Rounds,
    },
    WrongRule {
        name: "the rotation comes before the rounds",
        due: Err(Refusal::Rounds),
        calls: Asked::has_wrong_rotation,
        answer: Refusal::Rotation,
    },
    WrongRule {
        name: "the rounds come after the matrix",
        due: Err(Refusal::Rounds),
        calls: Asked::has_short_matrix,
        answer: Refusal::MatrixWords,
    },
    WrongRule {
        name: "the rotation comes after the matrix",
        due: Err(Refusal::Rotation),
        calls: Asked::has_short_matrix,
        answer: Refusal::MatrixWords,
    },
    WrongRule {
        name: "BlaMka is refused",
        due: Ok(()),
        calls: Asked::has_blamka,
        answer: Refusal::Rotation,
    },
    WrongRule {
        name: "with BlaMka the rotation comes before the rounds",
        due: Err(Refusal::Rounds),
        calls: |asked| asked.has_blamka() && asked.has_wrong_rotation(),
        answer: Refusal::Rotation,
    },
    WrongRule {
        name: "with BlaMka a short matrix is answered as a wrong rotation",
        due: Err(Refusal::MatrixWords),
        calls: Asked::has_blamka,
        answer: Refusal::Rotation,
    },
];

/// The reference program with a wrong rule of refusal in one of its operations.
struct WrongRefusals {
    rule: WrongRule,
    op: &'static str,
}

impl WrongRefusals {
    /// Comes before any buffer is touched, so that only the number of the refusal can tell.
    fn refuse(&self, op: &str, asked: &Asked, due: Result<(), Refusal>) -> Result<(), Refusal> {
        if op == self.op && due == self.rule.due && (self.rule.calls)(asked) {
            return Err(self.rule.answer);
        }
        due
    }
}

impl Subject for WrongRefusals {
    fn derive_recorded(
        &self,
        inputs: &Inputs,
        key: &mut [u8],
        matrix: &mut [u64],
        record: &mut [u64],
    ) -> Option<Result<Recorded, Refusal>> {
        let asked = Asked::new(inputs, key.len(), matrix);
        let due = check_record(&asked.given, asked.settings, matrix, record);
        match self.refuse("derive_recorded", &asked, due) {
            Ok(()) => Reference.derive_recorded(inputs, key, matrix, record),
            Err(refusal) => Some(Err(refusal)),
        }
    }

    fn derive(
        &self,
        inputs: &Inputs,
        key: &mut [u8],
        matrix: &mut [u64],
    ) -> Result<Counts, Refusal> {
        let asked = Asked::new(inputs, key.len(), matrix);
        let due = check_matrix(&asked.given, asked.settings, matrix);
        self.refuse("derive", &asked, due)?;
        Reference.derive(inputs, key, matrix)
    }

    fn check(
        &self,
        inputs: &Inputs,
        stored: &[u8],
        matrix: &mut [u64],
    ) -> Result<Checked, Refusal> {
        let asked = Asked::new(inputs, stored.len(), matrix);
        let due = check_matrix(&asked.given, asked.settings, matrix);
        self.refuse("check", &asked, due)?;
        Reference.check(inputs, stored, matrix)
    }

    fn cost(&self, given: &Parameters, rho: u64) -> Result<Counts, Refusal> {
        let asked = Asked {
            given: *given,
            settings: Settings {
                rho,
                ..Settings::USUAL
            },
            matrix_words: u64::MAX,
        };
        self.refuse("cost", &asked, check_cost(given, rho))?;
        Reference.cost(given, rho)
    }

    fn walk(&self, r: u64, row0: u64) -> Result<u64, Refusal> {
        Reference.walk(r, row0)
    }
}

/// By the operation's own cases, and by those of the recorded derivation, which ask the other operations too.
#[test]
fn wrong_rules_of_refusal_are_noticed_in_every_operation() {
    let cases = small_cases();
    for rule in WRONG_RULES {
        for op in OPS.into_iter().filter(|op| rule.concerns(op)) {
            for asked in [op, "derive_recorded"] {
                let noticed = |case: &Case| {
                    write::op(&case.question) == asked
                        && run::check_case(&WrongRefusals { rule, op }, case).is_err()
                };
                // From the end, where the cases of single requests stand; they are found sooner.
                let found = cases.iter().rev().any(noticed);
                assert!(found, "{}: {op}, {asked}", rule.name);
            }
        }
    }
}

/// A wrong use of the settings: what a program goes by instead of those that it is given.
type WrongUse = (&'static str, fn(&mut Settings));

const WRONG_ROUNDS: [WrongUse; 7] = [
    ("always one round", |settings| settings.rho = 1),
    ("a round more", |settings| {
        settings.rho = settings.rho.wrapping_add(1)
    }),
    ("no round counts as one", |settings| {
        settings.rho = settings.rho.max(1)
    }),
    ("12 rounds for more", |settings| {
        settings.rho = settings.rho.min(12)
    }),
    ("rounds cut to 8 bits", |settings| settings.rho %= 1 << 8),
    ("rounds cut to 32 bits", |settings| settings.rho %= 1 << 32),
    ("the rotation's number as rounds", |settings| {
        settings.rho = settings.omega
    }),
];

const WRONG_ROTATIONS: [WrongUse; 9] = [
    ("always two words", |settings| settings.omega = 2),
    ("a word more", |settings| {
        settings.omega = settings.omega.wrapping_add(1)
    }),
    ("to the left", |settings| {
        settings.omega = 12u64.wrapping_sub(settings.omega)
    }),
    ("one word for none", |settings| {
        settings.omega = settings.omega.max(1)
    }),
    ("11 words for more", |settings| {
        settings.omega = settings.omega.min(11)
    }),
    ("modulo 12", |settings| settings.omega %= 12),
    ("cut to 8 bits", |settings| settings.omega %= 1 << 8),
    ("cut to 32 bits", |settings| settings.omega %= 1 << 32),
    ("the rounds' number as words", |settings| {
        settings.omega = settings.rho
    }),
];

const WRONG_MIXERS: [WrongUse; 5] = [
    ("always the plain mixer", |settings| {
        settings.mixer = Mixer::Plain
    }),
    ("always BlaMka", |settings| settings.mixer = Mixer::BlaMka),
    ("the other mixer", |settings| {
        settings.mixer = match settings.mixer {
            Mixer::Plain => Mixer::BlaMka,
            Mixer::BlaMka => Mixer::Plain,
        }
    }),
    ("the plain mixer with other rounds", |settings| {
        if settings.rho != 1 {
            settings.mixer = Mixer::Plain
        }
    }),
    ("the usual rounds and rotation with BlaMka", |settings| {
        if settings.mixer == Mixer::BlaMka {
            (settings.rho, settings.omega) = (1, 2)
        }
    }),
];

/// The reference program with a wrong use of the settings in one of its operations.
struct WrongSettings {
    change: fn(&mut Settings),
    op: &'static str,
}

impl WrongSettings {
    fn changed<'a>(&self, op: &str, inputs: &Inputs<'a>) -> Inputs<'a> {
        let mut changed = *inputs;
        if op == self.op {
            (self.change)(&mut changed.settings);
        }
        changed
    }
}

impl Subject for WrongSettings {
    fn derive_recorded(
        &self,
        inputs: &Inputs,
        key: &mut [u8],
        matrix: &mut [u64],
        record: &mut [u64],
    ) -> Option<Result<Recorded, Refusal>> {
        let inputs = self.changed("derive_recorded", inputs);
        Reference.derive_recorded(&inputs, key, matrix, record)
    }

    fn derive(
        &self,
        inputs: &Inputs,
        key: &mut [u8],
        matrix: &mut [u64],
    ) -> Result<Counts, Refusal> {
        Reference.derive(&self.changed("derive", inputs), key, matrix)
    }

    fn check(
        &self,
        inputs: &Inputs,
        stored: &[u8],
        matrix: &mut [u64],
    ) -> Result<Checked, Refusal> {
        Reference.check(&self.changed("check", inputs), stored, matrix)
    }

    fn cost(&self, given: &Parameters, rho: u64) -> Result<Counts, Refusal> {
        let mut settings = Settings {
            rho,
            ..Settings::USUAL
        };
        if self.op == "cost" {
            (self.change)(&mut settings);
        }
        Reference.cost(given, settings.rho)
    }

    fn walk(&self, r: u64, row0: u64) -> Result<u64, Refusal> {
        Reference.walk(r, row0)
    }
}

/// By the operation's own cases, and by those of the recorded derivation, which ask the other operations too.
#[test]
fn wrong_uses_of_the_settings_are_noticed_in_every_operation() {
    let cases = small_cases();
    // The cost question has no rotation and no mixer.
    let uses = [
        (&WRONG_ROUNDS[..], &OPS[..]),
        (&WRONG_ROTATIONS, &OPS[..3]),
        (&WRONG_MIXERS, &OPS[..3]),
    ];
    for (wrong_uses, ops) in uses {
        for (name, change) in wrong_uses.iter().copied() {
            for op in ops.iter().copied() {
                for asked in [op, "derive_recorded"] {
                    let noticed = |case: &Case| {
                        write::op(&case.question) == asked
                            && run::check_case(&WrongSettings { change, op }, case).is_err()
                    };
                    let found = cases.iter().rev().any(noticed);
                    assert!(found, "{name}: {op}, {asked}");
                }
            }
        }
    }
}

/// A wrong rule for the end of an accepted call. It is given the lent matrix with the end matrix in it, how many
/// words are used, and how many a row has.
struct WrongEnd {
    name: &'static str,
    end: fn(&mut [u64], usize, usize),
}

const WRONG_ENDS: [WrongEnd; 8] = [
    WrongEnd {
        name: "nothing is wiped",
        end: |_, _, _| (),
    },
    WrongEnd {
        name: "the first used word is left",
        end: |lent, used, _| lent[1..used].fill(0),
    },
    WrongEnd {
        name: "the last used word is left",
        end: |lent, used, _| lent[..used - 1].fill(0),
    },
    WrongEnd {
        name: "the last row is left",
        end: |lent, used, row| lent[..used - row].fill(0),
    },
    WrongEnd {
        name: "as many bytes as there are used words are wiped",
        end: |lent, used, _| lent[..used / 8].fill(0),
    },
    WrongEnd {
        name: "the used words are all ones",
        end: |lent, used, _| lent[..used].fill(u64::MAX),
    },
    WrongEnd {
        name: "the word after the used ones is wiped too",
        end: |lent, used, _| lent.iter_mut().take(used + 1).for_each(|word| *word = 0),
    },
    WrongEnd {
        name: "all lent words are wiped",
        end: |lent, _, _| lent.fill(0),
    },
];

/// What is done to the lent matrix after a call, by its inputs, its key length and its refusal, if it has one.
type Spoiling<'a> = &'a dyn Fn(&Inputs, usize, Option<Refusal>, &mut [u64]);

/// The reference program with something done to the matrix after the calls of one operation.
struct SpoiltMatrix<'a> {
    op: &'static str,
    spoil: Spoiling<'a>,
}

impl SpoiltMatrix<'_> {
    fn spoilt<A>(
        &self,
        op: &str,
        inputs: &Inputs,
        key_len: usize,
        matrix: &mut [u64],
        answer: Result<A, Refusal>,
    ) -> Result<A, Refusal> {
        if op == self.op {
            (self.spoil)(inputs, key_len, answer.as_ref().err().copied(), matrix);
        }
        answer
    }
}

impl Subject for SpoiltMatrix<'_> {
    fn derive_recorded(
        &self,
        inputs: &Inputs,
        key: &mut [u8],
        matrix: &mut [u64],
        record: &mut [u64],
    ) -> Option<Result<Recorded, Refusal>> {
        let answer = Reference.derive_recorded(inputs, key, matrix, record)?;
        Some(self.spoilt("derive_recorded", inputs, key.len(), matrix, answer))
    }

    fn derive(
        &self,
        inputs: &Inputs,
        key: &mut [u8],
        matrix: &mut [u64],
    ) -> Result<Counts, Refusal> {
        let answer = Reference.derive(inputs, key, matrix);
        self.spoilt("derive", inputs, key.len(), matrix, answer)
    }

    fn check(
        &self,
        inputs: &Inputs,
        stored: &[u8],
        matrix: &mut [u64],
    ) -> Result<Checked, Refusal> {
        let answer = Reference.check(inputs, stored, matrix);
        self.spoilt("check", inputs, stored.len(), matrix, answer)
    }

    fn cost(&self, given: &Parameters, rho: u64) -> Result<Counts, Refusal> {
        Reference.cost(given, rho)
    }

    fn walk(&self, r: u64, row0: u64) -> Result<u64, Refusal> {
        Reference.walk(r, row0)
    }
}

/// Ends an accepted call by a rule; the end matrix is had from the recorded derivation.
fn ended(
    end: fn(&mut [u64], usize, usize),
) -> impl Fn(&Inputs, usize, Option<Refusal>, &mut [u64]) {
    move |inputs, key_len, refusal, matrix| {
        if refusal.is_some() {
            return;
        }
        let given = inputs.parameters(key_len);
        let mut record = vec![0; given.record_words() as usize];
        let mut key = vec![0; key_len];
        let answer = Reference.derive_recorded(inputs, &mut key, matrix, &mut record);
        answer.expect("it has the operation").expect("it accepts");
        let used = given.matrix_words() as usize;
        end(matrix, used, used / inputs.r as usize);
    }
}

/// Whether a small case of one operation finds that the matrix of another is spoilt.
fn is_noticed(cases: &[Case], asked: &str, op: &'static str, spoil: Spoiling) -> bool {
    let noticed = |case: &Case| {
        write::op(&case.question) == asked
            && run::check_case(&SpoiltMatrix { op, spoil }, case).is_err()
    };
    // From the end, where the cases with words to spare stand; they are found sooner.
    cases.iter().rev().any(noticed)
}

/// By the operation's own cases, and by those of the recorded derivation, which ask the other operations too.
#[test]
fn matrices_wiped_wrongly_are_noticed() {
    let cases = small_cases();
    for WrongEnd { name, end } in WRONG_ENDS {
        for op in ["derive", "check"] {
            for asked in [op, "derive_recorded"] {
                let found = is_noticed(&cases, asked, op, &ended(end));
                assert!(found, "{name}: {op}, {asked}");
            }
        }
    }
}

/// The right end of a plain derivation and of a check, and a wrong one of a recorded derivation.
fn wiped() -> impl Fn(&Inputs, usize, Option<Refusal>, &mut [u64]) {
    ended(|lent, used, _| lent[..used].fill(0))
}

/// Shows that above nothing but the wrong end is noticed.
#[test]
fn matrices_wiped_rightly_are_not_noticed() {
    let spoil = &wiped();
    for case in small_cases() {
        for op in ["derive", "check"] {
            let outcome = run::check_case(&SpoiltMatrix { op, spoil }, &case);
            assert!(outcome.is_ok(), "case {}: {outcome:?}", case.number);
        }
    }
}

#[test]
fn an_end_matrix_that_is_wiped_is_noticed() {
    let (op, spoil) = ("derive_recorded", &wiped());
    let mut cases = small_cases();
    cases.retain(|case| matches!(case.answer, Answer::Recorded { .. }));
    assert!(!cases.is_empty());
    for case in cases {
        let outcome = run::check_case(&SpoiltMatrix { op, spoil }, &case);
        assert!(outcome.is_err(), "case {}", case.number);
    }
}

#[test]
fn a_refused_call_that_wipes_is_noticed_by_its_number() {
    let cases = small_cases();
    for &number in PLAIN_CHECKS {
        let spoil = |_: &Inputs, _: usize, refusal: Option<Refusal>, matrix: &mut [u64]| {
            if refusal == Some(number) {
                matrix.fill(0);
            }
        };
        for op in ["derive", "check"] {
            for asked in [op, "derive_recorded"] {
                let found = is_noticed(&cases, asked, op, &spoil);
                assert!(found, "{number:?}: {op}, {asked}");
            }
        }
    }
}
