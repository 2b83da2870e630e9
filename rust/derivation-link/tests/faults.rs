//! Faulty programs, made on purpose: the random comparison has to notice every fault. Those that keep books of accounts and
//! those with lanes stand in files of their own.

use derivation_link::compare::compare;
use derivation_link::Proved;
use lyra2_reference::record;
use lyra2_reference::refusal::{check_record, ROTATIONS, ROUNDS};
use lyra2_reference::vectors::Subject;
use lyra2_reference::{
    Account, AccountValues, Checked, Choice, Counts, Inputs, LaneInputs, Limits, LineParts,
    LineValues, Mixer, Parameters, Recorded, Refusal, Settings,
};

#[derive(Clone, Copy, Debug, PartialEq, Eq)]
enum Fault {
    Nothing,
    LastKeyByte,
    FirstMatrixWord,
    LastMatrixWord,
    WordPastMatrix,
    EndMatrixLeft,
    KeyOnRefusal,
    MatrixOnRefusal,
    RoundCount,
    CheckForgetsLastByte,
    CheckSaysNo,
    CheckKeepsMatrix,
    CheckLeavesEndMatrix,
    CheckWipesPastMatrix,
    CheckWipesOnRefusal,
    CostOfOneBlock,
    EverythingRefused,
    RefusalNumber,
    RecordedLastKeyByte,
    RecordedFirstMatrixWord,
    RecordedWiped,
    RecordedRoundCount,
    RecordedMissing,
    LastStateWord,
    LastRecordWord,
    RowsExchanged,
    ColumnsExchanged,
    RecordFactor256,
    RowsWordTwice,
    RecordUnpacked,
    WordPastRecord,
    LastWordOfUnpackedRecord,
    UnpackedRoomAsked,
    RecordOneShortTaken,
    RecordOnRefusal,
    MatrixOnShortRecord,
    KeyOnShortRecord,
    ShortRecordRefusedWith7,
    ZeroTimeRefused,
    ZeroTimeAsOne,
    Time256As255,
    LongSaltRefusedWith3,
    ShortSaltRefusedWith10,
    Salt64Refused,
    LongSaltAfterTime,
    UsualRounds,
    UsualRotation,
    RotationToTheLeft,
    NoRoundAsOne,
    Rounds13As12,
    NoRotationAsOne,
    Rotation12As11,
    RotationModulo12,
    Rounds12Refused,
    Rotation11Refused,
    RoundsRefusedWith14,
    RotationRefusedWith13,
    RotationBeforeRounds,
    RoundsAfterMatrix,
    RotationAfterMatrix,
    ReducedCallCountedOnce,
    CostOfOneRound,
    CostAcceptsNoRound,
    MixerIgnored,
    MixersExchanged,
    PlainWithOtherRounds,
    BlaMkaRefused,
    RecordedMixerIgnored,
    CheckMixerIgnored,
    LinesMissing,
    NewlineTaken,
    LeadingZeroTaken,
    PaddingTaken,
    LineAsShortOutput,
    ColumnsAsShortOutput,
    SaltOfShortKey,
    OutputsExchanged,
    BytePastSalt,
    BytePastKey,
    KeyLengthOneMore,
    LineReadChanged,
    BytePastLine,
    LastByteOfLine,
    LineOnRefusal,
    LineLengthOneMore,
    SaltOfWrittenLineChanged,
    ChoicesMissing,
    ChoiceWordsOneMore,
    ChoiceWordsOneLess,
    ChoiceWordsCutTo32Bits,
    ChoiceBudgetOneMore,
    ChoiceBudgetOneLess,
    ChoiceBudgetCutTo32Bits,
    ChoiceOfOneRound,
    ChoiceOfOneBlock,
    ChoiceOfOnePiece,
    ChoiceWithoutFullCalls,
    ChoiceOfAllColumns,
    ChoiceTriesOneMore,
    ChoiceTriesOneLess,
    ChoiceTriesCutTo8Bits,
    ChoiceOfManyTriesRefused,
    ChoiceOfNoTries,
    ChoiceTimeOneMore,
    ChoiceTimeOneLess,
    ChoiceTimeOf256,
    ChoiceOfFewerRows,
    ChoiceOfOneColumn,
    ChoiceOfMoreColumns,
    ChoiceExchanged,
    ShortfallForgotten,
    ShortfallOneMore,
    ShortfallOfAllCells,
    ChoiceRefused,
    NoTriesRefusedWith16,
    NothingFitsRefusedWith15,
    FitBeforeTries,
    TriesBeforeRounds,
    RoundsOfChoiceRefusedWith15,
}

use Fault::*;

/// The proved library with a fault put around it.
struct Faulty(Fault);

impl Faulty {
    fn spoil_answer<A>(&self, answer: Result<A, Refusal>) -> Result<A, Refusal> {
        match answer {
            Ok(_) if self.0 == EverythingRefused => Err(Refusal::TimeCost),
            Err(Refusal::Rows) if self.0 == RefusalNumber => Err(Refusal::Columns),
            Err(Refusal::SaltTooLong) if self.0 == LongSaltRefusedWith3 => {
                Err(Refusal::SaltTooShort)
            }
            Err(Refusal::SaltTooShort) if self.0 == ShortSaltRefusedWith10 => {
                Err(Refusal::SaltTooLong)
            }
            Err(Refusal::Rounds) if self.0 == RoundsRefusedWith14 => Err(Refusal::Rotation),
            Err(Refusal::Rotation) if self.0 == RotationRefusedWith13 => Err(Refusal::Rounds),
            other => other,
        }
    }

    /// The settings that the faulty program goes by.
    fn settings(&self, Settings { rho, omega, mixer }: Settings) -> Settings {
        let rho = match (self.0, rho) {
            (UsualRounds, _) | (NoRoundAsOne, 0) => 1,
            (Rounds13As12, 13..) => 12,
            (Rounds12Refused, 12) => 13,
            _ => rho,
        };
        let omega = match (self.0, omega) {
            (UsualRotation, _) => 2,
            (RotationToTheLeft, 1..=11) => 12 - omega,
            (NoRotationAsOne, 0) => 1,
            (Rotation12As11, 12..) => 11,
            (Rotation11Refused, 11) => 12,
            (RotationModulo12, _) => omega % 12,
            (BlaMkaRefused, _) if mixer == Mixer::BlaMka => 12,
            _ => omega,
        };
        let mixer = match (self.0, mixer) {
            (MixerIgnored, _) | (MixersExchanged, Mixer::BlaMka) => Mixer::Plain,
            (MixersExchanged, Mixer::Plain) => Mixer::BlaMka,
            (PlainWithOtherRounds, _) if rho != 1 => Mixer::Plain,
            _ => mixer,
        };
        Settings { rho, omega, mixer }
    }

    /// What the faulty program says to a record of so many words.
    fn record_check(
        &self,
        due: Result<(), Refusal>,
        lent: usize,
        used: usize,
    ) -> Result<(), Refusal> {
        match (self.0, due) {
            (UnpackedRoomAsked, Ok(())) if lent < 2 * used => Err(Refusal::RecordWords),
            (RecordOneShortTaken, Err(Refusal::RecordWords)) if lent + 1 == used => Ok(()),
            _ => due,
        }
    }

    /// What the faulty program makes of a record with so many used words.
    fn spoil_record(&self, record: &mut [u64], used: usize) {
        let [before, past] = [&record[..used], &record[used..]].map(<[u64]>::to_vec);
        let numbers = |place: usize| before.get(place).copied().map(record::numbers);
        match (self.0, numbers(0), numbers(1)) {
            (LastRecordWord, Some(_), _) => record[used - 1] ^= 1,
            (RowsExchanged, Some([row0, row1]), _) => record[0] = record::word([row1, row0]),
            (ColumnsExchanged, _, Some([col0, col1])) => record[1] = record::word([col1, col0]),
            (RecordFactor256, Some([row0, row1]), _) => record[0] = row0 + 256 * row1,
            (RowsWordTwice, Some(_), _) => record[1..used].copy_from_slice(&before[..used - 1]),
            (RecordUnpacked, _, _) => {
                let words = before.iter().flat_map(|&word| record::numbers(word));
                record
                    .iter_mut()
                    .zip(words)
                    .for_each(|(place, word)| *place = word);
            }
            (WordPastRecord, _, _) if !past.is_empty() => record[used] = 0,
            (LastWordOfUnpackedRecord, Some(_), _) if past.len() >= used => {
                record[2 * used - 1] = 0;
            }
            _ => (),
        }
    }

    /// The limits that the faulty program chooses by.
    fn limits(&self, limits: &Limits) -> Limits {
        let mut limits = *limits;
        let Limits {
            key_len,
            password_len,
            matrix_words,
            budget,
            rho,
            tries,
            ..
        } = &mut limits;
        match self.0 {
            ChoiceWordsOneMore => *matrix_words = matrix_words.saturating_add(1),
            ChoiceWordsOneLess => *matrix_words = matrix_words.saturating_sub(1),
            ChoiceWordsCutTo32Bits => *matrix_words &= 0xffff_ffff,
            ChoiceBudgetOneMore => *budget = budget.saturating_add(1),
            ChoiceBudgetOneLess => *budget = budget.saturating_sub(1),
            ChoiceBudgetCutTo32Bits => *budget &= 0xffff_ffff,
            ChoiceOfOneRound if ROUNDS.contains(rho) => *rho = 1,
            ChoiceOfOneBlock => *password_len = 0,
            ChoiceOfOnePiece => *key_len = (*key_len).min(96),
            // Of the two full calls that are made at least, none is paid for.
            ChoiceWithoutFullCalls => *budget = budget.saturating_add(24),
            ChoiceOfAllColumns if *tries > 0 => *tries = 256,
            ChoiceTriesOneMore if *tries > 0 => *tries = tries.saturating_add(1),
            ChoiceTriesOneLess if *tries > 1 => *tries -= 1,
            ChoiceTriesCutTo8Bits => *tries &= 0xff,
            ChoiceOfManyTriesRefused if *tries > 256 => *tries = 0,
            ChoiceOfNoTries => *tries = (*tries).max(1),
            ChoiceOfOneColumn if *tries > 0 => *tries = 1,
            _ => (),
        }
        limits
    }

    /// What the faulty program makes of a choice within some limits.
    fn spoil_choice(&self, limits: &Limits, choice: Choice) -> Choice {
        let Choice { t, r, c, shortfall } = choice;
        match self.0 {
            ChoiceTimeOneMore if t < 255 => Choice { t: t + 1, ..choice },
            ChoiceTimeOneLess if t > 1 => Choice { t: t - 1, ..choice },
            ChoiceTimeOf256 if t == 255 => Choice { t: 256, ..choice },
            ChoiceOfFewerRows if r > 3 => Choice {
                r: r - 1,
                shortfall: shortfall + c,
                ..choice
            },
            ChoiceOfMoreColumns => with_more_columns(limits, choice),
            ChoiceExchanged => Choice {
                r: c,
                c: r,
                ..choice
            },
            ShortfallForgotten => Choice {
                shortfall: 0,
                ..choice
            },
            ShortfallOneMore => Choice {
                shortfall: shortfall + 1,
                ..choice
            },
            ShortfallOfAllCells => Choice {
                shortfall: 16_384 * 256 - r * c,
                ..choice
            },
            _ => choice,
        }
    }

    /// The answer where a choice is refused with another number, or a check is made too early.
    fn spoil_choice_refusal(&self, limits: &Limits, due: Refusal) -> Refusal {
        let nothing_fits = || {
            let tries = 1;
            Proved.choose(&Limits { tries, ..*limits }) == Some(Err(Refusal::NothingFits))
        };
        match (self.0, due) {
            (NoTriesRefusedWith16, Refusal::Tries) => Refusal::NothingFits,
            (NothingFitsRefusedWith15, Refusal::NothingFits) => Refusal::Tries,
            (FitBeforeTries, Refusal::Tries) if nothing_fits() => Refusal::NothingFits,
            (TriesBeforeRounds, Refusal::Rounds) if limits.tries == 0 => Refusal::Tries,
            (RoundsOfChoiceRefusedWith15, Refusal::Rounds) => Refusal::Tries,
            _ => due,
        }
    }

    /// The answer where a check of the settings is made too early or too late.
    fn out_of_order(&self, inputs: &Inputs, has_short_matrix: bool, due: Refusal) -> Refusal {
        match (self.0, due) {
            (RotationBeforeRounds, Refusal::Rounds)
                if !ROTATIONS.contains(&inputs.settings.omega) =>
            {
                Refusal::Rotation
            }
            (RoundsAfterMatrix, Refusal::Rounds) | (RotationAfterMatrix, Refusal::Rotation)
                if has_short_matrix =>
            {
                Refusal::MatrixWords
            }
            _ => due,
        }
    }
}

/// The inputs, with the plain mixer if so wanted.
fn plain_if<'a>(wanted: bool, inputs: &Inputs<'a>) -> Inputs<'a> {
    let mut inputs = *inputs;
    if wanted {
        inputs.settings.mixer = Mixer::Plain;
    }
    inputs
}

/// The choice with as many cells and the most columns.
fn with_more_columns(limits: &Limits, choice: Choice) -> Choice {
    let cells = choice.r * choice.c;
    let reaches = |c: &u64| cells.is_multiple_of(*c) && cells / c >= 3;
    let c = (choice.c..=limits.tries.min(256)).filter(reaches).max();
    c.map_or(choice, |c| Choice {
        r: cells / c,
        c,
        ..choice
    })
}

/// Puts the end matrix where an accepted call has wiped it.
fn leave_end_matrix(inputs: &Inputs, key_len: usize, matrix: &mut [u64]) {
    let mut record = vec![0; inputs.parameters(key_len).record_words() as usize];
    let answer = Proved.derive_recorded(inputs, &mut vec![0; key_len], matrix, &mut record);
    answer.expect("it has the operation").expect("it accepts");
}

impl Subject for Faulty {
    fn derive_recorded(
        &self,
        inputs: &Inputs,
        key: &mut [u8],
        matrix: &mut [u64],
        record: &mut [u64],
    ) -> Option<Result<Recorded, Refusal>> {
        let given = inputs.parameters(key.len());
        let used = given.record_words() as usize;
        let inputs = plain_if(self.0 == RecordedMixerIgnored, inputs);
        let due = check_record(&given, inputs.settings, matrix, record);
        match self.record_check(due, record.len(), used) {
            same if same == due => (),
            Ok(()) => return Proved.derive_recorded(&inputs, key, matrix, &mut vec![0; used]),
            Err(refusal) => return Some(Err(refusal)),
        }
        let mut answer = Proved.derive_recorded(&inputs, key, matrix, record)?;
        match (&mut answer, self.0) {
            (Ok(_), RecordedLastKeyByte) => key[key.len() - 1] ^= 1,
            (Ok(_), RecordedFirstMatrixWord) => matrix[0] ^= 1,
            (Ok(_), RecordedWiped) => matrix[..given.matrix_words() as usize].fill(0),
            (Ok(recorded), LastStateWord) => recorded.state[15] ^= 1,
            (Ok(recorded), RecordedRoundCount) => recorded.counts.rounds += 1,
            (Err(_), RecordOnRefusal) => record.fill(0),
            (Err(Refusal::RecordWords), MatrixOnShortRecord) => matrix.fill(0),
            (Err(Refusal::RecordWords), KeyOnShortRecord) => key.fill(0),
            (Err(Refusal::RecordWords), ShortRecordRefusedWith7) => {
                answer = Err(Refusal::MatrixWords);
            }
            (_, RecordedMissing) => return None,
            (Ok(_), _) => self.spoil_record(record, used),
            _ => (),
        }
        Some(answer)
    }

    fn derive(
        &self,
        inputs: &Inputs,
        key: &mut [u8],
        matrix: &mut [u64],
    ) -> Result<Counts, Refusal> {
        let used = inputs.parameters(key.len()).matrix_words() as usize;
        let t = match (self.0, inputs.t) {
            (ZeroTimeRefused, 0) => 256,
            (ZeroTimeAsOne, 0) => 1,
            (Time256As255, 256) => 255,
            (_, t) => t,
        };
        if self.0 == Salt64Refused && inputs.salt.len() == 64 {
            return Err(Refusal::SaltTooLong);
        }
        let settings = self.settings(inputs.settings);
        let changed = Inputs {
            t,
            settings,
            ..*inputs
        };
        let mut answer = Proved
            .derive(&changed, key, matrix)
            .map_err(|due| self.out_of_order(inputs, matrix.len() < used, due));
        if self.0 == LongSaltAfterTime && answer == Err(Refusal::SaltTooLong) && t > 255 {
            answer = Err(Refusal::TimeCost);
        }
        match (&mut answer, self.0) {
            (Ok(_), LastKeyByte) => key[key.len() - 1] ^= 1,
            (Ok(_), FirstMatrixWord) => matrix[0] ^= 1,
            (Ok(_), LastMatrixWord) => matrix[used - 1] ^= 1,
            (Ok(_), EndMatrixLeft) => leave_end_matrix(inputs, key.len(), matrix),
            (Ok(_), WordPastMatrix) => matrix[used..].iter_mut().take(1).for_each(|w| *w = 0),
            (Err(_), KeyOnRefusal) => key.fill(0),
            (Err(_), MatrixOnRefusal) => matrix.fill(0),
            (Ok(counts), RoundCount) => counts.rounds += 1,
            (Ok(counts), ReducedCallCountedOnce) => {
                counts.rounds = 12 * counts.full + counts.reduced;
            }
            _ => (),
        }
        self.spoil_answer(answer)
    }

    fn check(
        &self,
        inputs: &Inputs,
        stored: &[u8],
        matrix: &mut [u64],
    ) -> Result<Checked, Refusal> {
        let before = matrix.to_vec();
        let mut key = vec![0; stored.len()];
        let answer = Proved.check(
            &plain_if(self.0 == CheckMixerIgnored, inputs),
            stored,
            matrix,
        );
        if answer.is_err() && self.0 == CheckWipesOnRefusal {
            matrix.fill(0);
        }
        let mut checked = answer?;
        match self.0 {
            CheckForgetsLastByte => {
                Proved.derive(inputs, &mut key, matrix)?;
                checked.matches = key.split_last().map(|x| x.1) == stored.split_last().map(|x| x.1);
            }
            CheckSaysNo => checked.matches = false,
            CheckKeepsMatrix => matrix.copy_from_slice(&before),
            CheckLeavesEndMatrix => leave_end_matrix(inputs, stored.len(), matrix),
            CheckWipesPastMatrix => matrix.fill(0),
            _ => (),
        }
        Ok(checked)
    }

    fn cost(&self, given: &Parameters, rho: u64) -> Result<Counts, Refusal> {
        let mut one_block = *given;
        if self.0 == CostOfOneBlock {
            one_block.password_len = given.password_len.min(31);
        }
        let rho = match (self.0, rho) {
            (CostOfOneRound, 1..=12) | (CostAcceptsNoRound, 0) => 1,
            _ => rho,
        };
        Proved.cost(&one_block, rho)
    }

    fn walk(&self, r: u64, row0: u64) -> Result<u64, Refusal> {
        Proved.walk(r, row0)
    }

    fn line_read(
        &self,
        line: &[u8],
        salt: &mut [u8],
        key: &mut [u8],
    ) -> Option<Result<LineValues, Refusal>> {
        let read = match self.0 {
            LinesMissing => return None,
            NewlineTaken => line.strip_suffix(b"\n").unwrap_or(line).to_vec(),
            PaddingTaken => line.strip_suffix(b"=").unwrap_or(line).to_vec(),
            LeadingZeroTaken => {
                let place = line.windows(3).position(|three| three == b"c=0");
                let mut line = line.to_vec();
                place.map(|place| line.remove(place + 2));
                line
            }
            _ => line.to_vec(),
        };
        let mut answer = Proved.line_read(&read, salt, key)?;
        match (&mut answer, self.0) {
            (Err(Refusal::LineForm), LineAsShortOutput) if salt.len() < 8 => {
                answer = Err(Refusal::OutputTooShort);
            }
            (Err(Refusal::Columns), ColumnsAsShortOutput) if salt.len() < 8 => {
                answer = Err(Refusal::OutputTooShort);
            }
            (Err(Refusal::OutputTooShort), SaltOfShortKey) => {
                let mut room = vec![0; 1024];
                let _ = Proved.line_read(&read, salt, &mut room);
            }
            (Ok(read), OutputsExchanged) => {
                let len = read.salt_len.min(read.key_len) as usize;
                salt[..len].swap_with_slice(&mut key[..len]);
            }
            (Ok(read), BytePastSalt) => clear(salt, read.salt_len),
            (Ok(read), BytePastKey) => clear(key, read.key_len),
            (Ok(read), KeyLengthOneMore) => read.key_len += 1,
            (Ok(read), LineReadChanged) => read.r ^= 1,
            _ => (),
        }
        Some(answer)
    }

    fn line_write(&self, parts: &LineParts, line: &mut [u8]) -> Option<Result<u64, Refusal>> {
        let mut salt = parts.salt.to_vec();
        if self.0 == SaltOfWrittenLineChanged {
            salt.iter_mut().take(1).for_each(|byte| *byte ^= 1);
        }
        let parts = LineParts {
            salt: &salt,
            ..*parts
        };
        let mut answer = Proved.line_write(&parts, line)?;
        match (&mut answer, self.0) {
            (_, LinesMissing) => return None,
            (Ok(len), BytePastLine) => clear(line, *len),
            (Ok(len), LastByteOfLine) => line[*len as usize - 1] ^= 1,
            (Ok(len), LineLengthOneMore) => *len += 1,
            (Err(_), LineOnRefusal) => line.iter_mut().take(1).for_each(|byte| *byte = b'$'),
            _ => (),
        }
        Some(answer)
    }

    fn choose(&self, limits: &Limits) -> Option<Result<Choice, Refusal>> {
        let answer = Proved.choose(&self.limits(limits))?;
        match (answer, self.0) {
            (_, ChoicesMissing) => None,
            (Ok(_), ChoiceRefused) => Some(Err(Refusal::NothingFits)),
            (Ok(choice), _) => Some(Ok(self.spoil_choice(limits, choice))),
            (Err(due), _) => Some(Err(self.spoil_choice_refusal(limits, due))),
        }
    }

    fn book_find(&self, book: &[u8], used: u64, number: u32) -> Option<Result<u64, Refusal>> {
        Proved.book_find(book, used, number)
    }

    fn book_add(
        &self,
        book: &mut [u8],
        used: u64,
        account: &Account,
    ) -> Option<Result<u64, Refusal>> {
        Proved.book_add(book, used, account)
    }

    fn book_remove(&self, book: &mut [u8], used: u64, number: u32) -> Option<Result<u64, Refusal>> {
        Proved.book_remove(book, used, number)
    }

    fn book_check(
        &self,
        password: &[u8],
        book: &[u8],
        used: u64,
        number: u32,
        matrix: &mut [u64],
    ) -> Option<Result<Checked, Refusal>> {
        Proved.book_check(password, book, used, number, matrix)
    }

    fn book_account(&self, used_part: &[u8], place: u64) -> Option<AccountValues> {
        Proved.book_account(used_part, place)
    }

    fn lanes_derive(
        &self,
        inputs: &LaneInputs,
        key: &mut [u8],
        matrix: &mut [u64],
    ) -> Option<Result<Counts, Refusal>> {
        Proved.lanes_derive(inputs, key, matrix)
    }

    fn lanes_check(
        &self,
        inputs: &LaneInputs,
        stored: &[u8],
        matrix: &mut [u64],
    ) -> Option<Result<Checked, Refusal>> {
        Proved.lanes_check(inputs, stored, matrix)
    }

    fn lanes_cost(&self, given: &Parameters, p: u64) -> Option<Result<Counts, Refusal>> {
        Proved.lanes_cost(given, p)
    }
}

/// Clears the byte at a place, if there is one.
fn clear(bytes: &mut [u8], place: u64) {
    if let Some(byte) = bytes.get_mut(place as usize) {
        *byte = 0;
    }
}

/// Shows that below nothing but the fault is noticed.
#[test]
fn no_fault_is_noticed_where_there_is_none() {
    for seed in 0..1000 {
        let compared = compare(&Faulty(Nothing), seed);
        assert!(compared.is_ok(), "seed {seed}: {compared:?}");
    }
}

#[test]
fn every_fault_is_noticed() {
    for fault in [
        LastKeyByte,
        FirstMatrixWord,
        LastMatrixWord,
        WordPastMatrix,
        EndMatrixLeft,
        KeyOnRefusal,
        MatrixOnRefusal,
        RoundCount,
        CheckForgetsLastByte,
        CheckSaysNo,
        CheckKeepsMatrix,
        CheckLeavesEndMatrix,
        CheckWipesPastMatrix,
        CheckWipesOnRefusal,
        CostOfOneBlock,
        EverythingRefused,
        RefusalNumber,
        RecordedLastKeyByte,
        RecordedFirstMatrixWord,
        RecordedWiped,
        RecordedRoundCount,
        RecordedMissing,
        LastStateWord,
        LastRecordWord,
        RowsExchanged,
        ColumnsExchanged,
        RecordFactor256,
        RowsWordTwice,
        RecordUnpacked,
        WordPastRecord,
        LastWordOfUnpackedRecord,
        UnpackedRoomAsked,
        RecordOneShortTaken,
        RecordOnRefusal,
        MatrixOnShortRecord,
        KeyOnShortRecord,
        ShortRecordRefusedWith7,
        ZeroTimeRefused,
        ZeroTimeAsOne,
        Time256As255,
        LongSaltRefusedWith3,
        ShortSaltRefusedWith10,
        Salt64Refused,
        LongSaltAfterTime,
        UsualRounds,
        UsualRotation,
        RotationToTheLeft,
        NoRoundAsOne,
        Rounds13As12,
        NoRotationAsOne,
        Rotation12As11,
        RotationModulo12,
        Rounds12Refused,
        Rotation11Refused,
        RoundsRefusedWith14,
        RotationRefusedWith13,
        RotationBeforeRounds,
        RoundsAfterMatrix,
        RotationAfterMatrix,
        ReducedCallCountedOnce,
        CostOfOneRound,
        CostAcceptsNoRound,
        MixerIgnored,
        MixersExchanged,
        PlainWithOtherRounds,
        BlaMkaRefused,
        RecordedMixerIgnored,
        CheckMixerIgnored,
        LinesMissing,
        NewlineTaken,
        LeadingZeroTaken,
        PaddingTaken,
        LineAsShortOutput,
        ColumnsAsShortOutput,
        SaltOfShortKey,
        OutputsExchanged,
        BytePastSalt,
        BytePastKey,
        KeyLengthOneMore,
        LineReadChanged,
        BytePastLine,
        LastByteOfLine,
        LineOnRefusal,
        LineLengthOneMore,
        SaltOfWrittenLineChanged,
        ChoicesMissing,
        ChoiceWordsOneMore,
        ChoiceWordsOneLess,
        ChoiceWordsCutTo32Bits,
        ChoiceBudgetOneMore,
        ChoiceBudgetOneLess,
        ChoiceBudgetCutTo32Bits,
        ChoiceOfOneRound,
        ChoiceOfOneBlock,
        ChoiceOfOnePiece,
        ChoiceWithoutFullCalls,
        ChoiceOfAllColumns,
        ChoiceTriesOneMore,
        ChoiceTriesOneLess,
        ChoiceTriesCutTo8Bits,
        ChoiceOfManyTriesRefused,
        ChoiceOfNoTries,
        ChoiceTimeOneMore,
        ChoiceTimeOneLess,
        ChoiceTimeOf256,
        ChoiceOfFewerRows,
        ChoiceOfOneColumn,
        ChoiceOfMoreColumns,
        ChoiceExchanged,
        ShortfallForgotten,
        ShortfallOneMore,
        ShortfallOfAllCells,
        ChoiceRefused,
        NoTriesRefusedWith16,
        NothingFitsRefusedWith15,
        FitBeforeTries,
        TriesBeforeRounds,
        RoundsOfChoiceRefusedWith15,
    ] {
        let noticed = |seed: u64| compare(&Faulty(fault), seed).is_err();
        assert!((0..5000).any(noticed), "{fault:?}");
    }
}
