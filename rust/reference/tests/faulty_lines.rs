//! Faulty readers and writers of login lines, made on purpose: the run of the vectors file has to notice every fault.
//!
//! The reader goes through the line byte by byte, so that it is another program than the one behind the file.

mod common;

use lyra2_reference::refusal::{LINE_READ_CHECKS, LINE_WRITE_CHECKS};
use lyra2_reference::vectors::{run, write, Case, Coverage, Reference, Subject};
use lyra2_reference::{
    Checked, Counts, Inputs, LineParts, LineValues, Parameters, Recorded, Refusal,
};

#[derive(Clone, Copy, Debug, PartialEq, Eq)]
enum Fault {
    Nothing,
    // The form.
    LeadingZeroTaken,
    LeadingZeroOfZeroTaken,
    EmptyNumberTaken,
    PlusTaken,
    NumberCutTo(u32),
    NumberClampedTo(u128),
    DigitsAtMost(usize),
    UnusedBitsIgnored,
    OneUnusedBitIgnored,
    UnusedBitsOfSaltIgnored,
    RemainderOneTaken,
    PaddingTaken,
    FileNameAlphabetTaken,
    SpaceTaken,
    HighBitIgnored,
    NewlineTaken,
    NulTaken,
    RestTaken,
    DollarAfterKeyTaken,
    CaseIgnored,
    NameIgnored,
    EmptySaltNotOfTheForm,
    EmptyKeyNotOfTheForm,
    LongLineNotOfTheForm,
    // The order of the checks.
    CheckedBefore(u8, u8),
    // The outputs.
    SaltWrittenFirst,
    ShortSaltCut,
    ShortKeyCut,
    SaltRoomOneMore,
    KeyRoomOneMore,
    RoomsAddedUp,
    OutputsExchanged,
    RestOfSaltCleared,
    RestOfKeyCleared,
    SaltClearedOnRefusal,
    KeyClearedOnRefusal,
    LengthsExchanged,
    NumbersExchanged,
    SaltLength(i8),
    KeyLength(i8),
    ValuesOfShortOutput,
    // The writing.
    PaddingWritten,
    FileNameAlphabetWritten,
    NewlineWritten,
    NulWritten,
    LeadingZeroWritten,
    OneUnusedBitWritten,
    LineRoomOneMore,
    LineCut,
    RestOfLineCleared,
    LineClearedOnRefusal,
    LineLength(i8),
    WrittenNumbersExchanged,
    WrittenTextsExchanged,
    // A limit of a value moved; both operations have it.
    Limit(u8, i8),
}

use Fault::*;

struct Faulty(Fault);

/// A line, read up to some place.
struct Reader<'a> {
    rest: &'a [u8],
    fault: Fault,
}

/// What was read of a line. A line that is wrong only at its end has values too, which a reader may check too early.
struct Found {
    is_form: bool,
    numbers: [u128; 3],
    salt: Vec<u8>,
    key: Vec<u8>,
}

/// The value of a character.
fn sextet(character: u8, fault: Fault) -> Option<u32> {
    let character = match fault {
        HighBitIgnored => character & 0x7f,
        _ => character,
    };
    Some(match character {
        b'A'..=b'Z' => u32::from(character - b'A'),
        b'a'..=b'z' => u32::from(character - b'a') + 26,
        b'0'..=b'9' => u32::from(character - b'0') + 52,
        b'+' => 62,
        b'/' => 63,
        b'-' if fault == FileNameAlphabetTaken => 62,
        b'_' if fault == FileNameAlphabetTaken => 63,
        b' ' if fault == SpaceTaken => 62,
        _ => return None,
    })
}

/// The bytes of a text, four characters at a time.
fn decoded(text: &[u8], fault: Fault) -> Option<Vec<u8>> {
    let mut text = text;
    while let (PaddingTaken, Some(shorter)) = (fault, text.strip_suffix(b"=")) {
        text = shorter;
    }
    let mut bytes = Vec::new();
    for piece in text.chunks(4) {
        let mut bits = 0;
        for place in 0..4 {
            let value = piece.get(place).map_or(Some(0), |x| sextet(*x, fault))?;
            bits = bits << 6 | value;
        }
        let [_, one, two, three] = bits.to_be_bytes();
        let (whole, unused) = match piece.len() {
            1 if fault == RemainderOneTaken => (0, 0),
            1 => return None,
            2 => (1, bits & 0xffff),
            3 => (2, bits & 0xff),
            _ => (3, 0),
        };
        let ignored = match fault {
            UnusedBitsIgnored => u32::MAX,
            // The highest of the unused bits alone.
            OneUnusedBitIgnored => 0x8080,
            _ => 0,
        };
        if unused & !ignored != 0 {
            return None;
        }
        bytes.extend_from_slice(&[one, two, three][..whole]);
    }
    Some(bytes)
}

impl<'a> Reader<'a> {
    fn mark(&mut self, mark: &[u8]) -> Option<()> {
        let (start, rest) = self.rest.split_at_checked(mark.len())?;
        let same = match self.fault {
            CaseIgnored => start.eq_ignore_ascii_case(mark),
            NameIgnored if mark.len() > 4 => start.ends_with(b"$t="),
            _ => start == mark,
        };
        self.rest = rest;
        same.then_some(())
    }

    fn number(&mut self) -> Option<u128> {
        if self.fault == PlusTaken {
            self.rest = self.rest.strip_prefix(b"+").unwrap_or(self.rest);
        }
        let is_digit = |byte: &&u8| byte.is_ascii_digit();
        let len = self.rest.iter().take_while(is_digit).count();
        let (digits, rest) = self.rest.split_at(len);
        self.rest = rest;
        let zeros = digits.iter().all(|&digit| digit == b'0');
        let leading_zero = len > 1 && digits[0] == b'0';
        let zero_taken =
            self.fault == LeadingZeroTaken || (self.fault == LeadingZeroOfZeroTaken && zeros);
        if (len == 0 && self.fault != EmptyNumberTaken) || (leading_zero && !zero_taken) {
            return None;
        }
        if matches!(self.fault, DigitsAtMost(most) if len > most) {
            return None;
        }
        Some(digits.iter().fold(0, |value: u128, digit| {
            let next = value
                .saturating_mul(10)
                .saturating_add(u128::from(digit - b'0'));
            match self.fault {
                NumberCutTo(128) => value
                    .wrapping_mul(10)
                    .wrapping_add(u128::from(digit - b'0')),
                NumberCutTo(bits) => next & ((1 << bits) - 1),
                NumberClampedTo(most) => next.min(most),
                _ => next,
            }
        }))
    }

    /// The text before the next dollar sign, or all that is left.
    fn text(&mut self) -> &'a [u8] {
        let end = self.rest.iter().position(|&byte| byte == b'$');
        let (text, rest) = self.rest.split_at(end.unwrap_or(self.rest.len()));
        self.rest = rest;
        text
    }

    fn line(mut self) -> Option<Found> {
        let fault = self.fault;
        if fault == LongLineNotOfTheForm && self.rest.len() > 1480 {
            return None;
        }
        if fault == NewlineTaken {
            self.rest = self.rest.strip_suffix(b"\n").unwrap_or(self.rest);
        }
        if fault == NulTaken {
            let end = self.rest.iter().position(|&byte| byte == 0);
            self.rest = &self.rest[..end.unwrap_or(self.rest.len())];
        }
        self.mark(b"$lyra2$t=")?;
        let t = self.number()?;
        self.mark(b",r=")?;
        let r = self.number()?;
        self.mark(b",c=")?;
        let c = self.number()?;
        self.mark(b"$")?;
        let salt_fault = match fault {
            UnusedBitsOfSaltIgnored => UnusedBitsIgnored,
            _ => fault,
        };
        let salt = decoded(self.text(), salt_fault)?;
        self.mark(b"$")?;
        let mut text = self.text();
        if fault == RestTaken {
            let known = text.iter().take_while(|x| sextet(**x, fault).is_some());
            text = &text[..known.count()];
        }
        let read = decoded(text, fault);
        let is_text = read.is_some();
        let key = read.or_else(|| decoded(text.trim_ascii_end(), fault));
        let key = key.unwrap_or_default();
        let ends = match fault {
            DollarAfterKeyTaken => self.rest == b"$" || self.rest.is_empty(),
            RestTaken => true,
            _ => self.rest.is_empty(),
        };
        let taken = match fault {
            EmptySaltNotOfTheForm => !salt.is_empty(),
            EmptyKeyNotOfTheForm => !key.is_empty(),
            _ => true,
        };
        Some(Found {
            is_form: is_text && ends && taken,
            numbers: [t, r, c],
            salt,
            key,
        })
    }
}

/// Whether the condition of a check holds.
fn holds(check: u8, fault: Fault, numbers: [u128; 3], salt: usize, key: usize) -> bool {
    let [t, r, c] = numbers;
    let moved = |value: i64| match fault {
        Limit(which, by) if which == check => value + i64::from(by),
        _ => value,
    } as u128;
    match check {
        1 => key == 0 || key as u128 > moved(1024),
        3 => (salt as u128) < moved(8),
        10 => salt as u128 > moved(64),
        4 => t > moved(255),
        5 => r < 3 || r > moved(16_384),
        6 => c == 0 || c > moved(256),
        _ => false,
    }
}

impl Faulty {
    /// The first check that holds, in the order of an operation; the form and the outputs are told.
    fn first(&self, order: &[Refusal], holds: impl Fn(u8) -> bool) -> Result<(), Refusal> {
        let mut order: Vec<Refusal> = order.to_vec();
        if let CheckedBefore(check, other) = self.0 {
            let place = |number: u8| order.iter().position(|x| x.number() == number);
            if let (Some(from), Some(to)) = (place(check), place(other)) {
                let moved = order.remove(from);
                order.insert(to, moved);
            }
        }
        match order.into_iter().find(|check| holds(check.number())) {
            Some(refusal) => Err(refusal),
            None => Ok(()),
        }
    }

    fn read(&self, line: &[u8], salt: &mut [u8], key: &mut [u8]) -> Result<LineValues, Refusal> {
        let fault = self.0;
        let found = Reader { rest: line, fault }.line();
        let found = found.unwrap_or(Found {
            is_form: false,
            numbers: [1, 3, 1],
            salt: vec![0; 8],
            key: vec![0],
        });
        let (salt_len, key_len) = (found.salt.len(), found.key.len());
        let short_salt = salt.len() < salt_len + usize::from(fault == SaltRoomOneMore);
        let short_key = key.len() < key_len + usize::from(fault == KeyRoomOneMore);
        let short = match fault {
            ShortSaltCut => short_key,
            ShortKeyCut => short_salt,
            RoomsAddedUp => salt.len() + key.len() < salt_len + key_len,
            _ => short_salt || short_key,
        };
        if fault == SaltWrittenFirst && found.is_form && !short_salt {
            salt[..salt_len].copy_from_slice(&found.salt);
        }
        self.first(LINE_READ_CHECKS, |check| match check {
            11 => !found.is_form,
            12 => short,
            _ => holds(check, fault, found.numbers, salt_len, key_len),
        })?;
        let mut lengths = [salt_len as u64, key_len as u64];
        put(salt, &found.salt);
        put(key, &found.key);
        match fault {
            OutputsExchanged => {
                put(salt, &found.key);
                put(key, &found.salt);
            }
            RestOfSaltCleared => salt[salt_len..].fill(0),
            RestOfKeyCleared => key[key_len..].fill(0),
            LengthsExchanged => lengths.reverse(),
            SaltLength(by) => lengths[0] = lengths[0].wrapping_add_signed(by.into()),
            KeyLength(by) => lengths[1] = lengths[1].wrapping_add_signed(by.into()),
            _ => (),
        }
        let [t, mut r, mut c] = found.numbers.map(|number| number as u64);
        if fault == NumbersExchanged {
            (r, c) = (c, r);
        }
        let [salt_len, key_len] = lengths;
        Ok(LineValues {
            t,
            r,
            c,
            salt_len,
            key_len,
        })
    }

    fn write(&self, parts: &LineParts, output: &mut [u8]) -> Result<u64, Refusal> {
        let fault = self.0;
        let mut line = self.text(parts);
        let short = output.len() < line.len() + usize::from(fault == LineRoomOneMore);
        let numbers = [parts.t, parts.r, parts.c].map(u128::from);
        self.first(LINE_WRITE_CHECKS, |check| match check {
            12 => short && fault != LineCut,
            _ => holds(check, fault, numbers, parts.salt.len(), parts.key.len()),
        })?;
        line.truncate(output.len());
        put(output, &line);
        match fault {
            RestOfLineCleared => output[line.len()..].fill(0),
            NulWritten => output
                .iter_mut()
                .skip(line.len())
                .take(1)
                .for_each(|x| *x = 0),
            _ => (),
        }
        let by = if let LineLength(by) = fault { by } else { 0 };
        Ok((line.len() as u64).wrapping_add_signed(by.into()))
    }

    /// The whole line.
    fn text(&self, parts: &LineParts) -> Vec<u8> {
        let fault = self.0;
        let (t, mut r, mut c) = (parts.t, parts.r, parts.c);
        if fault == WrittenNumbersExchanged {
            (r, c) = (c, r);
        }
        let (mut salt, mut key) = (encoded(parts.salt, fault), encoded(parts.key, fault));
        if fault == WrittenTextsExchanged {
            (salt, key) = (key, salt);
        }
        let zero = if fault == LeadingZeroWritten { "0" } else { "" };
        let end = if fault == NewlineWritten { "\n" } else { "" };
        format!("$lyra2$t={t},r={r},c={zero}{c}${salt}${key}{end}").into_bytes()
    }
}

/// Copies as much as there is room for.
fn put(output: &mut [u8], bytes: &[u8]) {
    output.iter_mut().zip(bytes).for_each(|(x, y)| *x = *y);
}

/// The text of some bytes, three at a time.
fn encoded(bytes: &[u8], fault: Fault) -> String {
    let mut text = String::new();
    for piece in bytes.chunks(3) {
        let byte = |place: usize| piece.get(place).map_or(0, |x| u32::from(*x));
        let bits = byte(0) << 16 | byte(1) << 8 | byte(2);
        let unused = u32::from(fault == OneUnusedBitWritten && piece.len() == 1) << 12;
        let characters = piece.len() + 1;
        for place in 0..characters {
            let value = (bits | unused) >> (18 - 6 * place) & 63;
            text.push(match value as u8 {
                value @ 0..=25 => (b'A' + value).into(),
                value @ 26..=51 => (b'a' + value - 26).into(),
                value @ 52..=61 => (b'0' + value - 52).into(),
                62 if fault == FileNameAlphabetWritten => '-',
                62 => '+',
                _ => '/',
            });
        }
        if fault == PaddingWritten {
            text.extend(vec!['='; 4 - characters]);
        }
    }
    text
}

impl Subject for Faulty {
    fn derive_recorded(
        &self,
        inputs: &Inputs,
        key: &mut [u8],
        matrix: &mut [u64],
        record: &mut [u64],
    ) -> Option<Result<Recorded, Refusal>> {
        Reference.derive_recorded(inputs, key, matrix, record)
    }

    fn derive(
        &self,
        inputs: &Inputs,
        key: &mut [u8],
        matrix: &mut [u64],
    ) -> Result<Counts, Refusal> {
        Reference.derive(inputs, key, matrix)
    }

    fn check(
        &self,
        inputs: &Inputs,
        stored: &[u8],
        matrix: &mut [u64],
    ) -> Result<Checked, Refusal> {
        Reference.check(inputs, stored, matrix)
    }

    fn cost(&self, given: &Parameters, rho: u64) -> Result<Counts, Refusal> {
        Reference.cost(given, rho)
    }

    fn walk(&self, r: u64, row0: u64) -> Result<u64, Refusal> {
        Reference.walk(r, row0)
    }

    fn line_read(
        &self,
        line: &[u8],
        salt: &mut [u8],
        key: &mut [u8],
    ) -> Option<Result<LineValues, Refusal>> {
        let answer = self.read(line, salt, key);
        if answer.is_err() {
            match self.0 {
                SaltClearedOnRefusal => salt.fill(0),
                KeyClearedOnRefusal => key.fill(0),
                _ => (),
            }
        }
        // As if nobody looked at the number of this refusal.
        if self.0 == ValuesOfShortOutput && answer == Err(Refusal::OutputTooShort) {
            return Some(Ok(LineValues {
                t: 1,
                r: 3,
                c: 1,
                salt_len: 0,
                key_len: 0,
            }));
        }
        Some(answer)
    }

    fn line_write(&self, parts: &LineParts, line: &mut [u8]) -> Option<Result<u64, Refusal>> {
        let answer = self.write(parts, line);
        if answer.is_err() && self.0 == LineClearedOnRefusal {
            line.fill(0);
        }
        Some(answer)
    }
}

/// The cases of an operation.
fn cases(op: &str) -> Vec<Case> {
    let cases = common::cases().into_iter().map(|(_, case)| case);
    cases
        .filter(|case| write::op(&case.question) == op)
        .collect()
}

/// Whether the cases notice a fault by their own operation, without its inverse.
fn is_noticed(fault: Fault, cases: &[Case]) -> bool {
    let noticed = |case: &Case| {
        let found = run::ask(&Faulty(fault), &case.question);
        found
            .and_then(|found| run::compare(&case.answer, &found))
            .is_err()
    };
    cases.iter().any(noticed)
}

#[test]
fn no_fault_is_noticed_where_there_is_none() {
    for op in ["line_read", "line_write"] {
        let cases = cases(op);
        assert!(cases.len() >= 200, "{op}");
        for case in cases {
            let outcome = run::check_case(&Faulty(Nothing), &case);
            assert_eq!(outcome, Ok(Coverage::Whole), "case {}", case.number);
        }
    }
}

#[test]
fn every_fault_of_reading_is_noticed() {
    let cases = cases("line_read");
    for fault in [
        LeadingZeroTaken,
        LeadingZeroOfZeroTaken,
        EmptyNumberTaken,
        PlusTaken,
        NumberCutTo(8),
        NumberCutTo(16),
        NumberCutTo(31),
        NumberCutTo(32),
        NumberCutTo(63),
        NumberCutTo(64),
        NumberCutTo(128),
        NumberClampedTo(255),
        NumberClampedTo(256),
        NumberClampedTo(16_384),
        DigitsAtMost(5),
        DigitsAtMost(10),
        DigitsAtMost(19),
        DigitsAtMost(20),
        DigitsAtMost(1000),
        DigitsAtMost(1999),
        UnusedBitsIgnored,
        OneUnusedBitIgnored,
        UnusedBitsOfSaltIgnored,
        RemainderOneTaken,
        PaddingTaken,
        FileNameAlphabetTaken,
        SpaceTaken,
        HighBitIgnored,
        NewlineTaken,
        NulTaken,
        RestTaken,
        DollarAfterKeyTaken,
        CaseIgnored,
        NameIgnored,
        EmptySaltNotOfTheForm,
        EmptyKeyNotOfTheForm,
        LongLineNotOfTheForm,
        SaltWrittenFirst,
        ShortSaltCut,
        ShortKeyCut,
        SaltRoomOneMore,
        KeyRoomOneMore,
        RoomsAddedUp,
        OutputsExchanged,
        RestOfSaltCleared,
        RestOfKeyCleared,
        SaltClearedOnRefusal,
        KeyClearedOnRefusal,
        LengthsExchanged,
        NumbersExchanged,
        SaltLength(1),
        SaltLength(-1),
        KeyLength(1),
        KeyLength(-1),
        ValuesOfShortOutput,
    ] {
        assert!(is_noticed(fault, &cases), "{fault:?}");
    }
}

#[test]
fn every_fault_of_writing_is_noticed() {
    let cases = cases("line_write");
    for fault in [
        PaddingWritten,
        FileNameAlphabetWritten,
        NewlineWritten,
        NulWritten,
        LeadingZeroWritten,
        OneUnusedBitWritten,
        LineRoomOneMore,
        LineCut,
        RestOfLineCleared,
        LineClearedOnRefusal,
        LineLength(1),
        LineLength(-1),
        WrittenNumbersExchanged,
        WrittenTextsExchanged,
    ] {
        assert!(is_noticed(fault, &cases), "{fault:?}");
    }
}

/// Any check made before any that comes first in the right order.
#[test]
fn every_wrong_order_is_noticed() {
    for (op, order) in [
        ("line_read", LINE_READ_CHECKS),
        ("line_write", LINE_WRITE_CHECKS),
    ] {
        let cases = cases(op);
        for (place, first) in order.iter().enumerate() {
            for later in &order[place + 1..] {
                // No salt is too short and too long.
                if (*first, *later) == (Refusal::SaltTooShort, Refusal::SaltTooLong) {
                    continue;
                }
                let fault = CheckedBefore(later.number(), first.number());
                assert!(is_noticed(fault, &cases), "{op}: {fault:?}");
            }
        }
    }
}

#[test]
fn every_moved_limit_is_noticed() {
    for op in ["line_read", "line_write"] {
        let cases = cases(op);
        for check in [1, 3, 10, 4, 5, 6] {
            for by in [-1, 1] {
                let fault = Limit(check, by);
                assert!(is_noticed(fault, &cases), "{op}: {fault:?}");
            }
        }
    }
}
