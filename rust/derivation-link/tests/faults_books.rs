//! Faulty programs that keep a book of accounts, made on purpose: the random comparison has to notice every fault.

use derivation_link::compare::compare;
use derivation_link::Proved;
use lyra2_reference::vectors::Subject;
use lyra2_reference::{
    book_find, Account, AccountValues, Checked, Choice, Counts, Inputs, LaneInputs, Limits,
    LineParts, LineValues, Parameters, Recorded, Refusal,
};

#[derive(Clone, Copy, Debug, PartialEq, Eq)]
enum Fault {
    Nothing,
    // Every operation on a book.
    Missing,
    UsedCutTo32Bits,
    UsedPastTheBookTaken,
    EmptyBookRefused,
    WholeBookRefused,
    RefusedWith(Refusal, Refusal),
    // Finding.
    PlaceAfterMark,
    NumberCutTo24Bits,
    LastByteNotUsed,
    // Adding and removing.
    UsedOneMore,
    UsedOneLess,
    OldUsed,
    FreedByteLeft,
    FreedBytesLeft,
    BytePastUsed,
    RestZeroed,
    FirstByte,
    BookOnRefusal,
    OldRemovedOnRefusal,
    SameAccountTwice,
    RoomOneMore,
    RoomOneLess,
    RoomBesideTheOld,
    TimeCutTo8Bits,
    RowsCutTo16Bits,
    ColumnsCutTo16Bits,
    SaltAfterTime,
    BookBeforeAccount,
    // Checking.
    Yes,
    No,
    CountsOfNothing,
    MatrixKept,
    MatrixWipedWhole,
    MatrixOnRefusal,
    PasswordAfterBook,
    OtherAccount,
    // The account at a place.
    SizeOneMore,
    RowsHighestFirst,
    PlaceCutTo32Bits,
    WholeBookLookedAt,
    CutAccount,
}

use Fault::*;

/// The proved library with a fault put around it.
struct Faulty(Fault);

impl Faulty {
    /// The used length that the faulty program goes by, if it does not refuse it.
    fn used(&self, book: &[u8], used: u64) -> Result<u64, Refusal> {
        let len = book.len() as u64;
        match self.0 {
            UsedCutTo32Bits => Ok(used & 0xffff_ffff),
            UsedPastTheBookTaken => Ok(used.min(len)),
            EmptyBookRefused if used == 0 => Err(Refusal::DamagedBook),
            WholeBookRefused if used == len => Err(Refusal::DamagedBook),
            _ => Ok(used),
        }
    }

    fn refusal(&self, due: Refusal) -> Refusal {
        match self.0 {
            RefusedWith(own, other) if own == due => other,
            _ => due,
        }
    }

    /// Lends a book to a call that may change it, and spoils what it answers and leaves.
    fn change(
        &self,
        book: &mut [u8],
        used: u64,
        call: impl Fn(&mut [u8], u64) -> Option<Result<u64, Refusal>>,
    ) -> Option<Result<u64, Refusal>> {
        if self.0 == Missing {
            return None;
        }
        let used = match self.used(book, used) {
            Ok(used) => used,
            Err(refusal) => return Some(Err(refusal)),
        };
        let before = book.to_vec();
        let answer = call(book, used)?.map_err(|due| self.refusal(due));
        match answer {
            Ok(after) => Some(Ok(self.spoil_book(&before, used, book, after))),
            Err(_) => {
                if self.0 == BookOnRefusal {
                    book.iter_mut().take(1).for_each(|byte| *byte ^= 1);
                }
                Some(answer)
            }
        }
    }

    /// Spoils a book that an accepted call left, and returns the used length that is told.
    fn spoil_book(&self, before: &[u8], used: u64, book: &mut [u8], after: u64) -> u64 {
        let (from, to) = (after as usize, used as usize);
        match self.0 {
            FreedByteLeft if from < to => book[to - 1] = before[to - 1],
            FreedBytesLeft if from < to => book[from..to].copy_from_slice(&before[from..to]),
            BytePastUsed => book[from.max(to)..]
                .iter_mut()
                .take(1)
                .for_each(|byte| *byte = 0),
            RestZeroed => book[from..].fill(0),
            FirstByte => book.iter_mut().take(1).for_each(|byte| *byte ^= 0x20),
            _ => (),
        }
        match self.0 {
            UsedOneMore => after + 1,
            UsedOneLess => after.saturating_sub(1),
            OldUsed => used,
            _ => after,
        }
    }

    /// The account that the faulty program adds.
    fn added<'a>(&self, account: &Account<'a>) -> Account<'a> {
        let mut added = *account;
        match self.0 {
            TimeCutTo8Bits => added.t &= 0xff,
            RowsCutTo16Bits => added.r &= 0xffff,
            ColumnsCutTo16Bits => added.c &= 0xffff,
            _ => (),
        }
        added
    }

    /// An add in which the fault lies in how the room or the old account is dealt with; None if it is another fault.
    fn add_otherwise(
        &self,
        book: &mut [u8],
        used: u64,
        account: &Account,
    ) -> Option<Result<u64, Refusal>> {
        let due = Proved.book_add(&mut book.to_vec(), used, account)?;
        let old = book_find(book, used, account.number);
        let size = account.values().size;
        let room = book.len() as u64;
        match (self.0, due, old) {
            (RoomOneLess, Ok(after), _) if after == room => Some(Err(Refusal::BookTooShort)),
            (RoomBesideTheOld, Ok(_), Ok(_)) if used + size > room => {
                Some(Err(Refusal::BookTooShort))
            }
            (SameAccountTwice, Ok(_), Ok(_)) if used + size <= room => {
                let end = (used + size) as usize;
                book[used as usize..end].copy_from_slice(&account.encode());
                Some(Ok(used + size))
            }
            (RoomOneMore, Err(Refusal::BookTooShort), _) => {
                let mut longer = [&book[..], &[0]].concat();
                let after = Proved.book_add(&mut longer, used, account)?.ok()?;
                book.copy_from_slice(&longer[..book.len()]);
                Some(Ok(after))
            }
            (OldRemovedOnRefusal, Err(Refusal::BookTooShort), Ok(_)) => {
                let _ = Proved.book_remove(book, used, account.number);
                Some(due)
            }
            (SaltAfterTime, Err(Refusal::SaltTooShort), _) if account.t > 255 => {
                Some(Err(Refusal::TimeCost))
            }
            (BookBeforeAccount, Err(_), Err(Refusal::DamagedBook)) => {
                Some(Err(Refusal::DamagedBook))
            }
            _ => None,
        }
    }
}

impl Subject for Faulty {
    fn derive_recorded(
        &self,
        inputs: &Inputs,
        key: &mut [u8],
        matrix: &mut [u64],
        record: &mut [u64],
    ) -> Option<Result<Recorded, Refusal>> {
        Proved.derive_recorded(inputs, key, matrix, record)
    }

    fn derive(
        &self,
        inputs: &Inputs,
        key: &mut [u8],
        matrix: &mut [u64],
    ) -> Result<Counts, Refusal> {
        Proved.derive(inputs, key, matrix)
    }

    fn check(
        &self,
        inputs: &Inputs,
        stored: &[u8],
        matrix: &mut [u64],
    ) -> Result<Checked, Refusal> {
        Proved.check(inputs, stored, matrix)
    }

    fn cost(&self, given: &Parameters, rho: u64) -> Result<Counts, Refusal> {
        Proved.cost(given, rho)
    }

    fn walk(&self, r: u64, row0: u64) -> Result<u64, Refusal> {
        Proved.walk(r, row0)
    }

    fn line_read(
        &self,
        line: &[u8],
        salt: &mut [u8],
        key: &mut [u8],
    ) -> Option<Result<LineValues, Refusal>> {
        Proved.line_read(line, salt, key)
    }

    fn line_write(&self, parts: &LineParts, line: &mut [u8]) -> Option<Result<u64, Refusal>> {
        Proved.line_write(parts, line)
    }

    fn choose(&self, limits: &Limits) -> Option<Result<Choice, Refusal>> {
        Proved.choose(limits)
    }

    fn book_find(&self, book: &[u8], used: u64, number: u32) -> Option<Result<u64, Refusal>> {
        let used = match (self.used(book, used), self.0) {
            (_, Missing) => return None,
            (Err(refusal), _) => return Some(Err(refusal)),
            (Ok(used), LastByteNotUsed) => used.saturating_sub(1),
            (Ok(used), _) => used,
        };
        let number = match self.0 {
            NumberCutTo24Bits => number & 0xff_ffff,
            _ => number,
        };
        let found = Proved.book_find(book, used, number)?;
        let place = found.map(|place| match self.0 {
            PlaceAfterMark => place + 2,
            _ => place,
        });
        Some(place.map_err(|due| self.refusal(due)))
    }

    fn book_add(
        &self,
        book: &mut [u8],
        used: u64,
        account: &Account,
    ) -> Option<Result<u64, Refusal>> {
        if let Some(answer) = self.add_otherwise(book, used, account) {
            return Some(answer);
        }
        let added = self.added(account);
        self.change(book, used, |book, used| Proved.book_add(book, used, &added))
    }

    fn book_remove(&self, book: &mut [u8], used: u64, number: u32) -> Option<Result<u64, Refusal>> {
        self.change(book, used, |book, used| {
            Proved.book_remove(book, used, number)
        })
    }

    fn book_check(
        &self,
        password: &[u8],
        book: &[u8],
        used: u64,
        number: u32,
        matrix: &mut [u64],
    ) -> Option<Result<Checked, Refusal>> {
        if self.0 == Missing {
            return None;
        }
        let first = || Proved.book_account(book, 0).map(|account| account.number);
        let number = match self.0 {
            OtherAccount if book_find(book, used, number).is_ok() => first()?,
            _ => number,
        };
        let before = matrix.to_vec();
        let mut answer = Proved.book_check(password, book, used, number, matrix)?;
        match (&mut answer, self.0) {
            (Ok(checked), Yes) => checked.matches = true,
            (Ok(checked), No) => checked.matches = false,
            (Ok(checked), CountsOfNothing) => checked.counts.reduced = 0,
            (Ok(_), MatrixKept) => matrix.copy_from_slice(&before),
            (Ok(_), MatrixWipedWhole) => matrix.fill(0),
            (Err(_), MatrixOnRefusal) => matrix.fill(0),
            (Err(Refusal::PasswordLength), PasswordAfterBook) => {
                answer = match book_find(book, used, number) {
                    Err(Refusal::DamagedBook) => Err(Refusal::DamagedBook),
                    _ => answer,
                };
            }
            _ => (),
        }
        Some(answer.map_err(|due| self.refusal(due)))
    }

    fn book_account(&self, used_part: &[u8], place: u64) -> Option<AccountValues> {
        let mut bytes = used_part.to_vec();
        let place = match self.0 {
            Missing => return None,
            PlaceCutTo32Bits => place & 0xffff_ffff,
            _ => place,
        };
        match self.0 {
            CutAccount => bytes.extend([0; 8]),
            WholeBookLookedAt
                if book_find(&bytes, bytes.len() as u64, 0) == Err(Refusal::DamagedBook) =>
            {
                bytes.clear();
            }
            _ => (),
        }
        let mut values = Proved.book_account(&bytes, place)?;
        match self.0 {
            SizeOneMore if values.size > 0 => values.size += 1,
            RowsHighestFirst => values.r = u64::from((values.r as u16).swap_bytes()),
            _ => (),
        }
        Some(values)
    }

    fn lanes_derive(
        &self,
        inputs: &LaneInputs,
        key: &mut [u8],
        matrix: &mut [u64],
    ) -> Option<Result<Counts, Refusal>> {
        Proved.lanes_derive(inputs, key, matrix)
    }

    fn lanes_check(
        &self,
        inputs: &LaneInputs,
        stored: &[u8],
        matrix: &mut [u64],
    ) -> Option<Result<Checked, Refusal>> {
        Proved.lanes_check(inputs, stored, matrix)
    }

    fn lanes_cost(&self, given: &Parameters, p: u64) -> Option<Result<Counts, Refusal>> {
        Proved.lanes_cost(given, p)
    }
}

/// Shows that below nothing but the fault is noticed.
#[test]
fn no_fault_is_noticed_where_there_is_none() {
    for seed in 0..1000 {
        let compared = compare(&Faulty(Nothing), seed);
        assert!(compared.is_ok(), "seed {seed}: {compared:?}");
    }
}

#[test]
fn every_fault_is_noticed() {
    for fault in [
        Missing,
        UsedCutTo32Bits,
        UsedPastTheBookTaken,
        EmptyBookRefused,
        WholeBookRefused,
        RefusedWith(Refusal::DamagedBook, Refusal::NoAccount),
        RefusedWith(Refusal::NoAccount, Refusal::DamagedBook),
        RefusedWith(Refusal::BookTooShort, Refusal::DamagedBook),
        RefusedWith(Refusal::MatrixWords, Refusal::NoAccount),
        RefusedWith(Refusal::SaltTooLong, Refusal::SaltTooShort),
        PlaceAfterMark,
        NumberCutTo24Bits,
        LastByteNotUsed,
        UsedOneMore,
        UsedOneLess,
        OldUsed,
        FreedByteLeft,
        FreedBytesLeft,
        BytePastUsed,
        RestZeroed,
        FirstByte,
        BookOnRefusal,
        OldRemovedOnRefusal,
        SameAccountTwice,
        RoomOneMore,
        RoomOneLess,
        RoomBesideTheOld,
        TimeCutTo8Bits,
        RowsCutTo16Bits,
        ColumnsCutTo16Bits,
        SaltAfterTime,
        BookBeforeAccount,
        Yes,
        No,
        CountsOfNothing,
        MatrixKept,
        MatrixWipedWhole,
        MatrixOnRefusal,
        PasswordAfterBook,
        OtherAccount,
        SizeOneMore,
        RowsHighestFirst,
        PlaceCutTo32Bits,
        WholeBookLookedAt,
        CutAccount,
    ] {
        let noticed = |seed: u64| compare(&Faulty(fault), seed).is_err();
        assert!((0..5000).any(noticed), "{fault:?}");
    }
}
