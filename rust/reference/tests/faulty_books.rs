//! Faulty programs that keep a book of accounts, made on purpose: the cases of request #110 have to notice every fault.
//!
//! What is right here goes by places in the bytes and moves them where they stand, so that it is another program than the
//! one behind the file.

mod common;

use lyra2_reference::refusal::{BOOK_ADD_CHECKS, BOOK_CHECK_CHECKS, BOOK_FIND_CHECKS};
use lyra2_reference::vectors::{run, write, Case, Reference, Subject};
use lyra2_reference::{
    check, Account, AccountValues, Checked, Counts, Inputs, Parameters, Refusal,
};
use Fault::*;
use Field::*;

/// The numbers of an account, in the order of its head.
#[derive(Clone, Copy, Debug, PartialEq, Eq)]
enum Field {
    Number,
    Time,
    Rows,
    Columns,
    Salt,
    Key,
}

/// Each field with its place in the head, its number of bytes and its limits.
const FIELDS: [(Field, usize, usize, u64, u64); 6] = [
    (Number, 2, 4, 0, u32::MAX as u64),
    (Time, 6, 1, 0, 255),
    (Rows, 7, 2, 3, 16_384),
    (Columns, 9, 2, 1, 256),
    (Salt, 11, 1, 8, 64),
    (Key, 12, 2, 1, 1024),
];

#[derive(Clone, Copy, Debug, PartialEq, Eq)]
enum Fault {
    Nothing,
    // An account in the book.
    MarkOfOneByte(usize),
    MarkBackward,
    MarkInEitherCase,
    NoMark,
    MarkOfTheFirstAlone,
    HighestFirst(Field),
    LowestByteAlone(Field),
    FieldsExchanged(Field, Field),
    HeadAloneWhole,
    HeadOneByteShorter,
    // Limits, in the book or of a new account: the lowest or the highest value is moved.
    Lowest(Field, i8, Where),
    Highest(Field, i8, Where),
    LimitsIgnored,
    CutBeforeTheChecks(Field, u32),
    LongSaltIsShort,
    // The used part.
    UsedPastTheSliceTaken,
    UsedCutTo(u32),
    UsedOneMoreTaken,
    WholeSliceRefused,
    EmptyRefused,
    WholeBySlice,
    SliceForTheUsedPart,
    RestTaken,
    RestShorterThanAHeadTaken,
    DamageAfterTheAccountTaken,
    // Numbers that are there twice.
    TwiceTaken,
    TwiceInARowAloneSeen,
    TwiceTheFirstAloneSeen,
    TwiceTheAskedAloneSeen,
    TwiceByLowBits(u32),
    TwiceWithinBlocksSeen(usize),
    TwiceByWholeAccount,
    // Finding.
    FoundByLowBits(u32),
    PlaceAfterTheMark,
    PlaceIsTheCount,
    AbsentAtTheEnd,
    // The order of the checks.
    CheckedBefore(u8, u8),
    RefusedWith(u8, u8),
    // Adding.
    OldLeft,
    OldKeepsItsPlace,
    AddedFirst,
    RepeatedIgnored,
    RoomBesideTheOld,
    Room(i8),
    OldRemovedOnRefusal,
    CutWhereRoomEnds,
    WrittenHighestFirst(Field),
    WrittenKeyFirst,
    MarkNotWritten,
    // Moving, zeroing, and the answer of adding and removing.
    MovedBy(i8),
    NotMoved,
    NextAloneMoved,
    LastInThePlace,
    FreedLeft,
    FreedZeroed(i8),
    RestZeroed,
    UsedIsTheOld,
    UsedIsThePlace,
    UsedIsTheSlice,
    UsedAfter(i8),
    // Checking.
    Always(bool),
    FirstByteCompared,
    LastByteNotCompared,
    FirstAccountChecked,
    LastAccountChecked,
    CountsLeftOut,
    MatrixLeft,
    WholeMatrixWiped,
    LeastMatrixEnough,
    // The account at a place.
    SizeWithoutHead,
    SizeWithoutMark,
    CutAccountTold,
    AccountOfDamagedBookHidden,
    NextAccountTold,
    PlaceCutTo(u32),
}

/// Where limits are looked at.
#[derive(Clone, Copy, Debug, PartialEq, Eq)]
enum Where {
    Book,
    New,
}

struct Program(Fault);

/// The numbers of an account, in the order of the fields.
type Numbers = [u64; 6];

fn low_bits(number: u64, bits: u32) -> u64 {
    number & ((1 << bits) - 1)
}

fn moved(limit: u64, by: i8) -> u64 {
    limit.wrapping_add_signed(by.into())
}

/// The size of an account: 14 bytes, salt and key.
fn size(numbers: &Numbers) -> usize {
    14 + (numbers[Salt as usize] + numbers[Key as usize]) as usize
}

impl Program {
    fn is_marked(&self, bytes: &[u8], at: usize) -> bool {
        let mark = [bytes[at], bytes[at + 1]];
        match self.0 {
            MarkOfOneByte(place) => mark[place] == b"AC"[place],
            MarkBackward => mark == *b"CA",
            MarkInEitherCase => mark.eq_ignore_ascii_case(b"AC"),
            MarkOfTheFirstAlone if at > 0 => true,
            NoMark => true,
            _ => mark == *b"AC",
        }
    }

    fn numbers(&self, head: &[u8]) -> Numbers {
        let mut numbers = FIELDS.map(|(field, place, width, ..)| {
            let width = if self.0 == LowestByteAlone(field) {
                1
            } else {
                width
            };
            let mut bytes = head[place..place + width].to_vec();
            if self.0 != HighestFirst(field) {
                bytes.reverse();
            }
            bytes
                .iter()
                .fold(0, |sum, byte| 256 * sum + u64::from(*byte))
        });
        if let FieldsExchanged(one, other) = self.0 {
            numbers.swap(one as usize, other as usize);
        }
        numbers
    }

    /// The limits of a field.
    fn limits(&self, field: Field, place: Where) -> (u64, u64) {
        let (_, _, _, low, high) = FIELDS[field as usize];
        match self.0 {
            Lowest(own, by, own_place) if (own, own_place) == (field, place) => {
                (moved(low, by), high)
            }
            Highest(own, by, own_place) if (own, own_place) == (field, place) => {
                (low, moved(high, by))
            }
            _ => (low, high),
        }
    }

    fn is_outside(&self, numbers: &Numbers, place: Where) -> bool {
        let outside = |(field, ..): &(Field, usize, usize, u64, u64)| {
            let (low, high) = self.limits(*field, place);
            let number = numbers[*field as usize];
            number < low || number > high
        };
        self.0 != LimitsIgnored && FIELDS.iter().any(outside)
    }

    /// The account at a place of the bytes, of which so many are the used part's.
    fn account(&self, bytes: &[u8], used: usize, at: usize) -> Option<Numbers> {
        let end = if self.0 == WholeBySlice {
            bytes.len()
        } else {
            used
        };
        let left = end.checked_sub(at)?;
        if left < 14 || at + 14 > bytes.len() || !self.is_marked(bytes, at) {
            return None;
        }
        let numbers = self.numbers(&bytes[at..at + 14]);
        let needed = match self.0 {
            HeadAloneWhole => 14,
            HeadOneByteShorter => size(&numbers) - 1,
            _ => size(&numbers),
        };
        (needed <= left && !self.is_outside(&numbers, Where::Book)).then_some(numbers)
    }

    /// The places of the accounts, and whether nothing else stands in the used part.
    fn places(&self, bytes: &[u8], used: usize) -> (Vec<usize>, bool) {
        let mut places = Vec::new();
        let mut at = 0;
        while at < used {
            let Some(numbers) = self.account(bytes, used, at) else {
                let is_taken = match self.0 {
                    RestTaken => true,
                    RestShorterThanAHeadTaken => used - at < 14,
                    _ => false,
                };
                return (places, is_taken);
            };
            places.push(at);
            at += size(&numbers);
        }
        (places, true)
    }

    fn number_at(&self, bytes: &[u8], place: usize) -> u64 {
        self.numbers(&bytes[place..place + 14])[0]
    }

    /// Whether a number that is there twice is seen, where one of the accounts is asked for.
    fn sees_twice(&self, bytes: &[u8], places: &[usize], asked: u64) -> bool {
        let numbers: Vec<u64> = places.iter().map(|at| self.number_at(bytes, *at)).collect();
        let seen = |x: usize, y: usize| {
            let (one, other) = (numbers[x], numbers[y]);
            match self.0 {
                TwiceTaken => false,
                TwiceInARowAloneSeen => one == other && y == x + 1,
                TwiceTheFirstAloneSeen => one == other && x == 0,
                TwiceTheAskedAloneSeen => one == other && one == asked,
                TwiceByLowBits(bits) => low_bits(one, bits) == low_bits(other, bits),
                TwiceWithinBlocksSeen(block) => one == other && x / block == y / block,
                TwiceByWholeAccount => {
                    let len = size(&self.numbers(&bytes[places[x]..places[x] + 14]));
                    let part = |at: usize| bytes.get(at..at + len);
                    part(places[x]) == part(places[y])
                }
                _ => one == other,
            }
        };
        (0..numbers.len()).any(|x| (x + 1..numbers.len()).any(|y| seen(x, y)))
    }

    /// The used length as the program takes it; None if it passes the slice.
    fn used(&self, bytes: &[u8], used: u64) -> Option<usize> {
        let len = bytes.len() as u64;
        let used = match self.0 {
            UsedCutTo(bits) => low_bits(used, bits),
            UsedPastTheSliceTaken => used.min(len),
            UsedOneMoreTaken if used == len + 1 => len,
            SliceForTheUsedPart if used <= len => len,
            _ => used,
        };
        let is_refused = used > len
            || (self.0 == WholeSliceRefused && used == len)
            || (self.0 == EmptyRefused && used == 0);
        (!is_refused).then_some(used as usize)
    }

    /// The places of the accounts of a good book.
    fn good(&self, bytes: &[u8], used: u64, asked: u64) -> Option<Vec<usize>> {
        let used = self.used(bytes, used)?;
        let (places, is_whole) = self.places(bytes, used);
        if self.0 == DamageAfterTheAccountTaken && self.place(bytes, &places, asked).is_some() {
            return Some(places);
        }
        (is_whole && !self.sees_twice(bytes, &places, asked)).then_some(places)
    }

    /// The place of an account among those that can be read.
    fn place(&self, bytes: &[u8], places: &[usize], asked: u64) -> Option<usize> {
        let is_asked = |at: &usize| {
            let number = self.number_at(bytes, *at);
            match self.0 {
                FoundByLowBits(bits) => low_bits(number, bits) == low_bits(asked, bits),
                _ => number == asked,
            }
        };
        places.iter().copied().find(is_asked)
    }

    /// The first check whose condition holds.
    fn refusal(&self, order: &[Refusal], holds: impl Fn(Refusal) -> bool) -> Option<Refusal> {
        let mut order = order.to_vec();
        if let CheckedBefore(later, first) = self.0 {
            let place_of = |number| order.iter().position(|check| check.number() == number);
            if let (Some(from), Some(to)) = (place_of(later), place_of(first)) {
                let check = order.remove(from);
                order.insert(to, check);
            }
        }
        let found = order.into_iter().find(|check| holds(*check))?;
        Some(match self.0 {
            RefusedWith(due, instead) if due == found.number() => {
                Refusal::from_number(instead.into()).expect("the number of a refusal")
            }
            _ => found,
        })
    }

    /// The refusal of finding and removing.
    fn look_up(&self, bytes: &[u8], used: u64, number: u32) -> Result<usize, Refusal> {
        let asked = number.into();
        let good = self.good(bytes, used, asked);
        let readable = self.places(bytes, bytes.len().min(used as usize)).0;
        let place = self.place(bytes, good.as_ref().unwrap_or(&readable), asked);
        let holds = |check| match check {
            Refusal::DamagedBook => good.is_none(),
            _ => place.is_none(),
        };
        match self.refusal(BOOK_FIND_CHECKS, holds) {
            Some(Refusal::NoAccount) if self.0 == AbsentAtTheEnd => Ok(used as usize),
            Some(refusal) => Err(refusal),
            None => Ok(place.expect("the last check has passed")),
        }
    }

    /// Takes so many bytes out at a place: the later ones move up, and what is freed becomes zero.
    fn take_out(&self, bytes: &mut [u8], used: usize, at: usize, len: usize) {
        let next = at + len;
        match self.0 {
            NotMoved => bytes[at..next].fill(0),
            NextAloneMoved if next < used => {
                let next_len = size(&self.numbers(&bytes[next..next + 14]));
                bytes.copy_within(next..next + next_len, at);
            }
            LastInThePlace if next < used => {
                let last = *self
                    .places(bytes, used)
                    .0
                    .last()
                    .expect("an account is there");
                bytes.copy_within(last..used, at);
            }
            MovedBy(more) => {
                let from = (next as i64 + i64::from(more)) as usize;
                bytes.copy_within(from.min(used)..used, at);
            }
            _ => bytes.copy_within(next..used, at),
        }
        if self.0 != NotMoved {
            self.zero(bytes, used - len, used);
        }
    }

    fn zero(&self, bytes: &mut [u8], from: usize, to: usize) {
        let len = bytes.len();
        match self.0 {
            FreedLeft => (),
            FreedZeroed(more) if from < to => {
                let to = (to as i64 + i64::from(more)) as usize;
                bytes[from..to.min(len)].fill(0);
            }
            RestZeroed => bytes[from..].fill(0),
            _ => bytes[from..to].fill(0),
        }
    }

    /// The used length that is answered.
    fn told(&self, used: usize, after: usize, place: usize, len: usize) -> u64 {
        let told = match self.0 {
            UsedIsTheOld => used,
            UsedIsThePlace => place,
            UsedIsTheSlice => len,
            UsedAfter(by) => (after as i64 + i64::from(by)) as usize,
            _ => after,
        };
        told as u64
    }
}

/// The bytes of a new account.
impl Program {
    fn written(&self, numbers: &Numbers, account: &Account) -> Vec<u8> {
        let mut bytes = if self.0 == MarkNotWritten {
            vec![0, 0]
        } else {
            b"AC".to_vec()
        };
        for (field, _, width, ..) in FIELDS {
            let mut digits = numbers[field as usize].to_le_bytes()[..width].to_vec();
            if self.0 == WrittenHighestFirst(field) {
                digits.reverse();
            }
            bytes.extend(digits);
        }
        let texts = if self.0 == WrittenKeyFirst {
            [account.key, account.salt]
        } else {
            [account.salt, account.key]
        };
        bytes.extend(texts.concat());
        bytes
    }

    /// The numbers of a new account as the checks see them.
    fn new_numbers(&self, account: &Account) -> Numbers {
        let mut numbers = [
            account.number.into(),
            account.t,
            account.r,
            account.c,
            account.salt.len() as u64,
            account.key.len() as u64,
        ];
        if let CutBeforeTheChecks(field, bits) = self.0 {
            let number = &mut numbers[field as usize];
            *number = low_bits(*number, bits);
        }
        numbers
    }

    /// Whether a check on the new account refuses it.
    fn refuses_new(&self, check: Refusal, numbers: &Numbers) -> bool {
        let outside = |field: Field| {
            let (low, high) = self.limits(field, Where::New);
            let number = numbers[field as usize];
            (number < low, number > high)
        };
        match check {
            Refusal::KeyLength => outside(Key) != (false, false),
            Refusal::SaltTooShort if self.0 == LongSaltIsShort => outside(Salt) != (false, false),
            Refusal::SaltTooShort => outside(Salt).0,
            Refusal::SaltTooLong => outside(Salt).1,
            Refusal::TimeCost => outside(Time) != (false, false),
            Refusal::Rows => outside(Rows) != (false, false),
            Refusal::Columns => outside(Columns) != (false, false),
            _ => false,
        }
    }

    fn add(&self, bytes: &mut [u8], used: u64, account: &Account) -> Result<u64, Refusal> {
        let numbers = self.new_numbers(account);
        let asked = numbers[0];
        let good = self.good(bytes, used, asked);
        let used = bytes.len().min(used as usize);
        let places = good.clone().unwrap_or_default();
        let old = self.place(bytes, &places, asked);
        let old_size = old.map_or(0, |at| size(&self.numbers(&bytes[at..at + 14])));
        let new = self.written(&numbers, account);
        let beside = if self.0 == RoomBesideTheOld {
            0
        } else {
            old_size
        };
        let room = match self.0 {
            Room(more) => moved(bytes.len() as u64, more) as usize,
            _ => bytes.len(),
        };
        let is_short = used - beside + new.len() > room;
        let holds = |check| match check {
            Refusal::DamagedBook => good.is_none(),
            Refusal::BookTooShort => is_short,
            other => self.refuses_new(other, &numbers),
        };
        let refusal = self.refusal(BOOK_ADD_CHECKS, holds);
        if let (OldRemovedOnRefusal, Some(Refusal::BookTooShort), Some(at)) = (self.0, refusal, old)
        {
            self.take_out(bytes, used, at, old_size);
        }
        match refusal {
            Some(Refusal::BookTooShort) if self.0 == CutWhereRoomEnds => (),
            Some(refusal) => return Err(refusal),
            None => (),
        }
        Ok(self.put(bytes, used, old.map(|at| (at, old_size)), &new))
    }

    /// Puts the new account last, once the old one is gone; answers the new used length.
    fn put(&self, bytes: &mut [u8], used: usize, old: Option<(usize, usize)>, new: &[u8]) -> u64 {
        let mut place = used;
        match old {
            Some(_) if self.0 == RepeatedIgnored => return used as u64,
            Some((at, len)) if self.0 == OldKeepsItsPlace && len == new.len() => {
                bytes[at..at + len].copy_from_slice(new);
                return used as u64;
            }
            Some((at, len)) if self.0 != OldLeft => {
                self.take_out(bytes, used, at, len);
                place -= len;
            }
            _ => (),
        }
        let after = (place + new.len()).min(bytes.len());
        // A program without enough room for what it does writes as far as it can.
        bytes[place..after].copy_from_slice(&new[..after - place]);
        if self.0 == AddedFirst {
            bytes[..after].rotate_right(after - place);
        }
        self.told(used, after, place, bytes.len())
    }

    fn remove(&self, bytes: &mut [u8], used: u64, number: u32) -> Result<u64, Refusal> {
        let at = self.look_up(bytes, used, number)?;
        let used = bytes.len().min(used as usize);
        if at + 14 > bytes.len() {
            return Ok(used as u64);
        }
        let len = size(&self.numbers(&bytes[at..at + 14])).min(used - at);
        self.take_out(bytes, used, at, len);
        Ok(self.told(used, used - len, at, bytes.len()))
    }
}

/// Checking, and the account at a place.
impl Program {
    /// The account at a place, with its salt and key; what stands past the bytes is left out.
    fn read<'a>(&self, bytes: &'a [u8], at: usize) -> Account<'a> {
        let [number, t, r, c, salt_len, key_len] = self.numbers(&bytes[at..at + 14]);
        let texts = &bytes[at + 14..];
        let (salt, rest) = texts.split_at(texts.len().min(salt_len as usize));
        let key = &rest[..rest.len().min(key_len as usize)];
        Account {
            number: number as u32,
            t,
            r,
            c,
            salt,
            key,
        }
    }

    /// The place of the account that a password is checked against.
    fn checked_place(&self, bytes: &[u8], places: &[usize], number: u32) -> Option<usize> {
        let place = self.place(bytes, places, number.into())?;
        match self.0 {
            FirstAccountChecked => places.first().copied(),
            LastAccountChecked => places.last().copied(),
            _ => Some(place),
        }
    }

    fn check_account(
        &self,
        password: &[u8],
        bytes: &[u8],
        used: u64,
        number: u32,
        matrix: &mut [u64],
    ) -> Result<Checked, Refusal> {
        let good = self.good(bytes, used, number.into());
        let readable = || self.places(bytes, bytes.len().min(used as usize)).0;
        let places = good.clone().unwrap_or_else(readable);
        let place = self.checked_place(bytes, &places, number);
        let account = place.map(|at| self.read(bytes, at));
        let words = match (self.0, account) {
            (LeastMatrixEnough, _) | (_, None) => 36,
            (_, Some(account)) => account.parameters().matrix_words(),
        };
        let holds = |check| match check {
            Refusal::PasswordLength => password.len() > 1024,
            Refusal::DamagedBook => good.is_none(),
            Refusal::NoAccount => account.is_none(),
            _ => (matrix.len() as u64) < words,
        };
        if let Some(refusal) = self.refusal(BOOK_CHECK_CHECKS, holds) {
            return Err(refusal);
        }
        let account = account.expect("a check has passed");
        if (matrix.len() as u64) < account.parameters().matrix_words() {
            // A fault has let it through: there is no answer, so that any will do.
            let counts = Reference.cost(&account.parameters(), 1)?;
            let matches = false;
            return Ok(Checked { matches, counts });
        }
        self.compare(password, &account, matrix)
    }

    /// Derives the key and compares it; what the second program refuses here, a fault has let through.
    fn compare(
        &self,
        password: &[u8],
        account: &Account,
        matrix: &mut [u64],
    ) -> Result<Checked, Refusal> {
        let before = matrix.to_vec();
        let mut key = account.key.to_vec();
        match self.0 {
            FirstByteCompared => key.truncate(1),
            // The rest of the key, from the derivation of the whole.
            LastByteNotCompared => {
                lyra2_reference::derive(&account.inputs(password), &mut key, matrix)?;
                let len = key.len() - 1;
                key[..len].copy_from_slice(&account.key[..len]);
            }
            _ => (),
        }
        let mut checked = check(&account.inputs(password), &key, matrix)?;
        match self.0 {
            Always(matches) => checked.matches = matches,
            CountsLeftOut => checked.counts.full = 0,
            MatrixLeft => matrix.copy_from_slice(&before),
            WholeMatrixWiped => matrix.fill(0),
            FirstByteCompared => {
                let mut whole = account.key.to_vec();
                checked.counts =
                    lyra2_reference::derive(&account.inputs(password), &mut whole, matrix)?;
                checked.matches = whole[0] == account.key[0];
            }
            _ => (),
        }
        Ok(checked)
    }

    fn values(&self, bytes: &[u8], place: u64) -> Option<AccountValues> {
        let place = match self.0 {
            PlaceCutTo(bits) => low_bits(place, bits),
            _ => place,
        };
        let mut at = usize::try_from(place).ok().filter(|at| *at < bytes.len())?;
        if self.0 == NextAccountTold {
            let has_account = |at: &usize| self.account(bytes, bytes.len(), *at).is_some();
            at = (at..bytes.len()).find(has_account)?;
        }
        if self.0 == AccountOfDamagedBookHidden && self.good(bytes, bytes.len() as u64, 0).is_none()
        {
            return None;
        }
        let numbers = match self.0 {
            CutAccountTold if bytes.len() - at >= 14 && self.is_marked(bytes, at) => {
                let numbers = self.numbers(&bytes[at..at + 14]);
                (!self.is_outside(&numbers, Where::Book)).then_some(numbers)?
            }
            _ => self.account(bytes, bytes.len(), at)?,
        };
        let [number, t, r, c, salt_len, key_len] = numbers;
        let size = match self.0 {
            SizeWithoutHead => salt_len + key_len,
            SizeWithoutMark => 12 + salt_len + key_len,
            _ => 14 + salt_len + key_len,
        };
        Some(AccountValues {
            size,
            number: number as u32,
            t,
            r,
            c,
            salt_len,
            key_len,
        })
    }
}

impl Subject for Program {
    fn derive(
        &self,
        inputs: &Inputs,
        key: &mut [u8],
        matrix: &mut [u64],
    ) -> Result<Counts, Refusal> {
        Reference.derive(inputs, key, matrix)
    }

    fn check(
        &self,
        inputs: &Inputs,
        stored: &[u8],
        matrix: &mut [u64],
    ) -> Result<Checked, Refusal> {
        Reference.check(inputs, stored, matrix)
    }

    fn cost(&self, given: &Parameters, rho: u64) -> Result<Counts, Refusal> {
        Reference.cost(given, rho)
    }

    fn walk(&self, r: u64, row0: u64) -> Result<u64, Refusal> {
        Reference.walk(r, row0)
    }

    fn book_find(&self, book: &[u8], used: u64, number: u32) -> Option<Result<u64, Refusal>> {
        let found = self.look_up(book, used, number);
        let told = |at: usize| match self.0 {
            PlaceAfterTheMark => at as u64 + 2,
            PlaceIsTheCount => {
                let places = self.places(book, used as usize).0;
                places.iter().filter(|other| **other < at).count() as u64
            }
            _ => at as u64,
        };
        Some(found.map(told))
    }

    fn book_add(
        &self,
        book: &mut [u8],
        used: u64,
        account: &Account,
    ) -> Option<Result<u64, Refusal>> {
        Some(self.add(book, used, account))
    }

    fn book_remove(&self, book: &mut [u8], used: u64, number: u32) -> Option<Result<u64, Refusal>> {
        Some(self.remove(book, used, number))
    }

    fn book_check(
        &self,
        password: &[u8],
        book: &[u8],
        used: u64,
        number: u32,
        matrix: &mut [u64],
    ) -> Option<Result<Checked, Refusal>> {
        Some(self.check_account(password, book, used, number, matrix))
    }

    fn book_account(&self, used_part: &[u8], place: u64) -> Option<AccountValues> {
        Some(self.values(used_part, place).unwrap_or_default())
    }
}

/// The cases of an operation.
fn cases(op: &str) -> Vec<Case> {
    let cases = common::cases().into_iter().map(|(_, case)| case);
    cases
        .filter(|case| write::op(&case.question) == op)
        .collect()
}

/// Whether some case has another answer, or shows that a lent buffer was changed.
fn is_noticed(fault: Fault, cases: &[Case]) -> bool {
    let differs =
        |case: &Case| run::ask(&Program(fault), &case.question) != Ok(case.answer.clone());
    cases.iter().any(differs)
}

const OPERATIONS: [&str; 5] = [
    "book_find",
    "book_add",
    "book_remove",
    "book_check",
    "book_account",
];

/// Shows that below nothing but the fault is noticed.
#[test]
fn the_rules_as_they_stand_are_not_noticed() {
    for op in OPERATIONS {
        for case in cases(op) {
            let found = run::ask(&Program(Nothing), &case.question);
            assert_eq!(found, Ok(case.answer), "case {}", case.number);
        }
    }
}

/// Requires that the cases of each of some operations notice each of some faults.
#[track_caller]
fn assert_noticed(operations: &[&str], faults: &[Fault]) {
    for op in operations {
        let cases = cases(op);
        for fault in faults {
            assert!(is_noticed(*fault, &cases), "{op}: {fault:?}");
        }
    }
}

#[test]
fn every_wrong_reading_of_an_account_is_noticed() {
    let faults = [
        MarkOfOneByte(0),
        MarkOfOneByte(1),
        MarkBackward,
        NoMark,
        MarkOfTheFirstAlone,
        HighestFirst(Rows),
        HighestFirst(Columns),
        HighestFirst(Key),
        LowestByteAlone(Columns),
        LowestByteAlone(Rows),
        LowestByteAlone(Key),
        FieldsExchanged(Rows, Columns),
        FieldsExchanged(Salt, Key),
        HeadAloneWhole,
        HeadOneByteShorter,
        LimitsIgnored,
    ];
    assert_noticed(&["book_find", "book_account"], &faults);
    assert_noticed(&["book_find"], &[MarkInEitherCase, WholeBySlice]);
    let numbers = [HighestFirst(Number), LowestByteAlone(Number)];
    assert_noticed(&OPERATIONS, &numbers);
    // These are found by damaged or long books alone, of which the other operations have fewer.
    let faults = [
        MarkOfOneByte(0),
        MarkOfOneByte(1),
        NoMark,
        HighestFirst(Rows),
        FieldsExchanged(Salt, Key),
        WholeBySlice,
    ];
    assert_noticed(&["book_add", "book_remove"], &faults);
}

#[test]
fn every_moved_limit_is_noticed() {
    for field in [Time, Rows, Columns, Salt, Key] {
        for by in [-1, 1] {
            for place in [Where::Book, Where::New] {
                let faults = [Lowest(field, by, place), Highest(field, by, place)];
                for fault in faults {
                    // No T is below 0, and no byte above 255.
                    let is_none = matches!(fault, Lowest(Time, -1, _))
                        || matches!(fault, Highest(Time, 1, Where::Book));
                    if is_none {
                        continue;
                    }
                    match place {
                        Where::New => assert_noticed(&["book_add"], &[fault]),
                        Where::Book => assert_noticed(&["book_find", "book_account"], &[fault]),
                    }
                }
            }
        }
    }
    let cut = [
        CutBeforeTheChecks(Time, 8),
        CutBeforeTheChecks(Time, 32),
        CutBeforeTheChecks(Rows, 16),
        CutBeforeTheChecks(Rows, 32),
        CutBeforeTheChecks(Columns, 16),
        CutBeforeTheChecks(Columns, 32),
        CutBeforeTheChecks(Salt, 8),
        CutBeforeTheChecks(Key, 16),
        LongSaltIsShort,
    ];
    assert_noticed(&["book_add"], &cut);
}

#[test]
fn every_wrong_used_part_is_noticed() {
    let faults = [
        UsedPastTheSliceTaken,
        UsedCutTo(32),
        UsedOneMoreTaken,
        WholeSliceRefused,
        SliceForTheUsedPart,
        RestTaken,
        RestShorterThanAHeadTaken,
    ];
    assert_noticed(&["book_find", "book_add", "book_remove"], &faults);
    let all = [8, 16, 63].map(UsedCutTo);
    assert_noticed(&["book_find"], &all);
    assert_noticed(&["book_find", "book_add", "book_remove"], &[EmptyRefused]);
    let looked_up = ["book_find", "book_remove", "book_check"];
    assert_noticed(&looked_up, &[DamageAfterTheAccountTaken]);
    assert_noticed(&["book_check"], &[UsedPastTheSliceTaken, UsedOneMoreTaken]);
}

#[test]
fn every_wrong_test_of_the_numbers_is_noticed() {
    let faults = [
        TwiceTaken,
        TwiceInARowAloneSeen,
        TwiceTheFirstAloneSeen,
        TwiceByWholeAccount,
    ];
    assert_noticed(&["book_find", "book_add", "book_remove"], &faults);
    let by_number = [
        TwiceTheAskedAloneSeen,
        TwiceByLowBits(8),
        TwiceByLowBits(16),
        TwiceByLowBits(24),
        TwiceByLowBits(31),
        TwiceWithinBlocksSeen(16),
        TwiceWithinBlocksSeen(32),
        TwiceWithinBlocksSeen(64),
        FoundByLowBits(8),
        FoundByLowBits(16),
        FoundByLowBits(24),
        FoundByLowBits(31),
    ];
    assert_noticed(&["book_find"], &by_number);
    assert_noticed(&["book_check"], &[TwiceTaken]);
    let places = [PlaceAfterTheMark, PlaceIsTheCount, AbsentAtTheEnd];
    assert_noticed(&["book_find"], &places);
}

#[test]
fn every_fault_of_adding_is_noticed() {
    let faults = [
        OldLeft,
        OldKeepsItsPlace,
        AddedFirst,
        RepeatedIgnored,
        RoomBesideTheOld,
        Room(1),
        Room(-1),
        OldRemovedOnRefusal,
        CutWhereRoomEnds,
        WrittenHighestFirst(Number),
        WrittenHighestFirst(Rows),
        WrittenHighestFirst(Columns),
        WrittenHighestFirst(Key),
        WrittenKeyFirst,
        MarkNotWritten,
    ];
    assert_noticed(&["book_add"], &faults);
}

/// What adding and removing have in common. Where the freed bytes are overwritten by a longer account, adding shows nothing.
#[test]
fn every_fault_of_moving_is_noticed() {
    let faults = [
        MovedBy(1),
        MovedBy(-1),
        NotMoved,
        NextAloneMoved,
        LastInThePlace,
        FreedLeft,
        FreedZeroed(1),
        FreedZeroed(-1),
        RestZeroed,
        UsedIsTheOld,
        UsedIsThePlace,
        UsedIsTheSlice,
        UsedAfter(1),
        UsedAfter(-1),
    ];
    assert_noticed(&["book_add", "book_remove"], &faults);
}

#[test]
fn every_fault_of_checking_is_noticed() {
    let faults = [
        Always(true),
        Always(false),
        FirstByteCompared,
        LastByteNotCompared,
        FirstAccountChecked,
        LastAccountChecked,
        CountsLeftOut,
        MatrixLeft,
        WholeMatrixWiped,
        LeastMatrixEnough,
    ];
    assert_noticed(&["book_check"], &faults);
}

#[test]
fn every_fault_of_reading_a_place_is_noticed() {
    let faults = [
        SizeWithoutHead,
        SizeWithoutMark,
        CutAccountTold,
        AccountOfDamagedBookHidden,
        NextAccountTold,
        PlaceCutTo(32),
        PlaceCutTo(63),
    ];
    assert_noticed(&["book_account"], &faults);
}

/// Any check made before any that comes first in the right order, and any refusal told with another number.
#[test]
fn every_wrong_order_is_noticed() {
    for (op, order) in [
        ("book_find", BOOK_FIND_CHECKS),
        ("book_remove", BOOK_FIND_CHECKS),
        ("book_add", BOOK_ADD_CHECKS),
        ("book_check", BOOK_CHECK_CHECKS),
    ] {
        let cases = cases(op);
        for (place, first) in order.iter().enumerate() {
            for later in &order[place + 1..] {
                let numbers = [first.number(), later.number()];
                let [first_number, later_number] = numbers;
                for fault in [
                    RefusedWith(first_number, later_number),
                    RefusedWith(later_number, first_number),
                ] {
                    assert!(is_noticed(fault, &cases), "{op}: {fault:?}");
                }
                // No salt is too short and too long.
                if (*first, *later) == (Refusal::SaltTooShort, Refusal::SaltTooLong) {
                    continue;
                }
                let fault = CheckedBefore(later_number, first_number);
                assert!(is_noticed(fault, &cases), "{op}: {fault:?}");
            }
        }
    }
}
