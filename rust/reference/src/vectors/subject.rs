//! The program that a vectors file is held against.

use crate::{
    Account, AccountValues, Checked, Choice, Counts, Inputs, LaneInputs, Limits, LineParts,
    LineValues, Parameters, Recorded, Refusal,
};

/// The operations of an implementation of Lyra2, as document 01 opens them to callers.
///
/// A program may lack the recorded derivation, the walk program, the login lines, the choice of costs, the book of
/// accounts or the lanes; it then leaves their default, None.
pub trait Subject {
    /// The recorded derivation.
    fn derive_recorded(
        &self,
        _inputs: &Inputs,
        _key: &mut [u8],
        _matrix: &mut [u64],
        _record: &mut [u64],
    ) -> Option<Result<Recorded, Refusal>> {
        None
    }

    /// The plain derivation.
    fn derive(
        &self,
        inputs: &Inputs,
        key: &mut [u8],
        matrix: &mut [u64],
    ) -> Result<Counts, Refusal>;

    /// The check.
    fn check(&self, inputs: &Inputs, stored: &[u8], matrix: &mut [u64])
        -> Result<Checked, Refusal>;

    /// The cost question.
    fn cost(&self, given: &Parameters, rho: u64) -> Result<Counts, Refusal>;

    /// The walk question.
    fn walk(&self, r: u64, row0: u64) -> Result<u64, Refusal>;

    /// The walk program.
    fn walk_program(&self, _input: &[u8]) -> Option<Vec<u8>> {
        None
    }

    /// The reading of a login line.
    fn line_read(
        &self,
        _line: &[u8],
        _salt: &mut [u8],
        _key: &mut [u8],
    ) -> Option<Result<LineValues, Refusal>> {
        None
    }

    /// The writing of a login line; returns its length.
    fn line_write(&self, _parts: &LineParts, _line: &mut [u8]) -> Option<Result<u64, Refusal>> {
        None
    }

    /// The choice of costs.
    fn choose(&self, _limits: &Limits) -> Option<Result<Choice, Refusal>> {
        None
    }

    /// The search for an account; returns its place.
    fn book_find(&self, _book: &[u8], _used: u64, _number: u32) -> Option<Result<u64, Refusal>> {
        None
    }

    /// The adding of an account; returns the new used length.
    fn book_add(
        &self,
        _book: &mut [u8],
        _used: u64,
        _account: &Account,
    ) -> Option<Result<u64, Refusal>> {
        None
    }

    /// The removing of an account; returns the new used length.
    fn book_remove(
        &self,
        _book: &mut [u8],
        _used: u64,
        _number: u32,
    ) -> Option<Result<u64, Refusal>> {
        None
    }

    /// The check of a password against an account.
    fn book_check(
        &self,
        _password: &[u8],
        _book: &[u8],
        _used: u64,
        _number: u32,
        _matrix: &mut [u64],
    ) -> Option<Result<Checked, Refusal>> {
        None
    }

    /// The reading of what stands at a place.
    fn book_account(&self, _used_part: &[u8], _place: u64) -> Option<AccountValues> {
        None
    }

    /// The derivation with lanes.
    fn lanes_derive(
        &self,
        _inputs: &LaneInputs,
        _key: &mut [u8],
        _matrix: &mut [u64],
    ) -> Option<Result<Counts, Refusal>> {
        None
    }

    /// The check with lanes.
    fn lanes_check(
        &self,
        _inputs: &LaneInputs,
        _stored: &[u8],
        _matrix: &mut [u64],
    ) -> Option<Result<Checked, Refusal>> {
        None
    }

    /// The cost question for lanes.
    fn lanes_cost(&self, _given: &Parameters, _p: u64) -> Option<Result<Counts, Refusal>> {
        None
    }
}

/// The implementation of this crate.
pub struct Reference;

impl Subject for Reference {
    fn derive_recorded(
        &self,
        inputs: &Inputs,
        key: &mut [u8],
        matrix: &mut [u64],
        record: &mut [u64],
    ) -> Option<Result<Recorded, Refusal>> {
        Some(crate::derive_recorded(inputs, key, matrix, record))
    }

    fn derive(
        &self,
        inputs: &Inputs,
        key: &mut [u8],
        matrix: &mut [u64],
    ) -> Result<Counts, Refusal> {
        crate::derive(inputs, key, matrix)
    }

    fn check(
        &self,
        inputs: &Inputs,
        stored: &[u8],
        matrix: &mut [u64],
    ) -> Result<Checked, Refusal> {
        crate::check(inputs, stored, matrix)
    }

    fn cost(&self, given: &Parameters, rho: u64) -> Result<Counts, Refusal> {
        crate::cost(given, rho)
    }

    fn walk(&self, r: u64, row0: u64) -> Result<u64, Refusal> {
        crate::walk(r, row0)
    }

    fn walk_program(&self, input: &[u8]) -> Option<Vec<u8>> {
        Some(crate::walk_program(input))
    }

    fn line_read(
        &self,
        line: &[u8],
        salt: &mut [u8],
        key: &mut [u8],
    ) -> Option<Result<LineValues, Refusal>> {
        Some(crate::line_read(line, salt, key))
    }

    fn line_write(&self, parts: &LineParts, line: &mut [u8]) -> Option<Result<u64, Refusal>> {
        Some(crate::line_write(parts, line))
    }

    fn choose(&self, limits: &Limits) -> Option<Result<Choice, Refusal>> {
        Some(crate::choose(limits))
    }

    fn book_find(&self, book: &[u8], used: u64, number: u32) -> Option<Result<u64, Refusal>> {
        Some(crate::book_find(book, used, number))
    }

    fn book_add(
        &self,
        book: &mut [u8],
        used: u64,
        account: &Account,
    ) -> Option<Result<u64, Refusal>> {
        Some(crate::book_add(book, used, account))
    }

    fn book_remove(&self, book: &mut [u8], used: u64, number: u32) -> Option<Result<u64, Refusal>> {
        Some(crate::book_remove(book, used, number))
    }

    fn book_check(
        &self,
        password: &[u8],
        book: &[u8],
        used: u64,
        number: u32,
        matrix: &mut [u64],
    ) -> Option<Result<Checked, Refusal>> {
        Some(crate::book_check(password, book, used, number, matrix))
    }

    fn book_account(&self, used_part: &[u8], place: u64) -> Option<AccountValues> {
        Some(crate::book_account(used_part, place))
    }

    fn lanes_derive(
        &self,
        inputs: &LaneInputs,
        key: &mut [u8],
        matrix: &mut [u64],
    ) -> Option<Result<Counts, Refusal>> {
        Some(crate::lanes_derive(inputs, key, matrix))
    }

    fn lanes_check(
        &self,
        inputs: &LaneInputs,
        stored: &[u8],
        matrix: &mut [u64],
    ) -> Option<Result<Checked, Refusal>> {
        Some(crate::lanes_check(inputs, stored, matrix))
    }

    fn lanes_cost(&self, given: &Parameters, p: u64) -> Option<Result<Counts, Refusal>> {
        Some(crate::lanes_cost(given, p))
    }
}
