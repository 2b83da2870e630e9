//! The book of accounts of request #110: a lent slice of bytes with a used length. The used part is the accounts' bytes,
//! one account after the other, each number once.
//!
//! Every operation reads all accounts of the book, and adding and removing write all of them anew: what a book holds is
//! here a list of accounts, and no byte is moved by itself.

use crate::account::{Account, AccountValues};
use crate::derivation::{check, Checked};
use crate::refusal::{self, Refusal};
use std::collections::HashSet;

/// Finds an account: answers the place of its mark's first byte in the book.
pub fn book_find(book: &[u8], used: u64, number: u32) -> Result<u64, Refusal> {
    let accounts = accounts(book, used)?;
    let index = index_of(&accounts, number)?;
    Ok(encode(&accounts[..index]).len() as u64)
}

/// Adds an account as the last one, in place of one of the same number if there is any; answers the new used length.
pub fn book_add(book: &mut [u8], used: u64, account: &Account) -> Result<u64, Refusal> {
    refusal::check_parameters(&account.parameters())?;
    let mut accounts = accounts(book, used)?;
    accounts.retain(|other| other.number != account.number);
    accounts.push(*account);
    let bytes = encode(&accounts);
    refusal::check_book_room(book.len() >= bytes.len())?;
    Ok(replace_used(book, used, &bytes))
}

/// Removes an account, so that the later ones move up; answers the new used length.
pub fn book_remove(book: &mut [u8], used: u64, number: u32) -> Result<u64, Refusal> {
    let mut accounts = accounts(book, used)?;
    let index = index_of(&accounts, number)?;
    accounts.remove(index);
    let bytes = encode(&accounts);
    Ok(replace_used(book, used, &bytes))
}

/// Checks a password against the key of an account, as the check of a stored key does.
pub fn book_check(
    password: &[u8],
    book: &[u8],
    used: u64,
    number: u32,
    matrix: &mut [u64],
) -> Result<Checked, Refusal> {
    refusal::check_password(password.len() as u64)?;
    let accounts = accounts(book, used)?;
    let account = accounts[index_of(&accounts, number)?];
    // The account is within the limits, so that of the check's own refusals only the matrix' is left.
    check(&account.inputs(password), account.key, matrix)
}

/// The account whose mark stands at a place of the used part: the step of a reader, who goes on at the place plus the
/// size. Nothing else in the used part is looked at; where no whole account within the limits stands, all values are 0.
pub fn book_account(used_part: &[u8], place: u64) -> AccountValues {
    let from = usize::try_from(place).unwrap_or(usize::MAX);
    let account = used_part.get(from..).and_then(Account::decode);
    account.map_or_else(AccountValues::default, |account| account.values())
}

/// The bytes of some accounts, in their order.
pub fn encode(accounts: &[Account]) -> Vec<u8> {
    accounts.iter().flat_map(Account::encode).collect()
}

/// The accounts that some bytes are made of; None if anything else stands among them, or a number twice.
pub fn decode(used_part: &[u8]) -> Option<Vec<Account<'_>>> {
    let mut accounts = Vec::new();
    let mut rest = used_part;
    while !rest.is_empty() {
        let account = Account::decode(rest)?;
        rest = &rest[account.values().size as usize..];
        accounts.push(account);
    }
    let numbers: HashSet<u32> = accounts.iter().map(|account| account.number).collect();
    (numbers.len() == accounts.len()).then_some(accounts)
}

/// The accounts of a good book.
fn accounts(book: &[u8], used: u64) -> Result<Vec<Account<'_>>, Refusal> {
    let used = usize::try_from(used).unwrap_or(usize::MAX);
    let used_part = book.get(..used);
    used_part.and_then(decode).ok_or(Refusal::DamagedBook)
}

/// Where the account of a number stands among the accounts.
fn index_of(accounts: &[Account], number: u32) -> Result<usize, Refusal> {
    let index = accounts.iter().position(|account| account.number == number);
    index.ok_or(Refusal::NoAccount)
}

/// Puts other bytes in the place of the used part and answers how many. What is then no longer used becomes zero; what
/// neither was nor is used stays.
fn replace_used(book: &mut [u8], used: u64, bytes: &[u8]) -> u64 {
    book[..used as usize].fill(0);
    book[..bytes.len()].copy_from_slice(bytes);
    bytes.len() as u64
}
