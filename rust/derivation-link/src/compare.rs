//! A program held against the second one, [`Reference`], on random inputs.
//!
//! A seed stands for one comparison, so a failure is repeated by its seed alone.

use crate::books;
use crate::choices;
use crate::guarded::{byte, word, Guarded};
use crate::lanes::{self, ComparedLanes};
use crate::lines;
use lyra2_reference::vectors::random::{self, Random};
use lyra2_reference::vectors::{Reference, Subject};
use lyra2_reference::{Checked, Choice, Counts, Inputs, Parameters, Recorded, Refusal, Settings};
use std::fmt::{Debug, LowerHex};

/// What a comparison was about.
#[derive(Debug)]
pub struct Compared {
    /// The six numbers of the input.
    pub sizes: Parameters,
    /// Rounds, rotation and mixer.
    pub settings: Settings,
    /// What both programs answered to the recorded derivation, which alone has all the checks of a derivation.
    pub answer: Result<Recorded, Refusal>,
    /// What both programs answered to the login lines that were read and written: no refusal, or one.
    pub lines: Vec<Result<(), Refusal>>,
    /// What both programs chose, or with what they refused to choose.
    pub choices: Vec<Result<Choice, Refusal>>,
    /// What both programs answered to the calls on books of accounts: no refusal, or one.
    pub books: Vec<Result<(), Refusal>>,
    /// What the derivation with lanes was about, and what both programs answered to it.
    pub lanes: ComparedLanes,
}

/// The sizes of a call.
#[derive(Clone, Copy, Debug)]
struct Sizes {
    given: Parameters,
    settings: Settings,
    matrix_words: u64,
    record_words: u64,
}

/// What a derivation reads, between guards.
struct Lent {
    password: Guarded<u8>,
    salt: Guarded<u8>,
    sizes: Sizes,
}

/// What the plain and the recorded derivation leave. The key is the plain one's, and the recorded one is held to
/// the same. Each has a used matrix of its own: the plain one's is wiped, and a check's as well; the recorded one's
/// is the end matrix. The used parts of a refused call are empty.
struct End {
    plain: Result<Counts, Refusal>,
    recorded: Result<Recorded, Refusal>,
    key: Vec<u8>,
    wiped_matrix: Vec<u64>,
    end_matrix: Vec<u64>,
    used_record: Vec<u64>,
}

/// Login lines of a seed.
const LINES: usize = 4;
/// Choices of costs of a seed.
const CHOICES: usize = 4;
/// Books of a seed that are asked one question each.
const BOOKS: usize = 4;
/// Calls on the one book of a seed that goes from call to call.
const BOOK_STEPS: u64 = 8;

/// Makes the comparison of a seed: both derivations, the cost question, three checks, some login lines, some choices, some books,
/// and a derivation with lanes, its cost and three checks. What a later request adds is drawn last, so that all else of a seed is
/// what it was.
pub fn compare(subject: &impl Subject, seed: u64) -> Result<Compared, String> {
    let mut random = Random::new(seed);
    let mut sizes = draw_sizes(&mut random);
    // From draws of its own: all else of a seed is what it was before the mixer was a setting.
    sizes.settings.mixer = random::mixer(&mut Random::new(!seed));
    let lent = Lent {
        password: Guarded::random(&mut random, sizes.given.password_len as usize, byte),
        salt: Guarded::random(&mut random, sizes.given.salt_len as usize, byte),
        sizes,
    };
    let at_sizes = |what: String| format!("{sizes:?}: {what}");
    let end = reference_end(&lent);
    compare_plain(subject, &lent, &end, &mut random).map_err(at_sizes)?;
    compare_recorded(subject, &lent, &end, &mut random).map_err(at_sizes)?;
    compare_cost(subject, &lent, &end).map_err(at_sizes)?;
    for (stored, matches) in stored_keys(&end.key, &mut random) {
        compare_check(subject, &lent, &end, &stored, matches, &mut random).map_err(at_sizes)?;
    }
    lent.password.used("password", 0).map_err(at_sizes)?;
    lent.salt.used("salt", 0).map_err(at_sizes)?;
    let lines = (0..LINES).map(|_| lines::compare_question(subject, &mut random));
    let lines = lines.collect::<Result<_, _>>()?;
    let choices = (0..CHOICES).map(|_| choices::compare_random(subject, &mut random));
    let choices = choices.collect::<Result<_, _>>()?;
    let books = (0..BOOKS).map(|_| books::compare_question(subject, &mut random));
    let mut books = books.collect::<Result<Vec<_>, _>>()?;
    books.extend(books::compare_history(subject, BOOK_STEPS, &mut random)?);
    let lanes = lanes::compare_random(subject, &mut random)?;
    Ok(Compared {
        sizes: sizes.given,
        settings: sizes.settings,
        answer: end.recorded,
        lines,
        choices,
        books,
        lanes,
    })
}

/// Lengths from everywhere between their limits; T, R and C mostly small, so that a run gets far. Rounds and rotation are
/// the usual ones half the time, and the mixer is the plain one.
fn draw_sizes(random: &mut Random) -> Sizes {
    let given = Parameters {
        key_len: random.between(1, 1024),
        password_len: random.between(0, 1024),
        salt_len: random.between(8, 64),
        t: mostly_small(random, 0, [2, 9, 255]),
        r: mostly_small(random, 3, [12, 70, 600]),
        c: mostly_small(random, 1, [4, 20, 256]),
    };
    let mut sizes = Sizes {
        given,
        settings: random::settings(random),
        matrix_words: given.matrix_words() + random.between(0, 40),
        record_words: record_words(&given, random.between(0, 40)),
    };
    if random.once_in(16) {
        for _ in 0..random.between(1, 3) {
            spoil(random, &mut sizes);
        }
    }
    sizes
}

/// Words to lend for the record, so many to spare; in one of four cases also as many again as are used, which a number in
/// each word would take and which have to be kept.
fn record_words(given: &Parameters, spare: u64) -> u64 {
    let used = given.record_words();
    let again = if spare % 4 == 3 { used } else { 0 };
    used + again + spare
}

/// A number up to the first of three limits; seldom up to the second, and hardly ever up to the third.
pub(crate) fn mostly_small(
    random: &mut Random,
    low: u64,
    [usual, seldom, hardly]: [u64; 3],
) -> u64 {
    let high = match random.between(0, 999) {
        0 => hardly,
        1..=100 => seldom,
        _ => usual,
    };
    random.between(low, high)
}

/// Puts one size or setting outside its limits, or makes a buffer shorter, which may leave it long enough.
fn spoil(random: &mut Random, sizes: &mut Sizes) {
    let low = random.once_in(2);
    let pick = |below: u64, above: u64| if low { below } else { above };
    let (given, settings) = (&mut sizes.given, &mut sizes.settings);
    match random.between(1, 10) {
        1 => given.key_len = pick(0, random.between(1025, 2000)),
        2 => given.password_len = random.between(1025, 2000),
        3 => given.salt_len = pick(random.between(0, 7), random.between(65, 200)),
        4 => given.t = pick(256, random.between(256, u64::MAX)),
        5 => given.r = pick(random.between(0, 2), random.between(16_385, u64::MAX)),
        6 => given.c = pick(0, random.between(257, u64::MAX)),
        7 => shorten(random, &mut sizes.matrix_words),
        8 => settings.rho = pick(0, random.between(13, u64::MAX)),
        9 => settings.omega = pick(0, random.between(12, u64::MAX)),
        // One word too few, which the random lengths hardly ever are; never more than was lent before.
        _ if low => {
            let one_short = given.record_words().saturating_sub(1);
            sizes.record_words = sizes.record_words.min(one_short);
        }
        _ => shorten(random, &mut sizes.record_words),
    }
}

fn shorten(random: &mut Random, words: &mut u64) {
    *words = words.saturating_sub(random.between(1, 80));
}

fn inputs(lent: &Lent) -> Inputs<'_> {
    Inputs {
        password: lent.password.lent(),
        salt: lent.salt.lent(),
        t: lent.sizes.given.t,
        r: lent.sizes.given.r,
        c: lent.sizes.given.c,
        settings: lent.sizes.settings,
    }
}

fn reference_end(lent: &Lent) -> End {
    let given = lent.sizes.given;
    let zeros = |words: u64| vec![0; words as usize];
    let mut key = vec![0; given.key_len as usize];
    let mut wiped_matrix = zeros(lent.sizes.matrix_words);
    let plain = Reference.derive(&inputs(lent), &mut key, &mut wiped_matrix);
    wiped_matrix.truncate(plain.map_or(0, |_| given.matrix_words() as usize));

    let mut end_matrix = zeros(lent.sizes.matrix_words);
    let mut used_record = zeros(lent.sizes.record_words);
    let recorded = lyra2_reference::derive_recorded(
        &inputs(lent),
        &mut key.clone(),
        &mut end_matrix,
        &mut used_record,
    );
    end_matrix.truncate(recorded.map_or(0, |_| given.matrix_words() as usize));
    used_record.truncate(recorded.map_or(0, |_| given.record_words() as usize));
    End {
        plain,
        recorded,
        key,
        wiped_matrix,
        end_matrix,
        used_record,
    }
}

fn compare_plain(
    subject: &impl Subject,
    lent: &Lent,
    end: &End,
    random: &mut Random,
) -> Result<(), String> {
    let mut key = Guarded::random(random, end.key.len(), byte);
    let mut matrix = Guarded::random(random, lent.sizes.matrix_words as usize, word);
    let answer = subject.derive(&inputs(lent), key.lent_mut(), matrix.lent_mut());
    same("derive: answer", &end.plain, &answer)?;
    let due_key = if end.plain.is_ok() { &end.key } else { &[][..] };
    compare_used("derive: key", due_key, &key)?;
    compare_used("derive: matrix", &end.wiped_matrix, &matrix)
}

fn compare_recorded(
    subject: &impl Subject,
    lent: &Lent,
    end: &End,
    random: &mut Random,
) -> Result<(), String> {
    let mut key = Guarded::random(random, end.key.len(), byte);
    let mut matrix = Guarded::random(random, lent.sizes.matrix_words as usize, word);
    let mut record = Guarded::random(random, lent.sizes.record_words as usize, word);
    let answer = subject
        .derive_recorded(
            &inputs(lent),
            key.lent_mut(),
            matrix.lent_mut(),
            record.lent_mut(),
        )
        .ok_or("the program has no recorded derivation")?;
    same("derive_recorded: answer", &end.recorded, &answer)?;
    let accepted = end.recorded.is_ok();
    let due_key = if accepted { &end.key } else { &[][..] };
    compare_used("derive_recorded: key", due_key, &key)?;
    compare_used("derive_recorded: matrix", &end.end_matrix, &matrix)?;
    compare_used("derive_recorded: record", &end.used_record, &record)
}

/// The first places of a lent buffer must hold what is due, and all others what they held.
pub(crate) fn compare_used<T>(name: &str, due: &[T], lent: &Guarded<T>) -> Result<(), String>
where
    T: Copy + PartialEq + LowerHex,
{
    let found = lent.used(name, due.len())?;
    let differing = (0..).zip(due.iter().zip(found)).find(|(_, (x, y))| x != y);
    match differing {
        Some((place, (x, y))) => Err(format!(
            "{name}: place {place}: {x:x} is due, {y:x} was found"
        )),
        None => Ok(()),
    }
}

fn compare_cost(subject: &impl Subject, lent: &Lent, end: &End) -> Result<(), String> {
    let (given, rho) = (&lent.sizes.given, lent.sizes.settings.rho);
    let due = match end.plain {
        // The cost question has neither a matrix nor a rotation, and no such refusals.
        Err(Refusal::MatrixWords | Refusal::Rotation) => Reference.cost(given, rho),
        answer => answer,
    };
    same("cost", &due, &subject.cost(given, rho))
}

/// The key; the key with one bit flipped; the key with another last byte. Each with the check's answer.
pub(crate) fn stored_keys(key: &[u8], random: &mut Random) -> Vec<(Vec<u8>, bool)> {
    let mut keys = vec![(key.to_vec(), true)];
    if let Some(last) = key.len().checked_sub(1) {
        let mut one_bit = key.to_vec();
        one_bit[random.between(0, last as u64) as usize] ^= 1 << random.between(0, 7);
        let mut last_byte = key.to_vec();
        last_byte[last] ^= random.between(1, 255) as u8;
        keys.extend([(one_bit, false), (last_byte, false)]);
    }
    keys
}

fn compare_check(
    subject: &impl Subject,
    lent: &Lent,
    end: &End,
    stored: &[u8],
    matches: bool,
    random: &mut Random,
) -> Result<(), String> {
    let stored = Guarded::holding(random, stored, byte);
    let mut matrix = Guarded::random(random, lent.sizes.matrix_words as usize, word);
    let answer = subject.check(&inputs(lent), stored.lent(), matrix.lent_mut());
    let due = end.plain.map(|counts| Checked { matches, counts });
    same("check: answer", &due, &answer)?;
    stored.used("check: stored key", 0)?;
    compare_used("check: matrix", &end.wiped_matrix, &matrix)
}

/// The answer that is due must be the one that was found.
pub(crate) fn same<A: PartialEq + Debug>(name: &str, due: &A, found: &A) -> Result<(), String> {
    if due == found {
        return Ok(());
    }
    Err(format!("{name}: {due:?} is due, {found:?} was found"))
}
