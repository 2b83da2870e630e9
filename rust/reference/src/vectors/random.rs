//! Random questions from a seed, for runs longer than the vectors file.

use super::case::{Bytes, Given, NamedSettings, Question};
use crate::refusal::{ROTATIONS, ROUNDS};
use crate::settings::{Mixer, Settings};

/// The generator SplitMix64: small, and easy to write again elsewhere.
#[derive(Clone, Debug)]
pub struct Random(u64);

impl Random {
    /// Starts from a seed.
    pub fn new(seed: u64) -> Random {
        Random(seed)
    }

    /// The next 64 bits.
    pub fn word(&mut self) -> u64 {
        self.0 = self.0.wrapping_add(0x9e37_79b9_7f4a_7c15);
        let mut word = self.0;
        word = (word ^ (word >> 30)).wrapping_mul(0xbf58_476d_1ce4_e5b9);
        word = (word ^ (word >> 27)).wrapping_mul(0x94d0_49bb_1331_11eb);
        word ^ (word >> 31)
    }

    /// A number from low to high, both included.
    pub fn between(&mut self, low: u64, high: u64) -> u64 {
        low + self.word() % (high - low + 1)
    }

    /// True once in so many times.
    pub fn once_in(&mut self, times: u64) -> bool {
        self.word().is_multiple_of(times)
    }

    /// This many bytes, the lowest of a word each.
    pub fn bytes(&mut self, count: u64) -> Vec<u8> {
        (0..count).map(|_| self.word() as u8).collect()
    }

    /// One of some values.
    pub(super) fn one_of<T: Copy>(&mut self, values: &[T]) -> T {
        values[(self.word() % values.len() as u64) as usize]
    }

    /// A number from low to high, seldom one up to the highest that is accepted.
    pub(super) fn mostly(&mut self, low: u64, high: u64, highest: u64, seldom: u64) -> u64 {
        let high = if self.once_in(seldom) { highest } else { high };
        self.between(low, high)
    }
}

/// A recorded derivation that is accepted, or in one of eight times may be refused.
pub fn question(random: &mut Random) -> Question {
    let password_len = random.mostly(0, 150, 1024, 8);
    let salt_len = random.between(8, 64);
    let t = random.mostly(0, 3, 255, 200);
    let r = random.mostly(3, 40, 700, 50);
    let c = random.mostly(1, 8, 256, 50);
    let mut given = Given {
        password: Bytes::Listed(random.bytes(password_len)),
        salt: Bytes::Listed(random.bytes(salt_len)),
        t,
        r,
        c,
        settings: Some(NamedSettings::from(settings(random))),
        matrix_words: 0,
    };
    let mut key_len = random.mostly(1, 200, 1024, 8);
    let fitting = given.parameters(key_len);
    given.matrix_words = fitting.matrix_words() + random.mostly(0, 0, 30, 4);
    // Up to a record with a number in each word and beyond: what such a one has more must be kept.
    let most_spare = fitting.record_words() + 30;
    let mut record_words = fitting.record_words() + random.mostly(0, 0, most_spare, 4);
    if random.once_in(8) {
        spoil(random, &mut given, &mut key_len, &mut record_words);
    }
    // Drawn after all else of a question, whose draws are the ones from before the mixer was a setting.
    if let Some(settings) = given.settings.as_mut() {
        settings.mixer = Some(mixer(random));
    }
    Question::DeriveRecorded {
        given,
        key_len,
        record_words,
        in_full: false,
    }
}

/// The usual rounds and rotation, or once in two times any that are accepted, with the plain mixer.
pub fn settings(random: &mut Random) -> Settings {
    if random.once_in(2) {
        any_pair(random).settings()
    } else {
        Settings::USUAL
    }
}

/// Any rounds and rotation that are accepted.
pub fn any_pair(random: &mut Random) -> NamedSettings {
    let rho = random.between(*ROUNDS.start(), *ROUNDS.end());
    let omega = random.between(*ROTATIONS.start(), *ROTATIONS.end());
    NamedSettings::pair(rho, omega)
}

/// Either mixer.
pub fn mixer(random: &mut Random) -> Mixer {
    if random.once_in(2) {
        Mixer::BlaMka
    } else {
        Mixer::Plain
    }
}

/// Sets some of the sizes to values at or beyond their limits.
fn spoil(random: &mut Random, given: &mut Given, key_len: &mut u64, record_words: &mut u64) {
    if random.once_in(4) {
        *key_len = random.one_of(&[0, 1, 1024, 1025, 1 << 16]);
    }
    if random.once_in(4) {
        given.password = Bytes::Zeros(random.one_of(&[0, 1024, 1025, 1 << 16]));
    }
    if random.once_in(4) {
        given.salt = Bytes::Zeros(random.one_of(&[0, 7, 8, 64, 65, 1 << 16]));
    }
    if random.once_in(4) {
        given.t = random.one_of(&[0, 1, 256, 1 << 32 | 1, u64::MAX]);
    }
    if random.once_in(4) {
        given.r = random.one_of(&[0, 2, 3, 16_385, 1 << 32 | 3, u64::MAX]);
    }
    if random.once_in(4) {
        given.c = random.one_of(&[0, 1, 257, 1 << 32 | 1, u64::MAX]);
    }
    if let Some(settings) = given.settings.as_mut().filter(|_| random.once_in(4)) {
        settings.rho = random.one_of(&[0, 1, 12, 13, 1 << 32 | 1, u64::MAX]);
    }
    if let Some(settings) = given.settings.as_mut().filter(|_| random.once_in(4)) {
        settings.omega = random.one_of(&[0, 1, 11, 12, 1 << 32 | 2, u64::MAX]);
    }
    if random.once_in(4) {
        given.matrix_words = given.matrix_words.saturating_sub(random.between(1, 40));
    }
    if random.once_in(4) {
        *record_words = record_words.saturating_sub(random.between(1, 40));
    }
}
