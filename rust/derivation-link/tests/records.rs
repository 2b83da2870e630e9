//! The words of the record through the static library: how it takes any of them apart, which ones a recorded derivation
//! writes, and which of the lent ones it keeps.

use derivation_link::guarded::{byte, word, Guarded};
use derivation_link::Proved;
use lyra2_reference::record::{numbers, visits, Visit};
use lyra2_reference::vectors::random::{self, Random};
use lyra2_reference::vectors::{Reference, Subject};
use lyra2_reference::{Inputs, Refusal};

/// The first number of a word has 16 bits, and the second all the others.
fn parted(word: u64) -> [u64; 2] {
    [word & 0xffff, word >> 16]
}

fn assert_parted(word: u64) {
    let found = lyra2_sys::record_pair(word);
    assert_eq!(found, numbers(word), "{word:#x}");
    assert_eq!(found, parted(word), "{word:#x}");
}

#[test]
fn any_word_is_taken_apart_as_by_the_second_program() {
    let edges = [
        0,
        1,
        255,
        256,
        0xffff,
        0x1_0000,
        0x1_0001,
        16_383 << 16 | 16_383,
    ];
    edges.into_iter().for_each(assert_parted);
    for bit in 0..64 {
        // The bit alone, all below it, all but it.
        let around = [1 << bit, (1 << bit) - 1, !(1 << bit)];
        around.into_iter().for_each(assert_parted);
    }
    assert_parted(u64::MAX);
    let mut random = Random::new(39_700_000);
    for _ in 0..1_000_000 {
        assert_parted(random.word() >> random.between(0, 63));
    }
}

/// So no word can stand for another.
#[test]
fn words_that_differ_in_a_bit_have_other_numbers() {
    let mut random = Random::new(108);
    for _ in 0..2_000 {
        let one = random.word();
        let pair = lyra2_sys::record_pair(one);
        assert_eq!(pair[0] + 65_536 * pair[1], one);
        for bit in 0..64 {
            let other = lyra2_sys::record_pair(one ^ 1 << bit);
            assert_ne!(pair, other, "{one:#x}, bit {bit}");
        }
    }
}

/// T, R and C: the smallest, rows from 256 on, the most columns, some between them, and no visits.
const SHAPES: [[u64; 3]; 9] = [
    [1, 3, 1],
    [2, 3, 1],
    [1, 4, 2],
    [3, 5, 7],
    [1, 300, 1],
    [1, 513, 2],
    [1, 3, 256],
    [0, 3, 1],
    [0, 9, 4],
];

/// The lent buffers of a call, between guards.
struct Lent {
    password: Guarded<u8>,
    salt: Guarded<u8>,
    key: Guarded<u8>,
    matrix: Guarded<u64>,
    record: Guarded<u64>,
}

impl Lent {
    /// Random contents. The matrix has words to spare, the record as many words as are wanted.
    fn random(random: &mut Random, [_, r, c]: [u64; 3], record_words: usize) -> Lent {
        let matrix_words = (12 * r * c) as usize + 5;
        Lent {
            password: Guarded::random(random, 20, byte),
            salt: Guarded::random(random, 16, byte),
            key: Guarded::random(random, 32, byte),
            matrix: Guarded::random(random, matrix_words, word),
            record: Guarded::random(random, record_words, word),
        }
    }

    /// Both programs' recorded derivations: the proved one over these buffers, the second one's used record from its own.
    fn derive(
        &mut self,
        random: &mut Random,
        [t, r, c]: [u64; 3],
    ) -> (Result<(), Refusal>, Vec<u64>) {
        let mut settings = random::settings(random);
        settings.mixer = random::mixer(random);
        let inputs = Inputs {
            password: self.password.lent(),
            salt: self.salt.lent(),
            t,
            r,
            c,
            settings,
        };
        let (key, matrix) = (self.key.lent_mut(), self.matrix.lent_mut());
        let mut due = vec![0; (r * t * (1 + c)) as usize];
        let answer =
            Reference.derive_recorded(&inputs, &mut key.to_vec(), &mut matrix.to_vec(), &mut due);
        assert!(matches!(answer, Some(Ok(_))), "{inputs:?}");
        let answer = Proved.derive_recorded(&inputs, key, matrix, self.record.lent_mut());
        let answer = answer.expect("the library has this operation");
        (answer.map(drop), due)
    }

    /// Nothing that is only read was changed, and nothing outside of what may be written.
    fn assert_kept(&self, key: usize, matrix: usize, record: usize) {
        for (name, lent, used) in [
            ("password", &self.password, 0),
            ("salt", &self.salt, 0),
            ("key", &self.key, key),
        ] {
            assert_eq!(lent.used(name, used).err(), None);
        }
        assert_eq!(self.matrix.used("matrix", matrix).err(), None);
        assert_eq!(self.record.used("record", record).err(), None);
    }
}

/// Up to the words that a number in each would take, and more: all past the used ones are kept.
#[test]
fn words_past_the_used_record_are_kept() {
    let mut random = Random::new(108);
    for shape in SHAPES {
        let [t, r, c] = shape;
        let used = (r * t * (1 + c)) as usize;
        for spare in [0, 1, used.saturating_sub(1), used, used + 1, used + 40] {
            let mut lent = Lent::random(&mut random, shape, used + spare);
            let (answer, due) = lent.derive(&mut random, shape);
            assert_eq!(answer, Ok(()), "{shape:?}");
            lent.assert_kept(32, (12 * r * c) as usize, used);
            assert!(
                lent.record.lent()[..used] == due,
                "{shape:?}, {spare} to spare"
            );
        }
    }
}

#[test]
fn short_records_are_refused_and_every_buffer_is_kept() {
    let mut random = Random::new(109);
    for shape in SHAPES {
        let [t, r, c] = shape;
        let used = (r * t * (1 + c)) as usize;
        let mut short = vec![
            0,
            1,
            used / 2,
            used.saturating_sub(2),
            used.saturating_sub(1),
        ];
        short.retain(|words| *words < used);
        for words in short {
            let mut lent = Lent::random(&mut random, shape, words);
            let (answer, _) = lent.derive(&mut random, shape);
            assert_eq!(
                answer,
                Err(Refusal::RecordWords),
                "{shape:?}, {words} words"
            );
            lent.assert_kept(0, 0, 0);
        }
    }
}

/// The visits as the library's own decoder tells them are the second program's.
#[test]
fn visits_read_by_the_library_are_those_of_the_second_program() {
    let mut random = Random::new(110);
    for shape in SHAPES.into_iter().flat_map(|shape| [shape; 4]) {
        let [t, r, c] = shape;
        let mut lent = Lent::random(&mut random, shape, (r * t * (1 + c)) as usize);
        let (answer, due) = lent.derive(&mut random, shape);
        assert_eq!(answer, Ok(()), "{shape:?}");
        let read = lent
            .record
            .lent()
            .chunks(1 + c as usize)
            .map(|words| Visit {
                rows: lyra2_sys::record_pair(words[0]),
                columns: words[1..]
                    .iter()
                    .map(|word| lyra2_sys::record_pair(*word))
                    .collect(),
            });
        let read: Vec<Visit> = read.collect();
        assert_eq!(read.len() as u64, r * t);
        assert!(read
            .iter()
            .all(|visit| visit.rows.iter().all(|row| *row < r)));
        let columns = read.iter().flat_map(|visit| visit.columns.as_flattened());
        assert!(columns.into_iter().all(|column| *column < c));
        assert_eq!(read, visits(&due, c as usize), "{shape:?}");
    }
}
