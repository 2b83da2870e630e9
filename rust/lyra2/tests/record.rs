//! Reading a record: the words of real derivations, strange words, and lengths that are no whole number of visits.

mod common;

use common::settings;
use lyra2::{derive_recorded, record_pair, visits};
use lyra2_reference::record::{self, Visit};
use lyra2_reference::vectors::random::Random;
use lyra2_reference::{Inputs, Settings};

#[test]
fn every_bit_of_a_word_is_in_one_of_its_numbers() {
    for bit in 0..64 {
        let due = match bit {
            0..16 => [1 << bit, 0],
            _ => [0, 1 << (bit - 16)],
        };
        assert_eq!(record_pair(1 << bit), due, "{bit}");
    }
    let mut random = Random::new(108);
    for word in (0..1000).map(|_| random.word()).chain([0, u64::MAX]) {
        assert_eq!(record_pair(word), record::numbers(word), "{word}");
    }
}

/// The visits of a record, as the second program has them.
fn read(record: &[u64], columns: usize) -> Vec<Visit> {
    let visits = visits(record, columns).map(|visit| Visit {
        rows: visit.rows(),
        columns: visit.columns().collect(),
    });
    visits.collect()
}

#[test]
fn the_visits_of_derivations() {
    for [t, r, c] in [[0, 3, 1], [1, 3, 1], [2, 9, 5], [1, 300, 2], [3, 4, 256]] {
        let inputs = Inputs {
            password: b"password",
            salt: b"saltsalt",
            t,
            r,
            c,
            settings: Settings::USUAL,
        };
        let settings = settings(&inputs);
        let columns = settings.parameters.columns;
        let mut matrix = settings.parameters.matrix().expect("a few megabytes");
        let mut record = settings.parameters.record().expect("a few megabytes");
        let (mut end, mut due) = (matrix.to_vec(), record.to_vec());
        lyra2_reference::derive_recorded(&inputs, &mut [0; 32], &mut end, &mut due)
            .expect("no check refuses");
        let (password, salt, key) = (inputs.password, inputs.salt, &mut [0; 32]);
        derive_recorded(password, salt, settings, key, &mut matrix, &mut record).expect("accepted");

        let found = read(&record, columns);
        assert_eq!(found, record::visits(&due, columns), "{settings:?}");
        assert_eq!(found.len() as u64, r * t);
        for visit in found {
            assert!(visit.rows.iter().all(|row| *row < r), "{visit:?}");
            assert!(visit.columns.iter().flatten().all(|column| *column < c));
        }
    }
}

/// Each visit has the numbers of its own words, from whichever end it is read.
#[test]
fn strange_words_are_read_from_both_ends() {
    let mut random = Random::new(109);
    for columns in [0, 1, 2, 7] {
        let words: Vec<u64> = (0..5 * (columns + 1)).map(|_| random.word()).collect();
        assert_eq!(read(&words, columns), record::visits(&words, columns));
        let backwards = visits(&words, columns)
            .rev()
            .flat_map(|visit| visit.columns().rev().chain([visit.rows()]));
        let words = words.iter().rev().copied();
        assert!(backwards.eq(words.map(record::numbers)), "{columns}");
    }
}

#[test]
fn words_after_the_last_whole_visit_are_left_out() {
    let words = [1, 2, 3, 4, 5, 6, 7];
    for length in 0..=words.len() {
        for columns in 0..10 {
            let found = visits(&words[..length], columns);
            assert_eq!(found.len(), length / (columns + 1), "{length} {columns}");
            let read: usize = found.map(|visit| 1 + visit.columns().len()).sum();
            assert_eq!(read, length - length % (columns + 1));
        }
        for columns in [usize::MAX - 1, usize::MAX] {
            assert_eq!(visits(&words[..length], columns).len(), 0);
        }
    }
}
