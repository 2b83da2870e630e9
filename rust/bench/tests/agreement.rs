//! The programs that are measured derive the same key as the second program, with either mixer, and leave in the matrix what
//! they have to.

use bench::lent::{Lent, Pages};
use bench::measure::{measure, measure_in};
use bench::pages::measure_once;
use bench::programs::{self, Program};
use bench::settings::{self, SETTINGS};
use bench::table::{inputs, inputs_with};
use bench::{intrinsics, lanes, speed};
use derivation_link::Proved;
use lyra2_reference::record::{numbers, visits, word, Visit};
use lyra2_reference::vectors::Subject;
use lyra2_reference::{derive_recorded, lanes_derive, Inputs, Mixer, Settings};

type Derive = fn(&Inputs, &mut [u8], &mut [u64]);

/// The library, and the programs of this package that have these settings; AVX2 is left out where the processor has none.
fn derivations(settings: Settings) -> Vec<(&'static str, Derive)> {
    let mut all: Vec<(&str, Derive)> =
        vec![("this library", proved), ("Rust for speed", speed::derive)];
    if !intrinsics::have(settings) {
        return all;
    }
    all.push(("C, SSE2", intrinsics::derive_sse2));
    if intrinsics::has_avx2() {
        all.push(("C, AVX2", intrinsics::derive_avx2));
    }
    all
}

fn proved(inputs: &Inputs, key: &mut [u8], matrix: &mut [u64]) {
    let answer = Proved.derive(inputs, key, matrix);
    answer.expect("no check refuses");
}

/// Words lent past the used matrix, which have to be kept.
const PAST: usize = 5;

/// Compares with either mixer, and counts the visits that have one row for both.
fn compare(inputs: &Inputs, key_len: usize) -> usize {
    let with = |mixer| Inputs {
        settings: Settings {
            mixer,
            ..inputs.settings
        },
        ..*inputs
    };
    compare_mixing(&with(Mixer::Plain), key_len) + compare_mixing(&with(Mixer::BlaMka), key_len)
}

/// Compares the key of every program with the second one's, finds the used matrix wiped and the words past it kept,
/// and counts the visits that have one row for both. A wrong word of the matrix shows in the key only if a later call
/// reads it, which not every word of a derivation is; the many shapes make up for that. The library's recorded derivation
/// is compared whole.
fn compare_mixing(inputs: &Inputs, key_len: usize) -> usize {
    let given = inputs.parameters(key_len);
    let used = given.matrix_words() as usize;
    let places = || {
        let record = vec![0; given.record_words() as usize];
        (vec![0; key_len], vec![0; used], record)
    };
    let (mut due_key, mut end_matrix, mut record) = places();
    let answer = derive_recorded(inputs, &mut due_key, &mut end_matrix, &mut record);
    let (mut key, mut matrix, mut noted) = places();
    let proved = Proved.derive_recorded(inputs, &mut key, &mut matrix, &mut noted);
    assert_eq!(proved, Some(answer), "the recorded answer of {inputs:?}");
    let recorded = (key, matrix, noted) == (due_key.clone(), end_matrix, record.clone());
    assert!(recorded, "key, end matrix or record of {inputs:?}");
    for (name, derive) in derivations(inputs.settings) {
        let mut key = vec![0xa5; key_len];
        let mut matrix: Vec<u64> = (0..used as u64).map(|place| !place).collect();
        matrix.resize(used + PAST, 7);
        derive(inputs, &mut key, &mut matrix);
        let asked = format!("{name}: {inputs:?}, key of {key_len} bytes");
        assert_eq!(key, due_key, "the key of {asked}");
        let (wiped, past) = matrix.split_at(used);
        assert!(wiped.iter().all(|&word| word == 0), "words left by {asked}");
        assert_eq!(past, [7; PAST], "words past the matrix of {asked}");
    }
    let has_one_row = |visit: &&Visit| visit.rows[0] == visit.rows[1];
    let visits = visits(&record, inputs.c as usize);
    visits.iter().filter(has_one_row).count()
}

/// Bytes that differ from place to place.
fn bytes(count: usize) -> Vec<u8> {
    (0..count).map(|place| (place * 167 + 13) as u8).collect()
}

#[test]
fn every_shape() {
    let (password, salt) = (bytes(19), bytes(16));
    let mut one_row = 0;
    for t in 1..=3 {
        for r in (3..=20).chain([33, 64, 65]) {
            for c in (1..=9).chain([16, 63, 64]) {
                let (password, salt) = (&password, &salt);
                one_row += compare(
                    &Inputs {
                        password,
                        salt,
                        t,
                        r,
                        c,
                        settings: Settings::USUAL,
                    },
                    32,
                );
            }
        }
    }
    assert!(one_row > 1000, "visits with one row for both: {one_row}");
}

#[test]
fn every_number_of_columns() {
    let (password, salt) = (bytes(8), bytes(8));
    for c in 1..=256 {
        let (password, salt) = (&password, &salt);
        compare(
            &Inputs {
                password,
                salt,
                t: 1,
                r: 7,
                c,
                settings: Settings::USUAL,
            },
            32,
        );
    }
}

#[test]
fn lengths_around_blocks_and_pieces() {
    for password_len in (0..=130).chain([1023, 1024]) {
        for salt_len in [8, 16, 63, 64] {
            let (password, salt) = (bytes(password_len), bytes(salt_len));
            let inputs = Inputs {
                password: &password,
                salt: &salt,
                t: 1,
                r: 4,
                c: 3,
                settings: Settings::USUAL,
            };
            compare(&inputs, 64);
        }
    }
    let (password, salt) = (bytes(40), bytes(12));
    for key_len in (1..=200).chain([287, 288, 289, 1023, 1024]) {
        let inputs = Inputs {
            password: &password,
            salt: &salt,
            t: 2,
            r: 5,
            c: 4,
            settings: Settings::USUAL,
        };
        compare(&inputs, key_len);
    }
}

#[test]
fn every_choice_of_rounds_rotation_and_mixer() {
    let (password, salt) = (bytes(19), bytes(16));
    for (rho, omega) in (1..=12).flat_map(|rho| (1..=11).map(move |omega| (rho, omega))) {
        for (t, r, c) in [(0, 9, 4), (1, 3, 1), (1, 20, 9), (2, 7, 16)] {
            let inputs = Inputs {
                password: &password,
                salt: &salt,
                t,
                r,
                c,
                settings: Settings {
                    rho,
                    omega,
                    ..Settings::USUAL
                },
            };
            compare(&inputs, 100);
        }
    }
}

#[test]
#[should_panic(expected = "the C programs have the usual rounds and rotation alone")]
fn a_c_program_is_not_asked_for_another_rotation() {
    let settings = Settings {
        omega: 1,
        ..Settings::USUAL
    };
    intrinsics::derive_sse2(&Inputs { settings, ..SMALL }, &mut [0; 32], &mut [0; 36]);
}

/// As much memory as Argon2id needs at least, and a little more.
const SMALL: Inputs = Inputs {
    password: b"password",
    salt: b"saltsalt",
    t: 1,
    r: 32,
    c: 4,
    settings: Settings::USUAL,
};

#[test]
fn every_measured_program_leaves_what_is_due() {
    let (all, _) = programs::all();
    let all: Vec<&Program> = all.iter().collect();
    for settings in [Settings::USUAL, settings::multiplying(Settings::USUAL)] {
        let times = measure(&Inputs { settings, ..SMALL }, &all, 3);
        assert_eq!(times.len(), all.len());
        assert!(times.iter().all(|times| times.minimum() <= times.median()));
    }
}

#[test]
fn programs_are_measured_on_both_kinds_of_pages() {
    let (all, _) = programs::all();
    let all: Vec<&Program> = all.iter().collect();
    let mut buffers = [Pages::Ordinary, Pages::Large].map(|pages| Lent::on(pages, &SMALL));
    let times = measure_in(&mut buffers, &SMALL, &all, 2);
    assert_eq!(times.len(), 2 * all.len());
    assert!(times.iter().all(|times| times.count() == 2));
    // Both have been derived in: neither keeps what it started with.
    for lent in &mut buffers {
        assert!(lent.key != [1; 32] && lent.matrix()[0] != 1);
    }
}

#[test]
fn all_settings_are_measured() {
    let (all, _) = programs::all();
    let named = |name| all.iter().find(|program| program.name == name);
    let both =
        [programs::PLAIN, programs::RUST_FOR_SPEED].map(|name| named(name).expect("a program"));
    let given = SETTINGS.map(|settings| inputs_with(settings, (32, 4)));
    let times = settings::measure_all(&given, both, 3, 2);
    assert_eq!(times.len(), SETTINGS.len());
    for times in times.iter().flatten() {
        assert_eq!(times.count(), 6);
    }
}

#[test]
fn every_number_of_lanes_is_measured_beside_the_single_sponge() {
    let (all, _) = programs::all();
    let lanes = lanes::programs();
    let mut measured: Vec<&Program> = all.iter().collect();
    measured.extend(&lanes);
    let counts: Vec<_> = lanes.iter().map(|program| program.lanes).collect();
    assert_eq!(counts, [1, 2, 4, 8].map(Some));
    let times = measure(&SMALL, &measured, 3);
    assert!(times.iter().all(|times| times.count() == 3));
}

/// Derives with so many lanes where two are measured.
fn measure_lanes(p: u64) {
    let derive = move |inputs: &Inputs, lent: &mut Lent| {
        let (key, matrix) = lent.key_and_matrix();
        let answer = lanes_derive(&lanes::with_lanes(inputs, p), key, matrix);
        answer.expect("no check refuses");
    };
    let program = Program {
        name: "spoilt",
        lyra2: true,
        lanes: Some(2),
        keeps_matrix: false,
        drawn: false,
        derive: Box::new(derive),
    };
    measure(&SMALL, &[&program], 1);
}

#[test]
fn the_right_number_of_lanes_is_measured() {
    measure_lanes(2);
}

#[test]
#[should_panic(expected = "the key of spoilt")]
fn another_number_of_lanes_ends_the_measurement() {
    measure_lanes(4);
}

#[test]
fn the_matrix_starts_with_a_line_of_the_cache_or_a_large_page() {
    let inputs = inputs(1024, 64);
    let start = |pages| Lent::on(pages, &inputs).matrix().as_ptr().addr();
    assert_eq!(start(Pages::Ordinary) % 64, 0);
    assert_eq!(start(Pages::Large) % (2 << 20), 0);
}

#[test]
fn a_caller_who_derives_once_is_measured_with_both_kinds_of_memory() {
    let times = measure_once(&SMALL, 3);
    assert_eq!(times.len(), 2);
    assert!(times.iter().all(|times| times.count() == 3));
}

/// Measures a program that has to leave its end matrix and its record, or else to wipe the matrix.
fn measure_one(keeps_matrix: bool, derive: impl Fn(&Inputs, &mut Lent) + 'static) {
    let program = Program {
        name: "spoilt",
        lyra2: true,
        lanes: None,
        keeps_matrix,
        drawn: false,
        derive: Box::new(derive),
    };
    measure(&SMALL, &[&program], 1);
}

/// A program that derives rightly and then changes something has to end the measurement.
fn measure_spoilt(spoil: fn(&mut Lent)) {
    measure_one(false, move |inputs, lent| {
        let mut key = [0; 32];
        speed::derive(inputs, &mut key, lent.matrix());
        lent.key = key;
        spoil(lent);
    });
}

/// The same for a recorded derivation.
fn measure_spoilt_recorded(spoil: fn(&mut Lent)) {
    measure_one(true, move |inputs, lent| {
        let (key, matrix, record) = lent.all();
        derive_recorded(inputs, key, matrix, record).expect("no check refuses");
        spoil(lent);
    });
}

#[test]
fn right_programs_are_measured() {
    measure_spoilt(|_| ());
    measure_spoilt_recorded(|_| ());
}

#[test]
#[should_panic(expected = "the key of spoilt")]
fn a_wrong_key_ends_the_measurement() {
    measure_spoilt(|lent| lent.key[31] ^= 1);
}

#[test]
#[should_panic(expected = "spoilt left words in the matrix")]
fn a_first_word_left_ends_the_measurement() {
    measure_spoilt(|lent| lent.matrix()[0] ^= 1);
}

#[test]
#[should_panic(expected = "spoilt left words in the matrix")]
fn a_last_word_left_ends_the_measurement() {
    measure_spoilt(|lent| lent.matrix()[12 * 32 * 4 - 1] ^= 1);
}

#[test]
#[should_panic(expected = "the key of spoilt")]
fn a_wrong_key_of_a_recorded_derivation_ends_the_measurement() {
    measure_spoilt_recorded(|lent| lent.key[0] ^= 1);
}

#[test]
#[should_panic(expected = "the end matrix of spoilt")]
fn a_wrong_end_matrix_ends_the_measurement() {
    measure_spoilt_recorded(|lent| lent.matrix()[12 * 32 * 4 - 1] ^= 1);
}

#[test]
#[should_panic(expected = "the end matrix of spoilt")]
fn a_wiped_end_matrix_ends_the_measurement() {
    measure_spoilt_recorded(|lent| lent.matrix().fill(0));
}

#[test]
#[should_panic(expected = "the record of spoilt")]
fn a_wrong_record_ends_the_measurement() {
    measure_spoilt_recorded(|lent| lent.record[32 * 5 - 1] ^= 1);
}

#[test]
#[should_panic(expected = "the record of spoilt")]
fn an_exchange_of_two_rows_ends_the_measurement() {
    measure_spoilt_recorded(|lent| {
        let [row0, row1] = numbers(lent.record[0]);
        lent.record[0] = word([row1, row0]);
    });
}
