//! The derivations: what they leave in the lent buffers, and how they agree with one another.

use lyra2_reference::input::{absorb_input, padded_input};
use lyra2_reference::record;
use lyra2_reference::refusal::{ROTATIONS, ROUNDS};
use lyra2_reference::sponge::{round, Sponge};
use lyra2_reference::{check, cost, derive, derive_recorded, Inputs, Mixer, Recorded, Settings};

/// The end of a recorded derivation: its answer and the lent buffers.
struct End {
    answer: Recorded,
    key: Vec<u8>,
    matrix: Vec<u64>,
    record: Vec<u64>,
}

/// Shapes T, R and C that reach several windows of the Setup walk.
const SHAPES: [(u64, u64, u64); 10] = [
    (0, 3, 1),
    (0, 20, 7),
    (1, 3, 1),
    (1, 3, 4),
    (2, 4, 3),
    (1, 5, 2),
    (3, 9, 5),
    (1, 20, 7),
    (5, 40, 1),
    (1, 100, 16),
];

/// ρ and ω, each at its limits, the usual choice first.
const PAIRS: [(u64, u64); 6] = [(1, 2), (1, 1), (1, 11), (12, 1), (12, 11), (3, 6)];

const MIXERS: [Mixer; 2] = [Mixer::Plain, Mixer::BlaMka];

fn inputs(shape: (u64, u64, u64)) -> Inputs<'static> {
    inputs_with(shape, Settings::USUAL)
}

fn inputs_with((t, r, c): (u64, u64, u64), settings: Settings) -> Inputs<'static> {
    Inputs {
        password: b"correct horse battery staple",
        salt: b"0123456789abcdef",
        t,
        r,
        c,
        settings,
    }
}

/// A pair of ρ and ω with each mixer.
fn with_each_mixer((rho, omega): (u64, u64)) -> [Settings; 2] {
    MIXERS.map(|mixer| Settings { rho, omega, mixer })
}

/// The inputs of every shape with each of the settings.
fn all_inputs() -> Vec<Inputs<'static>> {
    let settings = PAIRS.map(with_each_mixer).concat();
    let with_each = |shape| settings.iter().map(move |&each| inputs_with(shape, each));
    SHAPES.into_iter().flat_map(with_each).collect()
}

/// Every setting that is accepted.
fn all_settings() -> Vec<Settings> {
    let pairs = ROUNDS.flat_map(|rho| ROTATIONS.map(move |omega| (rho, omega)));
    pairs.flat_map(with_each_mixer).collect()
}

/// Derives into buffers with some words to spare, filled with a number beforehand.
fn end(inputs: &Inputs, key_len: usize, spare: usize, fill: u64) -> End {
    let given = inputs.parameters(key_len);
    let mut key = vec![fill as u8; key_len];
    let mut matrix = vec![fill; given.matrix_words() as usize + spare];
    let mut record = vec![fill; given.record_words() as usize + spare];
    let answer = derive_recorded(inputs, &mut key, &mut matrix, &mut record).unwrap();
    End {
        answer,
        key,
        matrix,
        record,
    }
}

#[test]
fn words_past_the_used_parts_stay() {
    for inputs in all_inputs() {
        // As many record words again as are used, which the form from before request #108 would write.
        let again = inputs.parameters(32).record_words() as usize;
        for spare in [1, 11, 12, 1000, again] {
            let end = end(&inputs, 32, spare, 0xabcd);
            let used_matrix = end.matrix.len() - spare;
            let used_record = end.record.len() - spare;
            assert!(end.matrix[used_matrix..].iter().all(|&w| w == 0xabcd));
            assert!(end.record[used_record..].iter().all(|&w| w == 0xabcd));
            // Every word before them is written; none is likely to come out as the fill, or as zero.
            let used = &end.matrix[..used_matrix];
            assert!(used.iter().all(|&w| w != 0xabcd && w != 0));
            assert!(end.record[..used_record].iter().all(|&w| w != 0xabcd));
        }
    }
}

#[test]
fn earlier_contents_of_the_buffers_do_not_matter() {
    for inputs in all_inputs() {
        let zeros = end(&inputs, 100, 0, 0);
        let ones = end(&inputs, 100, 0, u64::MAX);
        assert_eq!(zeros.key, ones.key);
        assert_eq!(zeros.matrix, ones.matrix);
        assert_eq!(zeros.record, ones.record);
        assert_eq!(zeros.answer, ones.answer);
    }
}

/// Words for a lent matrix, none of them zero and no two the same.
fn words_before(count: usize) -> Vec<u64> {
    (1..=count as u64).map(|place| !place).collect()
}

/// Holds a matrix to zeros in its used part and to what it held before in the rest.
fn assert_wiped(inputs: &Inputs, matrix: &[u64], before: &[u64]) {
    let used = inputs.parameters(0).matrix_words() as usize;
    let left = matrix[..used].iter().position(|&word| word != 0);
    assert_eq!(left, None, "the place of a word that is left: {inputs:?}");
    assert_eq!(matrix[used..], before[used..], "{inputs:?}");
}

#[test]
fn plain_derivation_check_and_cost_agree_with_the_recorded_derivation() {
    for inputs in all_inputs() {
        let end = end(&inputs, 97, 5, 7);
        let mut key = [0; 97];
        let before = words_before(end.matrix.len());
        let mut matrix = before.clone();
        let counts = derive(&inputs, &mut key, &mut matrix).unwrap();
        assert_eq!(counts, end.answer.counts);
        assert_eq!(key.as_slice(), end.key);
        assert_wiped(&inputs, &matrix, &before);

        matrix.copy_from_slice(&before);
        let checked = check(&inputs, &key, &mut matrix).unwrap();
        assert!(checked.matches);
        assert_eq!(checked.counts, counts);
        assert_wiped(&inputs, &matrix, &before);
        let rho = inputs.settings.rho;
        assert_eq!(cost(&inputs.parameters(97), rho), Ok(counts));
    }
}

#[test]
fn matrices_that_fit_exactly_or_have_words_to_spare_are_wiped() {
    for shape in SHAPES.into_iter().chain([(0, 3, 256), (1, 3, 256)]) {
        let inputs = inputs(shape);
        let used = inputs.parameters(0).matrix_words() as usize;
        for (spare, key_len) in [(0, 1), (0, 96), (1, 97), (11, 32), (12, 1024), (1000, 32)] {
            let before = words_before(used + spare);
            let mut matrix = before.clone();
            let mut key = vec![0; key_len];
            derive(&inputs, &mut key, &mut matrix).unwrap();
            assert_wiped(&inputs, &matrix, &before);
            for matches in [true, false] {
                key[key_len - 1] ^= u8::from(!matches);
                matrix.copy_from_slice(&before);
                let checked = check(&inputs, &key, &mut matrix).unwrap();
                assert_eq!(checked.matches, matches);
                assert_wiped(&inputs, &matrix, &before);
            }
        }
    }
}

/// One buffer for both derivations in turn, and a smaller matrix over the end matrix of a larger one.
#[test]
fn plain_derivation_over_the_end_matrix_of_a_recorded_one() {
    for shape in SHAPES {
        let inputs = inputs(shape);
        let kept = end(&inputs, 32, 3, 7);
        let (mut key, mut matrix) = ([0; 32], kept.matrix.clone());
        derive(&inputs, &mut key, &mut matrix).unwrap();
        assert_eq!(key.as_slice(), kept.key);
        assert_wiped(&inputs, &matrix, &kept.matrix);

        let mut record = vec![7; kept.record.len()];
        let answer = derive_recorded(&inputs, &mut key, &mut matrix, &mut record);
        assert_eq!(answer, Ok(kept.answer));
        assert_eq!(key.as_slice(), kept.key);
        assert_eq!(matrix, kept.matrix);

        let smaller = Inputs {
            r: 3,
            c: 1,
            ..inputs
        };
        derive(&smaller, &mut key, &mut matrix).unwrap();
        assert_wiped(&smaller, &matrix, &kept.matrix);
    }
}

#[test]
fn check_says_no_to_every_key_that_differs_in_a_bit() {
    let inputs = inputs((1, 3, 2));
    let end = end(&inputs, 40, 0, 0);
    let before = words_before(end.matrix.len());
    for bit in 0..8 * end.key.len() {
        let mut stored = end.key.clone();
        stored[bit / 8] ^= 1 << (bit % 8);
        let mut matrix = before.clone();
        let checked = check(&inputs, &stored, &mut matrix).unwrap();
        assert!(!checked.matches, "bit {bit}");
        assert_eq!(checked.counts, end.answer.counts);
        assert_wiped(&inputs, &matrix, &before);
    }
}

#[test]
fn check_takes_the_key_length_from_the_stored_key() {
    let inputs = inputs((1, 3, 2));
    let key = end(&inputs, 40, 0, 0).key;
    let longer = end(&inputs, 41, 0, 0).key;
    assert_ne!(key, longer[..40]);
    let mut matrix = [0; 72];
    let prefix = check(&inputs, &longer[..40], &mut matrix).unwrap();
    assert!(!prefix.matches);
    assert!(check(&inputs, &longer, &mut matrix).unwrap().matches);
}

#[test]
fn state_matrix_and_record_give_the_key() {
    for inputs in all_inputs() {
        let (r, c) = (inputs.r, inputs.c);
        let end = end(&inputs, 200, 0, 0);
        let mut state = end.answer.state;
        // Row 0 of the last visit; without visits it is the row that Setup filled last.
        let visits = record::visits(&end.record, c as usize);
        let row0 = visits.last().map_or(r - 1, |visit| visit.rows[0]);
        let cell_start = (12 * row0 * c) as usize;
        let cell = &end.matrix[cell_start..cell_start + 12];
        for (state_word, cell_word) in state.iter_mut().zip(cell) {
            *state_word ^= cell_word;
        }
        let mut key = Vec::new();
        while key.len() < 200 {
            for _ in 0..12 {
                round(&mut state, inputs.settings.mixer);
            }
            key.extend(state[..12].iter().flat_map(|word| word.to_le_bytes()));
        }
        assert_eq!(key[..200], end.key);
    }
}

#[test]
fn record_holds_rows_and_columns_of_the_matrix() {
    for inputs in all_inputs() {
        let (t, r, c) = (inputs.t, inputs.r, inputs.c);
        let end = end(&inputs, 32, 0, u64::MAX);
        let visits = record::visits(&end.record, c as usize);
        assert_eq!(visits.len() as u64, r * t);
        for visit in visits {
            assert!(visit.rows.iter().all(|&row| row < r));
            assert_eq!(visit.columns.len() as u64, c);
            assert!(visit.columns.as_flattened().iter().all(|&col| col < c));
        }
    }
}

#[test]
fn every_input_changes_the_key() {
    let base = Inputs {
        password: &[0; 40],
        salt: &[0; 16],
        t: 1,
        r: 4,
        c: 2,
        settings: Settings::USUAL,
    };
    let mut keys = vec![end(&base, 32, 0, 0).key];
    for bit in 0..8 * 40 {
        let mut password = [0; 40];
        password[bit / 8] ^= 1 << (bit % 8);
        let inputs = Inputs {
            password: &password,
            ..base
        };
        keys.push(end(&inputs, 32, 0, 0).key);
    }
    for bit in 0..8 * 16 {
        let mut salt = [0; 16];
        salt[bit / 8] ^= 1 << (bit % 8);
        let inputs = Inputs {
            salt: &salt,
            ..base
        };
        keys.push(end(&inputs, 32, 0, 0).key);
    }
    // The same 56 bytes, divided otherwise between password and salt.
    let moved = Inputs {
        password: &[0; 39],
        salt: &[0; 17],
        ..base
    };
    keys.push(end(&moved, 32, 0, 0).key);
    for (t, r, c) in [(0, 4, 2), (2, 4, 2), (1, 5, 2), (1, 4, 3), (1, 8, 1)] {
        let inputs = Inputs { t, r, c, ..base };
        keys.push(end(&inputs, 32, 0, 0).key);
    }
    for settings in all_settings() {
        if settings != Settings::USUAL {
            let inputs = Inputs { settings, ..base };
            keys.push(end(&inputs, 32, 0, 0).key);
        }
    }
    let count = keys.len();
    keys.sort_unstable();
    keys.dedup();
    assert_eq!(keys.len(), count);
}

#[test]
fn a_reduced_call_counts_as_many_rounds_as_it_has() {
    for settings in all_settings() {
        let inputs = inputs_with((2, 5, 3), settings);
        let counts = end(&inputs, 97, 0, 0).answer.counts;
        // Two blocks of input and two pieces of key; 5·3 cells, filled once and visited twice.
        assert_eq!((counts.full, counts.reduced), (4, 45));
        assert_eq!(counts.rounds, 48 + settings.rho * 45, "{settings:?}");
    }
}

/// The cell that is written first holds the state after the input, and without visits nobody touches it again. The
/// mixer is no part of the input either, but absorbing goes by it.
#[test]
fn no_setting_is_part_of_the_input() {
    let inputs = inputs((0, 3, 2));
    let padded = padded_input(inputs.password, inputs.salt, &inputs.parameters(32));
    for settings in all_settings() {
        let end = end(&Inputs { settings, ..inputs }, 32, 0, 0);
        let mut sponge = Sponge::start(settings.rho, settings.mixer);
        absorb_input(&mut sponge, &padded);
        assert_eq!(end.matrix[12..24], sponge.rand(), "{settings:?}");
    }
}

/// Three rows without visits need neither a rotation nor a pick.
#[test]
fn the_rotation_does_not_matter_where_nothing_is_rotated() {
    for shape in [(0, 3, 1), (0, 3, 5)] {
        let key = |settings| end(&inputs_with(shape, settings), 32, 0, 0).key;
        for settings in all_settings() {
            let usual = Settings {
                omega: Settings::USUAL.omega,
                ..settings
            };
            assert_eq!(key(settings), key(usual), "{settings:?}");
        }
    }
}
