//! Both mixers: every operation against the second program, and a key of one held against the other.

mod common;

use common::settings;
use lyra2::{check, derive, derive_recorded, Counts, Mixer, Settings};
use lyra2_reference::vectors::random::Random;
use lyra2_reference::Inputs;

/// T, R, C, rho and omega: Setup alone, the usual choice, and others at their limits.
const SHAPES: [[u64; 5]; 6] = [
    [0, 3, 1, 1, 2],
    [1, 3, 1, 1, 2],
    [2, 9, 5, 1, 2],
    [1, 17, 2, 12, 11],
    [3, 4, 3, 2, 1],
    [1, 64, 16, 1, 7],
];
/// Lengths of password, salt and key, with which the input has one block or more and the key one piece or more.
const LENGTHS: [[usize; 3]; 5] = [
    [0, 8, 1],
    [31, 8, 32],
    [32, 8, 96],
    [100, 64, 97],
    [1024, 16, 1024],
];

#[test]
fn both_mixers_give_what_the_second_program_gives() {
    let mut random = Random::new(107);
    for shape in SHAPES {
        for [password, salt, key] in LENGTHS {
            let mut drawn = |length: usize| -> Vec<u8> {
                (0..length).map(|_| random.between(0, 255) as u8).collect()
            };
            let (password, salt) = (drawn(password), drawn(salt));
            let mixers = [
                lyra2_reference::Mixer::Plain,
                lyra2_reference::Mixer::BlaMka,
            ];
            let [plain, blamka] = mixers.map(|mixer| {
                let [t, r, c, rho, omega] = shape;
                let inputs = Inputs {
                    password: &password,
                    salt: &salt,
                    t,
                    r,
                    c,
                    settings: lyra2_reference::Settings { rho, omega, mixer },
                };
                operations_agree(&inputs, key)
            });
            assert_eq!(plain, blamka, "the counts of {shape:?}");
        }
    }
}

/// Runs the three operations, and the check with the other mixer too, and returns the counts that all of them have.
fn operations_agree(inputs: &Inputs, key_length: usize) -> Counts {
    let settings = settings(inputs);
    let (password, salt) = (inputs.password, inputs.salt);
    let sizes = inputs.parameters(key_length);
    let mut end = vec![0; sizes.matrix_words() as usize];
    let mut visits = vec![0; sizes.record_words() as usize];
    let mut due = vec![0; key_length];
    let left = lyra2_reference::derive_recorded(inputs, &mut due, &mut end, &mut visits);
    let left = left.expect("no check refuses");
    let counts = Counts {
        full: left.counts.full,
        reduced: left.counts.reduced,
        rounds: left.counts.rounds,
    };

    let mut key = vec![0; key_length];
    let (mut matrix, mut record) = (vec![7; end.len()], vec![7; visits.len()]);
    let recorded = derive_recorded(password, salt, settings, &mut key, &mut matrix, &mut record);
    let recorded = recorded.expect("accepted");
    assert_eq!(key, due, "{settings:?}");
    assert_eq!(recorded.state, left.state, "{settings:?}");
    assert!(matrix == end && record == visits, "{settings:?}");
    key.fill(0);
    let derived = derive(password, salt, settings, &mut key, &mut matrix);
    assert_eq!(key, due, "{settings:?}");
    let mut checked = |settings| {
        let checked = check(password, salt, settings, &due, &mut matrix).expect("accepted");
        assert_eq!(checked.counts, counts, "{settings:?}");
        checked.same
    };
    assert!(checked(settings), "{settings:?}");
    // Keys of one byte can be the same by chance.
    if key_length > 1 {
        let mixer = match settings.mixer {
            Mixer::Plain => Mixer::BlaMka,
            Mixer::BlaMka => Mixer::Plain,
        };
        assert!(!checked(Settings { mixer, ..settings }), "{settings:?}");
    }
    assert_eq!((recorded.counts, derived), (counts, Ok(counts)));
    counts
}
