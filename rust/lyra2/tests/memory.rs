//! The memory that the crate sets aside has the sizes that it names, and derives the second program's key.

mod common;

use common::settings;
use lyra2::{check, derive, derive_recorded, NoMemory, Parameters};
use lyra2_reference::{Inputs, Mixer, Settings};

const SHAPES: [(usize, usize, usize); 5] = [
    (0, 3, 1),
    (1, 3, 1),
    (2, 40, 9),
    (1, 1024, 64),
    (0, 300, 256),
];

fn parameters((time, rows, columns): (usize, usize, usize)) -> Parameters {
    Parameters {
        time,
        rows,
        columns,
    }
}

#[test]
fn matrix_and_record_have_their_sizes() {
    for parameters in SHAPES.map(parameters) {
        let matrix = parameters.matrix().expect("a few megabytes");
        let record = parameters.record().expect("a few megabytes");
        let found = [matrix.len(), record.len()].map(Some);
        let due = [parameters.matrix_words(), parameters.record_words()];
        assert_eq!(found, due, "{parameters:?}");
    }
}

#[test]
fn sizes_without_a_number_are_no_memory() {
    let parameters = parameters((usize::MAX, usize::MAX, 2));
    let refused = Err(NoMemory { bytes: None });
    assert_eq!(parameters.matrix().map(|matrix| matrix.len()), refused);
    assert_eq!(parameters.record().map(|record| record.len()), refused);
}

#[test]
fn every_operation_works_in_it() {
    let choices = [
        (1, 2, Mixer::Plain),
        (3, 5, Mixer::BlaMka),
        (12, 1, Mixer::Plain),
        (2, 11, Mixer::BlaMka),
        (1, 8, Mixer::Plain),
    ];
    for (parameters, (rho, omega, mixer)) in SHAPES.map(parameters).into_iter().zip(choices) {
        let inputs = Inputs {
            password: b"password",
            salt: b"saltsalt",
            t: parameters.time as u64,
            r: parameters.rows as u64,
            c: parameters.columns as u64,
            settings: Settings { rho, omega, mixer },
        };
        let settings = settings(&inputs);
        let mut matrix = parameters.matrix().expect("a few megabytes");
        let mut record = parameters.record().expect("a few megabytes");
        let (mut due, mut end, mut visits) = ([0; 32], matrix.to_vec(), record.to_vec());
        lyra2_reference::derive_recorded(&inputs, &mut due, &mut end, &mut visits)
            .expect("no check refuses");
        let (password, salt, mut key) = (inputs.password, inputs.salt, [0; 32]);
        derive(password, salt, settings, &mut key, &mut matrix).expect("accepted");
        assert_eq!(key, due, "{settings:?}");
        let checked = check(password, salt, settings, &key, &mut matrix).expect("accepted");
        assert!(checked.same, "{settings:?}");
        key.fill(0);
        derive_recorded(password, salt, settings, &mut key, &mut matrix, &mut record)
            .expect("accepted");
        assert!(
            key == due && matrix[..] == end && record[..] == visits,
            "{settings:?}"
        );
    }
}
