//! The limits of documents 01 and 02 through the static library, each from both sides, and the order of the checks.
//!
//! The answers are those of the C interface, numbers and all, so the tests see the places of a refused call:
//! key, matrix and record stay as they were, and the answer's other fields become zero.

use derivation_link::{input, size, sizes};
use lyra2_reference::vectors::{Reference, Subject};
use lyra2_reference::{derive_recorded, Counts, Inputs, Mixer, Parameters, Settings};

const MAX: u64 = usize::MAX as u64;
const MIXERS: [Mixer; 2] = [Mixer::Plain, Mixer::BlaMka];
/// What the lent places hold before a call.
const BYTE: u8 = 0xa5;
const WORD: u64 = 0xa5a5_a5a5_a5a5_a5a5;

/// The sizes of a call; the contents of its buffers do not matter here.
#[derive(Clone, Copy, Debug)]
struct Call {
    key: usize,
    password: usize,
    salt: usize,
    t: u64,
    r: u64,
    c: u64,
    settings: Settings,
    matrix: usize,
    record: usize,
}

/// A call that every operation accepts, with a matrix and a record that fit exactly.
const ACCEPTED: Call = Call {
    key: 32,
    password: 31,
    salt: 8,
    t: 1,
    r: 3,
    c: 1,
    settings: Settings::USUAL,
    matrix: 36,
    record: 6,
};

/// The accepted call with another T, R and C, and buffers that fit exactly.
fn fitting(t: u64, r: u64, c: u64) -> Call {
    Call {
        t,
        r,
        c,
        matrix: (12 * r * c) as usize,
        record: (r * t * (1 + c)) as usize,
        ..ACCEPTED
    }
}

/// What the recorded derivation, the plain one, the check and the cost question answer: 0 or the number of
/// a refusal. A refused call must have changed nothing but the answer's fields, which become zero, and an accepted
/// one must have given what the second program gives.
fn numbers(call: Call) -> [u32; 4] {
    let inputs = Inputs {
        password: &vec![1; call.password],
        salt: &vec![2; call.salt],
        t: call.t,
        r: call.r,
        c: call.c,
        settings: call.settings,
    };
    let recorded = recorded(&call, &inputs);
    let [derived, checked] = derived_and_checked(&call, &inputs);
    let costed = cost(&inputs.parameters(call.key), call.settings.rho);
    [recorded, derived, checked, costed]
}

/// What the recorded derivation answers. The state and the counts are lent from one array, so that a word
/// written beside them is seen.
fn recorded(call: &Call, inputs: &Inputs) -> u32 {
    let buffers = || {
        let (matrix, record) = (vec![WORD; call.matrix], vec![WORD; call.record]);
        (vec![BYTE; call.key], matrix, record)
    };
    let mut due = buffers();
    let mut due_places = [WORD; 24];
    let answer = derive_recorded(inputs, &mut due.0, &mut due.1, &mut due.2);
    let (due_state, due_costs) = match answer {
        Ok(answer) => (answer.state, costs(answer.counts)),
        Err(_) => ([0; 16], [0; 3]),
    };
    due_places[2..18].copy_from_slice(&due_state);
    due_places[20..23].copy_from_slice(&due_costs);

    let (mut key, mut matrix, mut record) = buffers();
    let mut places = [WORD; 24];
    let (front, back) = places.split_at_mut(20);
    let state = front[2..].first_chunk_mut().expect("18 words are left");
    let spent = back.first_chunk_mut().expect("4 words are left");
    let number = lyra2_sys::derive_recorded(
        input(inputs),
        &mut key,
        &mut matrix,
        &mut record,
        state,
        spent,
    );
    assert_eq!((&key, places), (&due.0, due_places), "{call:?}");
    assert!(matrix == due.1, "derive_recorded, matrix: {call:?}");
    assert!(record == due.2, "derive_recorded, record: {call:?}");
    number
}

fn derived_and_checked(call: &Call, inputs: &Inputs) -> [u32; 2] {
    let mut due_key = vec![BYTE; call.key];
    let mut due_matrix = vec![WORD; call.matrix];
    let due = Reference.derive(inputs, &mut due_key, &mut due_matrix);
    let due_costs = due.map_or([0; 3], costs);

    let (mut key, mut matrix) = (vec![BYTE; call.key], vec![WORD; call.matrix]);
    let mut spent = [WORD; 3];
    let derived = lyra2_sys::derive(input(inputs), &mut key, &mut matrix, &mut spent);
    assert_eq!((&key, spent), (&due_key, due_costs), "{call:?}");
    assert!(matrix == due_matrix, "derive, matrix: {call:?}");

    let (mut same, mut spent) = (BYTE.into(), [WORD; 3]);
    matrix.fill(WORD);
    let checked = lyra2_sys::check(input(inputs), &due_key, &mut matrix, &mut same, &mut spent);
    let due_same = u32::from(due.is_ok());
    assert_eq!((same, spent), (due_same, due_costs), "{call:?}");
    assert!(matrix == due_matrix, "check, matrix: {call:?}");

    [derived, checked]
}

fn costs(counts: Counts) -> [u64; 3] {
    [counts.full, counts.reduced, counts.rounds]
}

/// What the cost question answers, once its counts are compared.
fn cost(given: &Parameters, rho: u64) -> u32 {
    let due = Reference.cost(given, rho).map_or([0; 3], costs);
    let mut spent = [WORD; 3];
    let number = lyra2_sys::cost(sizes(given, rho), &mut spent);
    assert_eq!(spent, due, "{given:?}, {rho} rounds");
    number
}

/// The numbers for a call that differs from the accepted one.
fn changed(change: impl Fn(&mut Call)) -> [u32; 4] {
    let mut call = ACCEPTED;
    change(&mut call);
    numbers(call)
}

#[test]
fn the_smallest_matrix_has_36_words() {
    assert_eq!(numbers(ACCEPTED), [0; 4]);
    for matrix in [0, 1, 12, 35] {
        assert_eq!(changed(|call| call.matrix = matrix), [7, 7, 7, 0]);
    }
    for matrix in [37, 48, 1000] {
        assert_eq!(changed(|call| call.matrix = matrix), [0; 4]);
    }
}

#[test]
fn the_smallest_record_has_6_words() {
    for record in 0..6 {
        assert_eq!(changed(|call| call.record = record), [8, 0, 0, 0]);
    }
    // Before request #108 it took 12.
    for record in [7, 11, 12, 13, 1000] {
        assert_eq!(changed(|call| call.record = record), [0; 4]);
    }
}

#[test]
fn key_lengths() {
    for key in [1, 2, 95, 96, 97, 1023, 1024] {
        assert_eq!(changed(|call| call.key = key), [0; 4]);
    }
    for key in [0, 1025, 1 << 16 | 32] {
        assert_eq!(changed(|call| call.key = key), [1; 4]);
    }
}

#[test]
fn password_lengths() {
    for password in [0, 1, 1023, 1024] {
        assert_eq!(changed(|call| call.password = password), [0; 4]);
    }
    for password in [1025, 1 << 16 | 31] {
        assert_eq!(changed(|call| call.password = password), [2; 4]);
    }
}

#[test]
fn salt_lengths() {
    for salt in [8, 9, 63, 64] {
        assert_eq!(changed(|call| call.salt = salt), [0; 4]);
    }
    for salt in [0, 1, 6, 7] {
        assert_eq!(changed(|call| call.salt = salt), [3; 4]);
    }
    for salt in [65, 66, 1 << 8 | 8, 1 << 16 | 8] {
        assert_eq!(changed(|call| call.salt = salt), [10; 4]);
    }
}

// The refused numbers below include some whose low 8, 16 or 32 bits would be accepted.

/// A call whose buffers fit exactly is accepted, and refused if one of them is a word shorter.
fn assert_fits_exactly(call: Call) {
    assert_eq!(numbers(call), [0; 4], "{call:?}");
    let matrix = call.matrix - 1;
    assert_eq!(numbers(Call { matrix, ..call }), [7, 7, 7, 0], "{call:?}");
    // Without visits the record has no word to be short of.
    let Some(record) = call.record.checked_sub(1) else {
        return;
    };
    assert_eq!(numbers(Call { record, ..call }), [8, 0, 0, 0], "{call:?}");
    let both = Call {
        matrix,
        record,
        ..call
    };
    assert_eq!(numbers(both), [7, 7, 7, 0], "{call:?}");
}

#[test]
fn time_costs() {
    for t in [0, 1, 2, 254, 255] {
        assert_fits_exactly(fitting(t, 3, 1));
    }
    assert_fits_exactly(fitting(0, 40, 7));
    // 65,536 record words, which are none if cut to 16 bits.
    assert_fits_exactly(fitting(2, 16_384, 1));
    for t in [
        256,
        1 << 16,
        1 << 16 | 1,
        1 << 32,
        1 << 32 | 1,
        MAX - 1,
        MAX,
    ] {
        assert_eq!(changed(|call| call.t = t), [4; 4]);
    }
}

#[test]
fn numbers_of_rows() {
    for r in [3, 4, 16_383, 16_384] {
        assert_fits_exactly(fitting(1, r, 1));
    }
    for r in [0, 1, 2, 16_385, 1 << 16 | 3, 1 << 32 | 3, MAX - 1, MAX] {
        assert_eq!(changed(|call| call.r = r), [5; 4]);
    }
}

#[test]
fn numbers_of_columns() {
    for c in [1, 2, 255, 256] {
        assert_fits_exactly(fitting(1, 3, c));
    }
    for c in [0, 257, 1 << 16 | 1, 1 << 32 | 1, MAX - 1, MAX] {
        assert_eq!(changed(|call| call.c = c), [6; 4]);
    }
}

#[test]
fn rounds_of_a_reduced_call() {
    for rho in 1..=12 {
        assert_eq!(changed(|call| call.settings.rho = rho), [0; 4]);
    }
    for rho in [
        0,
        13,
        1 << 8 | 1,
        1 << 16 | 1,
        1 << 32,
        1 << 32 | 1,
        MAX - 1,
        MAX,
    ] {
        assert_eq!(changed(|call| call.settings.rho = rho), [13; 4]);
    }
}

#[test]
fn rotations() {
    for omega in 1..=11 {
        assert_eq!(changed(|call| call.settings.omega = omega), [0; 4]);
    }
    // 13 and 14 would pass if taken modulo 12.
    for omega in [
        0,
        12,
        13,
        14,
        1 << 8 | 2,
        1 << 16 | 2,
        1 << 32,
        1 << 32 | 2,
        MAX - 1,
        MAX,
    ] {
        assert_eq!(changed(|call| call.settings.omega = omega), [14, 14, 14, 0]);
    }
}

/// A rotation that is never made, without visits and with three rows, is refused all the same.
#[test]
fn settings_without_visits() {
    for omega in [0, 12] {
        let mut call = fitting(0, 3, 1);
        call.settings.omega = omega;
        assert_eq!(numbers(call), [14, 14, 14, 0]);
    }
    for (rho, omega) in [(1, 1), (1, 11), (12, 1), (12, 11)] {
        for mixer in MIXERS {
            let settings = Settings { rho, omega, mixer };
            for (r, c) in [(3, 1), (4, 2), (40, 7)] {
                assert_fits_exactly(Call {
                    settings,
                    ..fitting(0, r, c)
                });
            }
        }
    }
}

/// No limit depends on the mixer: with BlaMka too the call of each limit is accepted.
#[test]
fn limits_with_blamka() {
    let sizes: [fn(&mut Call); 6] = [
        |call| call.key = 1,
        |call| call.key = 1024,
        |call| call.password = 0,
        |call| call.password = 1024,
        |call| call.salt = 8,
        |call| call.salt = 64,
    ];
    for change in sizes {
        let found = changed(|call| {
            call.settings.mixer = Mixer::BlaMka;
            change(call);
        });
        assert_eq!(found, [0; 4]);
    }
    for (t, r, c) in [(0, 3, 1), (255, 3, 1), (1, 16_384, 1), (1, 3, 256)] {
        let mut call = fitting(t, r, c);
        call.settings.mixer = Mixer::BlaMka;
        assert_fits_exactly(call);
    }
}

/// Makes the condition with this number hold, in one of two ways.
fn make_hold(call: &mut Call, number: u32, high: bool) {
    let pick = |low: u64, above: u64| if high { above } else { low };
    match number {
        1 => call.key = pick(0, 1025) as usize,
        2 => call.password = 1025,
        3 => call.salt = pick(0, 7) as usize,
        10 => call.salt = pick(65, 264) as usize,
        4 => call.t = pick(256, MAX),
        5 => call.r = pick(2, MAX),
        6 => call.c = pick(0, MAX),
        13 => call.settings.rho = pick(0, 13),
        14 => call.settings.omega = pick(0, 12),
        7 => call.matrix = pick(0, 35) as usize,
        _ => call.record = pick(0, 5) as usize,
    }
}

/// The checks of the recorded derivation, in their order.
const ORDER: [u32; 11] = [1, 2, 3, 10, 4, 5, 6, 13, 14, 7, 8];
/// How many of them, from the first on, the recorded derivation, the plain one, the check and the cost question have.
const CHECKS: [usize; 4] = [11, 10, 10, 8];

#[test]
fn of_several_refusals_the_first_in_the_order_is_returned() {
    let mut sets = 0;
    for set in 1u32..1 << ORDER.len() {
        let places = (0..ORDER.len()).filter(|place| set & (1 << place) != 0);
        let held: Vec<u32> = places.clone().map(|place| ORDER[place]).collect();
        // No salt is both too short and too long.
        if held.contains(&3) && held.contains(&10) {
            continue;
        }
        let first = places.clone().min().expect("the set is not empty");
        let due = CHECKS.map(|count| if first < count { ORDER[first] } else { 0 });
        for high in [false, true] {
            for mixer in MIXERS {
                let found = changed(|call| {
                    call.settings.mixer = mixer;
                    held.iter().for_each(|n| make_hold(call, *n, high));
                });
                assert_eq!(found, due, "{held:?} {high} {mixer:?}");
            }
        }
        sets += 1;
    }
    assert_eq!(sets, 3 * (1 << 9) - 1);
}

/// The cost question takes lengths that no buffer has.
#[test]
fn cost_of_the_largest_numbers() {
    let accepted = Parameters {
        key_len: 1024,
        password_len: 1024,
        salt_len: 64,
        t: 255,
        r: 16_384,
        c: 256,
    };
    for rho in 1..=12 {
        assert_eq!(cost(&accepted, rho), 0);
    }
    type Place = fn(&mut (Parameters, u64)) -> &mut u64;
    let places: [(u32, Place); 7] = [
        (1, |(given, _)| &mut given.key_len),
        (2, |(given, _)| &mut given.password_len),
        (10, |(given, _)| &mut given.salt_len),
        (4, |(given, _)| &mut given.t),
        (5, |(given, _)| &mut given.r),
        (6, |(given, _)| &mut given.c),
        (13, |(_, rho)| rho),
    ];
    for (at, (number, place)) in places.iter().enumerate() {
        for value in [MAX, MAX - 1, 1 << 63, 1 << 32 | 8] {
            let mut asked = (accepted, 12);
            *place(&mut asked) = value;
            assert_eq!(cost(&asked.0, asked.1), *number);
            // The places after it may hold anything.
            for (_, later) in &places[at + 1..] {
                *later(&mut asked) = MAX;
            }
            assert_eq!(cost(&asked.0, asked.1), *number);
        }
    }
}

/// What the walk question answers, once its row is compared.
fn walk(r: u64, row0: u64) -> u32 {
    let due = Reference.walk(r, row0).unwrap_or(0);
    let mut row1 = WORD as usize;
    let number = lyra2_sys::walk(size(r), size(row0), &mut row1);
    assert_eq!(row1 as u64, due, "R {r}, row0 {row0}");
    number
}

#[test]
fn walk_questions() {
    for r in [0, 1, 2, 16_385, 1 << 16 | 8, 1 << 32 | 8, MAX] {
        for row0 in [0, 2, 3, 7, MAX] {
            assert_eq!(walk(r, row0), 5, "R {r}, row0 {row0}");
        }
    }
    for r in [3, 4, 5, 8, 16_383, 16_384] {
        for row0 in [0, 1, 2, r, r + 1, 1 << 16 | 3, 1 << 32 | 3, MAX] {
            assert_eq!(walk(r, row0), 9, "R {r}, row0 {row0}");
        }
        for row0 in [3, r - 1] {
            // With three rows there is no Setup step, and row 3 is not a row.
            let due = if (3..r).contains(&row0) { 0 } else { 9 };
            assert_eq!(walk(r, row0), due, "R {r}, row0 {row0}");
        }
    }
}

/// The walk program of the second program lists every step; the question is asked for each.
#[test]
fn every_setup_step_of_the_most_rows() {
    let output = lyra2_reference::walk_program(b"16384\n");
    let lines = String::from_utf8(output).expect("the program prints text");
    assert_eq!(lines.lines().count(), 16_384 - 3);
    for line in lines.lines() {
        let (row0, due) = line.split_once(' ').expect("two numbers");
        let mut row1 = WORD as usize;
        let number = lyra2_sys::walk(16_384, row0.parse().expect("a number"), &mut row1);
        assert_eq!((number, row1.to_string().as_str()), (0, due), "row0 {row0}");
    }
}
