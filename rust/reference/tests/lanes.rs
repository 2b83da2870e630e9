//! Several lanes: meetings worked out by hand, the input of a lane, and any order of the lanes between two meetings.

use lyra2_reference::input::padded_lane_input;
use lyra2_reference::lanes::{in_turn, run, LanesEnd};
use lyra2_reference::vectors::random::Random;
use lyra2_reference::{
    derive, lanes_check, lanes_cost, lanes_derive, Checked, Counts, Inputs, LaneInputs, Settings,
};

/// Some inputs with so many lanes of so many rows.
fn inputs(p: u64, lane_rows: u64, t: u64, c: u64) -> LaneInputs<'static> {
    LaneInputs {
        password: b"password",
        salt: b"saltsalt",
        t,
        r: p * lane_rows,
        c,
        p,
    }
}

fn matrix_of(inputs: &LaneInputs) -> Vec<u64> {
    vec![0; (12 * inputs.r * inputs.c) as usize]
}

/// What a run ends with.
#[derive(Debug, PartialEq, Eq)]
struct End {
    key: Vec<u8>,
    matrix: Vec<u64>,
    end: LanesEnd,
}

fn end(inputs: &LaneInputs, order: &mut dyn FnMut(&[usize]) -> usize) -> End {
    let mut key = vec![0; 100];
    let mut matrix = matrix_of(inputs);
    let end = run(inputs, &mut key, &mut matrix, order).expect("accepted");
    End { key, matrix, end }
}

/// How many steps lane 0 makes until lane 1 goes, time after time: rows of Setup, visits, and at the end its key.
fn intervals(lane_rows: u64, t: u64) -> Vec<usize> {
    let mut gone = Vec::new();
    end(&inputs(2, lane_rows, t, 1), &mut |left| {
        gone.push(left[0]);
        left[0]
    });
    let runs = gone.chunk_by(|x, y| x == y).map(<[usize]>::len);
    runs.step_by(2).collect()
}

/// Setup's meetings follow rows 4, 6, 8, 10, 12, 14 and 16, then 20, 24 and so on up to 64, then 72: sqrt is 4 from row 3
/// on, 8 from row 15 on and 16 from row 63 on, and the distance is half of it. The last row is followed by one as well.
#[test]
fn rows_between_the_meetings_of_setup() {
    for (lane_rows, due) in [
        (4, vec![4]),
        (6, vec![5, 1]),
        (8, vec![5, 2, 1]),
        (10, vec![5, 2, 2, 1]),
        (16, vec![5, 2, 2, 2, 2, 2, 1]),
        (18, vec![5, 2, 2, 2, 2, 2, 2, 1]),
        (26, vec![5, 2, 2, 2, 2, 2, 2, 4, 4, 1]),
    ] {
        let found = intervals(lane_rows, 1);
        assert_eq!(found[..due.len()], due, "{lane_rows} rows");
    }
    let found = intervals(82, 1);
    let due = [vec![5], vec![2; 6], vec![4; 12], vec![8, 8, 1]].concat();
    assert_eq!(found[..due.len()], due);
}

/// The visits' meetings follow visits number sqrt, 2·sqrt and so on, counted from 0, with sqrt as Setup left it: the first
/// interval has one visit more than the others.
#[test]
fn visits_between_meetings() {
    for (lane_rows, t, due) in [
        (4, 1, vec![4, 1]),
        (4, 2, vec![5, 3, 1]),
        (4, 5, vec![5, 4, 4, 4, 3, 1]),
        (6, 1, vec![5, 1, 1]),
        (10, 1, vec![5, 4, 1, 1]),
        (14, 1, vec![5, 4, 4, 1, 1]),
        (16, 1, vec![9, 7, 1]),
        (18, 1, vec![9, 8, 1, 1]),
        (62, 1, vec![9, 8, 8, 8, 8, 8, 8, 5, 1]),
        (64, 1, vec![17, 16, 16, 15, 1]),
    ] {
        let found = intervals(lane_rows, t);
        let start = found.len() - due.len();
        let filled: usize = found[..start].iter().sum();
        assert_eq!(filled as u64, lane_rows, "rows filled before the visits");
        assert_eq!(found[start..], due, "{lane_rows} rows, T {t}");
    }
}

/// 31 bytes less than two blocks, where six numbers would leave 39; the two last numbers are p and the lane's.
#[test]
fn input_of_a_lane() {
    let given = inputs(3, 4, 1, 2);
    let input = padded_lane_input(&[7; 57], &[9; 8], &given.parameters(32), 3, 2);
    assert_eq!(input.len(), 128);
    let numbers = [32, 8, 8, 1, 12, 2, 3, 2u32].map(u32::to_le_bytes);
    assert_eq!(input[65..97], *numbers.as_flattened());
    assert_eq!(input[97], 0x80);
    assert!(input[98..127].iter().all(|&byte| byte == 0));
    assert_eq!(input[127], 0x01);
    // A byte of padding, and a whole block of it.
    let filling =
        |len: usize| padded_lane_input(&vec![7; len], &[9; 8], &given.parameters(32), 3, 2);
    assert_eq!(filling(23).len(), 64);
    assert_eq!(filling(23)[63], 0x81);
    assert_eq!(filling(24).len(), 128);
    assert_eq!(filling(24)[64], 0x80);
}

#[test]
fn counts_by_formula_and_as_they_are_made() {
    let due = |full, reduced| {
        Ok(Counts {
            full,
            reduced,
            rounds: 12 * full + reduced,
        })
    };
    // Three lanes, each with an input of one block and a key of two pieces.
    let given = inputs(3, 4, 2, 5);
    let mut key = [0; 97];
    let found = lanes_derive(&given, &mut key, &mut matrix_of(&given));
    assert_eq!(found, due(3 * (1 + 2), 12 * 5 * 3));
    assert_eq!(lanes_cost(&given.parameters(97), 3), found);
    // 24 bytes of password are where an input of eight numbers and a salt of 8 bytes fills its block.
    let given = LaneInputs {
        password: &[7; 24],
        ..given
    };
    assert_eq!(lanes_cost(&given.parameters(96), 3), due(3 * (2 + 1), 180));
}

#[test]
fn the_check_knows_the_key_and_both_leave_zeros() {
    for p in 1..=8 {
        let given = inputs(p, 6, 1, 2);
        let mut key = [0; 40];
        let mut matrix = vec![5; 12 * 6 * 2 * p as usize + 3];
        let used = matrix.len() - 3;
        let counts = lanes_derive(&given, &mut key, &mut matrix).expect("accepted");
        assert!(matrix[..used].iter().all(|&word| word == 0));
        assert_eq!(matrix[used..], [5; 3]);
        for (flipped, matches) in [(0, true), (1, false)] {
            key[39] ^= flipped;
            matrix.fill(5);
            let found = lanes_check(&given, &key, &mut matrix);
            assert_eq!(found, Ok(Checked { matches, counts }));
            assert!(matrix[..used].iter().all(|&word| word == 0));
            assert_eq!(matrix[used..], [5; 3]);
        }
    }
}

/// The input has two more numbers, and a visit writes one row.
#[test]
fn one_lane_is_not_the_single_sponge() {
    let given = inputs(1, 8, 1, 2);
    let (mut with_lanes, mut single) = ([0; 32], [0; 32]);
    lanes_derive(&given, &mut with_lanes, &mut matrix_of(&given)).expect("accepted");
    let inputs = Inputs {
        password: given.password,
        salt: given.salt,
        t: given.t,
        r: given.r,
        c: given.c,
        settings: Settings::USUAL,
    };
    derive(&inputs, &mut single, &mut matrix_of(&given)).expect("accepted");
    assert_ne!(with_lanes, single);
}

/// Shapes with no, one and many meetings in each phase, for every p but 1, where there is but one order.
fn shapes() -> Vec<LaneInputs<'static>> {
    let mut all = Vec::new();
    for p in 2..=8 {
        for (lane_rows, t, c) in [
            (4, 1, 1),
            (4, 6, 3),
            (6, 2, 1),
            (8, 3, 2),
            (10, 1, 4),
            (18, 2, 2),
            (34, 1, 3),
        ] {
            all.push(inputs(p, lane_rows, t, c));
        }
    }
    all
}

/// Steps of all lanes mixed at random, each lane's own in sequence. The rows of Setup, the visits and the keys are all mixed.
#[test]
fn random_orders_end_as_the_lanes_in_turn() {
    let mut random = Random::new(111);
    for inputs in shapes() {
        let due = end(&inputs, &mut in_turn);
        for _ in 0..40 {
            let found = end(&inputs, &mut |left| {
                left[random.between(0, left.len() as u64 - 1) as usize]
            });
            assert!(found == due, "{inputs:?}");
        }
    }
}

/// One lane goes up to the meeting and then another, but from the last lane on, or from any other; and all lanes a step each.
#[test]
fn whole_lanes_in_other_orders_and_lanes_step_by_step() {
    for inputs in shapes() {
        let due = end(&inputs, &mut in_turn);
        let from_last = end(&inputs, &mut |left| left[left.len() - 1]);
        assert!(from_last == due, "{inputs:?}");
        for first in 1..inputs.p as usize {
            let rotated = end(&inputs, &mut |left| {
                let later = left.iter().find(|&&lane| lane >= first);
                *later.unwrap_or(&left[0])
            });
            assert!(rotated == due, "{inputs:?}, from lane {first}");
        }
        let mut last = 0;
        let step_by_step = end(&inputs, &mut |left| {
            let next = left.iter().find(|&&lane| lane > last);
            last = *next.unwrap_or(&left[0]);
            last
        });
        assert!(step_by_step == due, "{inputs:?}");
    }
}

/// 4·p, 6·p, 8·p and so on go with p lanes, and no other rows; below three rows 5 comes first.
#[test]
fn rows_that_go_with_a_number_of_lanes() {
    let answer = |p: u64, r: u64| {
        let given = LaneInputs {
            r,
            p,
            ..inputs(1, 4, 1, 1)
        };
        let refusal = lanes_cost(&given.parameters(32), p).err();
        refusal.map_or(0, |refusal| refusal.number())
    };
    for p in 0..=20 {
        for r in 0..=200 {
            let goes = (1..=8).contains(&p) && (2..=100).any(|pairs| r == 2 * p * pairs);
            let due = match r {
                0..=2 => 5,
                _ if goes => 0,
                _ => 20,
            };
            assert_eq!(answer(p, r), due, "p {p}, R {r}");
        }
    }
    for bit in 4..64 {
        assert_eq!(answer(1 << bit, 32), 20);
        assert_eq!(answer(1 << bit | 2, 32), 20);
    }
    assert_eq!(answer(u64::MAX, 32), 20);
}

/// A refused call changes nothing, whatever it would have derived.
#[test]
fn refused_calls_keep_what_is_lent() {
    let accepted = inputs(2, 4, 1, 1);
    for (given, number) in [
        (LaneInputs { t: 0, ..accepted }, 4),
        (LaneInputs { p: 0, ..accepted }, 20),
        (LaneInputs { p: 9, ..accepted }, 20),
        (
            LaneInputs {
                p: u64::MAX,
                ..accepted
            },
            20,
        ),
        (LaneInputs { r: 6, ..accepted }, 20),
        (LaneInputs { r: 12, ..accepted }, 7),
    ] {
        let (mut key, mut matrix) = ([3; 32], [5; 100]);
        let refused = lanes_derive(&given, &mut key, &mut matrix).expect_err("refused");
        assert_eq!(refused.number(), number, "{given:?}");
        assert_eq!((key, matrix), ([3; 32], [5; 100]), "{given:?}");
        let refused = lanes_check(&given, &key, &mut matrix).expect_err("refused");
        assert_eq!(refused.number(), number, "{given:?}");
        assert_eq!(matrix, [5; 100], "{given:?}");
    }
}
