//! Misreadings of request #111, each made on purpose: the vectors file has to tell them apart, and where one lets lanes disturb
//! one another, an order of the lanes has to show it.

mod common;
mod lanes_writing;

use lanes_writing::{derive, End, Misreading, Misreading::*};
use lyra2_reference::lanes::{in_turn, run};
use lyra2_reference::vectors::random::Random;
use lyra2_reference::vectors::{Answer, Question};
use lyra2_reference::LaneInputs;

/// An accepted derivation of the file: contents, numbers and key.
struct Derivation {
    number: u64,
    password: Vec<u8>,
    salt: Vec<u8>,
    sizes: [u64; 4],
    answer: Answer,
}

impl Derivation {
    fn inputs(&self) -> LaneInputs<'_> {
        let [t, r, c, p] = self.sizes;
        LaneInputs {
            password: &self.password,
            salt: &self.salt,
            t,
            r,
            c,
            p,
        }
    }

    /// Rows of a lane.
    fn lane_rows(&self) -> u64 {
        self.sizes[1] / self.sizes[3]
    }

    fn key(&self) -> &[u8] {
        match &self.answer {
            Answer::Derived { key, .. } => key,
            _ => &[],
        }
    }

    fn end(&self, misreading: Misreading) -> End {
        derive(&self.inputs(), self.key().len(), misreading, &mut in_turn)
    }
}

fn derivations() -> Vec<Derivation> {
    let mut all = Vec::new();
    for (_, case) in common::cases() {
        if let (Question::LanesDerive { given, .. }, Answer::Derived { .. }) =
            (case.question, &case.answer)
        {
            all.push(Derivation {
                number: case.number,
                password: given.password.to_vec(),
                salt: given.salt.to_vec(),
                sizes: [given.t, given.r, given.c, given.p],
                answer: case.answer,
            });
        }
    }
    assert!(all.len() >= 200, "{}", all.len());
    all
}

#[test]
fn the_right_reading_agrees_with_the_file() {
    for derivation in derivations() {
        let end = derivation.end(Correct);
        let Answer::Derived { key, counts, .. } = &derivation.answer else {
            continue;
        };
        assert_eq!(end.key, *key, "case {}", derivation.number);
        assert_eq!(end.counts, *counts, "case {}", derivation.number);
    }
}

/// Matrix and sponges are no part of an answer, but both writings end with the same.
#[test]
fn the_right_reading_ends_with_the_matrix_and_the_sponges_of_the_program() {
    for inputs in shapes() {
        let due = derive(&inputs, 100, Correct, &mut in_turn);
        let mut key = vec![0; 100];
        let mut matrix = vec![1; due.matrix.len()];
        let end = run(&inputs, &mut key, &mut matrix, &mut in_turn).expect("accepted");
        let found = End {
            key,
            states: end.states,
            matrix,
            counts: end.counts,
        };
        assert_eq!(found, due, "{inputs:?}");
    }
}

/// Checks of the file are answered by the right reading as well.
#[test]
fn the_right_reading_agrees_with_the_checks_of_the_file() {
    let mut count = 0;
    for (_, case) in common::cases() {
        if let (Question::LanesCheck { given, stored }, Answer::Checked { matches, .. }) =
            (&case.question, &case.answer)
        {
            let inputs = LaneInputs {
                password: &given.password.to_vec(),
                salt: &given.salt.to_vec(),
                t: given.t,
                r: given.r,
                c: given.c,
                p: given.p,
            };
            let end = derive(&inputs, stored.count() as usize, Correct, &mut in_turn);
            assert_eq!(end.key == stored.to_vec(), *matches, "case {}", case.number);
            count += 1;
        }
    }
    assert!(count >= 50, "{count}");
}

/// Where a misreading can show at all.
type Shows = fn(&Derivation) -> bool;

const ALWAYS: Shows = |_| true;
const SEVERAL_LANES: Shows = |derivation| derivation.sizes[3] > 1;
const SEVERAL_COLUMNS: Shows = |derivation| derivation.sizes[2] > 1;
/// Setup has a meeting before its end, and the lanes others to go to.
const MEETING_IN_SETUP: Shows =
    |derivation| SEVERAL_LANES(derivation) && derivation.lane_rows() > 4;
/// The visits of a lane have a meeting with a visit after it.
const MEETING_OF_VISITS: Shows = |derivation| {
    let sqrt = match derivation.lane_rows() {
        ..16 => 4,
        16..64 => 8,
        64..256 => 16,
        256..1024 => 32,
        1024..4096 => 64,
        4096.. => 128,
    };
    derivation.lane_rows() * derivation.sizes[0] > sqrt
};

/// Each misreading, where alone it can show, and how many derivations have to tell it apart. Short keys can be the same by chance.
const MISREADINGS: [(Misreading, Shows, usize); 40] = [
    (LaneLeftOut, ALWAYS, 180),
    (LaneFromOne, ALWAYS, 180),
    (LanesLeftOut, ALWAYS, 180),
    // Lane 0 of one has other numbers too, 0 and 1.
    (LaneBeforeLanes, ALWAYS, 180),
    (RowsOfLaneInInput, SEVERAL_LANES, 150),
    (SixNumbers, ALWAYS, 180),
    (SetupBySqrt, MEETING_IN_SETUP, 70),
    (FirstMeetingEarly, SEVERAL_LANES, 70),
    (OwnRowsRevisited, MEETING_IN_SETUP, 70),
    (RevisitedNotWrapped, MEETING_IN_SETUP, 70),
    (RevisitedEveryRow, MEETING_IN_SETUP, 70),
    // With two lanes both directions come to the same.
    (
        RevisitedBackward,
        |derivation| MEETING_IN_SETUP(derivation) && derivation.sizes[3] > 2,
        60,
    ),
    (OldLaneOfPrev1, MEETING_IN_SETUP, 70),
    (RevisitedOfLane0, SEVERAL_LANES, 100),
    (NoMeetingInSetup, MEETING_IN_SETUP, 70),
    (SetupEndUnmet, SEVERAL_LANES, 100),
    (HalvesKept, MEETING_OF_VISITS, 80),
    (SecondHalfFirst, ALWAYS, 180),
    (FirstIntervalShort, MEETING_OF_VISITS, 80),
    (SqrtAgain, ALWAYS, 180),
    (VisitsByHalfSqrt, ALWAYS, 180),
    (
        NoMeetingOfVisits,
        |derivation| SEVERAL_LANES(derivation) && MEETING_OF_VISITS(derivation),
        70,
    ),
    (RowOfWholeLane, ALWAYS, 180),
    (ReadInSameHalf, ALWAYS, 180),
    (ReadRowWritten, ALWAYS, 150),
    (ReadInOwnLane, SEVERAL_LANES, 150),
    (ReadOfLane0, SEVERAL_LANES, 150),
    (LaneByWord2, SEVERAL_LANES, 150),
    (LaneAndColumnExchanged, ALWAYS, 150),
    (ColumnByWord4, SEVERAL_COLUMNS, 100),
    (ColumnKept, SEVERAL_COLUMNS, 100),
    (PreviousLeftOut, ALWAYS, 180),
    (FirstPreviousOfRow0, ALWAYS, 180),
    (WrittenOfLane0, SEVERAL_LANES, 150),
    (LastCellOfLane0, SEVERAL_LANES, 150),
    (VisitsOfAllRows, SEVERAL_LANES, 150),
    (KeysOred, SEVERAL_LANES, 150),
    (KeysAdded, SEVERAL_LANES, 150),
    (LastKeyLeftOut, ALWAYS, 180),
    (FirstKeyAlone, SEVERAL_LANES, 150),
];

#[test]
fn every_misreading_is_told_apart_where_it_can_be() {
    let mut derivations = derivations();
    derivations.retain(|derivation| {
        let [t, r, c, _] = derivation.sizes;
        r * c * (t + 1) <= 20_000
    });
    let mut short = Vec::new();
    for (misreading, shows, least) in MISREADINGS {
        let mut count = 0;
        for derivation in &derivations {
            if derivation.end(misreading).key != derivation.key() {
                let place = format!("{misreading:?}: case {}", derivation.number);
                assert!(shows(derivation), "{place}");
                count += 1;
            }
        }
        if count < least {
            short.push((misreading, count));
        }
    }
    assert_eq!(short, []);
}

/// Shapes with several lanes and intervals.
fn shapes() -> Vec<LaneInputs<'static>> {
    let mut all = Vec::new();
    for p in [2, 3, 8] {
        for (lane_rows, t, c) in [(4, 3, 1), (6, 2, 2), (10, 2, 1), (18, 1, 2)] {
            all.push(LaneInputs {
                password: b"password",
                salt: b"saltsalt",
                t,
                r: p * lane_rows,
                c,
                p,
            });
        }
    }
    all
}

/// In how many random orders of the lanes between meetings a derivation ends otherwise than with the lanes in turn.
fn orders_that_differ(misreading: Misreading) -> usize {
    let mut random = Random::new(112);
    let mut count = 0;
    for inputs in shapes() {
        let due = derive(&inputs, 32, misreading, &mut in_turn);
        for _ in 0..10 {
            let mut order = |left: &[usize]| {
                let place = random.between(0, left.len() as u64 - 1);
                left[place as usize]
            };
            count += usize::from(derive(&inputs, 32, misreading, &mut order) != due);
        }
    }
    count
}

/// What keeps lanes from disturbing one another: the meetings, and that a lane writes to its own half alone, which nobody reads.
#[test]
fn the_order_matters_where_lanes_disturb_one_another() {
    assert_eq!(orders_that_differ(Correct), 0);
    for misreading in [
        RevisitedEveryRow,
        RevisitedOfLane0,
        RevisitedNotWrapped,
        NoMeetingInSetup,
        SetupEndUnmet,
        NoMeetingOfVisits,
        RowOfWholeLane,
        ReadInSameHalf,
        ReadRowWritten,
        WrittenOfLane0,
    ] {
        let count = orders_that_differ(misreading);
        assert!(count >= 20, "{misreading:?}: {count}");
    }
}

/// Other rules without such a fault, for which the order does not matter either: it tells nothing of which rule is right.
#[test]
fn the_order_does_not_matter_where_lanes_keep_apart() {
    for misreading in [HalvesKept, SecondHalfFirst, FirstIntervalShort, SqrtAgain] {
        assert_eq!(orders_that_differ(misreading), 0, "{misreading:?}");
    }
}
