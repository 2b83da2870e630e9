//! Several lanes written a second time, apart from the library, with a switch for each misreading and with the lanes in any order.
//!
//! The library goes by the variables of the pseudocode, step by step; here stands what they come to, so that every row, meeting
//! and half is known from its number alone. Only the sponge is the library's, for which the other vectors vouch.

use lyra2_reference::lanes::Order;
use lyra2_reference::sponge::{Cell, Counts, Sponge, State};
use lyra2_reference::{LaneInputs, Settings};

#[derive(Clone, Copy, Debug, PartialEq, Eq)]
pub enum Misreading {
    /// Request #111 as it stands.
    Correct,
    /// The input of a lane closes with p.
    LaneLeftOut,
    /// The input of a lane closes with its number counted from 1.
    LaneFromOne,
    /// The input of a lane has its number and not p.
    LanesLeftOut,
    /// The input of a lane has its number before p.
    LaneBeforeLanes,
    /// The input has R/p and not R.
    RowsOfLaneInInput,
    /// The input has the six numbers alone.
    SixNumbers,
    /// Setup's meetings are sqrt rows apart.
    SetupBySqrt,
    /// Setup's first meeting follows row 3.
    FirstMeetingEarly,
    /// Setup revisits the lane's own rows at every time.
    OwnRowsRevisited,
    /// Setup stays with the last lane once it has come there.
    RevisitedNotWrapped,
    /// Setup goes to the next lane after every row.
    RevisitedEveryRow,
    /// Setup goes to the lane before and not to the one after.
    RevisitedBackward,
    /// After a meeting prev1 is still a row of the lane before.
    OldLaneOfPrev1,
    /// The revisited rows are always those of lane 0.
    RevisitedOfLane0,
    /// Lanes do not wait for one another in Setup: each fills all its rows in turn.
    NoMeetingInSetup,
    /// Setup's end is no meeting.
    SetupEndUnmet,
    /// The halves never change places.
    HalvesKept,
    /// A lane writes to its second half first.
    SecondHalfFirst,
    /// The first interval of visits is as long as the others.
    FirstIntervalShort,
    /// The visits go with sqrt = 2 again.
    SqrtAgain,
    /// The visits' meetings are half of sqrt apart, as Setup's are.
    VisitsByHalfSqrt,
    /// The halves change places, but nobody waits.
    NoMeetingOfVisits,
    /// row0 is picked among all rows of the lane.
    RowOfWholeLane,
    /// The row that is read lies in the half that is written to.
    ReadInSameHalf,
    /// The output is XORed into the row that is read as well.
    ReadRowWritten,
    /// The row that is read is one of the lane itself.
    ReadInOwnLane,
    /// The row that is read is one of lane 0.
    ReadOfLane0,
    /// The lane of the row that is read goes by word 2.
    LaneByWord2,
    /// The lane goes by word 6, and the column by word 4.
    LaneAndColumnExchanged,
    /// The previous row's column goes by word 4.
    ColumnByWord4,
    /// The previous row's column is kept for the whole visit.
    ColumnKept,
    /// The sum goes without the previous row.
    PreviousLeftOut,
    /// The first visit's previous row is the lane's row 0.
    FirstPreviousOfRow0,
    /// The row that is written has no offset: it is one of lane 0.
    WrittenOfLane0,
    /// The last cell is that of lane 0's row.
    LastCellOfLane0,
    /// Each lane makes as many visits as there are rows in all.
    VisitsOfAllRows,
    /// The keys are ORed.
    KeysOred,
    /// The keys are added, byte by byte.
    KeysAdded,
    /// The last lane's key is left out.
    LastKeyLeftOut,
    /// The key is that of lane 0.
    FirstKeyAlone,
}

use Misreading::*;

/// A derivation in progress.
struct Lanes {
    misreading: Misreading,
    lanes: usize,
    rows: usize,
    columns: usize,
    cells: Vec<Cell>,
    sponges: Vec<Sponge>,
    prev0: Vec<usize>,
}

/// The greatest power of two whose square is no more than this number, which is 4 at least: half of sqrt.
fn root(number: usize) -> usize {
    let powers = (1..).map(|bit| 1usize << bit);
    let small = powers.take_while(|power| power * power <= number);
    small.last().unwrap_or(2)
}

/// The row that Setup revisits while it fills row0.
fn revisited(row0: usize) -> usize {
    match row0 {
        3 => 1,
        _ => {
            let window = 1 << row0.ilog2();
            let step = if row0.ilog2().is_multiple_of(2) {
                root(window) + 1
            } else {
                2 * root(window / 2).max(2) - 1
            };
            (row0 - window) * step % window
        }
    }
}

impl Lanes {
    fn at(&self, lane: usize, row: usize, col: usize) -> usize {
        (lane * self.rows + row) * self.columns + col
    }

    /// Whether a meeting of Setup follows a row, apart from Setup's end.
    fn meets_after_row(&self, row0: usize) -> bool {
        match self.misreading {
            SetupBySqrt => row0 >= 4 && row0.is_multiple_of(2 * root(row0)),
            FirstMeetingEarly => row0 >= 3 && (row0 + 1).is_multiple_of(root(row0 + 1)),
            _ => row0 >= 4 && row0.is_multiple_of(root(row0)),
        }
    }

    /// How far two meetings of the visits are apart.
    fn distance(&self) -> usize {
        match self.misreading {
            SqrtAgain => 2,
            VisitsByHalfSqrt => root(self.rows),
            _ => 2 * root(self.rows),
        }
    }

    /// How many meetings of the visits come before a visit.
    fn meetings_before_visit(&self, visit: usize) -> usize {
        match self.misreading {
            FirstIntervalShort => visit / self.distance(),
            _ => visit.saturating_sub(1) / self.distance(),
        }
    }

    /// Whether all lanes meet after a step; Setup's rows come first, and then the visits.
    fn meets_after(&self, step: usize) -> bool {
        if step < self.rows {
            let is_last = step + 1 == self.rows && self.misreading != SetupEndUnmet;
            return is_last || self.misreading != NoMeetingInSetup && self.meets_after_row(step);
        }
        let visit = step - self.rows;
        let changes = self.meetings_before_visit(visit) != self.meetings_before_visit(visit + 1);
        changes && self.misreading != NoMeetingOfVisits
    }

    /// The lane whose rows a lane revisits while it fills row0.
    fn revisited_lane(&self, lane: usize, row0: usize) -> usize {
        let meetings = (3..row0).filter(|&row| self.meets_after_row(row)).count();
        match self.misreading {
            OwnRowsRevisited => lane,
            RevisitedOfLane0 => 0,
            RevisitedNotWrapped => (lane + meetings).min(self.lanes - 1),
            RevisitedEveryRow => (lane + row0 - 3) % self.lanes,
            RevisitedBackward => (lane + (self.lanes - 1) * meetings) % self.lanes,
            _ => (lane + meetings) % self.lanes,
        }
    }

    fn fill(&mut self, lane: usize, row0: usize) {
        for col in 0..self.columns {
            let place = self.at(lane, row0, self.columns - 1 - col);
            if row0 == 0 {
                self.cells[place] = self.sponges[lane].rand();
                self.sponges[lane].reduced_call();
                continue;
            }
            let previous = self.cells[self.at(lane, row0 - 1, col)];
            if row0 < 3 {
                let rand = self.sponges[lane].duplex(&previous);
                self.cells[place] = std::array::from_fn(|j| previous[j] ^ rand[j]);
                continue;
            }
            let places = self.summed_in_setup(lane, row0, col);
            let rand = self.duplex(lane, &places);
            self.cells[place] = std::array::from_fn(|j| previous[j] ^ rand[j]);
            self.xor_into(places[0], |j| rand[(j + 2) % 12]);
        }
    }

    /// The cells that a step of Setup sums, that of row1 first.
    fn summed_in_setup(&self, lane: usize, row0: usize, col: usize) -> [usize; 3] {
        let other = self.revisited_lane(lane, row0);
        let (prev1_lane, prev1) = match row0 {
            3 => (other, 0),
            _ if self.misreading == OldLaneOfPrev1 => {
                (self.revisited_lane(lane, row0 - 1), revisited(row0 - 1))
            }
            _ => (other, revisited(row0 - 1)),
        };
        [
            self.at(other, revisited(row0), col),
            self.at(lane, row0 - 1, col),
            self.at(prev1_lane, prev1, col),
        ]
    }

    fn duplex(&mut self, lane: usize, places: &[usize]) -> Cell {
        let sum: Cell = std::array::from_fn(|j| {
            let words = places.iter().map(|&place| self.cells[place][j]);
            words.fold(0, u64::wrapping_add)
        });
        self.sponges[lane].duplex(&sum)
    }

    fn xor_into(&mut self, place: usize, word: impl Fn(usize) -> u64) {
        (0..12).for_each(|j| self.cells[place][j] ^= word(j));
    }

    /// The words by which the row to be written, the row to be read, its lane and a column are picked.
    fn picks(&self, lane: usize) -> [u64; 4] {
        let rand = self.sponges[lane].rand();
        let places = match self.misreading {
            LaneByWord2 => [0, 2, 2, 6],
            LaneAndColumnExchanged => [0, 2, 6, 4],
            ColumnByWord4 => [0, 2, 4, 4],
            _ => [0, 2, 4, 6],
        };
        places.map(|place| rand[place])
    }

    /// The rows of a visit: the one that is written, then the lane and the row that are read.
    fn rows_of_visit(&self, lane: usize, visit: usize) -> [usize; 3] {
        let half_rows = self.rows / 2;
        let half = match self.misreading {
            HalvesKept => 0,
            SecondHalfFirst => (self.meetings_before_visit(visit) + 1) % 2,
            _ => self.meetings_before_visit(visit) % 2,
        };
        let [first, second, third, _] = self.picks(lane);
        let below = |word: u64, bound: usize| (word % bound as u64) as usize;
        let row0 = match self.misreading {
            RowOfWholeLane => below(first, self.rows),
            _ => half * half_rows + below(first, half_rows),
        };
        let read_half = match self.misreading {
            ReadInSameHalf => half,
            _ => 1 - half,
        };
        let read_lane = match self.misreading {
            ReadInOwnLane => lane,
            ReadOfLane0 => 0,
            _ => below(third, self.lanes),
        };
        let read = read_half * half_rows + below(second, half_rows);
        [row0, read_lane, read]
    }

    fn visit(&mut self, lane: usize, visit: usize) {
        let [row0, read_lane, read] = self.rows_of_visit(lane, visit);
        let written_lane = match self.misreading {
            WrittenOfLane0 => 0,
            _ => lane,
        };
        let kept = self.picks(lane)[3];
        for col in 0..self.columns {
            let word = match self.misreading {
                ColumnKept => kept,
                _ => self.picks(lane)[3],
            };
            let col0 = (word % self.columns as u64) as usize;
            let mut places = vec![
                self.at(written_lane, row0, col),
                self.at(read_lane, read, col),
                self.at(written_lane, self.prev0[lane], col0),
            ];
            if self.misreading == PreviousLeftOut {
                places.pop();
            }
            let rand = self.duplex(lane, &places);
            self.xor_into(places[0], |j| rand[j]);
            if self.misreading == ReadRowWritten {
                self.xor_into(places[1], |j| rand[j]);
            }
        }
        self.prev0[lane] = row0;
    }

    fn step(&mut self, lane: usize, step: usize) {
        match step.checked_sub(self.rows) {
            None => self.fill(lane, step),
            Some(visit) => self.visit(lane, visit),
        }
    }

    /// So many steps of each lane, from meeting to meeting.
    fn run(&mut self, steps: usize, order: Order) {
        let mut next = vec![0; self.lanes];
        while next[0] < steps {
            let mut left: Vec<usize> = (0..self.lanes).collect();
            while !left.is_empty() {
                let lane = order(&left);
                let step = next[lane];
                self.step(lane, step);
                next[lane] += 1;
                if self.meets_after(step) || next[lane] == steps {
                    left.retain(|&other| other != lane);
                }
            }
        }
    }

    fn key(&mut self, lane: usize, key_len: usize) -> Vec<u8> {
        let own = match self.misreading {
            LastCellOfLane0 | WrittenOfLane0 => 0,
            _ => lane,
        };
        let last = self.cells[self.at(own, self.prev0[lane], 0)];
        self.sponges[lane].absorb_cell(&last);
        let mut key = Vec::new();
        while key.len() < key_len {
            if !key.is_empty() {
                self.sponges[lane].full_call();
            }
            let rand = self.sponges[lane].rand();
            key.extend(rand.into_iter().flat_map(u64::to_le_bytes));
        }
        key.truncate(key_len);
        key
    }
}

/// The padded input of a lane.
fn padded(inputs: &LaneInputs, key_len: usize, lane: u64, misreading: Misreading) -> Vec<u8> {
    let lengths = [key_len, inputs.password.len(), inputs.salt.len()].map(|len| len as u64);
    let rows = match misreading {
        RowsOfLaneInInput => inputs.r / inputs.p,
        _ => inputs.r,
    };
    let closing = match misreading {
        SixNumbers => vec![],
        LaneLeftOut => vec![inputs.p],
        LanesLeftOut => vec![lane],
        LaneFromOne => vec![inputs.p, lane + 1],
        LaneBeforeLanes => vec![lane, inputs.p],
        _ => vec![inputs.p, lane],
    };
    let mut input = [inputs.password, inputs.salt].concat();
    for number in lengths
        .into_iter()
        .chain([inputs.t, rows, inputs.c])
        .chain(closing)
    {
        input.extend((number as u32).to_le_bytes());
    }
    input.push(0x80);
    while input.len() % 64 != 0 {
        input.push(0);
    }
    let last = input.len() - 1;
    input[last] |= 0x01;
    input
}

fn started(inputs: &LaneInputs, key_len: usize, lane: u64, misreading: Misreading) -> Sponge {
    let mut sponge = Sponge::start(1, Settings::USUAL.mixer);
    for block in padded(inputs, key_len, lane, misreading).chunks(64) {
        let word = |j: usize| u64::from_le_bytes(block[8 * j..][..8].try_into().unwrap());
        sponge.absorb_block(&std::array::from_fn(word));
    }
    sponge
}

/// What a derivation ends with.
#[derive(Debug, PartialEq, Eq)]
pub struct End {
    pub key: Vec<u8>,
    pub states: Vec<State>,
    pub matrix: Vec<u64>,
    pub counts: Counts,
}

/// The end of a derivation by this reading of request #111, with the lanes in this order.
pub fn derive(inputs: &LaneInputs, key_len: usize, misreading: Misreading, order: Order) -> End {
    let (lanes, columns) = (inputs.p as usize, inputs.c as usize);
    let rows = inputs.r as usize / lanes;
    let sponges = (0..inputs.p).map(|lane| started(inputs, key_len, lane, misreading));
    let first_previous = match misreading {
        FirstPreviousOfRow0 => 0,
        _ => rows - 1,
    };
    let mut derivation = Lanes {
        misreading,
        lanes,
        rows,
        columns,
        cells: vec![[0; 12]; lanes * rows * columns],
        sponges: sponges.collect(),
        prev0: vec![first_previous; lanes],
    };
    let visits = inputs.t as usize
        * match misreading {
            VisitsOfAllRows => lanes * rows,
            _ => rows,
        };
    derivation.run(rows + visits, order);
    let states = derivation.sponges.iter().map(Sponge::state).collect();
    let keys: Vec<Vec<u8>> = (0..lanes)
        .map(|lane| derivation.key(lane, key_len))
        .collect();
    End {
        key: joined(&keys, misreading),
        states,
        matrix: derivation.cells.concat(),
        counts: derivation.sponges.iter().map(Sponge::counts).sum(),
    }
}

/// The key of all lanes.
fn joined(keys: &[Vec<u8>], misreading: Misreading) -> Vec<u8> {
    let taken = match misreading {
        FirstKeyAlone => 1,
        LastKeyLeftOut => keys.len() - 1,
        _ => keys.len(),
    };
    let mut joined = vec![0u8; keys[0].len()];
    for key in &keys[..taken] {
        for (x, y) in joined.iter_mut().zip(key) {
            *x = match misreading {
                KeysOred => *x | y,
                KeysAdded => x.wrapping_add(*y),
                _ => *x ^ y,
            };
        }
    }
    joined
}
