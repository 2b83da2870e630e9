//! Several sponges side by side (request #111): the operations open to callers, and who of the lanes goes when (Algorithm 3).

use crate::derivation::{equal, Checked};
use crate::input::{absorb_input, padded_lane_input, Parameters};
use crate::lane::{Lane, Shape};
use crate::matrix::Matrix;
use crate::refusal::{self, Refusal};
use crate::settings::Settings;
use crate::sponge::{Counts, Sponge, State};

/// What a derivation with lanes is made from, apart from the lent buffers. Its settings are always the usual ones.
#[derive(Clone, Copy, Debug)]
pub struct LaneInputs<'a> {
    /// The password.
    pub password: &'a [u8],
    /// The salt.
    pub salt: &'a [u8],
    /// The time cost T.
    pub t: u64,
    /// The number of rows R, those of all lanes together.
    pub r: u64,
    /// The number of columns C.
    pub c: u64,
    /// The number of lanes p.
    pub p: u64,
}

impl LaneInputs<'_> {
    /// The first six numbers of the input, for a key of this length.
    pub fn parameters(&self, key_len: usize) -> Parameters {
        Parameters {
            key_len: key_len as u64,
            password_len: self.password.len() as u64,
            salt_len: self.salt.len() as u64,
            t: self.t,
            r: self.r,
            c: self.c,
        }
    }

    fn shape(&self) -> Shape {
        Shape {
            lanes: self.p as usize,
            lane_rows: (self.r / self.p) as usize,
        }
    }
}

/// Says which of some lanes goes next, by its number; there is one at least, and their numbers rise.
pub type Order<'a> = &'a mut dyn FnMut(&[usize]) -> usize;

/// What a derivation with lanes ends with, beside the key and the matrix.
#[derive(Clone, Debug, PartialEq, Eq)]
pub struct LanesEnd {
    /// The state of each lane after its last visit.
    pub states: Vec<State>,
    /// What all lanes spent together.
    pub counts: Counts,
}

/// The derivation with lanes: fills the key and leaves zeros in the used matrix.
pub fn lanes_derive(
    inputs: &LaneInputs,
    key: &mut [u8],
    matrix: &mut [u64],
) -> Result<Counts, Refusal> {
    let end = run(inputs, key, matrix, &mut in_turn)?;
    Matrix::new(matrix, inputs.r as usize, inputs.c as usize).wipe();
    Ok(end.counts)
}

/// The check with lanes: derives a key as long as the stored one, says whether they are equal, and leaves zeros in the used
/// matrix.
pub fn lanes_check(
    inputs: &LaneInputs,
    stored: &[u8],
    matrix: &mut [u64],
) -> Result<Checked, Refusal> {
    let mut key = vec![0; stored.len()];
    let counts = lanes_derive(inputs, &mut key, matrix)?;
    let matches = equal(&key, stored);
    Ok(Checked { matches, counts })
}

/// The lanes one after the other, from lane 0 on.
pub fn in_turn(left: &[usize]) -> usize {
    left[0]
}

/// The derivation with its lanes in any order: of those that are not yet at the next meeting, or whose key has not yet
/// arrived, `order` says which goes next. The used matrix then holds the end matrix.
pub fn run(
    inputs: &LaneInputs,
    key: &mut [u8],
    lent: &mut [u64],
    order: Order,
) -> Result<LanesEnd, Refusal> {
    let parameters = inputs.parameters(key.len());
    refusal::check_lanes(&parameters, inputs.p, lent)?;
    let mut matrix = Matrix::new(lent, inputs.r as usize, inputs.c as usize);
    let shape = inputs.shape();
    let mut lanes: Vec<Lane> = (0..inputs.p)
        .map(|number| start(inputs, &parameters, number))
        .collect();

    meet_until(&mut lanes, shape.lane_rows, order, |lane| {
        lane.fill_next_row(&mut matrix)
    });
    lanes.iter_mut().for_each(Lane::end_setup);
    let visits = shape.lane_rows * inputs.t as usize;
    meet_until(&mut lanes, visits, order, |lane| {
        lane.make_next_visit(&mut matrix)
    });
    let states = lanes.iter().map(Lane::state).collect();

    key.fill(0);
    each_once(lanes.len(), order, |number| {
        let arrived = lanes[number].key(&matrix, key.len());
        key.iter_mut().zip(arrived).for_each(|(x, y)| *x ^= y);
    });
    let counts = lanes.iter().map(Lane::counts).sum();
    Ok(LanesEnd { states, counts })
}

/// Lines 3 to 6 of a lane.
fn start(inputs: &LaneInputs, parameters: &Parameters, number: u64) -> Lane {
    let input = padded_lane_input(inputs.password, inputs.salt, parameters, inputs.p, number);
    let Settings { rho, mixer, .. } = Settings::USUAL;
    let mut sponge = Sponge::start(rho, mixer);
    absorb_input(&mut sponge, &input);
    Lane::new(number as usize, inputs.shape(), sponge)
}

/// Makes so many steps of each lane. A step says whether a meeting follows; nobody goes past it before all are there.
fn meet_until(
    lanes: &mut [Lane],
    steps: usize,
    order: Order,
    mut step: impl FnMut(&mut Lane) -> bool,
) {
    let mut made = vec![0; lanes.len()];
    while made.iter().any(|&count| count < steps) {
        let mut left: Vec<usize> = (0..lanes.len()).collect();
        while !left.is_empty() {
            let number = order(&left);
            made[number] += 1;
            if step(&mut lanes[number]) || made[number] == steps {
                left.retain(|&lane| lane != number);
            }
        }
    }
}

/// Does something once for each lane.
fn each_once(lanes: usize, order: Order, mut act: impl FnMut(usize)) {
    let mut left: Vec<usize> = (0..lanes).collect();
    while !left.is_empty() {
        let number = order(&left);
        act(number);
        left.retain(|&lane| lane != number);
    }
}
