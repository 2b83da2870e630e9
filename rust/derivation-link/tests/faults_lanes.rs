//! Faulty programs with lanes, made on purpose: the random comparison has to notice every fault.

use derivation_link::lanes::compare_random;
use derivation_link::Proved;
use lyra2_reference::vectors::random::Random;
use lyra2_reference::vectors::Subject;
use lyra2_reference::{Checked, Counts, Inputs, LaneInputs, Parameters, Refusal, Settings};

#[derive(Clone, Copy, Debug, PartialEq, Eq)]
enum Fault {
    Nothing,
    Missing,
    CheckMissing,
    CostMissing,
    EverythingRefused,
    RefusedWith(Refusal, Refusal),
    // What is derived.
    LanesLess,
    LanesOfOne,
    TimeOneMore,
    SingleSpongeForOne,
    FirstKeyByte,
    LastKeyByte,
    // What is lent.
    FirstWordLeft,
    LastWordLeft,
    LanesButTheFirstLeft,
    WordPastMatrix,
    KeyOnRefusal,
    MatrixOnRefusal,
    PasswordByRest,
    // What is taken or refused.
    ZeroTimeAsOne,
    NoLaneAsOne,
    NineLanesAsEight,
    LanesCutTo8Bits,
    LanesCutTo32Bits,
    OddRowsCut,
    ThreeRowsAsFour,
    TwoRowsAsFour,
    OneWordShortTaken,
    LanesBeforeColumns,
    LanesAfterMatrix,
    TimeAfterRows,
    // Counts, costs and checks.
    FullOfOneLane,
    ReducedOfOneLane,
    RoundCount,
    CostOfSixNumbers,
    CostOfOneLane,
    CostOfZeroTime,
    CheckSaysYes,
    CheckSaysNo,
    CheckForgetsLastByte,
    CheckKeepsMatrix,
    CheckOnRefusal,
}

use Fault::*;

/// The proved library with a fault put around it.
struct Faulty(Fault);

impl Faulty {
    /// What the faulty program takes for its inputs.
    fn read<'a>(&self, inputs: &LaneInputs<'a>) -> LaneInputs<'a> {
        let LaneInputs { t, r, p, .. } = *inputs;
        let (t, r, p) = match self.0 {
            // Rows that go with p lanes need not go with fewer.
            LanesLess if p > 1 && r.is_multiple_of(2 * (p - 1)) => (t, r, p - 1),
            LanesOfOne if (1..=8).contains(&p) => (t, r, 1),
            TimeOneMore if (1..=254).contains(&t) => (t + 1, r, p),
            ZeroTimeAsOne => (t.max(1), r, p),
            NoLaneAsOne => (t, r, p.max(1)),
            NineLanesAsEight if p == 9 => (t, r, 8),
            LanesCutTo8Bits => (t, r, p % (1 << 8)),
            LanesCutTo32Bits => (t, r, p % (1 << 32)),
            OddRowsCut => (t, r - r % 2, p),
            _ => (t, r, p),
        };
        LaneInputs { t, r, p, ..*inputs }
    }

    /// The answer of the faulty program, given the right one and the conditions of the checks.
    fn spoil_answer<A>(&self, answer: Result<A, Refusal>, p: u64) -> Result<A, Refusal> {
        match (self.0, answer) {
            (EverythingRefused, Ok(_)) => Err(Refusal::Lanes),
            (RefusedWith(due, instead), Err(refusal)) if refusal == due => Err(instead),
            (LanesBeforeColumns, Err(Refusal::Columns)) if p == 0 || p > 8 => Err(Refusal::Lanes),
            (_, answer) => answer,
        }
    }

    fn spoil_counts(&self, mut counts: Counts, p: u64) -> Counts {
        match self.0 {
            FullOfOneLane => counts.full /= p,
            ReducedOfOneLane => counts.reduced /= p,
            RoundCount => counts.rounds += 1,
            _ => (),
        }
        counts
    }

    /// A call that the library refuses and the faulty program makes all the same, with rows or words that it can be made with.
    fn made_all_the_same(&self, inputs: &LaneInputs, words: usize) -> Option<Counts> {
        let LaneInputs { r, c, p, .. } = *inputs;
        if !(1..=8).contains(&p) {
            return None;
        }
        let is_taken = match self.0 {
            ThreeRowsAsFour => r == 3 * p,
            TwoRowsAsFour => r == 2 * p,
            OneWordShortTaken => words as u64 + 1 == r.saturating_mul(c).saturating_mul(12),
            _ => false,
        };
        is_taken.then(Counts::default)
    }

    /// The refusal where two checks are exchanged.
    fn exchanged(&self, inputs: &LaneInputs, words: usize) -> Option<Refusal> {
        let LaneInputs { t, r, c, .. } = *inputs;
        let is_short = (words as u64) < r.saturating_mul(c).saturating_mul(12);
        match self.0 {
            LanesAfterMatrix if is_short => Some(Refusal::MatrixWords),
            TimeAfterRows if (t == 0 || t > 255) && !(3..=16_384).contains(&r) => {
                Some(Refusal::Rows)
            }
            _ => None,
        }
    }

    fn spoil_buffers(&self, inputs: &LaneInputs, key: &mut [u8], matrix: &mut [u64]) {
        let used = (12 * inputs.r * inputs.c) as usize;
        let one_lane = used / inputs.p as usize;
        let last = key.len() - 1;
        match self.0 {
            FirstKeyByte => key[0] ^= 0x80,
            LastKeyByte => key[last] ^= 0x01,
            FirstWordLeft => matrix[0] = 1,
            LastWordLeft => matrix[used - 1] = 1,
            LanesButTheFirstLeft => matrix[one_lane..used].fill(1),
            WordPastMatrix if used < matrix.len() => matrix[used] ^= 1,
            SingleSpongeForOne if inputs.p == 1 => single_sponge(inputs, key),
            _ => (),
        }
    }
}

/// The key of the single sponge for the same inputs.
fn single_sponge(inputs: &LaneInputs, key: &mut [u8]) {
    let single = Inputs {
        password: inputs.password,
        salt: inputs.salt,
        t: inputs.t,
        r: inputs.r,
        c: inputs.c,
        settings: Settings::USUAL,
    };
    let mut matrix = vec![0; (12 * inputs.r * inputs.c) as usize];
    Proved.derive(&single, key, &mut matrix).expect("accepted");
}

impl Subject for Faulty {
    fn lanes_derive(
        &self,
        given: &LaneInputs,
        key: &mut [u8],
        matrix: &mut [u64],
    ) -> Option<Result<Counts, Refusal>> {
        let mut inputs = self.read(given);
        if self.0 == PasswordByRest && inputs.password.len() > 1 {
            inputs.password = &inputs.password[1..];
        }
        let answer = match self.0 {
            Missing => return None,
            _ => Proved.lanes_derive(&inputs, key, matrix)?,
        };
        match (self.0, answer) {
            (_, Ok(_)) => self.spoil_buffers(&inputs, key, matrix),
            (KeyOnRefusal, Err(_)) => key.fill(0),
            (MatrixOnRefusal, Err(_)) => matrix.fill(0),
            (_, Err(Refusal::Lanes | Refusal::MatrixWords)) => {
                if let Some(counts) = self.made_all_the_same(&inputs, matrix.len()) {
                    return Some(Ok(counts));
                }
            }
            _ => (),
        }
        if let (Err(Refusal::TimeCost | Refusal::Lanes), Some(refusal)) =
            (answer, self.exchanged(&inputs, matrix.len()))
        {
            return Some(Err(refusal));
        }
        let answer = self.spoil_answer(answer, given.p);
        Some(answer.map(|counts| self.spoil_counts(counts, inputs.p)))
    }

    fn lanes_check(
        &self,
        inputs: &LaneInputs,
        stored: &[u8],
        matrix: &mut [u64],
    ) -> Option<Result<Checked, Refusal>> {
        let before = matrix.to_vec();
        let mut answer = match self.0 {
            CheckMissing => return None,
            CheckForgetsLastByte if stored.len() > 1 => {
                let mut key = stored.to_vec();
                let counts = Proved.lanes_derive(inputs, &mut key, matrix)?;
                let last = key.len() - 1;
                let matches = key[..last] == stored[..last];
                counts.map(|counts| Checked { matches, counts })
            }
            _ => Proved.lanes_check(inputs, stored, matrix)?,
        };
        match (self.0, &mut answer) {
            (CheckSaysYes, Ok(checked)) => checked.matches = true,
            (CheckSaysNo, Ok(checked)) => checked.matches = false,
            (CheckKeepsMatrix, Ok(_)) => matrix.copy_from_slice(&before),
            (CheckOnRefusal, Err(_)) => matrix.fill(0),
            _ => (),
        }
        Some(answer)
    }

    fn lanes_cost(&self, given: &Parameters, p: u64) -> Option<Result<Counts, Refusal>> {
        let mut answer = match self.0 {
            CostMissing => return None,
            CostOfZeroTime if given.t == 0 => {
                let once = Parameters { t: 1, ..*given };
                Proved.lanes_cost(&once, p)?
            }
            _ => Proved.lanes_cost(given, p)?,
        };
        match (self.0, &mut answer) {
            (CostOfOneLane, Ok(counts)) => counts.full /= p,
            (CostOfSixNumbers, Ok(counts)) => {
                let single = Proved.cost(given, 1).expect("accepted with lanes");
                counts.full = p * single.full;
                counts.rounds = 12 * counts.full + counts.reduced;
            }
            _ => (),
        }
        Some(answer)
    }

    fn derive(
        &self,
        inputs: &Inputs,
        key: &mut [u8],
        matrix: &mut [u64],
    ) -> Result<Counts, Refusal> {
        Proved.derive(inputs, key, matrix)
    }

    fn check(
        &self,
        inputs: &Inputs,
        stored: &[u8],
        matrix: &mut [u64],
    ) -> Result<Checked, Refusal> {
        Proved.check(inputs, stored, matrix)
    }

    fn cost(&self, given: &Parameters, rho: u64) -> Result<Counts, Refusal> {
        Proved.cost(given, rho)
    }

    fn walk(&self, r: u64, row0: u64) -> Result<u64, Refusal> {
        Proved.walk(r, row0)
    }
}

/// Whether one of so many comparisons notices a fault.
fn is_noticed(fault: Fault, comparisons: usize) -> bool {
    let mut random = Random::new(111);
    (0..comparisons).any(|_| compare_random(&Faulty(fault), &mut random).is_err())
}

/// Shows that below nothing but the fault is noticed.
#[test]
fn no_fault_is_noticed_where_there_is_none() {
    assert!(!is_noticed(Nothing, 2000));
}

#[test]
fn every_fault_is_noticed() {
    for fault in [
        Missing,
        CheckMissing,
        CostMissing,
        EverythingRefused,
        RefusedWith(Refusal::Lanes, Refusal::Rows),
        RefusedWith(Refusal::TimeCost, Refusal::Lanes),
        RefusedWith(Refusal::SaltTooLong, Refusal::SaltTooShort),
        RefusedWith(Refusal::MatrixWords, Refusal::Lanes),
        LanesLess,
        LanesOfOne,
        TimeOneMore,
        SingleSpongeForOne,
        FirstKeyByte,
        LastKeyByte,
        FirstWordLeft,
        LastWordLeft,
        LanesButTheFirstLeft,
        WordPastMatrix,
        KeyOnRefusal,
        MatrixOnRefusal,
        PasswordByRest,
        ZeroTimeAsOne,
        NoLaneAsOne,
        NineLanesAsEight,
        LanesCutTo8Bits,
        LanesCutTo32Bits,
        OddRowsCut,
        ThreeRowsAsFour,
        TwoRowsAsFour,
        OneWordShortTaken,
        LanesBeforeColumns,
        LanesAfterMatrix,
        TimeAfterRows,
        FullOfOneLane,
        ReducedOfOneLane,
        RoundCount,
        CostOfSixNumbers,
        CostOfOneLane,
        CostOfZeroTime,
        CheckSaysYes,
        CheckSaysNo,
        CheckForgetsLastByte,
        CheckKeepsMatrix,
        CheckOnRefusal,
    ] {
        assert!(is_noticed(fault, 20_000), "{fault:?}");
    }
}
