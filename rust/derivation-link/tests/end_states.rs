//! The end states of recorded derivations: the state after the last visit, the used matrix and the used
//! record. With T = 0 it is the state after Setup, and the record is empty.
//!
//! Two inputs of the same settings whose padded inputs have equally many blocks, of which exactly one differs, must
//! leave end states that differ in at least one part. One input must leave the same end state in all three parts,
//! whatever the lent buffers held and however long they are.

use derivation_link::Proved;
use lyra2_reference::input::{padded_input, BLOCK_BYTES};
use lyra2_reference::sponge::State;
use lyra2_reference::vectors::random::{self, Random};
use lyra2_reference::vectors::Subject;
use lyra2_reference::{Inputs, Mixer, Parameters, Settings};
use std::collections::BTreeMap;

const TIME_COSTS: [u64; 4] = [0, 1, 2, 3];
const ROWS: [u64; 6] = [3, 4, 5, 8, 19, 40];
const COLUMNS: [u64; 4] = [1, 2, 5, 8];
const MIXERS: [Mixer; 2] = [Mixer::Plain, Mixer::BlaMka];
/// Pairs at each T, R and C with each mixer.
const PAIRS: usize = 2;

/// What a derivation is made from.
#[derive(Clone, Debug)]
struct Input {
    password: Vec<u8>,
    salt: Vec<u8>,
    key_len: usize,
    t: u64,
    r: u64,
    c: u64,
    settings: Settings,
}

impl Input {
    /// Random bytes, rounds and rotation; the lengths and the key length take one byte each in the input.
    fn random(random: &mut Random, [t, r, c]: [u64; 3]) -> Input {
        let (password_len, salt_len) = (random.between(1, 200), random.between(8, 63));
        Input {
            password: random.bytes(password_len),
            salt: random.bytes(salt_len),
            key_len: random.between(1, 255) as usize,
            t,
            r,
            c,
            settings: random::settings(random),
        }
    }

    /// As before, but the bytes of the three lengths, 0, 4 and 8 of the six numbers, stand in one block.
    fn with_lengths_together(random: &mut Random, shape: [u64; 3]) -> Input {
        loop {
            let input = Input::random(random, shape);
            let first = (input.password.len() + input.salt.len()) % BLOCK_BYTES;
            if first + 8 < BLOCK_BYTES {
                return input;
            }
        }
    }

    fn inputs(&self) -> Inputs<'_> {
        Inputs {
            password: &self.password,
            salt: &self.salt,
            t: self.t,
            r: self.r,
            c: self.c,
            settings: self.settings,
        }
    }

    fn parameters(&self) -> Parameters {
        self.inputs().parameters(self.key_len)
    }

    fn padded(&self) -> Vec<u8> {
        padded_input(&self.password, &self.salt, &self.parameters())
    }
}

/// T, R and C.
fn shapes() -> impl Iterator<Item = [u64; 3]> {
    let with_rows = |t| ROWS.into_iter().map(move |r| (t, r));
    let with_columns = |(t, r)| COLUMNS.into_iter().map(move |c| [t, r, c]);
    let times = TIME_COSTS.into_iter();
    times.flat_map(with_rows).flat_map(with_columns)
}

/// What demand 3 compares.
#[derive(Clone)]
struct EndState {
    state: State,
    used_matrix: Vec<u64>,
    used_record: Vec<u64>,
}

/// The lent buffers of a call.
#[derive(Clone)]
struct Buffers {
    key: Vec<u8>,
    matrix: Vec<u64>,
    record: Vec<u64>,
}

impl Buffers {
    /// Random contents; the matrix and the record may be longer than their used parts.
    fn random(random: &mut Random, input: &Input) -> Buffers {
        let given = input.parameters();
        let matrix_words = given.matrix_words() + random.between(0, 30);
        let record_words = given.record_words() + random.between(0, 30);
        Buffers {
            key: random.bytes(given.key_len),
            matrix: (0..matrix_words).map(|_| random.word()).collect(),
            record: (0..record_words).map(|_| random.word()).collect(),
        }
    }

    /// The same word, or its lowest byte, in every place.
    fn filled(input: &Input, word: u64, spare_words: usize) -> Buffers {
        let given = input.parameters();
        Buffers {
            key: vec![word as u8; input.key_len],
            matrix: vec![word; given.matrix_words() as usize + spare_words],
            record: vec![word; given.record_words() as usize + spare_words],
        }
    }
}

/// The end state of an accepted call over these buffers.
fn end_state(input: &Input, lent: &mut Buffers) -> EndState {
    let answer = Proved.derive_recorded(
        &input.inputs(),
        &mut lent.key,
        &mut lent.matrix,
        &mut lent.record,
    );
    let recorded = answer
        .expect("the library has this operation")
        .unwrap_or_else(|refusal| panic!("{input:?}: {refusal}"));
    let given = input.parameters();
    EndState {
        state: recorded.state,
        used_matrix: lent.matrix[..given.matrix_words() as usize].to_vec(),
        used_record: lent.record[..given.record_words() as usize].to_vec(),
    }
}

/// The words of one part.
type Part = fn(&mut EndState) -> &mut [u64];

/// The parts in which two end states differ.
fn differing_parts(x: &EndState, y: &EndState) -> Vec<&'static str> {
    let parts = [
        ("state", x.state != y.state),
        ("matrix", x.used_matrix != y.used_matrix),
        ("record", x.used_record != y.used_record),
    ];
    let differing = parts.into_iter().filter(|&(_, differs)| differs);
    differing.map(|(name, _)| name).collect()
}

/// The numbers of the blocks in which two padded inputs differ, which must have equally many.
fn differing_blocks(x: &Input, y: &Input) -> Vec<usize> {
    let (x, y) = (x.padded(), y.padded());
    assert_eq!(x.len(), y.len(), "not equally many blocks");
    let pairs = x.chunks(BLOCK_BYTES).zip(y.chunks(BLOCK_BYTES));
    let differing = pairs.enumerate().filter(|(_, (x, y))| x != y);
    differing.map(|(number, _)| number).collect()
}

/// Compares the end states of random inputs with those of changed ones, one block apart and with the same mixer, and
/// prints how many pairs differ in which parts.
fn tell_apart(
    seed: u64,
    draw: fn(&mut Random, [u64; 3]) -> Input,
    change: fn(&mut Input, &mut Random),
) {
    for mixer in MIXERS {
        tell_apart_with(mixer, &mut Random::new(seed), draw, change);
    }
}

fn tell_apart_with(
    mixer: Mixer,
    random: &mut Random,
    draw: fn(&mut Random, [u64; 3]) -> Input,
    change: fn(&mut Input, &mut Random),
) {
    let mut told_by = BTreeMap::new();
    for shape in shapes().flat_map(|shape| [shape; PAIRS]) {
        let mut one = draw(random, shape);
        one.settings.mixer = mixer;
        let mut other = one.clone();
        change(&mut other, random);
        let blocks = differing_blocks(&one, &other);
        assert_eq!(blocks.len(), 1, "{one:?} and {other:?}: {blocks:?}");
        let [x, y] = [&one, &other].map(|input| {
            let mut lent = Buffers::random(random, input);
            end_state(input, &mut lent)
        });
        let parts = differing_parts(&x, &y);
        assert!(!parts.is_empty(), "{one:?} and {other:?} end alike");
        *told_by.entry(parts).or_insert(0) += 1;
    }
    println!("{mixer:?}: pairs, by the parts in which they differ: {told_by:?}");
}

fn flip_one_bit(bytes: &mut [u8], random: &mut Random) {
    let place = random.between(0, bytes.len() as u64 - 1);
    bytes[place as usize] ^= 1 << random.between(0, 7);
}

#[test]
fn one_bit_of_the_password() {
    tell_apart(1, Input::random, |input, random| {
        flip_one_bit(&mut input.password, random)
    });
}

#[test]
fn one_bit_of_the_salt() {
    tell_apart(2, Input::random, |input, random| {
        flip_one_bit(&mut input.salt, random)
    });
}

/// The key length takes no part in the walk, and is told from the input block alone.
#[test]
fn the_key_length() {
    tell_apart(3, Input::random, |input, random| match random.once_in(2) {
        true => input.key_len = input.key_len % 255 + 1,
        false => input.key_len += 256,
    });
}

/// Password and salt one after the other are the same bytes, so the two lengths alone differ.
#[test]
fn a_byte_moved_from_the_password_to_the_salt() {
    tell_apart(4, Input::with_lengths_together, |input, _| {
        let moved = input.password.pop().expect("the password has a byte");
        input.salt.insert(0, moved);
    });
}

#[test]
fn one_input_over_any_buffers() {
    let mut random = Random::new(5);
    for (shape, mixer) in shapes().flat_map(|shape| MIXERS.map(|mixer| (shape, mixer))) {
        let mut input = Input::random(&mut random, shape);
        input.settings.mixer = mixer;
        let mut first = Buffers::filled(&input, 0, 0);
        let due = end_state(&input, &mut first);
        // The first of these hold what the call before has left.
        for mut lent in [
            first.clone(),
            Buffers::filled(&input, u64::MAX, 1),
            Buffers::random(&mut random, &input),
            Buffers::random(&mut random, &input),
        ] {
            let found = end_state(&input, &mut lent);
            let parts = differing_parts(&due, &found);
            assert!(parts.is_empty(), "{input:?}: {parts:?}");
            assert_eq!(lent.key, first.key, "{input:?}");
        }
    }
}

/// An input of two blocks: the first has the password and the salt, the second the six numbers.
fn two_blocks(mixer: Mixer) -> Input {
    Input {
        password: b"correct horse battery staple and a donkey too".to_vec(),
        salt: b"nineteen salt bytes".to_vec(),
        key_len: 32,
        t: 1,
        r: 4,
        c: 2,
        settings: Settings {
            mixer,
            ..Settings::USUAL
        },
    }
}

/// The end states of an input and of the changed one, which differ in this block alone and are both accepted.
fn ends_one_block_apart(one: Input, change: fn(&mut Input), block: usize) -> [EndState; 2] {
    let mut other = one.clone();
    change(&mut other);
    let inputs = [&one, &other];
    assert_eq!(inputs.map(|input| input.padded().len()), [128; 2]);
    assert_eq!(differing_blocks(&one, &other), [block]);
    inputs.map(|input| end_state(input, &mut Buffers::filled(input, 0, 0)))
}

/// An input that differs from the one above in this block alone ends otherwise, with either mixer.
fn assert_told_by_block(change: fn(&mut Input), block: usize) {
    for mixer in MIXERS {
        let [x, y] = ends_one_block_apart(two_blocks(mixer), change, block);
        assert_eq!(differing_parts(&x, &y), ["state", "matrix", "record"]);
    }
}

/// The last letters of the passwords, o and n, are one bit apart.
#[test]
fn two_inputs_whose_first_blocks_differ() {
    let last_letter = |input: &mut Input| {
        input.password = b"correct horse battery staple and a donkey ton".to_vec();
    };
    assert_told_by_block(last_letter, 0);
}

/// The key lengths, 32 and 33, are one bit apart.
#[test]
fn two_inputs_whose_second_blocks_differ() {
    assert_told_by_block(|input| input.key_len = 33, 1);
}

/// Without visits the records are empty, and state and matrix alone tell two inputs apart.
#[test]
fn two_inputs_without_visits() {
    for mixer in MIXERS {
        let setup_alone = Input {
            t: 0,
            ..two_blocks(mixer)
        };
        let [x, y] = ends_one_block_apart(setup_alone, |input| input.key_len = 33, 1);
        assert_eq!([x.used_record.len(), y.used_record.len()], [0, 0]);
        assert_eq!(differing_parts(&x, &y), ["state", "matrix"]);
    }
}

/// The comparison above sees one changed bit in the last word of each part.
#[test]
fn every_part_is_compared() {
    let input = two_blocks(Mixer::Plain);
    let end = end_state(&input, &mut Buffers::filled(&input, 0, 0));
    let parts: [(&str, Part); 3] = [
        ("state", |end| &mut end.state),
        ("matrix", |end| &mut end.used_matrix),
        ("record", |end| &mut end.used_record),
    ];
    for (name, part) in parts {
        let mut changed = end.clone();
        let last = part(&mut changed).last_mut().expect("no part is empty");
        *last ^= 1;
        assert_eq!(differing_parts(&end, &changed), [name]);
    }
}
