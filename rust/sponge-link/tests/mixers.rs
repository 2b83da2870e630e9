//! G and the rounds of the proved library against the second program, with both mixers.

use lyra2_reference::sponge::{self, FULL_ROUNDS};
use lyra2_reference::vectors::random::Random;
use lyra2_reference::Mixer;
use sponge_link::{g, rounds, State};

const MIXERS: [Mixer; 2] = [Mixer::Plain, Mixer::BlaMka];

/// Words at which a half, a product or a carry goes wrong first.
const EDGES: [u64; 9] = [
    0,
    1,
    1 << 31,
    (1 << 32) - 1,
    1 << 32,
    (1 << 32) + 1,
    (1 << 33) - 1,
    1 << 63,
    u64::MAX,
];

/// States of random words for the comparison of the rounds, with each mixer.
const RANDOM_STATES: usize = 2_000;

fn is_blamka(mixer: Mixer) -> bool {
    mixer == Mixer::BlaMka
}

fn assert_g_agrees(words: [u64; 4]) {
    for mixer in MIXERS {
        let mut found = words;
        g(&mut found, is_blamka(mixer));
        assert_eq!(found, sponge::g(words, mixer), "{words:x?}, {mixer:?}");
    }
}

#[test]
fn g_of_edge_words_in_all_four_places() {
    for a in EDGES {
        for b in EDGES {
            for c in EDGES {
                for d in EDGES {
                    assert_g_agrees([a, b, c, d]);
                }
            }
        }
    }
}

#[test]
fn g_of_random_words() {
    let mut random = Random::new(107);
    for _ in 0..100_000 {
        assert_g_agrees([(); 4].map(|()| random.word()));
    }
}

/// Every number of rounds up to those of a full call.
fn assert_rounds_agree(start: State) {
    for mixer in MIXERS {
        let mut due = start;
        for n in 0..=FULL_ROUNDS {
            let mut found = start;
            rounds(&mut found, n as usize, is_blamka(mixer));
            assert_eq!(found, due, "{start:x?}, {n} rounds, {mixer:?}");
            sponge::round(&mut due, mixer);
        }
    }
}

#[test]
fn rounds_of_random_states() {
    let mut random = Random::new(108);
    for _ in 0..RANDOM_STATES {
        assert_rounds_agree([(); 16].map(|()| random.word()));
    }
}

/// Each edge word in all places, in one place among zeros, and edge words in random places.
#[test]
fn rounds_of_edge_states() {
    for word in EDGES {
        assert_rounds_agree([word; 16]);
        for place in 0..16 {
            let mut state: State = [0; 16];
            state[place] = word;
            assert_rounds_agree(state);
        }
    }
    let mut random = Random::new(109);
    for _ in 0..RANDOM_STATES {
        let edge = |()| EDGES[random.between(0, EDGES.len() as u64 - 1) as usize];
        assert_rounds_agree([(); 16].map(edge));
    }
}

/// The two mixers part in the first round, so that neither can stand for the other.
#[test]
fn mixers_part_in_the_first_round() {
    let start: State = std::array::from_fn(|place| place as u64 + 1);
    let [plain, blamka] = MIXERS.map(|mixer| {
        let mut state = start;
        rounds(&mut state, 1, is_blamka(mixer));
        state
    });
    assert_ne!(plain, blamka);
}
