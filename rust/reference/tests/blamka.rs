//! BlaMka's addition and G with it, worked out by hand from request #107.

use lyra2_reference::sponge::{add, g, round, State};
use lyra2_reference::vectors::random::Random;
use lyra2_reference::Mixer::{BlaMka, Plain};

/// Words at which a half or a carry goes wrong first.
const EDGES: [u64; 9] = [
    0,
    1,
    1 << 31,
    (1 << 32) - 1,
    1 << 32,
    (1 << 32) + 1,
    (1 << 33) - 1,
    1 << 63,
    u64::MAX,
];

#[test]
fn additions_by_hand() {
    let cases = [
        // Small numbers: a + b + 2·a·b.
        (0, 7, 7),
        (1, 1, 4),
        (2, 3, 17),
        // A low half of zero leaves the sum.
        (1 << 32, u64::MAX, (1 << 32) - 1),
        (1 << 32, 1 << 32, 1 << 33),
        (1 << 63, 1 << 63, 0),
        // High halves are added and not multiplied.
        ((1 << 32) + 1, (1 << 32) + 1, (1 << 33) + 4),
        ((1 << 33) - 1, 1, (1 << 34) - 2),
        // The doubled product fills the word, and passes it.
        (1 << 31, 1 << 31, (1 << 63) + (1 << 32)),
        (1 << 31, (1 << 32) - 1, (1 << 31) - 1),
        ((1 << 32) - 1, (1 << 32) - 1, 0xffff_fffe_0000_0000),
        (u64::MAX, u64::MAX, 0xffff_fffc_0000_0000),
        // The sum passes the word as well.
        (1, u64::MAX, (1 << 33) - 2),
    ];
    for (a, b, due) in cases {
        assert_eq!(add(a, b, BlaMka), due, "{a:#x}, {b:#x}");
        assert_eq!(add(b, a, BlaMka), due, "{b:#x}, {a:#x}");
    }
}

/// The same in numbers of 128 bits, in which nothing is dropped before the end.
#[test]
fn additions_of_edge_words() {
    for a in EDGES {
        for b in EDGES {
            let (wide_a, wide_b) = (u128::from(a), u128::from(b));
            let sum = wide_a + wide_b;
            let product = (wide_a % (1 << 32)) * (wide_b % (1 << 32));
            assert_eq!(add(a, b, Plain), sum as u64, "{a:#x}, {b:#x}");
            let due = (sum + 2 * product) as u64;
            assert_eq!(add(a, b, BlaMka), due, "{a:#x}, {b:#x}");
        }
    }
}

/// Each case but the first two has a product in another of the four additions.
#[test]
fn g_by_hand() {
    let cases = [
        ([0; 4], [0; 4]),
        (
            [1, 0, 0, 0],
            [
                0x301,
                0x0602000200020200,
                0x0301000100010000,
                0x0301000000010000,
            ],
        ),
        // The first: 1 and 1 give 4.
        (
            [1, 1, 0, 0],
            [
                0x0000010000002404,
                0x4808020802080800,
                0x2404000401040000,
                0x2404000001040000,
            ],
        ),
        // The second: d comes to 1, and c to 4.
        (
            [0, 0, 1, 1 << 32],
            [
                0x0000040000000000,
                0x0002080048000008,
                0x0001000024000004,
                0x0001000004000000,
            ],
        ),
        // The third: 1 and b, whose low half has come to 100.
        (
            [0, 1, 0, 0],
            [
                0x0000010000000301,
                0x0602020202020200,
                0x0301000101010000,
                0x0301000001010000,
            ],
        ),
        // The fourth: c and d, with the low halves 1 and 1010000.
        (
            [0, 0, 1, 1],
            [
                0x0000010000000100,
                0x0200020206060202,
                0x0100000103030001,
                0x0100000001010000,
            ],
        ),
    ];
    for (words, due) in cases {
        assert_eq!(g(words, BlaMka), due, "{words:x?}");
    }
}

/// The a that was added to b: its low half is found by dividing by an odd number modulo 2^32.
fn undone(sum: u64, b: u64) -> u64 {
    let low_b = b as u32;
    let odd = low_b.wrapping_mul(2).wrapping_add(1);
    // Each step doubles the low bits in which the product with the odd number is 1.
    let inverse = (0..5).fold(1u32, |x, _| {
        x.wrapping_mul(2u32.wrapping_sub(odd.wrapping_mul(x)))
    });
    let low_a = (sum as u32).wrapping_sub(low_b).wrapping_mul(inverse);
    let product = u64::from(low_a) * u64::from(low_b);
    sum.wrapping_sub(b).wrapping_sub(product.wrapping_mul(2))
}

/// No two words come to the same sum with a third, so that G with BlaMka loses nothing either.
#[test]
fn additions_can_be_undone() {
    let mut random = Random::new(107);
    let drawn = (0..100).map(|_| random.word());
    let words: Vec<u64> = EDGES.into_iter().chain(drawn).collect();
    for &a in &words {
        for &b in &words {
            assert_eq!(undone(add(a, b, BlaMka), b), a, "{a:#x}, {b:#x}");
        }
    }
}

#[test]
fn a_round_of_zeros_is_zeros_and_of_others_goes_by_the_mixer() {
    for mixer in [Plain, BlaMka] {
        let mut zeros: State = [0; 16];
        round(&mut zeros, mixer);
        assert_eq!(zeros, [0; 16]);
    }
    let start: State = std::array::from_fn(|place| place as u64);
    let [mut plain, mut blamka] = [start; 2];
    round(&mut plain, Plain);
    round(&mut blamka, BlaMka);
    assert!(plain.iter().zip(blamka).all(|(x, y)| *x != y));
}
