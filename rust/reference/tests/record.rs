//! The words of the visit record: taken apart and put together, on any words and on records of derivations.

// The other misreadings are for a test of their own.
#[allow(dead_code)]
mod second_writing;

use lyra2_reference::record::{numbers, visits, word, Visit};
use lyra2_reference::vectors::random::{mixer, settings, Random};
use lyra2_reference::{derive_recorded, Settings};
use second_writing::{derive, Inputs, Misreading};

/// Words whose bits are at the edges of the two numbers, or above every accepted row.
const EDGES: [(u64, [u64; 2]); 12] = [
    (0, [0, 0]),
    (1, [1, 0]),
    (65_535, [65_535, 0]),
    (65_536, [0, 1]),
    (65_537, [1, 1]),
    (16_383 * 65_536 + 16_383, [16_383, 16_383]),
    (u32::MAX as u64, [65_535, 65_535]),
    (1 << 32, [0, 65_536]),
    (1 << 32 | 65_537, [1, 65_537]),
    (1 << 48, [0, 1 << 32]),
    (1 << 63, [0, 1 << 47]),
    (u64::MAX, [65_535, (1 << 48) - 1]),
];

#[test]
fn words_at_the_edges() {
    for (of_both, both) in EDGES {
        assert_eq!(numbers(of_both), both, "{of_both:#x}");
        assert_eq!(word(both), of_both, "{both:?}");
    }
}

#[test]
fn any_word_taken_apart_gives_the_word_again() {
    let mut random = Random::new(1);
    for _ in 0..200_000 {
        // Shorter words too, whose second number is small.
        let any = random.word() >> random.between(0, 63);
        let both = numbers(any);
        assert!(both[0] < 65_536, "{any:#x}");
        assert_eq!(word(both), any, "{any:#x}");
    }
}

/// Every bit belongs to just one of the two numbers.
#[test]
fn each_bit_changes_one_number() {
    for bit in 0..64 {
        let due = match bit {
            0..16 => [1 << bit, 0],
            _ => [0, 1 << (bit - 16)],
        };
        assert_eq!(numbers(1 << bit), due, "bit {bit}");
    }
}

/// T, R and C, small for the most part, with rows from 256 on and many columns among them.
fn draw_shape(random: &mut Random) -> [usize; 3] {
    let most_rows = if random.once_in(10) { 600 } else { 12 };
    let most_columns = if random.once_in(10) { 256 } else { 4 };
    let drawn = [
        random.between(0, 2),
        random.between(3, most_rows),
        random.between(1, most_columns),
    ];
    drawn.map(|number| number as usize)
}

fn draw_inputs(random: &mut Random, [t, r, c]: [usize; 3]) -> Inputs {
    let Settings { rho, omega, .. } = settings(random);
    Inputs {
        key_len: 8,
        password: random.bytes(12),
        salt: random.bytes(8),
        t,
        r,
        c,
        rho: rho as usize,
        omega: omega as usize,
        mixer: mixer(random),
    }
}

/// The used record of the library.
fn packed(inputs: &Inputs) -> Vec<u64> {
    let given = lyra2_reference::Inputs {
        password: &inputs.password,
        salt: &inputs.salt,
        t: inputs.t as u64,
        r: inputs.r as u64,
        c: inputs.c as u64,
        settings: Settings {
            rho: inputs.rho as u64,
            omega: inputs.omega as u64,
            mixer: inputs.mixer,
        },
    };
    let mut matrix = vec![0; 12 * inputs.r * inputs.c];
    let mut record = vec![u64::MAX; inputs.r * inputs.t * (1 + inputs.c)];
    let mut key = vec![0; inputs.key_len];
    derive_recorded(&given, &mut key, &mut matrix, &mut record).expect("the record fits exactly");
    record
}

/// The record of the second writing with a number in each word, as it was before request #108.
fn unpacked(inputs: &Inputs) -> Vec<u64> {
    derive(inputs, Misreading::RecordUnpacked).record
}

/// The numbers of a visit, in the order in which they were once a word each.
fn flat(visit: &Visit) -> Vec<u64> {
    [&visit.rows[..], visit.columns.as_flattened()].concat()
}

#[test]
fn visits_of_a_derivation_are_read_from_its_record() {
    let mut random = Random::new(2);
    let (mut from_256, mut read_visits) = (0, 0);
    for _ in 0..600 {
        let shape = draw_shape(&mut random);
        let inputs = draw_inputs(&mut random, shape);
        let record = packed(&inputs);
        let read = visits(&record, inputs.c);
        assert_eq!(read.len(), inputs.r * inputs.t);
        let old_words: Vec<u64> = read.iter().flat_map(flat).collect();
        assert_eq!(old_words, unpacked(&inputs), "{shape:?}");
        let again: Vec<u64> = read.iter().flat_map(Visit::words).collect();
        assert_eq!(again, record, "{shape:?}");
        from_256 += read.iter().filter(|visit| visit.rows[1] >= 256).count();
        read_visits += read.len();
    }
    // Else the shapes above would not show a number that is cut to a byte.
    assert!(
        from_256 >= 100 && read_visits >= 5_000,
        "{from_256} {read_visits}"
    );
}

/// Visits that were never made, put into words and read again.
#[test]
fn visits_put_into_words_are_read_again() {
    let mut random = Random::new(3);
    for _ in 0..2_000 {
        let [t, r, c] = draw_shape(&mut random);
        let mut pair = |below: usize| [0; 2].map(|_| random.between(0, below as u64 - 1));
        let mut visit = || Visit {
            rows: pair(r),
            columns: (0..c).map(|_| pair(c)).collect(),
        };
        let made: Vec<Visit> = (0..t).map(|_| visit()).collect();
        let words: Vec<u64> = made.iter().flat_map(Visit::words).collect();
        assert_eq!(words.len(), t * (1 + c));
        assert_eq!(visits(&words, c), made);
    }
}

/// Derivations of which many have equal records: a few visits of three rows and one column come to the same now and then,
/// every fifth input is an earlier one with another key length, which is absorbed too, and every seventh is asked again.
fn many_inputs() -> Vec<Inputs> {
    let mut random = Random::new(4);
    let mut all: Vec<Inputs> = Vec::new();
    for number in 0..1_000 {
        let shape = match number % 4 {
            0 => draw_shape(&mut random),
            _ => [1, 3, 1],
        };
        let mut inputs = draw_inputs(&mut random, shape);
        if let Some(earlier) = all
            .get(number / 2)
            .filter(|_| number % 5 == 0 || number % 7 == 0)
        {
            inputs = Inputs {
                password: earlier.password.clone(),
                salt: earlier.salt.clone(),
                key_len: earlier.key_len + usize::from(number % 5 == 0),
                ..*earlier
            };
        }
        all.push(inputs);
    }
    all
}

#[test]
fn records_agree_exactly_when_unpacked_ones_do() {
    let all = many_inputs();
    let records: Vec<_> = all.iter().map(|one| (packed(one), unpacked(one))).collect();
    let (mut equal, mut equal_by_chance, mut unequal) = (0, 0, 0);
    for (place, (new, old)) in records.iter().enumerate() {
        for (earlier, (other_new, other_old)) in records[..place].iter().enumerate() {
            assert_eq!(new == other_new, old == other_old, "{earlier} and {place}");
            match (
                old == other_old,
                all[earlier].password == all[place].password,
            ) {
                (true, true) => equal += 1,
                // Without visits all records are empty.
                (true, false) => equal_by_chance += usize::from(!old.is_empty()),
                (false, _) => unequal += 1,
            }
        }
    }
    let met = format!("{equal} {equal_by_chance} {unequal}");
    assert!(
        equal >= 100 && equal_by_chance >= 100 && unequal >= 100_000,
        "{met}"
    );
}
