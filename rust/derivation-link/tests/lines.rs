//! Login lines through the C interface against the second program: every length of salt and key, every change of a byte,
//! numbers of up to 2,000 digits, outputs of every length about the right one, and random lines.

use derivation_link::lines::{compare_question, compare_read, compare_written};
use derivation_link::Proved;
use lyra2_reference::base64::encode;
use lyra2_reference::vectors::random::Random;
use lyra2_reference::{LineParts, LineValues, Refusal};
use std::collections::BTreeMap;

/// How many inputs gave which answer; 0 is an accepted one.
#[derive(Default)]
struct Met(BTreeMap<u8, usize>);

impl Met {
    fn note<A>(&mut self, answer: &Result<A, Refusal>) {
        let number = answer.as_ref().err().map_or(0, |refusal| refusal.number());
        *self.0.entry(number).or_default() += 1;
    }

    /// All inputs, once it is seen that just these answers were met. The number shows with --nocapture.
    fn inputs(&self, name: &str, answers: &[u8]) -> usize {
        let met: Vec<u8> = self.0.keys().copied().collect();
        assert_eq!(met, answers, "{name}");
        let inputs = self.0.values().sum();
        println!("{name}: {inputs} inputs, {:?}", self.0);
        inputs
    }
}

/// Calls of both programs, with what they answered.
struct Reading {
    random: Random,
    met: Met,
}

impl Reading {
    fn new(seed: u64) -> Reading {
        Reading {
            random: Random::new(seed),
            met: Met::default(),
        }
    }

    fn read(&mut self, line: &[u8], rooms: [usize; 2]) -> Result<LineValues, Refusal> {
        let answer = compare_read(&Proved, line, rooms, &mut self.random)
            .unwrap_or_else(|what| panic!("{what}"));
        self.met.note(&answer);
        answer
    }

    fn write(&mut self, parts: &LineParts, room: usize) -> Result<Vec<u8>, Refusal> {
        let answer = compare_written(&Proved, parts, room, &mut self.random)
            .unwrap_or_else(|what| panic!("{what}"));
        self.met.note(&answer);
        answer
    }
}

/// The line of some values, also of those that are outside of their limits.
fn line(parts: &LineParts) -> Vec<u8> {
    let LineParts { t, r, c, salt, key } = *parts;
    let start = format!("$lyra2$t={t},r={r},c={c}$").into_bytes();
    [&start[..], &encode(salt), b"$", &encode(key)].concat()
}

/// Every length of the salt with every length of the key, in turn with T, R and C of every length. An accepted line is
/// read from what was written.
#[test]
fn every_length_of_salt_and_key() {
    let mut reading = Reading::new(1);
    let bytes = reading.random.bytes(2000);
    for salt_len in 0..=70 {
        for key_len in 0..=1030 {
            let start = (salt_len * 31 + key_len) % 900;
            let turn = (salt_len + key_len) as u64;
            let parts = LineParts {
                t: [0, 7, 42, 255][turn as usize % 4],
                r: [3, 16, 300, 4096, 16_384][turn as usize % 5],
                c: [1, 25, 256][turn as usize % 3],
                salt: &bytes[start..start + salt_len],
                key: &bytes[start + 7..start + 7 + key_len],
            };
            let due = line(&parts);
            // Just enough, or a byte more.
            let spare = usize::from(turn.is_multiple_of(2));
            let written = reading.write(&parts, due.len() + spare);
            let read = reading.read(&due, [salt_len + spare, key_len + 1 - spare]);
            let accepted = (8..=64).contains(&salt_len) && (1..=1024).contains(&key_len);
            assert_eq!((written.is_ok(), read.is_ok()), (accepted, accepted));
            if let Ok(written) = written {
                assert!(written == due, "salt of {salt_len}, key of {key_len}");
            }
        }
    }
    let inputs = reading.met.inputs("lengths", &[0, 1, 3, 10]);
    assert_eq!(inputs, 2 * 71 * 1031);
}

/// Accepted lines whose texts end in every way.
const LINES: [&str; 6] = [
    "$lyra2$t=1,r=3,c=1$c2FsdHNhbHQ$Zg",
    "$lyra2$t=0,r=16384,c=256$c2FsdHNhbHRz$Zm8",
    "$lyra2$t=255,r=300,c=25$c2FsdHNhbHRzYQ$Zm9vYmFy",
    "$lyra2$t=10,r=99,c=100$AAAAAAAAAAA$AAAA",
    "$lyra2$t=42,r=4096,c=9$////////////$/w",
    "$lyra2$t=2,r=10,c=16$c2FsdCBvZiAxNiBieXRlcw$YSBrZXkgd2l0aCB0aGUgd2hvbGUgYWxwaGFiZXQ+Pz8",
];

#[test]
fn every_single_byte_change() {
    let mut reading = Reading::new(2);
    let mut due = 0;
    for text in LINES {
        let whole = text.as_bytes();
        assert!(reading.read(whole, [16, 32]).is_ok(), "{text}");
        for place in 0..whole.len() {
            for byte in (0..=255).filter(|byte| *byte != whole[place]) {
                let mut changed = whole.to_vec();
                changed[place] = byte;
                let _ = reading.read(&changed, [16, 32]);
            }
        }
        due += 1 + 255 * whole.len();
    }
    let inputs = reading.met.inputs("changed bytes", &[0, 4, 5, 6, 11]);
    assert_eq!(inputs, due);
}

/// Bytes that a line has, or that stand beside those in ASCII.
const SMALL_SET: &[u8] = b"$,=trc0129AZaz+/-_:;@[`{.* \t\r\n\0\x7f\x80\xff";

#[test]
fn every_deletion_and_insertion_of_a_byte() {
    let mut reading = Reading::new(3);
    let mut due = 0;
    for text in LINES {
        let whole = text.as_bytes();
        for place in 0..=whole.len() {
            for byte in SMALL_SET {
                let mut longer = whole.to_vec();
                longer.insert(place, *byte);
                let _ = reading.read(&longer, [16, 32]);
            }
            if place < whole.len() {
                let mut shorter = whole.to_vec();
                shorter.remove(place);
                let _ = reading.read(&shorter, [16, 32]);
            }
            // All from one place on is left out too.
            let _ = reading.read(&whole[..place], [16, 32]);
        }
        due += (whole.len() + 1) * (SMALL_SET.len() + 2) - 1;
    }
    // Some have a salt or a key of a byte more than there is room for.
    let inputs = reading
        .met
        .inputs("bytes more or less", &[0, 1, 3, 4, 5, 6, 11, 12]);
    assert_eq!(inputs, due);
}

/// The longest line, with another byte at every place, no byte there, or one more.
#[test]
fn every_place_of_the_longest_line() {
    let mut reading = Reading::new(9);
    let (salt, key) = (reading.random.bytes(64), reading.random.bytes(1024));
    let parts = LineParts {
        t: 255,
        r: 16_384,
        c: 256,
        salt: &salt,
        key: &key,
    };
    let whole = line(&parts);
    assert_eq!(whole.len(), 1480);
    assert!(reading.read(&whole, [64, 1024]).is_ok());
    for place in 0..whole.len() {
        for byte in SMALL_SET.iter().filter(|byte| **byte != whole[place]) {
            let mut changed = whole.clone();
            changed[place] = *byte;
            let _ = reading.read(&changed, [64, 1024]);
        }
        let mut longer = whole.clone();
        longer.insert(place, SMALL_SET[place % SMALL_SET.len()]);
        let _ = reading.read(&longer, [64, 1024]);
        let mut shorter = whole.clone();
        shorter.remove(place);
        let _ = reading.read(&shorter, [64, 1024]);
    }
    // A byte more may make the salt or the key too long.
    let inputs = reading
        .met
        .inputs("the longest line", &[0, 1, 4, 5, 6, 10, 11]);
    assert!(inputs >= 1480 * (SMALL_SET.len() + 1), "{inputs}");
}

/// For every number of digits a number for T, for R and for C: random digits, nines, a one and zeros, and the same with
/// a zero before it.
#[test]
fn numbers_of_1_to_2000_digits() {
    let mut reading = Reading::new(4);
    for len in 1..=2000 {
        let mut random = vec![b'0'; len];
        for digit in &mut random {
            *digit += reading.random.between(0, 9) as u8;
        }
        random[0] = b'0' + reading.random.between(1, 9) as u8;
        let mut round = vec![b'0'; len];
        round[0] = b'1';
        let mut zero_first = random.clone();
        zero_first.insert(0, b'0');
        for digits in [random, vec![b'9'; len], round, zero_first] {
            for place in 0..3 {
                let mut texts = [&b"1"[..], b"3", b"1"];
                texts[place] = &digits;
                let [t, r, c] = texts;
                let start = [b"$lyra2$t=", t, b",r=", r, b",c=", c].concat();
                let whole = [&start[..], b"$c2FsdHNhbHQ$Zg"].concat();
                let answer = reading.read(&whole, [8, 1]);
                let over = [Refusal::TimeCost, Refusal::Rows, Refusal::Columns][place];
                if digits[0] == b'0' {
                    assert_eq!(answer, Err(Refusal::LineForm));
                } else if len > 5 {
                    assert_eq!(answer, Err(over));
                }
            }
        }
    }
    let inputs = reading.met.inputs("digits", &[0, 4, 5, 6, 11]);
    assert_eq!(inputs, 2000 * 4 * 3);
}

/// Numbers one after another, with every length of their digits up to the largest of 64 bits, and those about powers of
/// two that would be small if cut to fewer bits.
#[test]
fn numbers_about_the_limits_and_the_powers_of_two() {
    let mut reading = Reading::new(5);
    let mut numbers: Vec<u128> = (0..=700)
        .chain(16_000..=16_800)
        .chain(65_000..=66_200)
        .collect();
    for power in 8..=126 {
        numbers.extend((1u128 << power) - 4..=(1 << power) + 300);
    }
    for number in &numbers {
        let digits = number.to_string();
        for place in 0..3 {
            let mut texts = ["1", "3", "1"];
            texts[place] = &digits;
            let [t, r, c] = texts;
            let whole = format!("$lyra2$t={t},r={r},c={c}$c2FsdHNhbHQ$Zg");
            let answer = reading.read(whole.as_bytes(), [8, 1]);
            let (low, high, over) = [
                (0, 255, Refusal::TimeCost),
                (3, 16_384, Refusal::Rows),
                (1, 256, Refusal::Columns),
            ][place];
            let accepted = (low..=high).contains(number);
            assert_eq!(answer.map(drop), if accepted { Ok(()) } else { Err(over) });
        }
    }
    let inputs = reading.met.inputs("numbers", &[0, 4, 5, 6]);
    assert_eq!(inputs, 3 * numbers.len());
}

/// For lines of many lengths: each output with every length from none to three bytes more than enough, or a few of them.
#[test]
fn outputs_of_every_length_about_the_right_one() {
    let mut reading = Reading::new(6);
    let bytes = reading.random.bytes(1100);
    for (salt_len, key_len) in [
        (8, 1),
        (9, 2),
        (10, 3),
        (11, 4),
        (16, 32),
        (64, 33),
        (64, 1024),
    ] {
        let parts = LineParts {
            t: 1,
            r: 300,
            c: 25,
            salt: &bytes[..salt_len],
            key: &bytes[salt_len..salt_len + key_len],
        };
        let due = line(&parts);
        for room in 0..due.len() + 4 {
            let written = reading.write(&parts, room);
            let refused = Err(Refusal::OutputTooShort);
            assert_eq!(written.is_ok(), room >= due.len());
            assert!(written.is_ok() || written == refused);
        }
        let about = |len: usize| {
            let few = [0, 1, len / 2, len.saturating_sub(2), len - 1];
            few.into_iter().chain(len..len + 4).chain([len + 100])
        };
        for salt_room in about(salt_len) {
            for key_room in about(key_len) {
                let read = reading.read(&due, [salt_room, key_room]);
                let fits = salt_room >= salt_len && key_room >= key_len;
                let refused = Err(Refusal::OutputTooShort);
                assert_eq!(read.is_ok(), fits);
                assert!(fits || read == refused);
                // A line that is not of its form is refused for that, whatever the outputs are.
                let spoilt = [&due[..], b"\n"].concat();
                let read = reading.read(&spoilt, [salt_room, key_room]);
                assert_eq!(read, Err(Refusal::LineForm));
            }
        }
    }
    let inputs = reading.met.inputs("outputs", &[0, 11, 12]);
    assert!(inputs >= 3_000, "{inputs}");
}

/// Bytes that are drawn from all, from those of a line, or put behind the start of a line.
#[test]
fn random_bytes() {
    const BYTES: u64 = 100_000;
    let mut reading = Reading::new(7);
    for number in 0..BYTES {
        let len = reading.random.between(0, 80);
        let mut bytes = reading.random.bytes(len);
        if number % 3 > 0 {
            let set = b"$$$,,===lyra2trc0123456789";
            for byte in &mut bytes {
                *byte = set[*byte as usize % set.len()];
            }
        }
        let start: &[u8] =
            [b"" as &[u8], b"$lyra2$t=", b"$lyra2$t=1,r=3,c=1$"][number as usize % 3];
        bytes.splice(0..0, start.iter().copied());
        let _ = reading.read(&bytes, [16, 32]);
    }
    let refused = reading.met.0.remove(&11).expect("most are refused");
    assert!(refused > 90_000, "{refused}");
    let others: usize = reading.met.0.values().sum();
    println!("random bytes: {BYTES} inputs, {others} of the form");
    assert_eq!(refused + others, BYTES as usize);
}

/// The second program's random questions; what is accepted is read back or written again.
#[test]
fn random_lines() {
    const QUESTIONS: usize = 200_000;
    let mut random = Random::new(8);
    let mut met = Met::default();
    for number in 0..QUESTIONS {
        let answer = compare_question(&Proved, &mut random)
            .unwrap_or_else(|what| panic!("question {number}: {what}"));
        met.note(&answer);
    }
    let inputs = met.inputs("random lines", &[0, 1, 3, 4, 5, 6, 10, 11, 12]);
    assert_eq!(inputs, QUESTIONS);
    assert!(met.0.values().all(|&count| count > 1000), "{:?}", met.0);
}

/// The checks of reading, in their order; writing has all but the first.
const ORDER: [u8; 8] = [11, 1, 3, 10, 4, 5, 6, 12];

/// Both operations where the conditions of some checks hold, each by one of two values. The length that an output lacks
/// is told beside it: of reading the salt's output lacks it, or else the key's.
fn with_conditions(reading: &mut Reading, held: &[u8], high: bool) -> [u8; 2] {
    let holds = |check: u8| held.contains(&check);
    let pick = |check: u8, fitting: u64, low: u64, above: u64| match (holds(check), high) {
        (false, _) => fitting,
        (true, false) => low,
        (true, true) => above,
    };
    let salt = vec![7; pick(3, pick(10, 8, 65, 100), 0, 7) as usize];
    let key = vec![9; pick(1, 24, 0, 1025) as usize];
    let parts = LineParts {
        t: pick(4, 255, 256, u64::MAX),
        r: pick(5, 3, 2, 16_385),
        c: pick(6, 256, 0, u64::MAX),
        salt: &salt,
        key: &key,
    };
    let whole = line(&parts);
    let text = if holds(11) {
        [&whole[..], b"="].concat()
    } else {
        whole.clone()
    };
    let mut rooms = [salt.len(), key.len()];
    if holds(12) {
        // An output for no bytes cannot be too short; then the other is.
        let place = usize::from(rooms[0] == 0 || (high && rooms[1] > 0));
        rooms[place] = rooms[place].saturating_sub(1);
    }
    let room = whole.len() - usize::from(holds(12)) * if high { whole.len() } else { 1 };
    let number = |refusal: Option<Refusal>| refusal.map_or(0, Refusal::number);
    let read = reading.read(&text, rooms).err();
    let written = reading.write(&parts, room).err();
    [number(read), number(written)]
}

#[test]
fn of_several_refusals_the_first_in_the_order_is_returned() {
    let mut reading = Reading::new(10);
    let mut sets = 0;
    for set in 0u32..1 << ORDER.len() {
        let places = (0..ORDER.len()).filter(|place| set >> place & 1 == 1);
        let held: Vec<u8> = places.map(|place| ORDER[place]).collect();
        // No salt is both too short and too long.
        if held.contains(&3) && held.contains(&10) {
            continue;
        }
        for high in [false, true] {
            let found = with_conditions(&mut reading, &held, high);
            let due = |order: &[u8]| order.iter().find(|check| held.contains(check)).copied();
            let due = [due(&ORDER), due(&ORDER[1..])].map(|check| check.unwrap_or(0));
            assert_eq!(found, due, "{held:?} {high}");
        }
        sets += 1;
    }
    assert_eq!(sets, 3 << 6);
}
