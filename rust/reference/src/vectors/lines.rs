//! The questions of the vectors file about login lines, group by group.

use super::case::{Bytes, LoginValues, Question};
use super::random::Random;
use super::random_line;
use super::refused::without_repeats;
use crate::base64::encode;

/// Outputs that are long enough for every accepted line.
const SALT_ROOM: u64 = 64;
const KEY_ROOM: u64 = 1024;
const LINE_ROOM: u64 = 1480;

/// The texts of a line to be read.
#[derive(Clone, Copy)]
struct Texts<'a> {
    t: &'a [u8],
    r: &'a [u8],
    c: &'a [u8],
    salt: &'a [u8],
    key: &'a [u8],
}

/// A line that is accepted, which the groups vary.
const BASE: Texts = Texts {
    t: b"1",
    r: b"3",
    c: b"1",
    salt: b"c2FsdHNhbHQ",
    key: b"Zm9vYmFy",
};

impl Texts<'_> {
    fn line(&self) -> Vec<u8> {
        [
            &b"$lyra2$t="[..],
            self.t,
            b",r=",
            self.r,
            b",c=",
            self.c,
            b"$",
            self.salt,
            b"$",
            self.key,
        ]
        .concat()
    }

    fn question(&self) -> Question {
        question(self.line())
    }
}

/// A line to be read, with room for what any accepted line has.
fn question(line: Vec<u8>) -> Question {
    Question::LineRead {
        line,
        salt_room: SALT_ROOM,
        key_room: KEY_ROOM,
    }
}

/// The lines to be read, all groups one after the other.
pub fn read() -> Vec<Question> {
    let groups = [
        examples(),
        small_numbers(),
        long_numbers(),
        spoilt_numbers(),
        text_lengths(),
        last_characters(),
        spoilt_texts(),
        spoilt_lines(),
        rooms_to_read(),
        in_order(&CONDITIONS, Call::read),
        random_lines(28, 60, random_line::read),
    ];
    without_repeats(groups.concat())
}

/// Lines that a reader can type: the keys are RFC 4648's examples, and the whole alphabet.
fn examples() -> Vec<Question> {
    let keys = [
        "Zg", "Zm8", "Zm9v", "Zm9vYg", "Zm9vYmE", "Zm9vYmFy", "/w", "//8", "////", "++++",
    ];
    let alphabet = "ABCDEFGHIJKLMNOPQRSTUVWXYZabcdefghijklmnopqrstuvwxyz0123456789+/";
    let salts = ["c2FsdHNhbHQ", "c2FsdHNhbHRz", "c2FsdHNhbHRzYQ", alphabet];
    let key = |key: &&'static str| Texts {
        key: key.as_bytes(),
        ..BASE
    };
    let salt = |salt: &&'static str| Texts {
        salt: salt.as_bytes(),
        ..BASE
    };
    let with_keys = keys.iter().chain([&alphabet]).map(key);
    let all = with_keys.chain(salts.iter().map(salt));
    all.map(|texts| texts.question()).collect()
}

/// The base line with another text for T, for R and for C.
fn with_number(text: &[u8]) -> [Question; 3] {
    let (t, r, c) = (text, text, text);
    [
        Texts { t, ..BASE }.question(),
        Texts { r, ..BASE }.question(),
        Texts { c, ..BASE }.question(),
    ]
}

/// Numbers on both sides of every limit and of every change in the number of digits.
fn small_numbers() -> Vec<Question> {
    let numbers = [
        0, 1, 2, 3, 4, 9, 10, 11, 99, 100, 101, 254, 255, 256, 257, 999, 1000, 9_999, 10_000,
        16_383, 16_384, 16_385, 65_535, 99_999, 100_000,
    ];
    let texts = numbers.map(|number: u64| number.to_string());
    texts
        .iter()
        .flat_map(|text| with_number(text.as_bytes()))
        .collect()
}

/// The decimal digits of 2^power + low, a number that is low if it is cut to so many bits or fewer.
fn above_power_of_two(power: usize, low: u8) -> Vec<u8> {
    // The lowest digit comes first until the end.
    let mut digits = vec![1];
    for _ in 0..power {
        let mut carry = 0;
        for digit in &mut digits {
            let twice = 2 * *digit + carry;
            (*digit, carry) = (twice % 10, twice / 10);
        }
        digits.extend((carry > 0).then_some(carry));
    }
    let mut carry = low;
    for digit in &mut digits {
        let sum = *digit + carry;
        (*digit, carry) = (sum % 10, sum / 10);
    }
    digits.iter().rev().map(|digit| b'0' + digit).collect()
}

/// Numbers that would pass if they were cut to fewer bits, and numbers of up to 2,000 digits.
fn long_numbers() -> Vec<Question> {
    let mut questions = Vec::new();
    for power in [8, 16, 31, 32, 63, 64, 128, 256, 6640] {
        let [zero, one, three] = [0, 1, 3].map(|low| above_power_of_two(power, low));
        questions.push(Texts { t: &zero, ..BASE }.question());
        questions.push(Texts { t: &one, ..BASE }.question());
        questions.push(Texts { r: &three, ..BASE }.question());
        questions.push(Texts { c: &one, ..BASE }.question());
    }
    for len in [6, 9, 10, 19, 20, 21, 40, 100, 500, 2000] {
        let nines = vec![b'9'; len];
        let mut round = vec![b'0'; len];
        round[0] = b'1';
        let number = if len % 2 == 0 { nines } else { round };
        questions.extend(with_number(&number));
    }
    questions.extend(with_number(u64::MAX.to_string().as_bytes()));
    questions
}

/// Texts that are no numbers, or numbers with a leading zero.
const SPOILT_NUMBERS: [&[u8]; 30] = [
    b"",
    b"00",
    b"01",
    b"03",
    b"001",
    b"0255",
    b"00000000000000000000003",
    b"+1",
    b"+3",
    b"-1",
    b"-3",
    b"-0",
    b" 3",
    b"3 ",
    b"\t3",
    b"3\n",
    b"3\r",
    b"3\0",
    b"\x003",
    b"3.0",
    b"3.",
    b"0x3",
    b"3e0",
    b"1_0",
    b"10'0",
    b"a",
    b"/",
    b":",
    b"\xb3",
    b"\xe0\xa5\xa9",
];

fn spoilt_numbers() -> Vec<Question> {
    let listed = SPOILT_NUMBERS.iter().flat_map(|text| with_number(text));
    let mut long = vec![b'0'; 2000];
    long[1999] = b'3';
    let long_zeros = with_number(&long);
    listed.chain(long_zeros).collect()
}

/// Salts and keys of every text length about the limits. One of 1 modulo 4 is no base 64.
fn text_lengths() -> Vec<Question> {
    let many = vec![b'A'; 1500];
    let salt = |len: usize| Texts {
        salt: &many[..len],
        ..BASE
    };
    let key = |len: usize| Texts {
        key: &many[..len],
        ..BASE
    };
    let salts = (0..=16).chain(83..=90).map(salt);
    let keys = (0..=10).chain(1362..=1371).map(key);
    let both = Texts {
        salt: b"",
        key: b"",
        ..BASE
    };
    let all = salts.chain(keys).chain([both]);
    all.map(|texts| texts.question()).collect()
}

/// The last character of a text may leave four or two bits unused, which have to be zero.
fn last_characters() -> Vec<Question> {
    let mut questions = Vec::new();
    for (start, ends) in [("c2FsdHNhbHRzY", &b"QRSUYgw"[..]), ("c2FsdHNhbH", b"QRSTU")] {
        for end in ends {
            let text = [start.as_bytes(), &[*end]].concat();
            let (salt, key) = (&text[..], &text[..]);
            questions.push(Texts { salt, ..BASE }.question());
            questions.push(Texts { key, ..BASE }.question());
        }
    }
    // The longest salt and the longest key, with each of the unused bits set.
    for end in b"AQBCEI" {
        let text = [&[b'A'; 1365][..], &[*end]].concat();
        let (salt, key) = (&text[1280..], &text[..]);
        questions.push(Texts { salt, ..BASE }.question());
        questions.push(Texts { key, ..BASE }.question());
    }
    questions
}

/// Bytes that are not of the alphabet: those beside it in ASCII, those of other alphabets, blanks, and bytes above 127.
const OUTSIDE: &[u8] = b"*,-.:@[`{=_$ \t\r\n\0\x7f\x80\xc1\xff~%&\"'\\";

fn spoilt_texts() -> Vec<Question> {
    let mut questions = Vec::new();
    for (number, byte) in OUTSIDE.iter().enumerate() {
        let mut salt = BASE.salt.to_vec();
        let mut key = BASE.key.to_vec();
        let (salt_len, key_len) = (salt.len(), key.len());
        // The place differs from byte to byte; the first and the last are met too.
        salt[[0, salt_len - 1, number % salt_len][number % 3]] = *byte;
        key[[key_len - 1, 0, number % key_len][number % 3]] = *byte;
        questions.push(
            Texts {
                salt: &salt,
                ..BASE
            }
            .question(),
        );
        questions.push(Texts { key: &key, ..BASE }.question());
        // As one byte more at the end, where the text was whole.
        let more = [BASE.key, &[*byte]].concat();
        questions.push(Texts { key: &more, ..BASE }.question());
    }
    for padded in [
        "Zg==", "Zg=", "Zm8=", "Zm9v=", "Zm9v====", "=", "====", "Zg=A",
    ] {
        let key = padded.as_bytes();
        questions.push(Texts { key, ..BASE }.question());
    }
    for padded in ["c2FsdHNhbHQ=", "c2FsdHNhbHRzYQ==", "c2FsdHNhbHRzYQ="] {
        let salt = padded.as_bytes();
        questions.push(Texts { salt, ..BASE }.question());
    }
    // Of the alphabet for file names, where the right one has + and /.
    for (right, wrong) in [("c2Fsd+NhbH/Q", "c2Fsd-NhbH_Q"), ("+/+/", "-_-_")] {
        for text in [right, wrong] {
            let (salt, key) = (text.as_bytes(), text.as_bytes());
            questions.push(Texts { salt, ..BASE }.question());
            questions.push(Texts { key, ..BASE }.question());
        }
    }
    questions
}

/// Lines in which something other than a number or a text is not of the form.
const SPOILT_LINES: [&[u8]; 51] = [
    b"",
    b"$",
    b"$$$$",
    b"\n",
    b"lyra2",
    b"$lyra2",
    b"$lyra2$",
    b"$lyra2$t=1",
    b"$lyra2$t=1,r=3",
    b"$lyra2$t=1,r=3,c=1",
    b"$lyra2$t=1,r=3,c=1$",
    b"$lyra2$t=1,r=3,c=1$c2FsdHNhbHQ",
    b"$lyra2$t=1,r=3,c=1c2FsdHNhbHQ$Zm9vYmFy",
    b"$lyra2$t=1,r=3,c=1$c2FsdHNhbHQZm9vYmFy",
    b"lyra2$t=1,r=3,c=1$c2FsdHNhbHQ$Zm9vYmFy",
    b"$lyra2t=1,r=3,c=1$c2FsdHNhbHQ$Zm9vYmFy",
    b"$$t=1,r=3,c=1$c2FsdHNhbHQ$Zm9vYmFy",
    b"$$lyra2$t=1,r=3,c=1$c2FsdHNhbHQ$Zm9vYmFy",
    b"$lyra2$$t=1,r=3,c=1$c2FsdHNhbHQ$Zm9vYmFy",
    b"$lyra2$t=1,r=3,c=1$$c2FsdHNhbHQ$Zm9vYmFy",
    b"$lyra2$t=1,r=3,c=1$c2FsdHNhbHQ$$Zm9vYmFy",
    b"$lyra2$t=1,r=3,c=1$c2FsdHNhbHQ$Zm9vYmFy$",
    b"$lyra2$t=1,r=3,c=1$c2FsdHNhbHQ$Zm9v$YmFy",
    b"$lyra2$t=1,r=3,c=1$c2FsdHNh$bHQ$Zm9vYmFy",
    b"$lyra2$t=1,r=3,c=1$c2FsdHNhbHQ$Zm9vYmFy\n",
    b"$lyra2$t=1,r=3,c=1$c2FsdHNhbHQ$Zm9vYmFy\r\n",
    b"$lyra2$t=1,r=3,c=1$c2FsdHNhbHQ$Zm9vYmFy\0",
    b"$lyra2$t=1,r=3,c=1$c2FsdHNhbHQ$Zm9vYmFy\0\0\0\0",
    b"$lyra2$t=1,r=3,c=1$c2FsdHNhbHQ$Zm9vYmFy ",
    b" $lyra2$t=1,r=3,c=1$c2FsdHNhbHQ$Zm9vYmFy",
    b"\xef\xbb\xbf$lyra2$t=1,r=3,c=1$c2FsdHNhbHQ$Zm9vYmFy",
    b"$Lyra2$t=1,r=3,c=1$c2FsdHNhbHQ$Zm9vYmFy",
    b"$LYRA2$T=1,R=3,C=1$c2FsdHNhbHQ$Zm9vYmFy",
    b"$lyra2$T=1,r=3,c=1$c2FsdHNhbHQ$Zm9vYmFy",
    b"$lyra2$t=1,R=3,c=1$c2FsdHNhbHQ$Zm9vYmFy",
    b"$lyra2$t=1,r=3,C=1$c2FsdHNhbHQ$Zm9vYmFy",
    b"$lyra$t=1,r=3,c=1$c2FsdHNhbHQ$Zm9vYmFy",
    b"$lyra22$t=1,r=3,c=1$c2FsdHNhbHQ$Zm9vYmFy",
    b"$lyra3$t=1,r=3,c=1$c2FsdHNhbHQ$Zm9vYmFy",
    b"$argon2$t=1,r=3,c=1$c2FsdHNhbHQ$Zm9vYmFy",
    b"$lyra2$v=19$t=1,r=3,c=1$c2FsdHNhbHQ$Zm9vYmFy",
    b"$lyra2$r=3,t=1,c=1$c2FsdHNhbHQ$Zm9vYmFy",
    b"$lyra2$t=1,c=1,r=3$c2FsdHNhbHQ$Zm9vYmFy",
    b"$lyra2$t=1,r=3,c=1,$c2FsdHNhbHQ$Zm9vYmFy",
    b"$lyra2$t=1,r=3,c=1,p=1$c2FsdHNhbHQ$Zm9vYmFy",
    b"$lyra2$t=1,r=3$c2FsdHNhbHQ$Zm9vYmFy",
    b"$lyra2$t=1, r=3, c=1$c2FsdHNhbHQ$Zm9vYmFy",
    b"$lyra2$t=1;r=3;c=1$c2FsdHNhbHQ$Zm9vYmFy",
    b"$lyra2$t1,r3,c1$c2FsdHNhbHQ$Zm9vYmFy",
    b"$lyra2$1,3,1$c2FsdHNhbHQ$Zm9vYmFy",
    b"\xa4lyra2$t=1,r=3,c=1$c2FsdHNhbHQ$Zm9vYmFy",
];

/// The listed lines, and the base line cut short at every place.
fn spoilt_lines() -> Vec<Question> {
    let listed = SPOILT_LINES.iter().map(|line| question(line.to_vec()));
    let whole = BASE.line();
    let cut = (0..=whole.len()).map(|len| question(whole[..len].to_vec()));
    listed.chain(cut).collect()
}

/// Outputs that are too short, that fit, and that are longer, for lines of several lengths.
fn rooms_to_read() -> Vec<Question> {
    let mut random = Random::new(29);
    let mut questions = Vec::new();
    for (salt_len, key_len) in [(8, 1), (9, 2), (10, 3), (33, 32), (64, 1024)] {
        let (salt, key) = (random.bytes(salt_len), random.bytes(key_len));
        let texts = [encode(&salt), encode(&key)];
        let [salt, key] = &texts;
        let line = Texts { salt, key, ..BASE }.line();
        for (salt_room, key_room) in [
            (salt_len, key_len),
            (salt_len - 1, key_len),
            (salt_len, key_len - 1),
            (salt_len - 1, key_len - 1),
            (0, key_len),
            (salt_len, 0),
            (0, 0),
            (salt_len + 1, key_len),
            (salt_len, key_len + 1),
            (salt_len + 1, key_len - 1),
            (salt_len - 1, key_len + 1),
            (salt_len + 100, key_len + 100),
            // As if the two outputs were exchanged.
            (key_len, salt_len),
        ] {
            questions.push(Question::LineRead {
                line: line.clone(),
                salt_room,
                key_room,
            });
        }
    }
    questions
}

/// Which output of reading is too short. Writing has one output, which then lacks a byte or the half of it.
#[derive(Clone, Copy, PartialEq, Eq)]
enum Short {
    None,
    Salt,
    Key,
}

/// The values of a call by their sizes; salt and key are zeros.
#[derive(Clone, Copy)]
struct Call {
    is_form: bool,
    t: u64,
    r: u64,
    c: u64,
    salt_len: u64,
    key_len: u64,
    short: Short,
}

const FITTING: Call = Call {
    is_form: true,
    t: 1,
    r: 3,
    c: 1,
    salt_len: 8,
    key_len: 24,
    short: Short::None,
};

impl Call {
    fn values(&self) -> LoginValues {
        LoginValues {
            t: self.t,
            r: self.r,
            c: self.c,
            salt: Bytes::Zeros(self.salt_len),
            key: Bytes::Zeros(self.key_len),
        }
    }

    fn line(&self) -> Vec<u8> {
        let [t, r, c] = [self.t, self.r, self.c].map(|number| number.to_string());
        let [salt, key] = [self.salt_len, self.key_len].map(|len| encode(&vec![0; len as usize]));
        let texts = Texts {
            t: t.as_bytes(),
            r: r.as_bytes(),
            c: c.as_bytes(),
            salt: &salt,
            key: &key,
        };
        let mut line = texts.line();
        if !self.is_form {
            line.push(b'\n');
        }
        line
    }

    /// The line to be read, into outputs that fit exactly or of which one is too short.
    fn read(self) -> Question {
        // No output is too short for an empty key.
        let short_key = self.short == Short::Key && self.key_len > 0;
        let short_salt = self.short != Short::None && !short_key;
        Question::LineRead {
            line: self.line(),
            salt_room: self.salt_len - u64::from(short_salt),
            key_room: self.key_len - u64::from(short_key),
        }
    }

    /// The line to be written, into an output that fits exactly or is too short.
    fn written(self) -> Question {
        let len = self.line().len() as u64;
        let line_room = match self.short {
            Short::None => len,
            Short::Salt => len - 1,
            Short::Key => len / 2,
        };
        Question::LineWrite {
            values: self.values(),
            line_room,
        }
    }
}

/// What a check is about.
#[derive(Clone, Copy, PartialEq, Eq)]
enum Condition {
    Form,
    Key,
    Salt,
    TimeCost,
    Rows,
    Columns,
    Output,
}

/// The conditions in the order of their checks; those of writing are all but the first.
const CONDITIONS: [Condition; 7] = [
    Condition::Form,
    Condition::Key,
    Condition::Salt,
    Condition::TimeCost,
    Condition::Rows,
    Condition::Columns,
    Condition::Output,
];

/// Makes a condition hold, by a value below its limits or by one above where it has both sides.
fn make_hold(call: &mut Call, condition: Condition, from_above: bool) {
    let pick = |below, above| if from_above { above } else { below };
    match condition {
        Condition::Form => call.is_form = false,
        Condition::Key => call.key_len = pick(0, 1025),
        Condition::Salt => call.salt_len = pick(7, 65),
        Condition::TimeCost => call.t = pick(256, u64::MAX),
        Condition::Rows => call.r = pick(2, 16_385),
        Condition::Columns => call.c = pick(0, 257),
        Condition::Output => call.short = if from_above { Short::Key } else { Short::Salt },
    }
}

/// Each condition alone, with each later one, and with all later ones.
fn in_order(conditions: &[Condition], ask: fn(Call) -> Question) -> Vec<Question> {
    let mut questions = Vec::new();
    for (place, first) in conditions.iter().enumerate() {
        for from_above in [false, true] {
            let mut alone = FITTING;
            make_hold(&mut alone, *first, from_above);
            questions.push(ask(alone));
            let mut all = alone;
            for later in &conditions[place + 1..] {
                for later_from_above in [false, true] {
                    let mut two = alone;
                    make_hold(&mut two, *later, later_from_above);
                    questions.push(ask(two));
                }
                make_hold(&mut all, *later, from_above);
            }
            questions.push(ask(all));
        }
    }
    questions
}

/// Random questions, from a seed of their own.
fn random_lines(seed: u64, count: u64, draw: fn(&mut Random) -> Question) -> Vec<Question> {
    let mut random = Random::new(seed);
    (0..count).map(|_| draw(&mut random)).collect()
}

/// The lines to be written, all groups one after the other.
pub fn written() -> Vec<Question> {
    let groups = [
        written_lengths(),
        written_numbers(),
        rooms_to_write(),
        in_order(&CONDITIONS[1..], Call::written),
        random_lines(31, 40, random_line::written),
    ];
    without_repeats(groups.concat())
}

/// Room for every accepted line.
fn with_room(values: LoginValues) -> Question {
    Question::LineWrite {
        values,
        line_room: LINE_ROOM,
    }
}

/// Salts and keys about the limits, and the longest line.
fn written_lengths() -> Vec<Question> {
    let mut random = Random::new(30);
    let lengths = [
        (8, 1),
        (8, 2),
        (8, 3),
        (8, 4),
        (9, 32),
        (10, 32),
        (11, 32),
        (63, 32),
        (64, 32),
        (16, 1022),
        (16, 1023),
        (16, 1024),
        (0, 32),
        (7, 32),
        (65, 32),
        (72, 32),
        (16, 0),
        (16, 1025),
    ];
    let mut questions = Vec::new();
    for (salt_len, key_len) in lengths {
        questions.push(with_room(LoginValues {
            t: 1,
            r: 3,
            c: 1,
            salt: Bytes::Listed(random.bytes(salt_len)),
            key: Bytes::Listed(random.bytes(key_len)),
        }));
    }
    for byte in [0x00, 0xff] {
        questions.push(with_room(LoginValues {
            t: 255,
            r: 16_384,
            c: 256,
            salt: Bytes::Listed(vec![byte; 64]),
            key: Bytes::Listed(vec![byte; 1024]),
        }));
    }
    questions
}

/// Numbers of every length within the limits, and some outside that would pass if cut to 8, 16 or 32 bits.
fn written_numbers() -> Vec<Question> {
    let [salt, key] = [BASE.salt, BASE.key].map(|text| Bytes::Listed(text.to_vec()));
    let base = LoginValues {
        t: 1,
        r: 3,
        c: 1,
        salt,
        key,
    };
    let mut questions = Vec::new();
    let base = || base.clone();
    for t in [0, 9, 10, 99, 100, 255, 256, 1 << 16, 1 << 32, u64::MAX] {
        questions.push(LoginValues { t, ..base() });
    }
    for r in [
        0, 2, 9, 10, 99, 100, 999, 1000, 9_999, 10_000, 16_384, 16_385,
    ] {
        questions.push(LoginValues { r, ..base() });
    }
    for r in [1 << 16 | 3, 1 << 32 | 3, u64::MAX] {
        questions.push(LoginValues { r, ..base() });
    }
    for c in [
        0,
        9,
        10,
        99,
        100,
        256,
        257,
        1 << 16 | 1,
        1 << 32 | 1,
        u64::MAX,
    ] {
        questions.push(LoginValues { c, ..base() });
    }
    questions.into_iter().map(with_room).collect()
}

/// An output that is too short, that fits, and that is longer, for lines of several lengths.
fn rooms_to_write() -> Vec<Question> {
    let mut questions = Vec::new();
    for (salt_len, key_len) in [(8, 1), (9, 2), (10, 3), (33, 32), (64, 1024)] {
        let call = Call {
            salt_len,
            key_len,
            ..FITTING
        };
        let len = call.line().len() as u64;
        for line_room in [0, 1, len / 2, len - 1, len, len + 1, len + 100] {
            questions.push(Question::LineWrite {
                values: call.values(),
                line_room,
            });
        }
    }
    questions
}
