//! Login lines by the second program's base 64 and keys.

use lyra2_reference::{base64, derive, Inputs, Settings};

/// What a line says.
#[derive(Clone, Debug, PartialEq, Eq)]
pub struct Line {
    pub t: u64,
    pub r: u64,
    pub c: u64,
    pub salt: Vec<u8>,
    pub key: Vec<u8>,
}

impl Line {
    /// The line of a password, with the key by the second program.
    pub fn of_password(
        password: &[u8],
        [t, r, c]: [u64; 3],
        salt: &[u8],
        key_length: usize,
    ) -> Line {
        let inputs = Inputs {
            password,
            salt,
            t,
            r,
            c,
            settings: Settings::USUAL,
        };
        let mut key = vec![0; key_length];
        let mut matrix = vec![0; (12 * r * c) as usize];
        derive(&inputs, &mut key, &mut matrix).expect("no check refuses");
        let salt = salt.to_vec();
        Line { t, r, c, salt, key }
    }

    pub fn write(&self) -> String {
        let Line { t, r, c, .. } = self;
        let [salt, key] = [&self.salt, &self.key].map(|bytes| encode(bytes));
        format!("$lyra2$t={t},r={r},c={c}${salt}${key}")
    }

    /// The values of a line that has to be in order.
    pub fn read(line: &str) -> Line {
        let mut parts = line.split('$');
        let mut next = || parts.next().expect("five parts");
        assert_eq!((next(), next()), ("", "lyra2"), "{line}");
        let names = ["t=", "r=", "c="];
        let numbers: Vec<u64> = next()
            .split(',')
            .zip(names)
            .map(|(text, name)| text.strip_prefix(name).expect("its name"))
            .map(|number| number.parse().expect("a number"))
            .collect();
        let [t, r, c] = numbers[..] else {
            panic!("three numbers are due: {line}");
        };
        let (salt, key) = (decode(next()), decode(next()));
        let read = Line { t, r, c, salt, key };
        assert_eq!(read.write(), line);
        read
    }
}

pub fn encode(bytes: &[u8]) -> String {
    String::from_utf8(base64::encode(bytes)).expect("letters")
}

fn decode(text: &str) -> Vec<u8> {
    base64::decode(text.as_bytes()).expect("base 64")
}
