//! The options that several commands share, and what is read for them.
//!
//! The structs have no documentation comments, since clap would take those for the help of the commands they are in.

use crate::edition::Edition;
use crate::failure::Failure;
use crate::hex;
use crate::mixer;
use crate::password::{self, Typed};
use crate::random;
use crate::reading::{leave_out_newline, read_file};
use crate::secret::Secret;
use clap::builder::{PossibleValuesParser, TypedValueParser};
use clap::{ArgGroup, Args};
use lyra2::{
    Lanes, Mixer, Parameters, Settings, KEY_LENGTHS, SALT_MAX, USUAL_MIXER, USUAL_ROTATION,
    USUAL_ROUNDS,
};
use std::ffi::OsString;
use std::path::PathBuf;

/// What a group of options has that clap requires one of.
pub const ONE_IS_GIVEN: &str = "clap requires one of the two";

#[derive(Args)]
pub struct CostOptions {
    /// The time cost, 0 to 255; with 0 the matrix is filled and no visit is made, which leaves the least work to whoever guesses
    #[arg(long, value_name = "T", value_parser = decimal, allow_negative_numbers = true)]
    time: usize,
    /// The number of rows, 3 to 16384
    #[arg(long, value_name = "R", value_parser = decimal, allow_negative_numbers = true)]
    rows: usize,
    /// The number of columns, 1 to 256; the matrix has 96*R*C bytes
    #[arg(long, value_name = "C", value_parser = decimal, allow_negative_numbers = true)]
    columns: usize,
}

impl CostOptions {
    pub fn parameters(&self) -> Parameters {
        Parameters {
            time: self.time,
            rows: self.rows,
            columns: self.columns,
        }
    }
}

#[derive(Args)]
pub struct RoundsOption {
    /// The rounds of a reduced call, rho, 1 to 12
    #[arg(long, value_name = "N", value_parser = decimal, allow_negative_numbers = true, default_value_t = USUAL_ROUNDS)]
    pub rounds: usize,
}

#[derive(Args)]
pub struct MixerOption {
    /// The mixer, plain or blamka, which multiplies and takes longer
    #[arg(long, value_name = "MIXER", value_parser = mixers(), hide_possible_values = true, default_value = mixer::name(USUAL_MIXER))]
    pub mixer: Mixer,
}

#[derive(Args)]
pub struct SettingsOptions {
    #[command(flatten)]
    costs: CostOptions,
    #[command(flatten)]
    rounds: RoundsOption,
    /// The rotation in words, omega, 1 to 11
    #[arg(long, value_name = "N", value_parser = decimal, allow_negative_numbers = true, default_value_t = USUAL_ROTATION)]
    rotation: usize,
    #[command(flatten)]
    mixer: MixerOption,
}

impl SettingsOptions {
    pub fn settings(&self) -> Settings {
        Settings {
            parameters: self.costs.parameters(),
            rounds: self.rounds.rounds,
            rotation: self.rotation,
            mixer: self.mixer.mixer,
        }
    }
}

#[derive(Args)]
pub struct LanesOption {
    /// Several lanes, 1 to 8, with T from 1 and R a multiple of 2*P, at least 4*P; one lane is not the same as no --lanes
    #[arg(long, value_name = "P", value_parser = decimal, allow_negative_numbers = true)]
    lanes: Option<usize>,
}

impl LanesOption {
    /// Lanes with the T, R and C of these settings, or the settings where no lanes are given.
    pub fn edition(&self, settings: Settings) -> Edition {
        match self.lanes {
            Some(count) => Edition::Lanes(Lanes {
                parameters: settings.parameters,
                count,
            }),
            None => Edition::Single(settings),
        }
    }
}

#[derive(Args)]
pub struct KeyLengthOption {
    /// Bytes of the key, 1 to 1024
    #[arg(long, value_name = "N", value_parser = decimal, allow_negative_numbers = true)]
    pub key_length: usize,
}

/// Bytes of a salt that are taken at most: with one more than a salt has, the library refuses the length.
const SALT_MOST: usize = SALT_MAX + 1;
/// Bytes of a fresh salt that nobody gave a length for.
const FRESH_SALT: usize = 16;

#[derive(Args)]
struct GivenSalt {
    /// The salt in hexadecimal, 8 to 64 bytes
    #[arg(long, value_name = "HEX")]
    salt: Option<OsString>,
    /// A file whose bytes are the salt, all of them, a last newline too
    #[arg(long, value_name = "FILE")]
    salt_file: Option<PathBuf>,
}

impl GivenSalt {
    fn read(&self) -> Result<Option<Secret>, Failure> {
        if let Some(text) = &self.salt {
            return hex::decode("--salt", text.as_encoded_bytes()).map(Some);
        }
        let path = self.salt_file.as_ref();
        path.map(|path| read_file(path, SALT_MOST)).transpose()
    }
}

#[derive(Args)]
#[command(group = ArgGroup::new("one salt").required(true).args(["salt", "salt_file"]))]
pub struct SaltOptions {
    #[command(flatten)]
    given: GivenSalt,
}

impl SaltOptions {
    pub fn read(&self) -> Result<Secret, Failure> {
        Ok(self.given.read()?.expect(ONE_IS_GIVEN))
    }
}

#[derive(Args)]
#[command(group = ArgGroup::new("one salt").args(["salt", "salt_file", "salt_length"]))]
pub struct FreshSaltOptions {
    #[command(flatten)]
    given: GivenSalt,
    /// Bytes of a random salt, 8 to 64
    #[arg(long, value_name = "N", value_parser = decimal, allow_negative_numbers = true)]
    salt_length: Option<usize>,
}

impl FreshSaltOptions {
    /// The salt that is given, or one from the system's random source.
    pub fn read(&self) -> Result<Secret, Failure> {
        match self.given.read()? {
            Some(salt) => Ok(salt),
            None => random::bytes(self.salt_length.unwrap_or(FRESH_SALT).min(SALT_MOST)),
        }
    }
}

#[derive(Args)]
#[command(group = ArgGroup::new("one key").required(true).args(["key", "key_file"]))]
pub struct StoredKeyOptions {
    /// The stored key in hexadecimal; other users of the machine can see it
    #[arg(long, value_name = "HEX")]
    key: Option<OsString>,
    /// A file that holds it in the form that `lyra2 derive` prints: hexadecimal digits, then at most one newline
    #[arg(long, value_name = "FILE")]
    key_file: Option<PathBuf>,
}

impl StoredKeyOptions {
    pub fn read(&self) -> Result<Secret, Failure> {
        if let Some(text) = &self.key {
            return hex::decode("--key", text.as_encoded_bytes());
        }
        let path = self.key_file.as_ref().expect(ONE_IS_GIVEN);
        // Digits of one byte more than a key has are enough for the library to refuse the length.
        let digits = 2 * (KEY_LENGTHS.end() + 1);
        let mut text = read_file(path, digits + 1)?;
        leave_out_newline(&mut text);
        text.truncate(digits);
        hex::decode(&format!("{path:?}"), &text)
    }
}

#[derive(Args)]
pub struct BookOption {
    /// The file of the book
    #[arg(long, value_name = "FILE")]
    pub book: PathBuf,
}

#[derive(Args)]
pub struct NumberOption {
    /// The number of the account, 0 to 4294967295
    #[arg(long, value_name = "N", value_parser = account_number, allow_negative_numbers = true)]
    pub number: u32,
}

#[derive(Args)]
pub struct PasswordOption {
    /// A file whose bytes are the password, all of them, a last newline too
    #[arg(long, value_name = "FILE")]
    pub password_file: Option<PathBuf>,
}

impl PasswordOption {
    pub fn read(&self, typed: Typed) -> Result<Secret, Failure> {
        password::read(self.password_file.as_deref(), typed)
    }
}

/// A mixer by its name.
fn mixers() -> impl TypedValueParser<Value = Mixer> {
    let names = PossibleValuesParser::new(mixer::ALL.map(mixer::name));
    names.map(|name| mixer::named(&name).expect("clap takes these names alone"))
}

/// A number of an account in decimal digits. The library takes every one that has room in a `u32`.
fn account_number(text: &str) -> Result<u32, String> {
    let number = decimal(text)?;
    u32::try_from(number).map_err(|_| format!("{text} has more than 32 bits"))
}

/// A number in decimal digits, and nothing beside them. Its limits are the library's to check.
pub fn decimal(text: &str) -> Result<usize, String> {
    if text.is_empty() || !text.bytes().all(|digit| digit.is_ascii_digit()) {
        return Err(format!("{text:?} is not a number in decimal digits"));
    }
    text.parse()
        .map_err(|_| format!("{text} has more than 64 bits"))
}
