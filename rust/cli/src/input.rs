//! What the commands derive from, and the derivations themselves.

use crate::edition::Edition;
use crate::failure::Failure;
use crate::options::{LanesOption, PasswordOption, SaltOptions, SettingsOptions};
use crate::outcome::Outcome;
use crate::password::Typed;
use crate::secret::{wipe_stack, zeros, Secret};
use crate::{estimate, memory, progress};
use clap::{ArgGroup, Args};
use lyra2::{Counts, Lengths, Recorded, Refusal, Settings};

/// Fewer rounds take less than a second on any machine that is likely, so that nothing has to be timed.
const MANY_ROUNDS: u64 = 10_000_000;

#[derive(Args)]
pub struct InputOptions {
    #[command(flatten)]
    settings: SettingsOptions,
    #[command(flatten)]
    salt: SaltOptions,
    #[command(flatten)]
    password: PasswordOption,
}

impl InputOptions {
    /// Reads what the options name, the password last, so that nobody types one for a command that is asked wrongly.
    pub fn read(&self, typed: Typed) -> Result<Input, Failure> {
        Ok(Input {
            settings: self.settings.settings(),
            salt: self.salt.read()?,
            password: self.password.read(typed)?,
        })
    }
}

#[derive(Args)]
#[command(group = ArgGroup::new("lanes alone").args(["lanes"]).conflicts_with_all(["rounds", "rotation", "mixer"]))]
pub struct LanesInputOptions {
    #[command(flatten)]
    input: InputOptions,
    #[command(flatten)]
    lanes: LanesOption,
}

impl LanesInputOptions {
    pub fn read(&self, typed: Typed) -> Result<Input<Edition>, Failure> {
        let input = self.input.read(typed)?;
        Ok(Input {
            password: input.password,
            salt: input.salt,
            settings: self.lanes.edition(input.settings),
        })
    }
}

/// What a derivation is made from, apart from the key length.
pub struct Input<S = Settings> {
    /// The password.
    pub password: Secret,
    /// The salt.
    pub salt: Secret,
    /// T, R, C, the rounds of a reduced call, the rotation and the mixer, or whatever else makes the key.
    pub settings: S,
}

impl Input {
    /// The recorded derivation, which there is of the single sponge alone.
    pub fn derive_recorded(
        &self,
        key: &mut [u8],
        matrix: &mut [u64],
        record: &mut [u64],
    ) -> Result<Recorded, Failure> {
        self.shown(key.len(), |password, salt| {
            lyra2::derive_recorded(password, salt, self.settings, key, matrix, record)
        })
    }
}

impl<S: Copy + Into<Edition>> Input<S> {
    /// Asks for the cost, so that a refusal comes before any memory is set aside. The cost question does not take the
    /// rotation, so a derivation without a matrix is asked for too: what it is refused for is the matrix, or something
    /// that comes before it.
    pub fn ask_cost(&self, key: usize) -> Result<Counts, Failure> {
        let lengths = Lengths {
            key,
            password: self.password.len(),
            salt: self.salt.len(),
        };
        let edition = self.settings.into();
        let counts = edition.cost(lengths)?;
        let (password, salt) = (&self.password, &self.salt);
        match edition.derive(password, salt, &mut zeros(key), &mut []) {
            Ok(_) | Err(Refusal::MatrixWords) => Ok(counts),
            Err(refusal) => Err(edition.failure(refusal)),
        }
    }

    /// The plain derivation.
    pub fn derive(&self, key: &mut [u8], matrix: &mut [u64]) -> Result<Counts, Failure> {
        self.shown(key.len(), |password, salt| {
            let edition = self.settings.into();
            edition.derive(password, salt, key, matrix)
        })
    }

    /// The check, in a matrix of its own: yes if the stored key is the one that is derived, else no.
    pub fn check(&self, stored: &[u8]) -> Result<Outcome, Failure> {
        self.ask_cost(stored.len())?;
        let edition = self.settings.into();
        let mut matrix = memory::matrix(edition.parameters())?;
        let checked = self.shown(stored.len(), |password, salt| {
            edition.check(password, salt, stored, &mut matrix)
        })?;
        Ok(Outcome::yes_or_no(checked.same))
    }

    /// Makes a call for a key of this length, shows meanwhile how far it is, and wipes the stack that it used.
    pub fn shown<A>(
        &self,
        key: usize,
        call: impl FnOnce(&[u8], &[u8]) -> Result<A, Refusal>,
    ) -> Result<A, Failure> {
        let counts = self.ask_cost(key)?;
        let seconds = || match counts.rounds {
            ..MANY_ROUNDS => None,
            _ => estimate::seconds(self.settings.into(), counts).ok(),
        };
        let answer = progress::by_time("deriving", seconds, || {
            let answer = call(&self.password, &self.salt);
            wipe_stack();
            answer
        });
        Ok(answer?)
    }
}
