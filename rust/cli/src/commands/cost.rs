//! `lyra2 cost`: what a derivation spends, and about how long it takes.

use crate::edition::Edition;
use crate::failure::Failure;
use crate::options::{
    decimal, CostOptions, KeyLengthOption, LanesOption, MixerOption, RoundsOption,
};
use crate::outcome::Outcome;
use crate::timing::in_digits;
use crate::{estimate, help};
use clap::{ArgGroup, Args};
use lyra2::{Lengths, Settings};

/// Tell what a derivation spends in calls, memory and time
#[derive(Args)]
#[command(group = ArgGroup::new("lanes alone").args(["lanes"]).conflicts_with_all(["rounds", "mixer"]))]
#[command(after_help = help::paragraphs(&[
    "The full calls, the reduced calls and the rounds of a derivation with these numbers are printed, the bytes of the \
     matrix and of the visit record, and the expected seconds. No password is asked for, and no rotation, which changes \
     none of them. The mixer changes the seconds alone. `lyra2 choose` finds T, R and C for a memory and a time.",
    "The seconds are an estimate: a derivation with the same rounds of a reduced call and the same mixer over a matrix of \
     at most 6 MiB is timed three times on the spot, and its median is scaled by the number of reduced calls. Setting \
     memory aside comes on top, and a matrix beyond the processor's caches or a busy machine takes longer.",
    "With --lanes the calls are those of all lanes together, which run in turn, what is timed has as many lanes, and there is no \
     visit record. Rounds and mixer are then the usual ones and not given.",
    help::STATUS,
]))]
pub struct Cost {
    #[command(flatten)]
    costs: CostOptions,
    #[command(flatten)]
    rounds: RoundsOption,
    #[command(flatten)]
    mixer: MixerOption,
    #[command(flatten)]
    lanes: LanesOption,
    #[command(flatten)]
    key: KeyLengthOption,
    /// Bytes of the password, 0 to 1024
    #[arg(long, value_name = "N", value_parser = decimal, allow_negative_numbers = true)]
    password_length: usize,
    /// Bytes of the salt, 8 to 64
    #[arg(long, value_name = "N", value_parser = decimal, allow_negative_numbers = true)]
    salt_length: usize,
}

impl Cost {
    pub fn run(self) -> Result<Outcome, Failure> {
        let lengths = Lengths {
            key: self.key.key_length,
            password: self.password_length,
            salt: self.salt_length,
        };
        let edition = self.edition();
        let parameters = edition.parameters();
        let counts = edition.cost(lengths)?;
        let bytes = |words: Option<usize>| 8 * words.map_or(0, |words| words as u64);
        let record = match edition {
            Edition::Single(_) => {
                format!("record bytes: {}\n", bytes(parameters.record_words()))
            }
            Edition::Lanes(_) => String::new(),
        };
        let seconds = estimate::seconds(edition, counts)?;
        Ok(Outcome::result(format!(
            "full calls: {}\nreduced calls: {}\nrounds: {}\nmatrix bytes: {}\n{record}\
             expected seconds: {} (an estimate, from a derivation timed just now)\n",
            counts.full,
            counts.reduced,
            counts.rounds,
            bytes(parameters.matrix_words()),
            in_digits(seconds),
        )))
    }

    fn edition(&self) -> Edition {
        self.lanes.edition(Settings {
            rounds: self.rounds.rounds,
            mixer: self.mixer.mixer,
            ..self.costs.parameters().into()
        })
    }
}
