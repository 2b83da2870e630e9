//! `lyra2 choose`: T, R and C for a gateway.

use crate::choice::Question;
use crate::failure::Failure;
use crate::options::{decimal, KeyLengthOption, MixerOption, RoundsOption, ONE_IS_GIVEN};
use crate::outcome::Outcome;
use crate::speed::{matrix_bytes, measure, Speed};
use crate::timing::in_digits;
use crate::{help, mixer, quantity};
use clap::{ArgGroup, Args};
use lyra2::{
    Choice, Lengths, Settings, CELL_WORDS, COLUMNS, PASSWORD_LENGTHS, SALT_LENGTHS, USUAL_MIXER,
    USUAL_ROUNDS,
};

/// Bytes of a word.
const WORD: u64 = 8;

/// Choose T, R and C for a gateway's memory and time
#[derive(Args)]
#[command(
    group = ArgGroup::new("one size").required(true).args(["memory", "words"]),
    group = ArgGroup::new("one limit").required(true).args(["budget", "seconds"]),
    after_help = help::paragraphs(&[
        "Chosen are the most cells that fit, and then the greatest T. T, R and C fit if T is at least 1, the matrix has no more \
         than the given bytes or words, and a derivation spends no more than the given rounds. Each number of columns up to \
         that of --column-counts is tried, with the most rows that fit together with T = 1; of as many cells the fewest columns \
         are taken. No T is above 255 and no matrix above 384 MiB, so more is not spent. `lyra2 cost` tells what T, R and C \
         cost that are chosen already.",
        "Printed are T, R and C, the bytes of the matrix and the rounds, each beside what is allowed, and the shortfall. It is \
         proved that none that fit have more cells than the chosen ones and the shortfall together, and, where all column \
         counts are tried, that none that fit have more cells at all. The last line has the options for `lyra2 derive`.",
        "With --seconds the rounds come from derivations that are timed on the spot, which takes about a second. They have the \
         given rounds of a reduced call, the given mixer and the shape that would be chosen, first for some milliseconds and \
         in the end for the given seconds, or for 0.1 where more are given. Each is timed three times with its visits and \
         without, and the medians count. \
         Allowed are then the most rounds whose choice is expected to take no longer. All that a derivation needs is counted, \
         also to set the matrix aside and to wipe it and give it back: who keeps a matrix for many derivations waits less. The \
         seconds are an estimate for this machine as it is now. So measure on the gateway, and leave room for what else it does.",
        "Where no lengths are given, password and salt are as long as can be, so that the rounds are enough for every one. The \
         memory is that of the matrix alone; a trial needs its record besides.",
        "Example, for half a second and 96 MiB:\n    \
         lyra2 choose --memory 96MiB --seconds 0.5 --key-length 32",
        help::STATUS,
    ])
)]
pub struct Choose {
    /// Bytes of the matrix at most; K, KiB, M, MiB, G and GiB stand for powers of 1024, kB, MB and GB for powers of 1000
    #[arg(long, value_name = "SIZE", value_parser = quantity::bytes, allow_negative_numbers = true)]
    memory: Option<u64>,
    /// Words of the matrix at most, each of 8 bytes
    #[arg(long, value_name = "N", value_parser = decimal, allow_negative_numbers = true)]
    words: Option<usize>,
    /// Rounds of a derivation at most
    #[arg(long, value_name = "N", value_parser = decimal, allow_negative_numbers = true)]
    budget: Option<usize>,
    /// Seconds that a derivation is to take at most, as 2, 0.5 or 500ms; a measurement turns them into rounds
    #[arg(long, value_name = "S", value_parser = quantity::seconds, allow_negative_numbers = true)]
    seconds: Option<f64>,
    #[command(flatten)]
    rounds: RoundsOption,
    #[command(flatten)]
    mixer: MixerOption,
    #[command(flatten)]
    key: KeyLengthOption,
    /// Bytes of the password, 0 to 1024
    #[arg(long, value_name = "N", value_parser = decimal, allow_negative_numbers = true, default_value_t = *PASSWORD_LENGTHS.end())]
    password_length: usize,
    /// Bytes of the salt, 8 to 64
    #[arg(long, value_name = "N", value_parser = decimal, allow_negative_numbers = true, default_value_t = *SALT_LENGTHS.end())]
    salt_length: usize,
    /// How many column counts are tried, from 1 on; 256 are all
    #[arg(long, value_name = "N", value_parser = decimal, allow_negative_numbers = true, default_value_t = *COLUMNS.end())]
    column_counts: usize,
}

impl Choose {
    pub fn run(self) -> Result<Outcome, Failure> {
        let question = self.question();
        // What no budget helps against is told before anything is timed.
        question.choose(question.most_rounds()?)?;
        let speed = self.seconds.map(|seconds| measure(&question, seconds));
        let speed = speed.transpose()?;
        let budget = match (self.seconds, &speed) {
            (Some(seconds), Some(speed)) => question.budget(seconds, speed)?,
            _ => self.budget.expect(ONE_IS_GIVEN) as u64,
        };
        let choice = question.choose(budget)?;
        if let Some(speed) = &speed {
            speed.require_memory(choice.parameters)?;
        }
        let rounds = question.spent(choice.parameters)?;
        let chosen = question.settings(choice.parameters);
        let lines = [
            self.costs(choice, rounds, budget),
            self.shortfall(choice),
            speed.map_or(String::new(), |speed| times(&speed, chosen)),
            self.options(choice),
        ];
        Ok(Outcome::result(lines.concat()))
    }

    fn question(&self) -> Question {
        let words = self.memory.map(|bytes| (bytes / WORD) as usize);
        Question {
            lengths: Lengths {
                key: self.key.key_length,
                password: self.password_length,
                salt: self.salt_length,
            },
            words: words.or(self.words).expect(ONE_IS_GIVEN),
            rounds: self.rounds.rounds,
            mixer: self.mixer.mixer,
            tries: self.column_counts,
        }
    }

    /// T, R and C, and what they take of what is allowed.
    fn costs(&self, choice: Choice, rounds: u64, budget: u64) -> String {
        let chosen = choice.parameters;
        // So many words may have more bytes than a u64 counts.
        let words = self.words.map(|words| words as u128 * WORD as u128);
        let allowed = self.memory.map(u128::from).or(words);
        format!(
            "time: {}\nrows: {}\ncolumns: {}\nmatrix bytes: {}\nallowed matrix bytes: {}\n\
             rounds: {rounds}\nallowed rounds: {budget}\n",
            chosen.time,
            chosen.rows,
            chosen.columns,
            matrix_bytes(chosen),
            allowed.expect(ONE_IS_GIVEN),
        )
    }

    /// What may be lost against others, and what is promised of it.
    fn shortfall(&self, choice: Choice) -> String {
        let cells = choice.shortfall;
        let bytes = cells as u64 * CELL_WORDS as u64 * WORD;
        let more = match (cells, self.column_counts >= *COLUMNS.end()) {
            (0, _) => "more cells".to_string(),
            (1, false) => "more than 1 cell more".to_string(),
            (_, false) => format!("more than {cells} cells more"),
            (_, true) => "more cells, since all column counts were tried".to_string(),
        };
        format!(
            "shortfall cells: {cells}\nshortfall bytes: {bytes}\n\
             promised: no T from 1 on, R and C that fit have {more}\n"
        )
    }

    /// The options of a derivation, those with a usual value only where they have another.
    fn options(&self, choice: Choice) -> String {
        let chosen = choice.parameters;
        let mut options = format!(
            "options: --time {} --rows {} --columns {} --key-length {}",
            chosen.time, chosen.rows, chosen.columns, self.key.key_length
        );
        if self.rounds.rounds != USUAL_ROUNDS {
            options += &format!(" --rounds {}", self.rounds.rounds);
        }
        if self.mixer.mixer != USUAL_MIXER {
            options += &format!(" --mixer {}", mixer::name(self.mixer.mixer));
        }
        options + "\n"
    }
}

/// How fast derivations were, and how long the chosen one is expected to take.
fn times(speed: &Speed, chosen: Settings) -> String {
    format!(
        "rounds a second: {:.0} (of visits to a matrix of {} bytes, measured just now)\n\
         expected seconds: {} (an estimate, of which {} are for setting the matrix aside, filling and wiping it)\n",
        speed.rounds_a_second(),
        speed.matrix_bytes,
        in_digits(speed.expected(chosen)),
        in_digits(speed.expected_without_visits(chosen.parameters)),
    )
}
