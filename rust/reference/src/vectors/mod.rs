//! The vectors file: its cases, its text, and the runs that hold a program against it.
//!
//! `vectors/README.md` at the repository's top describes the file for readers without this code.
//! A test program of another implementation reads the file with [`read()`], implements [`Subject`]
//! and calls [`run::check_case`] on each case.

mod accepted;
mod books;
mod books_refused;
pub mod case;
pub mod checksum;
mod choices;
pub mod fields;
mod lanes;
mod lanes_refused;
mod lent;
mod lines;
mod mixer;
pub mod random;
pub mod random_book;
pub mod random_choice;
pub mod random_lanes;
pub mod random_line;
pub mod read;
mod record;
mod refused;
pub mod run;
mod run_book;
mod run_lanes;
mod settings;
pub mod subject;
pub mod write;

pub use case::{
    Answer, Bytes, Case, Given, LanesGiven, LentBook, LoginValues, NamedSettings, Question,
};
pub use read::{read, Problem};
pub use run::Coverage;
pub use subject::{Reference, Subject};

/// The questions of the vectors file, in its order. What a later request adds stands last, so that the
/// cases before it keep their numbers.
pub fn chosen_questions() -> Vec<Question> {
    [
        accepted::questions(),
        refused::questions(),
        accepted::without_visits(),
        refused::of_time_costs(),
        accepted::with_limit_salts(),
        refused::of_salts(),
        accepted::wiped(),
        refused::with_room_to_wipe(),
        lines::read(),
        lines::written(),
        settings::accepted(),
        refused::of_settings(),
        mixer::accepted(),
        refused::with_blamka(),
        record::questions(),
        refused::of_records(),
        choices::questions(),
        books::questions(),
        lanes::questions(),
        lanes_refused::questions(),
        lanes::checks_at_limits(),
    ]
    .concat()
}

/// The text of the vectors file. An error says which case the reference program failed, and how.
pub fn chosen_text() -> Result<String, String> {
    let mut text = String::from(write::HEADING);
    for (number, question) in (1..).zip(chosen_questions()) {
        let answer =
            run::ask(&Reference, &question).map_err(|what| format!("case {number}: {what}"))?;
        let case = Case {
            number,
            question,
            answer,
        };
        text.push_str(&write::line(&case));
    }
    Ok(text)
}
