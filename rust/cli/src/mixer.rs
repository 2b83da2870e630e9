//! The mixers by name, as an option and a comparison have them, and by number, as an end-state file has them.

use lyra2::Mixer;

/// Both of them.
pub const ALL: [Mixer; 2] = [Mixer::Plain, Mixer::BlaMka];

/// The name of a mixer.
pub const fn name(mixer: Mixer) -> &'static str {
    match mixer {
        Mixer::Plain => "plain",
        Mixer::BlaMka => "blamka",
    }
}

/// The number of a mixer.
pub const fn number(mixer: Mixer) -> u64 {
    match mixer {
        Mixer::Plain => 0,
        Mixer::BlaMka => 1,
    }
}

/// The mixer that has this name.
pub fn named(text: &str) -> Option<Mixer> {
    ALL.into_iter().find(|&mixer| name(mixer) == text)
}

/// The mixer that has this number.
pub fn numbered(wanted: u64) -> Option<Mixer> {
    ALL.into_iter().find(|&mixer| number(mixer) == wanted)
}
