//! The settings: the pseudocode's parameters ρ and ω (request #106) and the mixer of the sponge's permutation (request
//! #107). The input holds none of them.

/// How many rounds a reduced call has, by how many words the rotation goes, and how G adds.
#[derive(Clone, Copy, Debug, PartialEq, Eq)]
pub struct Settings {
    /// Rounds of a reduced call, ρ.
    pub rho: u64,
    /// Words that the rotation goes by, ω.
    pub omega: u64,
    /// The mixer.
    pub mixer: Mixer,
}

/// What G's additions are. Every call goes by it, full or reduced; the sums of cells do not.
#[derive(Clone, Copy, Debug, PartialEq, Eq)]
pub enum Mixer {
    /// BLAKE2b's: sums.
    Plain,
    /// The guide's multiplying one: sums with the doubled product of the low halves.
    BlaMka,
}

impl Settings {
    /// The usual choice, with which keys are those from before the requests.
    pub const USUAL: Settings = Settings {
        rho: 1,
        omega: 2,
        mixer: Mixer::Plain,
    };
}
