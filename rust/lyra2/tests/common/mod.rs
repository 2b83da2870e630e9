//! What the second program is given, as the crate takes it.
#![allow(dead_code)]

use lyra2::{Lanes, Mixer, Parameters, Settings};
use lyra2_reference::{Inputs, LaneInputs};

pub fn size(number: u64) -> usize {
    usize::try_from(number).expect("the library is built for numbers of 64 bits")
}

pub fn settings(inputs: &Inputs) -> Settings {
    Settings {
        parameters: Parameters {
            time: size(inputs.t),
            rows: size(inputs.r),
            columns: size(inputs.c),
        },
        rounds: size(inputs.settings.rho),
        rotation: size(inputs.settings.omega),
        mixer: match inputs.settings.mixer {
            lyra2_reference::Mixer::Plain => Mixer::Plain,
            lyra2_reference::Mixer::BlaMka => Mixer::BlaMka,
        },
    }
}

pub fn lanes(inputs: &LaneInputs) -> Lanes {
    Lanes {
        parameters: Parameters {
            time: size(inputs.t),
            rows: size(inputs.r),
            columns: size(inputs.c),
        },
        count: size(inputs.p),
    }
}
