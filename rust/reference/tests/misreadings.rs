//! Misreadings of documents 01 and 02, each made on purpose: the vectors file has to tell them apart.
//!
//! The second writing of Lyra2 has a switch for each misreading. With none switched on it has to
//! agree with the file.

mod common;
mod second_writing;

use lyra2_reference::vectors::{checksum, Answer, Given, Question};
use lyra2_reference::{Mixer, Settings};
use second_writing::{derive, Call, End, Inputs, Misreading, Misreading::*};

/// Inputs of the second writing.
fn inputs(given: &Given, key_len: u64) -> Inputs {
    Inputs {
        key_len: key_len as usize,
        password: given.password.to_vec(),
        salt: given.salt.to_vec(),
        t: given.t as usize,
        r: given.r as usize,
        c: given.c as usize,
        rho: given.settings().rho as usize,
        omega: given.settings().omega as usize,
        mixer: given.settings().mixer,
    }
}

/// The accepted recorded derivations of the vectors file with their answers, but for the largest.
fn derivations_of_the_file() -> Vec<(u64, Inputs, Answer)> {
    let mut derivations = Vec::new();
    for (_, case) in common::cases() {
        let (Question::DeriveRecorded { given, key_len, .. }, Answer::Recorded { .. }) =
            (case.question, &case.answer)
        else {
            continue;
        };
        let inputs = inputs(&given, key_len);
        if inputs.r * inputs.c * inputs.t <= 100_000 {
            derivations.push((case.number, inputs, case.answer));
        }
    }
    derivations
}

fn key(inputs: &Inputs, misreading: Misreading) -> Vec<u8> {
    derive(inputs, misreading).key
}

/// Derivations of the file whose key the misreading gets wrong.
fn told_apart(misreading: Misreading) -> usize {
    told_apart_among(misreading, |_| true)
}

/// The same of some derivations alone.
fn told_apart_among(misreading: Misreading, wanted: impl Fn(&Inputs) -> bool) -> usize {
    told_apart_by(misreading, wanted, |end, answer| match answer {
        Answer::Recorded { key, .. } => end.key != *key,
        _ => false,
    })
}

/// Some derivations of the file that the misreading ends otherwise than answered.
fn told_apart_by(
    misreading: Misreading,
    wanted: impl Fn(&Inputs) -> bool,
    differs: impl Fn(&End, &Answer) -> bool,
) -> usize {
    derivations_of_the_file()
        .iter()
        .filter(|(_, inputs, answer)| {
            wanted(inputs) && differs(&derive(inputs, misreading), answer)
        })
        .count()
}

/// The key of the library itself.
fn right_key(inputs: &Inputs) -> Vec<u8> {
    let mut key = vec![0; inputs.key_len];
    let mut matrix = vec![0; 12 * inputs.r * inputs.c];
    let given = lyra2_reference::Inputs {
        password: &inputs.password,
        salt: &inputs.salt,
        t: inputs.t as u64,
        r: inputs.r as u64,
        c: inputs.c as u64,
        settings: Settings {
            rho: inputs.rho as u64,
            omega: inputs.omega as u64,
            mixer: inputs.mixer,
        },
    };
    lyra2_reference::derive(&given, &mut key, &mut matrix).unwrap();
    key
}

/// Password "password" and salt "saltsalt", filled up with full stops to these lengths.
fn named(password_len: usize, r: usize, c: usize) -> Inputs {
    let mut password = b"password".to_vec();
    password.resize(password_len, b'.');
    Inputs {
        key_len: 32,
        password,
        salt: b"saltsalt".to_vec(),
        t: 1,
        r,
        c,
        rho: 1,
        omega: 2,
        mixer: Mixer::Plain,
    }
}

#[test]
fn no_misreading_agrees_with_the_whole_file() {
    let derivations = derivations_of_the_file();
    assert!(derivations.len() >= 1000);
    for (number, inputs, answer) in derivations {
        let end = derive(&inputs, Correct);
        let Answer::Recorded {
            key,
            state,
            counts,
            matrix_sum,
            record_sum,
            in_full,
        } = answer
        else {
            continue;
        };
        assert_eq!(end.key, key, "case {number}");
        assert_eq!(end.state, state, "case {number}");
        assert_eq!(end.counts, counts, "case {number}");
        assert_eq!(checksum::of_words(&end.matrix), matrix_sum, "case {number}");
        assert_eq!(checksum::of_words(&end.record), record_sum, "case {number}");
        if let Some((matrix, record)) = in_full {
            assert_eq!(end.matrix, matrix, "case {number}");
            assert_eq!(end.record, record, "case {number}");
        }
    }
}

/// The key of a plain derivation or a check, once the sum of what it leaves is found to be that of zeros.
fn wiped_key(number: u64, inputs: &Inputs, matrix_sum: u64) -> Vec<u8> {
    let zeros = vec![0; 12 * inputs.r * inputs.c];
    assert_eq!(checksum::of_words(&zeros), matrix_sum, "case {number}");
    key(inputs, Correct)
}

#[test]
fn plain_derivations_of_the_file() {
    let mut count = 0;
    for (_, case) in common::cases() {
        if let (
            Question::Derive { given, key_len },
            Answer::Derived {
                key, matrix_sum, ..
            },
        ) = (case.question, case.answer)
        {
            let found = wiped_key(case.number, &inputs(&given, key_len), matrix_sum);
            assert_eq!(found, key, "case {}", case.number);
            count += 1;
        }
    }
    assert!(count >= 60, "{count}");
}

#[test]
fn checks_of_the_file() {
    let mut count = 0;
    for (_, case) in common::cases() {
        if let (
            Question::Check { given, stored },
            Answer::Checked {
                matches,
                matrix_sum,
                ..
            },
        ) = (case.question, case.answer)
        {
            let key = wiped_key(case.number, &inputs(&given, stored.count()), matrix_sum);
            assert_eq!(key == stored.to_vec(), matches, "case {}", case.number);
            count += 1;
        }
    }
    assert!(count >= 160, "{count}");
}

#[test]
fn setup_rows_written_upward() {
    let inputs = named(8, 3, 2);
    assert_ne!(key(&inputs, SetupUpward), right_key(&inputs));
    assert!(told_apart(SetupUpward) >= 1000);
}

#[test]
fn columns_kept_for_the_whole_row() {
    let inputs = named(8, 3, 4);
    assert_ne!(key(&inputs, ColumnsKept), right_key(&inputs));
    assert!(told_apart(ColumnsKept) >= 1000);
}

#[test]
fn sum_read_after_the_first_xor() {
    let inputs = named(8, 3, 1);
    assert_ne!(key(&inputs, SumAfterXor), right_key(&inputs));
    assert!(told_apart(SumAfterXor) >= 1000);
}

#[test]
fn full_block_without_padding() {
    // 32 + 8 + 24 bytes fill one block; a byte less must give the right key even so.
    let full = named(32, 3, 1);
    assert_ne!(key(&full, FullBlockUnpadded), right_key(&full));
    let one_less = named(31, 3, 1);
    assert_eq!(key(&one_less, FullBlockUnpadded), right_key(&one_less));
    assert!(told_apart(FullBlockUnpadded) >= 100);
}

#[test]
fn extra_call_before_the_key() {
    let inputs = named(8, 3, 1);
    assert_ne!(key(&inputs, ExtraCall), right_key(&inputs));
    assert!(told_apart(ExtraCall) >= 1000);
}

#[test]
fn first_xor_lost_where_both_rows_are_the_same() {
    assert!(told_apart(FirstXorLost) >= 500);
}

#[test]
fn visits_and_last_cell_without_visits() {
    for misreading in [OneVisitAtLeast, LastCellOfRow0, LastCellRevisited] {
        let inputs = Inputs {
            t: 0,
            ..named(8, 5, 1)
        };
        assert_ne!(key(&inputs, misreading), right_key(&inputs));
        // The derivations with visits are read rightly.
        let inputs = named(8, 5, 1);
        assert_eq!(key(&inputs, misreading), right_key(&inputs));
        assert!(told_apart(misreading) >= 200, "{misreading:?}");
    }
}

/// A derivation with visits in which Setup revisits rows and a column can be picked wrongly.
fn with_settings(rho: usize, omega: usize) -> Inputs {
    Inputs {
        rho,
        omega,
        ..named(8, 5, 3)
    }
}

/// Of all settings, the misreading has to give the right key with just these.
fn assert_right_for(misreading: Misreading, right: fn(usize, usize) -> bool) {
    for rho in 1..=12 {
        for omega in 1..=11 {
            let inputs = with_settings(rho, omega);
            let is_right = key(&inputs, misreading) == right_key(&inputs);
            let asked = format!("{misreading:?}: rho {rho}, omega {omega}");
            assert_eq!(is_right, right(rho, omega), "{asked}");
        }
    }
}

/// By six words both directions come to the same, so that no vector can tell them apart.
#[test]
fn rotation_to_the_left() {
    assert_right_for(RotatedLeft, |_, omega| omega == 6);
    assert!(told_apart(RotatedLeft) >= 1000);
}

#[test]
fn rotation_of_two_words_in_one_phase() {
    for misreading in [SetupRotatesByTwo, VisitsRotateByTwo] {
        assert_right_for(misreading, |_, omega| omega == 2);
        assert!(told_apart(misreading) >= 100, "{misreading:?}");
    }
}

#[test]
fn picks_by_the_usual_words() {
    assert_right_for(PicksByTwo, |_, omega| omega == 2);
    assert!(told_apart(PicksByTwo) >= 100);
}

#[test]
fn first_column_picked_by_the_word_of_the_second_row() {
    assert_right_for(Col0ByOmega, |_, _| false);
    assert!(told_apart(Col0ByOmega) >= 1000);
}

/// Up to three words, three times ω stays within the output.
#[test]
fn picks_past_the_output() {
    assert_right_for(PicksOfWholeState, |_, omega| omega <= 3);
    assert!(told_apart(PicksOfWholeState) >= 100);
}

#[test]
fn rounds_of_full_calls_and_of_one_phase() {
    assert_right_for(FullCallsOfRho, |rho, _| rho == 12);
    assert!(told_apart(FullCallsOfRho) >= 1000);
    for misreading in [SetupOfOneRound, VisitsOfOneRound] {
        assert_right_for(misreading, |rho, _| rho == 1);
        assert!(told_apart(misreading) >= 100, "{misreading:?}");
    }
}

/// The key is right then; the counts alone tell.
#[test]
fn reduced_calls_counted_as_one_round() {
    assert_right_for(RoundsCountedOnce, |_, _| true);
    let differs = |end: &End, answer: &Answer| match answer {
        Answer::Recorded { counts, .. } => end.counts != *counts,
        _ => false,
    };
    let told_apart = told_apart_by(RoundsCountedOnce, |_| true, differs);
    assert!(told_apart >= 100, "{told_apart}");
}

#[test]
fn settings_in_the_input() {
    assert_right_for(SettingsAbsorbed, |rho, omega| (rho, omega) == (1, 2));
    assert!(told_apart(SettingsAbsorbed) >= 100);
}

/// Both mixers with several rounds and rotations; the key has several pieces.
fn with_mixers() -> Vec<Inputs> {
    let mut all = Vec::new();
    for mixer in [Mixer::Plain, Mixer::BlaMka] {
        for (rho, omega) in [(1, 2), (1, 1), (12, 11), (3, 6)] {
            all.push(Inputs {
                key_len: 200,
                mixer,
                ..with_settings(rho, omega)
            });
        }
    }
    all
}

/// With just these mixers the misreading has to give a wrong key, and the file to tell it apart.
fn assert_wrong_for(misreading: Misreading, wrong: &[Mixer]) {
    for inputs in with_mixers() {
        let is_wrong = key(&inputs, misreading) != right_key(&inputs);
        let asked = format!("{misreading:?}: {:?}", inputs.mixer);
        assert_eq!(is_wrong, wrong.contains(&inputs.mixer), "{asked}");
    }
    for mixer in wrong {
        let told_apart = told_apart_among(misreading, |inputs| inputs.mixer == *mixer);
        assert!(told_apart >= 20, "{misreading:?}: {told_apart}");
    }
}

#[test]
fn products_of_other_numbers_or_taken_otherwise() {
    for misreading in [
        LowBits(31),
        LowBits(33),
        LowBits(64),
        ProductTimes(1),
        ProductTimes(4),
    ] {
        assert_wrong_for(misreading, &[Mixer::BlaMka]);
    }
}

#[test]
fn one_addition_without_a_product() {
    for number in 0..4 {
        assert_wrong_for(PlainAddition(number), &[Mixer::BlaMka]);
    }
}

#[test]
fn cells_summed_by_the_mixer() {
    assert_wrong_for(CellsSummedByMixer, &[Mixer::BlaMka]);
}

#[test]
fn mixer_ignored_exchanged_or_absorbed() {
    assert_wrong_for(MixerIgnored, &[Mixer::BlaMka]);
    assert_wrong_for(MixersExchanged, &[Mixer::Plain, Mixer::BlaMka]);
    assert_wrong_for(MixerAbsorbed, &[Mixer::BlaMka]);
}

/// BlaMka for full calls only, for reduced calls only, and for all but one kind of call.
#[test]
fn some_calls_without_the_mixer() {
    for plain in [
        &[Call::Setup, Call::Visit][..],
        &[Call::Input, Call::LastCell, Call::Key],
        &[Call::Input],
        &[Call::Setup],
        &[Call::Visit],
        &[Call::LastCell],
        &[Call::Key],
    ] {
        assert_wrong_for(PlainCalls(plain), &[Mixer::BlaMka]);
    }
}

/// The file has to tell records written otherwise apart with each mixer, at least so many times. The key is right then;
/// the record alone tells.
fn assert_records_tell(misreading: Misreading, at_least: usize) {
    let usual = named(8, 5, 3);
    assert_eq!(key(&usual, misreading), right_key(&usual), "{misreading:?}");
    for mixer in [Mixer::Plain, Mixer::BlaMka] {
        let wanted = |inputs: &Inputs| inputs.mixer == mixer;
        let told_apart = told_apart_by(misreading, wanted, |end, answer| match answer {
            Answer::Recorded { record_sum, .. } => checksum::of_words(&end.record) != *record_sum,
            _ => false,
        });
        let found = format!("{misreading:?}, {mixer:?}: {told_apart}");
        assert!(told_apart >= at_least, "{found}");
    }
}

#[test]
fn record_words_of_another_form() {
    for misreading in [
        RecordUnpacked,
        RecordExchanged,
        RecordColumnsExchanged,
        RecordFactor(1 << 8),
        RecordFactor(1 << 14),
        RecordFactor(1 << 32),
    ] {
        assert_records_tell(misreading, 100);
    }
}

#[test]
fn rows_of_a_visit_in_another_place_of_the_record() {
    for misreading in [RecordRowsTwice, RecordRowsLast, RecordRowsLeftOut] {
        assert_records_tell(misreading, 100);
    }
}

/// Only rows from 256 on show it.
#[test]
fn record_words_of_single_bytes() {
    assert_records_tell(RecordCut(8), 5);
}
