//! Prints the tables of docs/PERFORMANCE.md, draws its picture, or runs one derivation for a tool that counts.

#![forbid(unsafe_code)]

use bench::lent::Lent;
use bench::{lanes, machine, pages, plot, programs, settings, sizes, table};
use lyra2_reference::refusal::check_parameters;
use lyra2_reference::Settings;
use std::process::ExitCode;

const USAGE: &str = "\
usage: bench [table] [--quick]         the tables, in Markdown
       bench table R C .. [--quick]    the same for these numbers of rows and columns
       bench pages [--quick]           large pages beside ordinary ones, in Markdown
       bench blamka [R C ..] [--quick] the tables with the multiplying mixer
       bench settings [--quick]        other settings than the usual ones, in Markdown
       bench lanes [--quick]           several lanes beside the single sponge, in Markdown
       bench plot FILE [--quick]       time against memory, as an SVG picture
       bench once PROGRAM R C [blamka] one derivation, for a tool that counts instructions
--quick makes one pass over the measurements instead of four.";

/// The usual rounds and rotation with the multiplying mixer.
const BLAMKA: Settings = settings::multiplying(Settings::USUAL);

fn main() -> ExitCode {
    let mut words: Vec<String> = std::env::args().skip(1).collect();
    let quick = words.iter().any(|word| word == "--quick");
    words.retain(|word| word != "--quick");
    let words: Vec<&str> = words.iter().map(String::as_str).collect();
    let done = match words[..] {
        [] => print_tables(Settings::USUAL, &[], quick),
        ["table", ref numbers @ ..] => print_tables(Settings::USUAL, numbers, quick),
        ["blamka", ref numbers @ ..] => print_tables(BLAMKA, numbers, quick),
        ["pages"] => print_pages(quick),
        ["settings"] => print_settings(quick),
        ["lanes"] => print_lanes(quick),
        ["plot", file] => draw(file, quick),
        ["once", program, r, c] => once(program, r, c, Settings::USUAL),
        ["once", program, r, c, "blamka"] => once(program, r, c, BLAMKA),
        _ => Err(USAGE.to_string()),
    };
    match done {
        Ok(()) => ExitCode::SUCCESS,
        Err(line) => {
            eprintln!("{line}");
            ExitCode::FAILURE
        }
    }
}

/// Pairs of R and C that no check refuses; those of the page where none are given.
fn shapes(numbers: &[&str]) -> Result<Vec<(u64, u64)>, String> {
    if numbers.is_empty() {
        return Ok(table::SHAPES.to_vec());
    }
    let mut shapes = Vec::new();
    for pair in numbers.chunks(2) {
        let [r, c] = pair else {
            return Err(USAGE.to_string());
        };
        shapes.push(shape(r, c)?);
    }
    Ok(shapes)
}

fn shape(r: &str, c: &str) -> Result<(u64, u64), String> {
    let number = |text: &str| text.parse().map_err(|_| USAGE.to_string());
    let (r, c) = (number(r)?, number(c)?);
    let parameters = table::inputs(r, c).parameters(32);
    check_parameters(&parameters).map_err(|refusal| refusal.to_string())?;
    Ok((r, c))
}

fn print_tables(settings: Settings, numbers: &[&str], quick: bool) -> Result<(), String> {
    let shapes = shapes(numbers)?;
    let (programs, missing) = programs::all();
    println!("{}", machine::description());
    table::print(&programs, settings, &shapes, quick);
    for line in missing {
        println!("\n{line}");
    }
    Ok(())
}

fn print_pages(quick: bool) -> Result<(), String> {
    let (programs, missing) = programs::all();
    println!("{}{}", machine::description(), pages::description());
    pages::print(&programs, quick);
    for line in missing {
        println!("\n{line}");
    }
    Ok(())
}

fn print_settings(quick: bool) -> Result<(), String> {
    println!("{}", machine::description());
    settings::print(&programs::all().0, quick);
    Ok(())
}

fn print_lanes(quick: bool) -> Result<(), String> {
    println!("{}", machine::description());
    lanes::print(&programs::all().0, quick);
    Ok(())
}

fn draw(file: &str, quick: bool) -> Result<(), String> {
    let (programs, missing) = programs::all();
    let picture = plot::svg(&sizes::measure(&programs, quick));
    std::fs::write(file, picture).map_err(|error| format!("{file}: {error}"))?;
    for line in missing {
        println!("{line}");
    }
    Ok(())
}

fn once(name: &str, r: &str, c: &str, settings: Settings) -> Result<(), String> {
    let (programs, _) = programs::all();
    let named = programs.iter().find(|program| program.name == name);
    let names: Vec<_> = programs.iter().map(|program| program.name).collect();
    let program = named.ok_or(format!("the programs are: {}", names.join("; ")))?;
    let inputs = table::inputs_with(settings, shape(r, c)?);
    (program.derive)(&inputs, &mut Lent::new(&inputs));
    Ok(())
}
