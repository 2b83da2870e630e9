//! `lyra2 manual`: the manual page, in the form of man(7).

use crate::help;
use crate::outcome::Outcome;
use clap::builder::StyledStr;
use clap::{Arg, Args, Command};

/// Print the manual page in the form that `man` reads
#[derive(Args)]
#[command(after_help = help::STATUS)]
pub struct Manual {}

impl Manual {
    /// The page for the program with all its commands.
    pub fn run(self, mut program: Command) -> Outcome {
        program.build();
        Outcome::result(page(&mut program).join("\n") + "\n")
    }
}

/// The lines of the page. The date is left empty, so that the page is the same whenever it is made.
fn page(program: &mut Command) -> Vec<String> {
    let name = program.get_name().to_string();
    let version = escaped(program.get_version().unwrap_or_default());
    let about = plain(program.get_about());
    let title = name.to_uppercase();
    let mut lines = vec![
        format!(".TH {title} 1 \"\" \"{name} {version}\" \"User Commands\""),
        ".SH NAME".to_string(),
        format!("{name} \\- {}", about.trim_end_matches('.')),
        ".SH SYNOPSIS".to_string(),
        format!(".B {name}\n.I COMMAND\n.RI [ ARGUMENT ]..."),
        ".SH DESCRIPTION".to_string(),
    ];
    lines.extend(paragraphs(program.get_after_help()));
    lines.push(".SH COMMANDS".to_string());
    let commands = program.get_subcommands_mut();
    lines.extend(
        commands
            .filter(|command| command.get_name() != "help")
            .flat_map(|command| command_lines(command, "")),
    );
    lines
}

/// What a command does, how it is called, its operands and options, and what else its help says; then the same of its own
/// commands, whose names stand after its name.
fn command_lines(command: &mut Command, above: &str) -> Vec<String> {
    let name = format!("{above}{}", command.get_name());
    let usage = command.render_usage().to_string();
    let usage = escaped(usage.trim_start_matches("Usage: "));
    let mut lines = vec![
        format!(".SS {}", escaped(&name)),
        format!("{}.", plain(command.get_about())),
        format!(".PP\n\\fB{usage}\\fR"),
    ];
    let arguments = command.get_arguments();
    lines.extend(
        arguments
            .filter(|argument| argument.get_id() != "help")
            .map(argument_lines),
    );
    lines.extend(paragraphs(command.get_after_help()));
    let above = format!("{name} ");
    let below = command.get_subcommands_mut();
    lines.extend(below.flat_map(|command| command_lines(command, &above)));
    lines
}

fn argument_lines(argument: &Arg) -> String {
    let names = argument.get_value_names().unwrap_or_default();
    let value = escaped(names.first().map_or("", |name| name.as_str()));
    let option = argument.get_long().map_or(String::new(), |long| {
        format!("\\fB{}\\fR ", escaped(&format!("--{long}")))
    });
    let mut help = plain(argument.get_help());
    for default in argument.get_default_values() {
        help += &escaped(&format!(" [default: {}]", default.to_string_lossy()));
    }
    format!(".TP\n{option}\\fI{value}\\fR\n{help}")
}

fn paragraphs(text: Option<&StyledStr>) -> Vec<String> {
    let text = plain(text);
    let paragraphs = text.split("\n\n");
    paragraphs
        .map(|paragraph| format!(".PP\n{paragraph}"))
        .collect()
}

fn plain(text: Option<&StyledStr>) -> String {
    escaped(&text.map_or(String::new(), |text| text.to_string()))
}

/// A text as roff takes it, where a backslash and a dash have a meaning. No line of the help starts with a dot or a
/// quote, which have one too.
fn escaped(text: &str) -> String {
    text.replace('\\', "\\e").replace('-', "\\-")
}
