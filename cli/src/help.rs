//! What `--help` says, from the table.

use crate::options::{self, Argument, Asked, Command, Flag, Status, Stop};
use crate::output;
use crate::table::{ABOUT, COMMANDS, COMMON, TEXT, TROUBLE};
use std::ffi::OsStr;

const WIDTH: usize = 88;
const COLUMN: usize = 16;

/// `menkhodur help`, of the program or of the command that the words name.
pub fn run(asked: &Asked) -> Result<Status, Stop> {
    match asked.words.as_slice() {
        [] => output::say(&whole()),
        words => output::say(&of(options::command(&words.join(OsStr::new(" ")))?)),
    }
}

/// The help of the program.
pub fn whole() -> String {
    let mut told = format!("menkhodur COMMAND [WORD..]: {ABOUT}\n\n");
    for text in TEXT {
        told += &(wrapped(text, 0) + "\n");
    }
    told += "Commands, each with a --help of its own:\n";
    for command in COMMANDS {
        told += &row(command.name, command.about);
    }
    told += "\nOptions:\n";
    told += &flags(COMMON);
    told += "\nExit status: 0 or 1 as the command says, or\n";
    told += &row("2", &trouble("a log or roll that is refused"));
    told += &format!("\nExample:\n  {}\n", COMMANDS[0].examples[0].command);
    told
}

/// The help of a command.
pub fn of(command: &Command) -> String {
    let mut told = format!("{}: {}\n\n", synopses(command).join("\n"), command.about);
    for text in command.text {
        told += &(wrapped(text, 0) + "\n");
    }
    let arguments: String = command.arguments().map(|argument| row(&shown(argument), argument.about)).collect();
    if !arguments.is_empty() {
        told += &format!("Arguments:\n{arguments}\n");
    }
    told += "Options:\n";
    told += &flags(command.flags);
    told += &flags(COMMON);
    told += &row("--", "end the options: what follows are arguments");
    told += "\nExit status:\n";
    for (status, about) in command.statuses.iter().enumerate() {
        told += &row(&status.to_string(), about);
    }
    told += &row("2", &trouble(command.trouble));
    told += if command.examples.len() == 1 { "\nExample:\n" } else { "\nExamples:\n" };
    for example in command.examples {
        told += &format!("  {}\n{}", example.command, wrapped(example.about, 6));
    }
    told
}

/// What status 2 means, and what it includes here.
pub fn trouble(here: &str) -> String {
    format!("trouble: {here}{}{TROUBLE}", if here.is_empty() { "" } else { "; " })
}

/// `menkhodur ruling [--at N] [--json] ACTIONS POSITIONS`, for each form.
pub fn synopses(command: &Command) -> Vec<String> {
    let flags: String = command.flags.iter().map(|flag| format!(" [{}]", dashed(flag))).collect();
    let argument = |argument: &Argument| match argument.least {
        0 => format!(" [{}]", shown(argument)),
        _ => format!(" {}", shown(argument)),
    };
    let form = |form: &&[Argument]| format!("menkhodur {}{flags}{}", command.name, form.iter().map(argument).collect::<String>());
    command.forms.iter().map(form).collect()
}

/// `FILE..` where there may be many.
pub fn shown(argument: &Argument) -> String {
    format!("{}{}", argument.name, if argument.most == Some(1) { "" } else { ".." })
}

/// `--at N`
pub fn dashed(flag: &Flag) -> String {
    format!("--{}{}", flag.name, flag.value.map_or(String::new(), |value| format!(" {value}")))
}

fn flags(flags: &[Flag]) -> String {
    flags.iter().map(|flag| row(&dashed(flag), flag.about)).collect()
}

/// A name and what it is, the second in its column, and in the next line if the name reaches into it.
fn row(name: &str, about: &str) -> String {
    let about = wrapped(about, COLUMN);
    match name.len() + 3 > COLUMN {
        true => format!("  {name}\n{about}"),
        false => format!("  {name:width$}{}", &about[COLUMN..], width = COLUMN - 2),
    }
}

/// A paragraph in lines of at most `WIDTH` bytes, each so far in.
fn wrapped(text: &str, indent: usize) -> String {
    let mut told = String::new();
    let mut line = String::new();
    for word in text.split_whitespace() {
        if !line.is_empty() && indent + line.len() + 1 + word.len() > WIDTH {
            told += &format!("{:indent$}{line}\n", "");
            line.clear();
        }
        line += if line.is_empty() { "" } else { " " };
        line += word;
    }
    told + &format!("{:indent$}{line}\n", "")
}

#[cfg(test)]
mod tests {
    use super::*;

    #[test]
    fn help_names_every_option_and_example_and_keeps_its_width() {
        for command in COMMANDS {
            let told = of(command);
            assert!(command.flags.iter().chain(COMMON).all(|flag| told.contains(&dashed(flag))), "{told}");
            let mut arguments = command.arguments();
            assert!(arguments.all(|argument| told.contains(argument.name) && told.contains(argument.about.split(' ').next().unwrap())));
            assert!(!command.examples.is_empty() && command.examples.iter().all(|example| told.contains(example.command)));
            let long = told.lines().find(|line| line.len() > WIDTH && !line.starts_with("  menkhodur") && !line.starts_with("menkhodur"));
            assert_eq!(long, None);
        }
    }
}
