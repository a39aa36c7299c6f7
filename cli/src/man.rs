//! The manual page, from the table.

use crate::help::{dashed, shown, synopses, trouble};
use crate::options::{Asked, Command, Status, Stop};
use crate::output;
use crate::table::{ABOUT, COMMANDS, COMMON, TEXT};

pub fn run(_: &Asked) -> Result<Status, Stop> {
    output::say(&page())
}

fn page() -> String {
    let mut told = format!(".TH MENKHODUR 1 \"\" \"Menkhodur {}\" \"Menkhodur\"\n", menkhodur::VERSION);
    told += &format!(".SH NAME\nmenkhodur \\- {}\n.SH SYNOPSIS\n.nf\n", plain(ABOUT));
    told += &COMMANDS.iter().flat_map(synopses).map(|synopsis| plain(&synopsis) + "\n").collect::<String>();
    told += ".fi\n.SH DESCRIPTION\n";
    told += &paragraphs(TEXT);
    told += ".SH COMMANDS\n";
    told += &COMMANDS.iter().map(section).collect::<String>();
    told += ".SH OPTIONS\nEvery command takes these.\n";
    told += &COMMON.iter().map(|flag| item(&dashed(flag), flag.about)).collect::<String>();
    told += &item("--", "end the options: what follows are arguments");
    told += ".SH EXIT STATUS\nEach command says what its 0 and 1 mean.\n";
    told + &item("2", &trouble("a log or roll that is refused"))
}

fn section(command: &Command) -> String {
    let mut told = synopses(command).iter().map(|synopsis| format!(".SS {}\n", plain(synopsis))).collect::<String>();
    told += &format!("{}.\n", plain(command.about));
    told += &paragraphs(command.text);
    for argument in command.arguments() {
        told += &item(&shown(argument), argument.about);
    }
    for flag in command.flags {
        told += &item(&dashed(flag), flag.about);
    }
    for (status, about) in command.statuses.iter().enumerate() {
        told += &item(&format!("status {status}"), about);
    }
    if !command.trouble.is_empty() {
        told += &item("status 2", &trouble(command.trouble));
    }
    for example in command.examples {
        told += &format!(".PP\nExample: {}\n.PP\n.nf\n.RS\n{}\n.RE\n.fi\n", plain(example.about), plain(example.command));
    }
    told
}

fn paragraphs(texts: &[&str]) -> String {
    texts.iter().map(|text| format!(".PP\n{}\n", plain(text))).collect()
}

fn item(name: &str, about: &str) -> String {
    format!(".TP\n.B {}\n{}\n", plain(name), plain(about))
}

/// A text as roff has it: a backslash and a minus by their names, and no line that begins with a dot or a quote.
fn plain(text: &str) -> String {
    let text = text.replace('\\', "\\e").replace('-', "\\-").replace('\'', "\\(aq").replace('`', "\\(ga");
    if text.starts_with('.') { "\\&".to_string() + &text } else { text }
}

#[cfg(test)]
mod tests {
    use super::*;

    #[test]
    fn the_page_names_every_command_option_and_argument() {
        let told = page();
        for command in COMMANDS {
            assert!(synopses(command).iter().all(|synopsis| told.contains(&format!(".SS {}\n", plain(synopsis)))), "{}", command.name);
            assert!(command.flags.iter().all(|flag| told.contains(&format!(".B {}\n", plain(&dashed(flag))))), "{}", command.name);
            assert!(command.arguments().all(|argument| told.contains(&format!(".B {}\n", plain(&shown(argument))))));
        }
    }
}
