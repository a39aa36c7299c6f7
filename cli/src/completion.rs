//! Scripts with which shells complete the words of the program, from the table.

use crate::help::dashed;
use crate::options::{Argument, Asked, Command, Flag, Status, Stop, Takes};
use crate::output;
use crate::table::{COMMON, SHORT, lower, names, on_top};
use std::os::unix::ffi::OsStrExt;

pub fn run(asked: &Asked) -> Result<Status, Stop> {
    let script = match asked.words[0].as_bytes() {
        b"bash" => bash(),
        b"zsh" => zsh(),
        _ => fish(),
    };
    output::say(&script)
}

/// The options that a command takes, or a command under it.
fn flags(command: &Command) -> impl Iterator<Item = &Flag> {
    let known = |flag: &&Flag| command.flags.iter().all(|own| own.name != flag.name);
    command.flags.iter().chain(lower(command).flat_map(|(_, lower)| lower.flags).filter(known)).chain(COMMON)
}

/// The words that a command's argument is one of, if it is one of some.
fn choices(command: &Command) -> Vec<&'static str> {
    let words = |argument: &Argument| match argument.takes {
        Takes::OneOf(words) => words.to_vec(),
        Takes::Command => names().into_iter().filter(|name| *name != command.name).collect(),
        Takes::File | Takes::Text => vec![],
    };
    command.arguments().flat_map(words).collect()
}

/// The second words of the commands under one.
fn seconds(command: &Command) -> Vec<&'static str> {
    lower(command).map(|(second, _)| second).collect()
}

fn takes_files(command: &Command) -> bool {
    command.arguments().any(|argument| argument.takes == Takes::File)
}

fn bash() -> String {
    let mut told = "# Completion of menkhodur for bash.\n_menkhodur() {\n".to_string();
    told += "    local now=${COMP_WORDS[COMP_CWORD]} words= files= second=\n    case $COMP_CWORD:${COMP_WORDS[1]} in\n";
    let common: Vec<String> = COMMON.iter().map(dashed).collect();
    told += &format!("    1:*) words='{} {}' ;;\n", names().join(" "), common.join(" "));
    for command in on_top() {
        let options = flags(command).map(|flag| format!("--{}", flag.name));
        let words: Vec<String> = options.chain(choices(command).iter().map(|word| word.to_string())).collect();
        let (name, words, second) = (command.name, words.join(" "), seconds(command).join(" "));
        let files = if takes_files(command) { " files=1" } else { "" };
        if !second.is_empty() {
            told += &format!("    2:{name}) words='{words}'{files} second='{second}' ;;\n");
        }
        told += &format!("    *:{name}) words='{words}'{files} ;;\n");
    }
    told += "    esac\n    COMPREPLY=()\n    [ -z \"$files\" ] || case $now in -*) ;; *) mapfile -t COMPREPLY < <(compgen -f -- \"$now\") ;; esac\n";
    told += "    [ \"${#COMPREPLY[@]}\" -gt 0 ] || mapfile -t COMPREPLY < <(compgen -W \"$words\" -- \"$now\")\n";
    told += "    [ -z \"$second\" ] || mapfile -t -O \"${#COMPREPLY[@]}\" COMPREPLY < <(compgen -W \"$second\" -- \"$now\")\n}\n";
    told + "complete -o filenames -F _menkhodur menkhodur\n"
}

/// A text in single quotes, as every shell here reads it.
fn quoted(text: &str) -> String {
    format!("'{}'", text.replace('\'', "'\\''"))
}

fn zsh() -> String {
    let mut told =
        "#compdef menkhodur\n# Completion of menkhodur for zsh.\n_menkhodur() {\n    local -a commands\n    commands=(\n".to_string();
    let escaped = |text: &str| text.replace('[', "\\[").replace(']', "\\]").replace(':', "\\:");
    for command in on_top() {
        told += &format!("        {}\n", quoted(&format!("{}:{}", command.name, escaped(command.about))));
    }
    told += "    )\n    if (( CURRENT == 2 )); then\n        _describe command commands\n        return\n    fi\n";
    told += "    case ${words[2]} in\n";
    for command in on_top() {
        let flag = |flag: &Flag| {
            let value = flag.value.map_or(String::new(), |value| format!(":{value}:{}", if value == FILE { "_files" } else { " " }));
            quoted(&format!("--{}[{}]{value}", flag.name, escaped(flag.about)))
        };
        let (choices, seconds) = (choices(command).join(" "), seconds(command).join(" "));
        let choice = (!choices.is_empty()).then(|| quoted(&format!("1:word:({choices})")));
        let second = (!seconds.is_empty()).then(|| quoted(&format!("1:file or word:{{ compadd {seconds}; _files }}")));
        let files = takes_files(command).then(|| quoted("*:file:_files"));
        let words: Vec<String> = flags(command).map(flag).chain(choice).chain(second).chain(files).collect();
        told += &format!("    {}) shift words; (( CURRENT-- )); _arguments {} ;;\n", command.name, words.join(" "));
    }
    told + "    esac\n}\n_menkhodur \"$@\"\n"
}

fn fish() -> String {
    let mut told = "# Completion of menkhodur for fish.\ncomplete -c menkhodur -f\n".to_string();
    for flag in COMMON {
        told += &format!("complete -c menkhodur {} -d {}\n", fish_flag(flag), quoted(flag.about));
    }
    for command in on_top() {
        told += &format!("complete -c menkhodur -n __fish_use_subcommand -a {} -d {}\n", command.name, quoted(command.about));
        let seen = quoted(&format!("__fish_seen_subcommand_from {}", command.name));
        for flag in flags(command).take_while(|flag| COMMON.iter().all(|common| common.name != flag.name)) {
            told += &format!("complete -c menkhodur -n {seen} {} -d {}\n", fish_flag(flag), quoted(flag.about));
        }
        if takes_files(command) {
            told += &format!("complete -c menkhodur -n {seen} -F\n");
        }
        for words in [choices(command), seconds(command)].iter().filter(|words| !words.is_empty()) {
            let words = words.join(" ");
            let wanted = quoted(&format!("__fish_seen_subcommand_from {}; and not __fish_seen_subcommand_from {words}", command.name));
            told += &format!("complete -c menkhodur -n {wanted} -a {}\n", quoted(&words));
        }
    }
    told
}

/// The value of an option that is a file's name.
const FILE: &str = "FILE";

/// An option with its short name, and whether its value is a file or something else.
fn fish_flag(flag: &Flag) -> String {
    let short = SHORT.iter().find(|(_, long)| long.strip_prefix("--") == Some(flag.name));
    let short = short.map_or(String::new(), |(short, _)| format!(" -s {}", short.trim_start_matches('-')));
    let value = flag.value.map_or("", |value| if value == FILE { " -r -F" } else { " -x" });
    format!("-l {}{short}{value}", flag.name)
}

#[cfg(test)]
mod tests {
    use super::*;
    use crate::table::COMMANDS;

    #[test]
    fn every_shell_is_told_every_command_and_option() {
        for (script, dashes) in [(bash(), "--"), (zsh(), "--"), (fish(), "-l ")] {
            for command in COMMANDS {
                assert!(command.name.split(' ').all(|word| script.contains(word)), "{}", command.name);
                assert!(flags(command).all(|flag| script.contains(&format!("{dashes}{}", flag.name))), "{}", command.name);
            }
        }
    }
}
