//! What a row of the table is, and what the words of a command line ask for by it.

use crate::{help, table};
use std::ffi::{OsStr, OsString};
use std::os::unix::ffi::OsStrExt;

/// How a command has ended: what a script looks at.
#[derive(Clone, Copy, Debug, PartialEq, Eq, PartialOrd, Ord)]
pub enum Status {
    Well = 0,
    Found = 1,
    Trouble = 2,
}

/// Why a command has ended before its work was done.
#[derive(Debug)]
pub enum Stop {
    /// The reader of standard output has gone: nothing is said, and the status is that of what was done until then.
    Closed(Status),
    /// What to say on standard error.
    Trouble(Vec<u8>),
}

impl Stop {
    pub fn trouble(message: impl AsRef<[u8]>) -> Stop {
        Stop::Trouble(message.as_ref().to_vec())
    }
}

/// An option, `--name`, with the name of its value if it takes one.
pub struct Flag {
    pub name: &'static str,
    pub value: Option<&'static str>,
    pub about: &'static str,
}

/// What a word that is no option is, for the shells that complete it.
#[derive(Clone, Copy, PartialEq, Eq)]
pub enum Takes {
    File,
    Text,
    /// The name of a command.
    Command,
    /// Of an argument that no other of any number comes before.
    OneOf(&'static [&'static str]),
}

/// Words that are no options.
pub struct Argument {
    pub name: &'static str,
    pub takes: Takes,
    pub least: usize,
    /// None: any number.
    pub most: Option<usize>,
    pub about: &'static str,
}

pub struct Example {
    pub command: &'static str,
    pub about: &'static str,
}

/// A command: all that help, man page, completion and the reader of words know of it, and what runs it.
pub struct Command {
    /// One word, or two: then it stands under the command that the first word names.
    pub name: &'static str,
    pub about: &'static str,
    /// What words it takes, in one way or in several, which differ in how many words there are.
    pub forms: &'static [&'static [Argument]],
    pub flags: &'static [Flag],
    pub text: &'static [&'static str],
    /// What the exit statuses 0 and 1 mean, 1 if there is one.
    pub statuses: &'static [&'static str],
    /// What status 2 includes beside `table::TROUBLE`.
    pub trouble: &'static str,
    pub examples: &'static [Example],
    pub run: fn(&Asked) -> Result<Status, Stop>,
}

impl Command {
    /// The arguments of all its forms.
    pub fn arguments(&self) -> impl Iterator<Item = &'static Argument> {
        self.forms.iter().copied().flatten()
    }
}

/// A command with its options and words.
pub struct Asked {
    pub command: &'static Command,
    flags: Vec<(&'static str, OsString)>,
    pub words: Vec<OsString>,
}

impl Asked {
    pub fn has(&self, flag: &Flag) -> bool {
        self.value(flag).is_some()
    }

    /// The value of the last such option; an option that takes none has an empty one.
    pub fn value(&self, flag: &Flag) -> Option<&OsStr> {
        self.flags.iter().rev().find(|(name, _)| *name == flag.name).map(|(_, value)| value.as_os_str())
    }
}

/// What a command line asks for.
pub enum Wanted {
    Run(Asked),
    Say(String),
}

/// Reads a command line without the program's own name.
pub fn read(words: &[OsString]) -> Result<Wanted, Stop> {
    let Some(first) = words.first() else {
        return Err(Stop::trouble(format!("a command is needed: {}; see menkhodur --help", table::names().join(", "))));
    };
    match first.to_str() {
        Some("-h" | "--help") => return Ok(Wanted::Say(help::whole())),
        Some("--version") => return Ok(Wanted::Say(version())),
        _ => {}
    }
    of_command(command(first)?, &words[1..])
}

/// The command that a word names.
pub fn command(word: &OsStr) -> Result<&'static Command, Stop> {
    let kind = if word.as_bytes().starts_with(b"-") { "option" } else { "command" };
    let named = table::COMMANDS.iter().find(|command| word == command.name);
    named.ok_or_else(|| refused(&format!("unknown {kind} "), word, "menkhodur --help"))
}

fn version() -> String {
    format!("menkhodur (Menkhodur) {}\n", menkhodur::version())
}

fn refused(what: &str, word: &OsStr, see: &str) -> Stop {
    Stop::Trouble([what.as_bytes(), word.as_bytes(), b"; see ", see.as_bytes()].concat())
}

fn of_command(command: &'static Command, words: &[OsString]) -> Result<Wanted, Stop> {
    let mut asked = Asked { command, flags: vec![], words: vec![] };
    let mut left = words.iter();
    while let Some(word) = left.next() {
        match table::long(word).as_bytes() {
            b"--" => {
                asked.words.extend(left.by_ref().cloned());
            }
            b"--help" => return Ok(Wanted::Say(help::of(command))),
            b"--version" => return Ok(Wanted::Say(version())),
            [b'-', _, ..] => asked.flags.push(flag(command, word, &mut left)?),
            _ => match table::under(command, word) {
                Some(lower) if asked.words.is_empty() => {
                    // What stands before the word are options, which are read again as those of the lower command.
                    let at = words.len() - left.len() - 1;
                    return of_command(lower, &[&words[..at], &words[at + 1..]].concat());
                }
                _ => asked.words.push(word.clone()),
            },
        }
    }
    choose(&asked)?;
    count(&asked)?;
    Ok(Wanted::Run(asked))
}

/// `--name`, `--name VALUE` or `--name=VALUE`.
fn flag<'a>(command: &Command, word: &OsStr, left: &mut impl Iterator<Item = &'a OsString>) -> Result<(&'static str, OsString), Stop> {
    let see = format!("menkhodur {} --help", command.name);
    let bytes = table::long(word).as_bytes();
    let (name, value) = match bytes.iter().position(|byte| *byte == b'=') {
        Some(at) => (&bytes[..at], Some(OsStr::from_bytes(&bytes[at + 1..]).to_owned())),
        None => (bytes, None),
    };
    let known = command.flags.iter().find(|flag| name.strip_prefix(b"--") == Some(flag.name.as_bytes()));
    let flag = known.ok_or_else(|| refused("unknown option ", word, &see))?;
    match (flag.value, value) {
        (None, None) => Ok((flag.name, OsString::new())),
        (None, Some(_)) => Err(refused("no value is allowed for ", OsStr::from_bytes(name), &see)),
        (Some(_), Some(value)) => Ok((flag.name, value)),
        (Some(wanted), None) => {
            let next = left.next().ok_or_else(|| refused(&format!("a value ({wanted}) is needed for "), word, &see))?;
            Ok((flag.name, next.clone()))
        }
    }
}

/// Whether there are as many words as one of the forms takes.
fn count(asked: &Asked) -> Result<(), Stop> {
    let (forms, held) = (asked.command.forms, asked.words.len());
    let see = format!("menkhodur {} --help", asked.command.name);
    let most = |form: &&[Argument]| form.iter().try_fold(0, |sum, argument| Some(sum + argument.most?));
    let missing = |form: &&[Argument]| form.iter().flat_map(|argument| std::iter::repeat_n(argument.name, argument.least)).nth(held);
    if forms.iter().any(|form| missing(form).is_none() && most(form).is_none_or(|most| held <= most)) {
        return Ok(());
    }
    match forms.iter().find_map(missing) {
        Some(name) => Err(refused("missing ", OsStr::new(name), &see)),
        None => Err(refused("one word too many: ", &asked.words[forms.iter().filter_map(most).max().unwrap_or_default()], &see)),
    }
}

/// Whether each word that must be one of some is.
fn choose(asked: &Asked) -> Result<(), Stop> {
    for (argument, word) in asked.command.arguments().zip(&asked.words) {
        if let Takes::OneOf(choices @ [others @ .., last]) = argument.takes {
            let listed = if others.is_empty() { last.to_string() } else { format!("{} or {last}", others.join(", ")) };
            if choices.iter().all(|choice| word != choice) {
                let told = [asked.command.name.as_bytes(), b": ", word.as_bytes(), b" is not ", listed.as_bytes()];
                return Err(Stop::Trouble(told.concat()));
            }
        }
    }
    Ok(())
}
