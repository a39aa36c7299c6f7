//! A report's figures as a table, with bars where it is shown on a terminal.

use crate::diff;
use crate::figures::{self, Figures, Kind, Read};
use crate::told;
use menkhodur::lent::REPORT_LINES;
use std::env;
use std::fmt::Display;
use std::io::{self, IsTerminal};

/// The least width of a column of numbers.
const NUMBER: usize = 8;

/// The width of the names before them: that of a man.
const NAME: usize = 12;

/// The width of the longest bar.
const BAR: u64 = 40;

/// How a table is shown.
#[derive(Clone, Copy)]
pub struct Form {
    /// It goes to a terminal: with bars, and without control characters.
    seen: bool,
    /// Bars are made of blocks, not of ASCII.
    blocks: bool,
}

impl Form {
    /// By standard output, and by the first variable of the locale that says something.
    pub fn here() -> Form {
        let mut set = ["LC_ALL", "LC_CTYPE", "LANG"].into_iter().filter_map(env::var_os).filter(|value| !value.is_empty());
        Form { seen: io::stdout().is_terminal(), blocks: set.next().is_some_and(|locale| is_utf8(&locale.to_string_lossy())) }
    }

    fn name(self, name: &[u8]) -> Vec<u8> {
        if self.seen { told::visible(name).into_bytes() } else { name.to_vec() }
    }

    /// As long as a number is beside the largest; of every number but 0 something is seen.
    fn bar(self, number: u64, largest: u64) -> String {
        const PARTS: [&str; 8] = ["", "▏", "▎", "▍", "▌", "▋", "▊", "▉"];
        let length = |longest: u64| (number * longest).div_ceil(largest.max(1)) as usize;
        match self {
            Form { seen: false, .. } => String::new(),
            Form { blocks: false, .. } => "#".repeat(length(BAR)),
            Form { blocks: true, .. } => "█".repeat(length(8 * BAR) / 8) + PARTS[length(8 * BAR) % 8],
        }
    }
}

/// Whether the characters of a locale are UTF-8, as those of `de_DE.UTF-8@euro` are.
fn is_utf8(locale: &str) -> bool {
    let set = locale.split('.').nth(1).and_then(|set| set.split('@').next());
    set.is_some_and(|set| ["utf-8", "utf8"].iter().any(|name| set.eq_ignore_ascii_case(name)))
}

/// The table of a report.
pub fn of(figures: &Figures, form: Form) -> Vec<u8> {
    let largest = figures.men.into_iter().max().unwrap_or_default().max(figures.all().lines());
    let mut sheet = Sheet { form, width: NUMBER.max(largest.to_string().len()), made: vec![] };
    sheet.counts(figures);
    if figures.files.len() > 1 || !figures.whole() {
        sheet.files(figures);
    }
    sheet.men(figures);
    if !figures.refusals.is_empty() {
        sheet.refusals(figures);
    }
    sheet.made
}

/// A table in the making.
struct Sheet {
    form: Form,
    width: usize,
    made: Vec<u8>,
}

impl Sheet {
    fn counts(&mut self, figures: &Figures) {
        let all = figures.all();
        self.row("lines", all.lines(), b"");
        self.row("accepted", all.accepted, b"");
        self.row("refused", all.refused, b"");
        let (settled, keys) = if figures.settled { (", by settled keys", "settled keys") } else { ("", "keys") };
        self.row("repeated", all.within, format!("in pages of {REPORT_LINES} lines, each of one file{settled}").as_bytes());
        match figures.over(&all) {
            Some(over) => self.row("repeated", over, format!("over all lines, by their {keys}").as_bytes()),
            None => self.row("repeated", "-", b"over all lines: there was no memory for their keys"),
        }
    }

    /// A name stands last: there it moves no column.
    fn files(&mut self, figures: &Figures) {
        self.made.push(b'\n');
        self.columns(["lines", "accepted", "refused", "in pages", "over all"], b"file");
        for Read { name, counts, whole } in &figures.files {
            let over = figures.over(counts).map_or("-".to_string(), |over| over.to_string());
            let counted = [counts.lines(), counts.accepted, counts.refused, counts.within].map(|count| count.to_string());
            let [lines, accepted, refused, within] = &counted;
            let incomplete = if *whole { "" } else { " (incomplete)" };
            self.columns([lines, accepted, refused, within, &over], &[&self.form.name(name), incomplete.as_bytes()].concat());
        }
    }

    fn men(&mut self, figures: &Figures) {
        let (sum, largest) = (figures.men.iter().sum::<u64>().max(1), figures.men.into_iter().max().unwrap_or_default());
        self.made.push(b'\n');
        self.row("men", "number", b" share");
        for ((piece, color), men) in figures::kinds().zip(figures.men) {
            let rest = format!("{:5.1}%  {}", 100.0 * men as f64 / sum as f64, self.form.bar(men, largest));
            self.row(&diff::man_name(piece, color), men, rest.trim_end().as_bytes());
        }
    }

    fn refusals(&mut self, figures: &Figures) {
        self.made.push(b'\n');
        self.row("refused", "number", b"first at");
        for (kind, refusal) in &figures.refusals {
            let kind = match kind {
                Kind::Number(number) => format!("! {number}"),
                Kind::Long => "! long".to_string(),
            };
            self.row(&kind, refusal.count, &[&self.form.name(&refusal.name)[..], b":", refusal.first().as_bytes()].concat());
        }
    }

    /// A name, its number, and what is said behind it.
    fn row(&mut self, name: &str, number: impl Display, rest: &[u8]) {
        self.made.extend(format!("{name:NAME$}{number:>width$}", width = self.width + 2).bytes());
        self.made.extend(if rest.is_empty() { &b""[..] } else { b"  " });
        self.made.extend(rest);
        self.made.push(b'\n');
    }

    fn columns(&mut self, numbers: [&str; 5], name: &[u8]) {
        for number in numbers {
            self.made.extend(format!("{number:>width$}  ", width = self.width).bytes());
        }
        self.made.extend(name);
        self.made.push(b'\n');
    }
}

#[cfg(test)]
mod tests {
    use super::*;

    #[test]
    fn a_bar_is_empty_for_0_alone_and_never_longer_than_the_longest() {
        let (ascii, blocks) = (Form { seen: true, blocks: false }, Form { seen: true, blocks: true });
        for largest in [1, 2, 40, 41, 319, 320, 321, 1 << 50] {
            assert_eq!((ascii.bar(0, largest), blocks.bar(0, largest)), (String::new(), String::new()));
            assert_eq!((ascii.bar(largest, largest), blocks.bar(largest, largest)), ("#".repeat(40), "█".repeat(40)));
            assert!(ascii.bar(1, largest).starts_with('#') && !blocks.bar(1, largest).is_empty());
        }
        assert_eq!((ascii.bar(1, 80), blocks.bar(1, 80)), ("#".to_string(), "▌".to_string()));
        assert_eq!((ascii.bar(3, 80), blocks.bar(3, 80)), ("##".to_string(), "█▌".to_string()));
        assert_eq!((ascii.bar(0, 0), Form { seen: false, ..blocks }.bar(1, 1)), (String::new(), String::new()));
    }

    #[test]
    fn a_locale_is_utf_8_by_its_character_set() {
        for locale in ["C.UTF-8", "en_US.utf8", "de_DE.UTF-8@euro", "C.utf-8"] {
            assert!(is_utf8(locale), "{locale}");
        }
        for locale in ["C", "POSIX", "en_US", "de_DE.ISO-8859-15", "de_DE@euro", "UTF-8", ""] {
            assert!(!is_utf8(locale), "{locale}");
        }
    }
}
