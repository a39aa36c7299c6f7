//! What a report owes, counted from what each line was written to say: men by the letters of a placement, repeats by the names of positions,
//! in pages of 4,096 lines as document 02 has them, and over all.

use Says::{Position, Refused};
use std::collections::{BTreeMap, HashSet};

const PAGE: usize = 4_096;
pub const MEN: &str = "PNBRQKpnbrqk";
pub const COLORS: [&str; 2] = ["white", "black"];
pub const PIECES: [&str; 6] = ["pawn", "knight", "bishop", "rook", "queen", "king"];

/// What a line says: the name of its position, any that no other one has; or a kind of refusal, with an offset unless it is too long.
#[derive(Clone)]
pub enum Says {
    Position(String),
    Refused(Kind, usize),
}

/// Why a line is refused, in the order of a report.
#[derive(Clone, Copy, PartialEq, Eq, PartialOrd, Ord)]
pub enum Kind {
    TooFew,
    BadPlacement,
    BadSide,
    Long,
}

impl Kind {
    /// The number as JSON has it, and the reason.
    pub fn told(self) -> (&'static str, &'static str) {
        match self {
            Kind::TooFew => ("\"number\":18", "the FEN text ends before its fourth token"),
            Kind::BadPlacement => {
                ("\"number\":19", "the placement of the FEN text has something other than pieces, digits from 1 to 8 and slashes")
            }
            Kind::BadSide => ("\"number\":20", "the side to move of the FEN text is not w, W, b or B"),
            Kind::Long => ("\"long\":true", "the line has more than 131071 bytes"),
        }
    }
}

pub type Line = (String, Says);

pub fn line(text: impl Into<String>, says: Says) -> Line {
    (text.into(), says)
}

/// A file's name, its lines, and whether it is read to its end.
pub struct File<'a>(pub &'a str, pub &'a [Line], pub bool);

/// Lines that name a position as a key does: by three fields, and of the en passant square its file, for the crate has written its rank in two ways.
pub fn keys(text: &str) -> Vec<Line> {
    let name = |text: &str| match text.split(' ').collect::<Vec<_>>()[..] {
        [men, side, rights, square, ..] => format!("{men} {side} {rights} {}", &square[..1]),
        _ => panic!("{text} is no key"),
    };
    text.lines().map(|text| line(text, Position(name(text)))).collect()
}

/// How many of the lines with a position have one that a set has, or an earlier line; the set has all of them then.
fn repeats(lines: &[Line], seen: &mut HashSet<String>) -> usize {
    let names = lines.iter().filter_map(|(_, says)| match says {
        Position(name) => Some(name.clone()),
        Refused(..) => None,
    });
    names.filter(|name| !seen.insert(name.clone())).count()
}

/// Lines, accepted, refused, repeated in pages and over all, as JSON has them.
fn counted(lines: &[Line], seen: &mut HashSet<String>) -> [usize; 5] {
    let accepted = lines.iter().filter(|(_, says)| matches!(says, Position(_))).count();
    let within = lines.chunks(PAGE).map(|page| repeats(page, &mut HashSet::new())).sum();
    [lines.len(), accepted, lines.len() - accepted, within, repeats(lines, seen)]
}

fn counts_object([lines, accepted, refused, within, over]: [usize; 5]) -> String {
    format!("\"lines\":{lines},\"accepted\":{accepted},\"refused\":{refused},\"repeated_within_pages\":{within},\"repeated\":{over}")
}

fn men_object(files: &[File]) -> String {
    let all = files.iter().flat_map(|file| file.1).filter(|(_, says)| matches!(says, Position(_)));
    let letters: String = all.map(|(text, _)| text.split(' ').next().unwrap()).collect();
    let kinds = COLORS.iter().flat_map(|color| PIECES.map(|piece| format!("{color}_{piece}")));
    let men = kinds.zip(MEN.chars()).map(|(kind, man)| format!("\"{kind}\":{}", letters.matches(man).count()));
    men.collect::<Vec<_>>().join(",")
}

fn refusals_object(files: &[File]) -> String {
    let mut kinds: BTreeMap<Kind, (usize, String)> = BTreeMap::new();
    for File(name, lines, _) in files {
        for (number, (_, says)) in (1..).zip(*lines) {
            let &Refused(kind, offset) = says else { continue };
            let offset = if kind == Kind::Long { String::new() } else { format!("\"offset\":{offset},") };
            let first = format!("\"file\":\"{name}\",\"line\":{number},{offset}\"reason\":\"{}\"}}", kind.told().1);
            kinds.entry(kind).or_insert((0, first)).0 += 1;
        }
    }
    let objects = kinds.iter().map(|(kind, (count, first))| format!("{{{},\"count\":{count},{first}", kind.told().0));
    objects.collect::<Vec<_>>().join(",")
}

/// The object that is owed for files.
pub fn owed(files: &[File]) -> String {
    let (mut seen, mut sums, mut rows) = (HashSet::new(), [0; 5], vec![]);
    for File(name, lines, whole) in files {
        let counts = counted(lines, &mut seen);
        sums.iter_mut().zip(counts).for_each(|(sum, count)| *sum += count);
        rows.push(format!("{{\"file\":\"{name}\",{},\"complete\":{whole}}}", counts_object(counts)));
    }
    let whole = files.iter().all(|file| file.2);
    format!(
        "{{{},\"men\":{{{}}},\"refusals\":[{}],\"files\":[{}],\"complete\":{whole}}}\n",
        counts_object(sums),
        men_object(files),
        refusals_object(files),
        rows.join(",")
    )
}

/// The last line of standard error that is owed for lines, and the status.
pub fn last(lines: &[Line]) -> (String, i32) {
    let [lines, accepted, refused, ..] = counted(lines, &mut HashSet::new());
    let s = if lines == 1 { "" } else { "s" };
    (format!("menkhodur: {lines} line{s}, {accepted} accepted, {refused} refused\n"), i32::from(refused > 0))
}

pub fn text(lines: &[Line]) -> String {
    lines.iter().fold(String::new(), |made, (text, _)| made + text + "\n")
}
