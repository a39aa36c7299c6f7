//! `report`: the crate's `BoardBuilder::from_str` on each line of a text, as in `page`; over what it says the figures of document 02, order 14, by plain
//! counting, beside one call.

use crate::page::{any_line, any_rooms, in_every_room, lent, lines, owed, short_pages, Lent, Rooms, RECORD, TOLD};
use crate::part::{Part, Tally};
use crate::records;
use both::abi::{self, Report, NUMBERS, REPORT_LINES};
use both::games::Positions;
use both::numbers::builder_of;
use both::random::Random;

const NOTHING: Report = Report { number: 0, lines: 0, accepted: 0, refused: 0, men: [0; 12], repeated: 0 };
const THREE_LINES: &str = "K w - -\n9 w - -\nK W - e9 7 9";

/// The settled readings of the order at their smallest.
const PAPER: [&str; 16] = [
    "",
    "\n",
    "PNBRQK/pnbrqk w - -",
    "PP/P w - -",
    "kk w - -",
    "PN w - -\nP b - -",
    "PN x - -\nP b - -",
    "K w - -\nK w - -\nK w - -\n",
    "K w - - 0 1\nK W - e9 5 9\n",
    " w - -\n b - -\n w - -\n",
    " w K -\n w k -\n w - -\n w QK -\n w KQ - 7",
    " w - a6\n w - h6\n w - -\n w - a3\n",
    "x\n w - -\n",
    " w - -\nx\n",
    "x\nx\n",
    "x\n w - -\nx\n w - - 5 9\n",
];

/// Lines of which all short pages are made: four records, one of them in two spellings, and two that are refused.
const KINDS: [&str; 7] = [" w - -\n", "K w - -\n", "K W - e9 5 9\n", "K b - -\n", "P w - -\n", "9 w - -\n", "\n"];

#[derive(Default)]
pub struct FenReport(Positions);

/// "how many were accepted and refused, the sum of each of the twelve kinds of men, and how many accepted FENs repeat the record of an earlier accepted
/// one": each accepted record's squares are looked at one by one, and each is compared with all before it.
fn figures(records: &[u8], numbers: &[u64]) -> Report {
    let answers = records.chunks_exact(RECORD).zip(numbers.chunks_exact(TOLD));
    let taken: Vec<&[u8]> = answers.filter(|(_, told)| told[0] == 0).map(|(record, _)| record).collect();
    let mut report = Report { lines: (numbers.len() / TOLD) as u64, accepted: taken.len() as u64, ..NOTHING };
    report.refused = report.lines - report.accepted;
    for (at, record) in taken.iter().enumerate() {
        report.repeated += taken[..at].contains(record) as u64;
        for man in record[..64].iter().filter(|man| **man != 0) {
            report.men[*man as usize - 1] += 1;
        }
    }
    report
}

/// All pages of up to so many lines of some kinds.
fn pages_of_kinds(most: u32) -> impl Iterator<Item = Lent> {
    let base = KINDS.len();
    (0..=most).flat_map(move |length| {
        (0..base.pow(length)).map(move |n| lent((0..length).map(|at| KINDS[n / base.pow(at) % base]).collect(), 0, 0))
    })
}

/// The crate's text of these numbers.
fn text_of(numbers: [u8; NUMBERS]) -> String {
    builder_of(&abi::Record::of(numbers)).to_string()
}

/// A record, the same with one number put to each of its values, and the first again: each number tells two records apart, and each man is counted on
/// each square.
fn one_number_changed() -> impl Iterator<Item = Lent> {
    let most = |place: usize| [12, 1, 3, 3, 8][place.max(63) - 63];
    (0..NUMBERS).flat_map(move |place| {
        (0..=most(place)).map(move |value| {
            let first: [u8; NUMBERS] = std::array::from_fn(|at| if at < 64 { (at * 5 % 13) as u8 } else { 1 });
            let mut other = first;
            other[place] = value;
            lent(format!("{}\n{}\n{}\n", text_of(first), text_of(other), text_of(first)), 0, 0)
        })
    })
}

/// So many different records.
fn different_lines(count: usize) -> String {
    let record = |n: usize| std::array::from_fn(|at| if at < 4 { (n / 13usize.pow(at as u32) % 13) as u8 } else { 0 });
    (0..count).map(|n| text_of(record(n)) + "\n").collect()
}

/// Pages of about as many lines as there may be: empty ones, equal ones, different ones, each twice, full of pawns; ended, unended and with a byte more.
fn long_pages() -> impl Iterator<Item = Lent> {
    let pawns = format!("{} w - -\n", ["PPPPPPPP"; 8].join("/"));
    let some = different_lines(REPORT_LINES / 2);
    (REPORT_LINES - 1..=REPORT_LINES + 2).flat_map(move |n| {
        let twice = some.repeat(3).split_inclusive('\n').take(n).collect();
        let texts = ["\n".repeat(n), " w - -\n".repeat(n), "x\n w - -\n".repeat(n / 2), pawns.repeat(n), different_lines(n), twice];
        texts.into_iter().flat_map(|text| {
            let cut = text[..text.len() - 1].to_string();
            let more = [lent(text.clone() + "x", 0, 0), lent(text.clone() + "\n", -1, 0), lent(cut, 0, 0)];
            [lent(text.clone(), 0, 0), lent(text.clone(), -1, 0), lent(text, 5, -1)].into_iter().chain(more)
        })
    })
}

/// The same line in other words, as far as words go: the side's case, the order of the rights, the rank of the square, what stands behind.
fn respelt(line: &str, random: &mut Random) -> String {
    let mut tokens: Vec<String> = line.split(' ').take(4).map(str::to_string).collect();
    let tail = *random.pick(&["", " 0 1", " 7 99", " 9999 9999", " x", "  ", " 10000 0 more"]);
    if let [_, side, rights, square] = &mut tokens[..] {
        match random.below(4) {
            0 => *side = side.to_uppercase(),
            1 => *rights = rights.chars().rev().collect(),
            2 if square.len() == 2 && square.is_ascii() => square.replace_range(1.., "1"),
            _ => (),
        }
    }
    tokens.join(" ") + tail
}

/// Of a few records: one with a number changed is another.
fn nearly(random: &mut Random) -> String {
    let mut record = records::random(random).numbers;
    let first = text_of(record);
    let place = random.below(NUMBERS);
    record[place] = records::random(random).numbers[place];
    format!("{}\n{}", first, text_of(record))
}

/// So many lines out of a few, as they are or in other words, and others between them.
fn repeating(count: usize, positions: &mut Positions, random: &mut Random) -> String {
    let some = 1 + random.below(6);
    let known: Vec<String> = (0..some).map(|_| any_line(positions, random)).collect();
    let mut text = String::new();
    for _ in 0..count {
        let one = random.pick(&known).clone();
        text += &match random.below(8) {
            0 => any_line(positions, random),
            1 => nearly(random),
            2 => random.pick(&["", "x", "9 w - -", "8 x - -", " w - -"]).to_string(),
            3 | 4 => respelt(&one, random),
            _ => one,
        };
        text.push('\n');
    }
    text
}

impl Part for FenReport {
    type Input = Lent;
    const NAME: &'static str = "report";

    fn fixed(&self) -> Box<dyn Iterator<Item = Lent>> {
        let paper = PAPER.iter().flat_map(|t| [lent(t.to_string(), 0, 0), lent(t.to_string(), 68, 2), lent(t.to_string(), -1, -1)]);
        let all = paper.chain(in_every_room(THREE_LINES)).chain(short_pages()).chain(pages_of_kinds(5));
        Box::new(all.chain(one_number_changed()).chain(long_pages()))
    }

    fn random(&mut self, random: &mut Random) -> Option<Lent> {
        let count = if random.once_in(500) { REPORT_LINES - 2 + random.below(4) } else { random.below(24) };
        let mut text = repeating(count, &mut self.0, random);
        if random.once_in(3) {
            text.pop();
        }
        Some(any_rooms(text, random))
    }

    fn compare(&self, given: &Lent, tally: &mut Tally) -> Result<(), String> {
        let lines = lines(&given.text);
        let (mut owed_records, mut owed_numbers) = owed(&lines)?;
        let mut rooms = Rooms::new(given, lines.len());
        let answer = match (lines.len() > REPORT_LINES, rooms.fit(lines.len())) {
            (true, _) => Report { number: 13, ..NOTHING },
            (false, false) => Report { number: 7, lines: lines.len() as u64, ..NOTHING },
            (false, true) => figures(&owed_records, &owed_numbers),
        };
        if answer.number != 0 {
            owed_records.clear();
            owed_numbers.clear();
        }
        let text = given.text.clone();
        let (records, numbers) = rooms.lend();
        let ours = abi::fen_report(text.as_bytes(), records, numbers);
        if ours != answer {
            return Err(format!("rooms of {} and {}: owed {:?}, ours {:?}", rooms.bytes(), rooms.told(), answer, ours));
        }
        rooms.check(answer.number, &owed_records, &owed_numbers)?;
        if text != given.text {
            return Err("the text is not as it was lent".to_string());
        }
        tally.count("report", answer.number == 0);
        if answer.number == 0 {
            tally.count("report: repeats", answer.repeated > 0);
        }
        for number in owed_numbers.iter().step_by(TOLD) {
            tally.count("report: lines", *number == 0);
        }
        Ok(())
    }

    fn smaller(&self, given: &Lent) -> Vec<Lent> {
        given.smaller()
    }

    fn show(&self, given: &Lent) -> String {
        // A page of thousands of lines is told by its beginning.
        let shown = given.show();
        if shown.len() > 2_000 { format!("{}.. ({} lines)", shown.chars().take(200).collect::<String>(), lines(&given.text).len()) } else { shown }
    }
}

#[test]
fn three_equal_lines_are_two_repeats_and_zeros_of_a_refused_one_are_none() {
    let report = |text: &str| {
        let (records, numbers) = owed(&lines(text)).expect("the crate answers");
        let report = figures(&records, &numbers);
        (report.lines, report.accepted, report.refused, report.men.iter().sum::<u64>(), report.repeated)
    };
    assert_eq!(report("K w - -\nK w - -\nK w - -"), (3, 3, 0, 3, 2));
    assert_eq!(report("x\n w - -\nx\n"), (3, 1, 2, 0, 0));
}
