//! The evening report (document 02, order 14) beside our page call on the same pages, in turn in one run: the report reads the page and then counts over
//! what was read, so that what it takes beyond the page is the price of the figures.

use crate::times;
use both::abi::{self, Answer, Numbers, Report, NUMBERS, REPORT_LINES};
use both::games::different_positions;
use both::numbers::{builder_of, record_of};
use both::random::Random;
use chess::BoardBuilder;
use compare::records;
use std::collections::{HashMap, HashSet};

const LENGTHS: [usize; 4] = [512, 1_024, 2_048, REPORT_LINES];
/// How many buckets the code puts records into.
const BUCKETS: u64 = 4_093;

/// Which of them: the code's own rule (`bucket_of` in crates/report/specs/CodeSets.antt). For each bit of a code the set of the squares whose codes have it, file
/// by file, is mixed into the four other numbers.
fn bucket(record: &Numbers) -> u64 {
    let mut planes = [0u64; 4];
    for (square, man) in record[..64].iter().enumerate() {
        for (bit, plane) in planes.iter_mut().enumerate() {
            *plane |= u64::from(man >> bit & 1) << (square % 8 * 8 + square / 8);
        }
    }
    let seed = u32::from_le_bytes([record[64], record[65], record[66], record[67]]) as u64;
    planes.iter().fold(seed, |mixed, plane| mixed.rotate_left(7) ^ plane) % BUCKETS
}

fn different(count: usize, mut next: impl FnMut() -> Numbers) -> Vec<Numbers> {
    let (mut known, mut all) = (HashSet::new(), vec![]);
    while all.len() < count {
        let record = next();
        if known.insert(record) {
            all.push(record);
        }
    }
    all
}

/// So many different records of one bucket, found by trying: the longest chain that a page can have.
fn one_bucket(count: usize, random: &mut Random) -> Vec<Numbers> {
    let mut record = records::random(random).numbers;
    let wanted = bucket(&record);
    different(count, || loop {
        // A square is changed, which is cheaper than a new board and as good.
        record[random.below(64)] = random.below(13) as u8;
        if bucket(&record) == wanted {
            return record;
        }
    })
}

fn of_games(count: usize, random: &mut Random) -> Vec<Numbers> {
    different_positions(count, random).iter().map(|board| record_of(&BoardBuilder::from(board)).numbers).collect()
}

/// Records whose boards differ from one another in a square or two.
fn near(count: usize) -> Vec<Numbers> {
    let start = record_of(&BoardBuilder::default()).numbers;
    let changed = |n: usize| {
        let mut record = start;
        (record[16 + n % 32], record[16 + n / 32 % 32]) = (1 + (n / 1_024 % 12) as u8, 7);
        record
    };
    (0..count).map(changed).collect()
}

fn text_of(lines: &[Numbers]) -> String {
    lines.iter().map(|numbers| builder_of(&abi::Record::of(*numbers)).to_string() + "\n").collect()
}

/// Plain counting, with a set of the records that came before.
fn figures(lines: &[Numbers]) -> Report {
    let (mut men, mut known) = ([0; 12], HashSet::new());
    for man in lines.iter().flat_map(|record| &record[..64]).filter(|man| **man > 0) {
        men[*man as usize - 1] += 1;
    }
    let repeated = lines.iter().filter(|record| !known.insert(**record)).count() as u64;
    Report { number: 0, lines: lines.len() as u64, accepted: lines.len() as u64, refused: 0, men, repeated }
}

/// Nanoseconds per line, and the report's over the page's. What is timed must be right first.
fn page(what: &str, lines: &[Numbers]) {
    let (text, count) = (text_of(lines), lines.len());
    let rooms = || (vec![0u8; NUMBERS * count], vec![0u64; 2 * count]);
    let ((mut records, mut numbers), (mut other, mut told)) = (rooms(), rooms());
    assert_eq!(abi::fen_page(text.as_bytes(), &mut records, &mut numbers), Answer { number: 0, value: count as u64 });
    assert_eq!(abi::fen_report(text.as_bytes(), &mut other, &mut told), figures(lines), "{what}");
    assert!(records == lines.as_flattened() && (&records, &numbers) == (&other, &told), "{what}");
    let by_page = |_: &()| abi::fen_page(text.as_bytes(), &mut records, &mut numbers);
    let by_report = |_: &()| abi::fen_report(text.as_bytes(), &mut other, &mut told);
    let (read, reported) = times(&[()], by_page, by_report);
    let line = |ns: f64| ns / count as f64;
    println!("{:<48} {:>8} {:>12.1} {:>12.1} {:>9.2}", what, count, line(read), line(reported), reported / read);
}

/// How many different records of a page the fullest bucket has.
fn fullest(lines: &[Numbers]) -> usize {
    let mut buckets: HashMap<u64, HashSet<&Numbers>> = HashMap::new();
    for record in lines {
        buckets.entry(bucket(record)).or_default().insert(record);
    }
    buckets.values().map(HashSet::len).max().unwrap_or(0)
}

pub fn reports() {
    let random = &mut Random::new(1, "report");
    println!("(order 14: our page call and the report on the same page, nanoseconds per line, and the second over the first)");
    println!("{:<48} {:>8} {:>12} {:>12} {:>9}", "what", "lines", "page", "report", "ratio");
    let (games, boards, worst) = (
        of_games(REPORT_LINES, random),
        different(REPORT_LINES, || records::random(random).numbers),
        one_bucket(REPORT_LINES, random),
    );
    for count in LENGTHS {
        page("positions of games, different", &games[..count]);
        page("positions of games, each twice", &[&games[..count / 2], &games[..count / 2]].concat());
        page("random boards", &boards[..count]);
        page("all equal", &vec![games[0]; count]);
        page("a square or two differ", &near(count));
        page("all in one bucket, on purpose", &worst[..count]);
    }
    let full = [("games", &games[..]), ("random boards", &boards), ("a square or two differ", &near(REPORT_LINES)), ("on purpose", &worst)];
    for (what, lines) in full {
        println!("different records in the fullest bucket of {}, {}: {}", lines.len(), what, fullest(lines));
    }
}
