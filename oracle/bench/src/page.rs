//! A page of FENs (document 02, order 7) beside the same lines by single calls, and by the crate, on a million different positions of
//! games. All of ours store the same: 68 bytes and two numbers a line.

use crate::{row, ROUNDS};
use both::abi::{self, Answer, NUMBERS};
use both::games::random_game;
use both::numbers::record_of;
use both::random::Random;
use chess::BoardBuilder;
use std::collections::HashSet;
use std::hint::black_box;
use std::str::FromStr;
use std::time::Instant;

const LINES: usize = 1_000_000;
/// A page that stays in the caches of a small machine.
const SMALL: usize = 1_000;

/// The lines of a text, and the rooms that their answers go to.
struct Page<'a> {
    text: &'a str,
    records: Vec<u8>,
    numbers: Vec<u64>,
}

/// So many different FEN texts, one per line.
fn different_texts(count: usize, random: &mut Random) -> String {
    let (mut known, mut text) = (HashSet::new(), String::new());
    while known.len() < count {
        for board in random_game(120, random) {
            let fen = board.to_string();
            if known.len() < count && !known.contains(&fen) {
                text += &fen;
                text.push('\n');
                known.insert(fen);
            }
        }
    }
    text
}

fn store(at: usize, line: &[u8], records: &mut [u8], numbers: &mut [u64]) {
    let fen = abi::fen_read(line);
    records[NUMBERS * at..][..NUMBERS].copy_from_slice(&fen.board.numbers);
    numbers[2 * at] = fen.number;
    numbers[2 * at + 1] = fen.offset;
}

impl Page<'_> {
    fn by_page(&mut self) -> Answer {
        abi::fen_page(self.text.as_bytes(), &mut self.records, &mut self.numbers)
    }

    /// In pages of so many bytes or less, each up to a newline.
    fn by_small_pages(&mut self, bytes: usize) {
        let (mut rest, mut at) = (self.text.as_bytes(), 0);
        while !rest.is_empty() {
            let front = &rest[..bytes.min(rest.len())];
            let end = front.iter().rposition(|byte| *byte == b'\n').map_or(rest.len(), |newline| newline + 1);
            let answer = abi::fen_page(&rest[..end], &mut self.records[NUMBERS * at..], &mut self.numbers[2 * at..]);
            at += answer.value as usize;
            rest = &rest[end..];
        }
    }

    fn by_single_calls(&mut self, lines: &[&[u8]]) {
        for (at, line) in lines.iter().enumerate() {
            store(at, line, &mut self.records, &mut self.numbers);
        }
    }

    /// The lines are found on the way, as plain Rust does it.
    fn by_split_calls(&mut self) {
        let text = self.text.as_bytes();
        let text = text.strip_suffix(b"\n").unwrap_or(text);
        for (at, line) in text.split(|byte| *byte == b'\n').enumerate() {
            store(at, line, &mut self.records, &mut self.numbers);
        }
    }

    fn by_crate(&self) {
        for line in self.text.lines() {
            black_box(BoardBuilder::from_str(line).is_ok());
        }
    }
}

/// What is timed must be right: every way stores the same, and what the crate reads.
fn check(page: &mut Page, lines: &[&[u8]], small: usize) {
    assert_eq!(page.by_page(), Answer { number: 0, value: lines.len() as u64 });
    for (line, record) in page.text.lines().zip(page.records.chunks_exact(NUMBERS)) {
        assert_eq!(record_of(&BoardBuilder::from_str(line).unwrap()).numbers, record);
    }
    let kept = (page.records.clone(), page.numbers.clone());
    let ways: [&mut dyn FnMut(&mut Page); 3] =
        [&mut |p| p.by_single_calls(lines), &mut |p| p.by_split_calls(), &mut |p| p.by_small_pages(small)];
    for way in ways {
        page.records.fill(0xA5);
        page.numbers.fill(0xA5);
        way(page);
        assert!((&page.records, &page.numbers) == (&kept.0, &kept.1));
    }
}

/// The ways take turns, so that changes of the clock rate affect all of them alike; the best round of each counts.
pub fn pages() {
    let text = different_texts(LINES, &mut Random::new(1, "page"));
    let lines: Vec<&[u8]> = text.lines().map(str::as_bytes).collect();
    let small = SMALL * text.len() / LINES;
    let mut page = Page { text: &text, records: vec![0; NUMBERS * LINES], numbers: vec![0; 2 * LINES] };
    check(&mut page, &lines, small);
    let mut best = [f64::MAX; 5];
    for _ in 0..ROUNDS {
        let ways: [&mut dyn FnMut(&mut Page); 5] = [
            &mut |p| _ = black_box(p.by_page()),
            &mut |p| p.by_small_pages(small),
            &mut |p| p.by_single_calls(&lines),
            &mut |p| p.by_split_calls(),
            &mut |p| p.by_crate(),
        ];
        for (best, way) in best.iter_mut().zip(ways) {
            let start = Instant::now();
            way(black_box(&mut page));
            *best = best.min(start.elapsed().as_nanos() as f64 / LINES as f64);
        }
    }
    let [whole, small, single, split, theirs] = best;
    row("FEN page, a line of a million", LINES, theirs, whole, "");
    row("  in pages of 1,000 lines", LINES, theirs, small, "");
    row("  against single calls (ours), split before", LINES, single, whole, "0.95");
    row("  against single calls (ours), plain Rust splits", LINES, split, whole, "");
    let million = |ns: f64| 1_000.0 / ns;
    println!("million lines a second: page {:.1}, pages of 1,000 {:.1}, single calls {:.1} and {:.1}, crate {:.1}",
        million(whole), million(small), million(single), million(split), million(theirs));
}
