//! The import into a store that is kept in memory, and that fails when it is told to.

use super::digest::SEVEN;
use super::played::{Form, Player};
use super::run::{Import, Setup};
use super::said::Said;
use super::store::{Batch, Begun, Duplicates, Filed, Refused, Source, Store, Twin, Written};
use super::stores::skipped;
use super::tally::{End, Tally};
use crate::games::Games;
use crate::options::Status;
use crate::output::Output;
use crate::pgn::MB;
use menkhodur_moves::Legal;
use std::collections::{BTreeMap, BTreeSet};
use std::ffi::OsString;
use std::fs::{self, File};
use std::io::{self, Read};
use std::os::fd::OwnedFd;
use std::os::unix::net::UnixStream;
use std::path::PathBuf;
use std::process::Command;
use std::sync::atomic::{AtomicUsize, Ordering};
use std::sync::{Arc, Mutex};

/// What a store holds.
#[derive(Clone, Debug, Default, PartialEq, Eq)]
struct Held {
    sources: BTreeMap<String, (Source, Begun, bool)>,
    games: Vec<(String, Filed)>,
    /// The first game of each that are equal.
    firsts: BTreeMap<Sameness, (String, u64)>,
    refused: Vec<(String, Refused)>,
    positions: BTreeSet<Vec<u8>>,
}

type Sameness = (Vec<u8>, Vec<String>);

/// What makes games equal: the roll and the seven tags.
fn sameness(game: &Filed) -> Sameness {
    let value = |name: &&str| game.tags.iter().find(|tag| tag.0 == **name).map_or(String::new(), |tag| tag.1.clone());
    (game.roll.clone(), SEVEN.iter().map(value).collect())
}

struct Memory {
    held: Arc<Mutex<Held>>,
    how: How,
    source: String,
    /// How many batches are written before one fails.
    left: usize,
}

impl Store for Memory {
    fn begin(&mut self, source: &Source) -> Result<Begun, String> {
        if self.how.fails == Fails::Begin {
            return Err("the database is gone".to_string());
        }
        let mut held = self.held.lock().unwrap();
        self.source = source.name.clone();
        let row = held.sources.entry(source.name.clone()).or_insert((source.clone(), Begun::default(), false));
        if row.0 == *source { Ok(row.1) } else { Err("other bytes under the same name".to_string()) }
    }

    fn write(&mut self, batch: &Batch) -> Result<Written, String> {
        assert!(self.how.fails != Fails::Panic, "a fault in a store");
        self.left = self.left.checked_sub(1).ok_or("the disk is full")?;
        let mut held = self.held.lock().unwrap();
        let mut written = Written::default();
        for game in &batch.games {
            let first = held.firsts.get(&sameness(game)).cloned();
            let twin = first.map(|(source, of)| Twin { number: game.number, source, of });
            let skips = twin.is_some() && self.how.duplicates == Duplicates::Skip;
            written.twins.extend(twin);
            if !skips {
                written.new += game.keys.iter().filter(|key| held.positions.insert(key.to_vec())).count() as u64;
                held.firsts.entry(sameness(game)).or_insert((self.source.clone(), game.number));
                held.games.push((self.source.clone(), game.clone()));
            }
        }
        held.refused.extend(batch.refused.iter().map(|refused| (self.source.clone(), refused.clone())));
        let row = held.sources.get_mut(&self.source).ok_or("no such source")?;
        (row.1, row.2) = (Begun { done: batch.done, digest: batch.digest }, batch.ended);
        Ok(written)
    }

    fn finish(&mut self) -> Result<(), String> {
        if self.how.fails == Fails::Finish { Err("the last word was no".to_string()) } else { Ok(()) }
    }
}

/// Where a store fails, beside a batch that is not written.
#[derive(Clone, Copy, PartialEq, Eq)]
enum Fails {
    Nowhere,
    Begin,
    Panic,
    Finish,
}

/// A folder of its own, gone at the end.
struct Folder(PathBuf);

impl Folder {
    fn new() -> Folder {
        static COUNT: AtomicUsize = AtomicUsize::new(0);
        let name = format!("menkhodur-import-{}-{}", std::process::id(), COUNT.fetch_add(1, Ordering::Relaxed));
        let path = std::env::temp_dir().join(name);
        fs::create_dir_all(&path).unwrap();
        Folder(path)
    }

    fn file(&self, name: &str, bytes: impl AsRef<[u8]>) -> String {
        let path = self.0.join(name);
        fs::write(&path, bytes).unwrap();
        path.to_str().unwrap().to_string()
    }
}

impl Drop for Folder {
    fn drop(&mut self) {
        let _ = fs::remove_dir_all(&self.0);
    }
}

/// How an import is run.
#[derive(Clone, Copy)]
struct How {
    batch: u64,
    /// How many batches are written before one fails.
    writes: usize,
    fails: Fails,
    duplicates: Duplicates,
    variations: bool,
    json: bool,
}

const PLAIN: How =
    How { batch: 1, writes: usize::MAX, fails: Fails::Nowhere, duplicates: Duplicates::Tell, variations: false, json: false };

/// What a run told, and what it came to.
struct Ran {
    lines: String,
    tally: Tally,
    end: End,
}

fn import(held: &Arc<Mutex<Held>>, words: &[&str], how: How) -> Ran {
    let folder = Folder::new();
    let words: Vec<OsString> = words.iter().map(OsString::from).collect();
    let lines = File::create(folder.0.join("lines")).unwrap();
    let (tally, end) = ready(held, lines, how).through(&words).unwrap();
    Ran { lines: fs::read_to_string(folder.0.join("lines")).unwrap(), tally, end }
}

/// An import whose lines go to a file.
fn ready(held: &Arc<Mutex<Held>>, lines: File, how: How) -> Import<Legal> {
    let said = Said { output: Output::over(lines), json: how.json, seen: false, deaf: true, failed: false };
    let setup = Setup { limit: 1, batch: how.batch, duplicates: how.duplicates, loose: false };
    let player = Player::new(Legal, Form { variations: how.variations, loose: false, kept: true });
    let store = Memory { held: held.clone(), how, source: String::new(), left: how.writes };
    Import::new(&setup, Some(Box::new(store)), said, player, Games::new(MB, true)).unwrap()
}

fn fresh() -> Arc<Mutex<Held>> {
    Arc::default()
}

fn keys(game: &Filed) -> Vec<String> {
    game.keys.iter().map(|key| String::from_utf8(key.to_vec()).unwrap()).collect()
}

/// Ten games of different lengths, one of them refused, the first and the last equal.
fn ten() -> String {
    let moves = ["e4 e5", "d4 d5 c4", "Nf3", "c4 e5 Nc3 Nf6", "e4 e5 Ke3", "g3", "b3 e5", "f4", "a3 a6 a4 a5", "e4 e5"];
    moves.iter().enumerate().map(|(index, text)| format!("[Event \"{}\"]\n\n{text} *\n\n", index % 9)).collect()
}

#[test]
fn a_game_is_handed_over_whole() {
    let (folder, held) = (Folder::new(), fresh());
    let file = folder.file("a.pgn", "; a comment\n\n[Event \"Z\\\\\\\"\"]\n[Site \"\u{e9}\"]\n[Site \"again\"]\n\n1. e4 c5 {x} 1-0\n");
    let ran = import(&held, &[&file], PLAIN);
    assert_eq!((ran.tally.games(), ran.tally.filed, ran.tally.moves, ran.tally.positions, ran.tally.new), (1, 1, 2, 3, 3));
    assert_eq!((ran.lines.as_str(), ran.end.stopped, ran.tally.status()), ("", None, Status::Well));
    let held = held.lock().unwrap();
    let (source, game) = &held.games[0];
    assert_eq!((source, game.number, game.line, game.moves, game.main), (&file, 1, 3, 2, 3));
    let tags = [("Event", "Z\\\""), ("Site", "\u{e9}"), ("Site", "again"), ("Result", "1-0")]
        .map(|(name, value)| (name.to_string(), value.to_string()));
    assert_eq!(game.tags, tags);
    assert_eq!(
        keys(game),
        [
            "rnbqkbnr/pppppppp/8/8/8/8/PPPPPPPP/RNBQKBNR w KQkq - 0 1",
            "rnbqkbnr/pppppppp/8/8/4P3/8/PPPP1PPP/RNBQKBNR b KQkq - 0 1",
            "rnbqkbnr/pp1ppppp/8/2p5/4P3/8/PPPP1PPP/RNBQKBNR w KQkq - 0 1",
        ]
    );
    // The roll: 68 numbers, the counters 0 and 1, two actions, each a move by either side: 12 + 64 * 28 and 50 + 64 * 34.
    assert_eq!(game.roll[68..], [0, 1, 2, 2, 0x80 | (1804 & 127) as u8, 14, 2, 0x80 | (2226 & 127) as u8, 17]);
    let (_, begun, ended) = &held.sources[&file];
    assert_eq!((begun.done, *ended), (1, true));
}

#[test]
fn siblings_are_told_apart_by_their_positions() {
    let after = |text: &str| {
        let (folder, held) = (Folder::new(), fresh());
        let file = folder.file("a.pgn", text);
        let ran = import(&held, &[&file], How { variations: true, ..PLAIN });
        assert_eq!(ran.lines, "", "{text}");
        let held = held.lock().unwrap();
        let game = &held.games[0].1;
        (game.moves, game.main, keys(game)[game.main..].iter().map(|key| key.split(' ').next().unwrap().to_string()).collect::<Vec<_>>())
    };
    let d4 = "rnbqkbnr/pppppppp/8/8/3P4/8/PPP1PPPP/RNBQKBNR";
    let d4_d5 = "rnbqkbnr/ppp1pppp/8/3p4/3P4/8/PPP1PPPP/RNBQKBNR";
    let c4 = "rnbqkbnr/pppppppp/8/8/2P5/8/PP1PPPPP/RNBQKBNR";
    let c4_e5 = "rnbqkbnr/pppp1ppp/8/4p3/2P5/8/PP1PPPPP/RNBQKBNR";
    let both = "rnbqkbnr/ppp1pppp/8/3p4/2PP4/8/PP2PPPP/RNBQKBNR";
    let all = "rnbqkbnr/ppp2ppp/8/3pp3/2PP4/8/PP2PPPP/RNBQKBNR";
    let strings = |keys: &[&str]| keys.iter().map(|key| key.to_string()).collect::<Vec<_>>();
    assert_eq!(after("e4 (d4 d5) (c4 e5) e5 *"), (2, 3, strings(&[d4, d4_d5, c4, c4_e5])));
    assert_eq!(after("e4 (d4 d5 c4 e5) e5 *"), (2, 3, strings(&[d4, d4_d5, both, all])));
    // A bracket in a comment is none, and a variation without moves leaves no trace.
    assert_eq!(after("e4 () {)(} (d4 ; (\n d5) ( ( ) ) (c4 e5) e5 *"), (2, 3, strings(&[d4, d4_d5, c4, c4_e5])));
    // One within another, and one in front of its sequence's first move.
    assert_eq!(after("e4 (d4 (c4 e5) d5) e5 *"), (2, 3, strings(&[d4, c4, c4_e5, d4_d5])));
    assert_eq!(after("(d4 d5) (c4) e4 e5 *"), (2, 3, strings(&[d4, d4_d5, c4])));
    // Two are closed before the next.
    assert_eq!(after("e4 (d4 (c4)) (c4 e5) e5 *"), (2, 3, strings(&[d4, c4, c4, c4_e5])));
}

#[test]
fn variations_are_played_only_if_asked_for() {
    let folder = Folder::new();
    let file = folder.file("a.pgn", "e4 (Ke7) e5 *\n\nd4 (d5 d5) *\n");
    let (plain, all) = (fresh(), fresh());
    let ran = import(&plain, &[&file], PLAIN);
    assert_eq!((ran.tally.filed, ran.tally.refused, ran.tally.positions), (2, 0, 5));
    let ran = import(&all, &[&file], How { variations: true, ..PLAIN });
    assert_eq!((ran.tally.filed, ran.tally.refused, ran.tally.positions), (0, 2, 0));
    assert!(ran.lines.contains(":1:5: game 1 ! 4 move no king can go to e7: 'Ke7'\n"), "{}", ran.lines);
    assert!(all.lock().unwrap().positions.is_empty());
}

#[test]
fn a_run_that_was_broken_off_goes_on_where_it_stopped() {
    let folder = Folder::new();
    let file = folder.file("ten.pgn", ten());
    let whole = fresh();
    let ran = import(&whole, &[&file], How { batch: 4, ..PLAIN });
    assert_eq!((ran.tally.filed, ran.tally.refused, ran.tally.notes), (9, 1, 1));
    let whole = whole.lock().unwrap().clone();
    for batch in [1, 2, 5, 100] {
        for writes in 0..12 {
            let (held, how) = (fresh(), How { batch, ..PLAIN });
            let broken = import(&held, &[&file], How { writes, ..how });
            let between = held.lock().unwrap().clone();
            // What is counted is what the store has.
            assert_eq!((broken.tally.filed, broken.tally.refused), (between.games.len() as u64, between.refused.len() as u64));
            assert_eq!(broken.tally.new, between.positions.len() as u64);
            let ended = between.sources.get(&file).is_some_and(|row| row.2);
            assert_eq!(broken.end.stopped.as_deref(), (!ended).then_some("the disk is full"), "{batch} {writes}");
            let again = import(&held, &[&file], how);
            assert_eq!((again.end.stopped, again.tally.before), (None, between.games.len() as u64 + between.refused.len() as u64));
            assert_eq!(again.tally.games(), 10);
            assert_eq!(*held.lock().unwrap(), whole, "{batch} {writes}");
            let third = import(&held, &[&file], how);
            assert_eq!((third.tally.before, third.tally.games(), third.lines.as_str()), (10, 10, ""));
            assert_eq!(*held.lock().unwrap(), whole);
        }
    }
}

#[test]
fn a_store_that_fails_in_any_way_is_told_and_what_it_has_is_counted() {
    let folder = Folder::new();
    let file = folder.file("ten.pgn", ten());
    for (fails, filed, told) in [
        (Fails::Begin, 0, "the database is gone"),
        (Fails::Panic, 0, "the thread that writes to the store has ended"),
        (Fails::Finish, 9, "the last word was no"),
    ] {
        let held = fresh();
        let ran = import(&held, &[&file, &file], How { fails, batch: 3, ..PLAIN });
        assert_eq!((ran.tally.filed, ran.end.stopped.as_deref()), (filed, Some(told)));
        assert_eq!(held.lock().map_or(0, |held| held.games.len() as u64), filed);
    }
}

#[test]
fn games_whose_lines_cannot_be_written_are_not_filed() {
    let (folder, held) = (Folder::new(), fresh());
    let words = [OsString::from(folder.file("ten.pgn", ten()))];
    let (tally, end) = ready(&held, File::create("/dev/full").unwrap(), PLAIN).through(&words).unwrap();
    assert_eq!(end.stopped.as_deref(), Some("standard output: No space left on device"));
    // The fifth is refused, and that was not told.
    assert_eq!((tally.filed, tally.refused, held.lock().unwrap().games.len()), (4, 0, 4));
    let (tally, _) = ready(&held, File::create("/dev/null").unwrap(), PLAIN).through(&words).unwrap();
    assert_eq!((tally.filed, tally.before, tally.refused), (5, 4, 1));
}

#[test]
fn games_are_filed_though_nobody_reads_the_lines_any_more() {
    let (folder, held) = (Folder::new(), fresh());
    let words = [OsString::from(folder.file("ten.pgn", ten()))];
    let (lines, reader) = UnixStream::pair().unwrap();
    drop(reader);
    let (tally, end) = ready(&held, File::from(OwnedFd::from(lines)), PLAIN).through(&words).unwrap();
    assert_eq!((tally.filed, tally.refused, end.stopped, end.whole), (9, 1, None, true));
}

#[test]
fn objects_tell_which_game_a_duplicate_equals() {
    let (folder, held) = (Folder::new(), fresh());
    let file = folder.file("ten.pgn", ten());
    let ran = import(&held, &[&file], How { json: true, ..PLAIN });
    let (note, last) = (ran.lines.lines().nth(1).unwrap(), ran.lines.lines().nth(2).unwrap());
    let words = format!("the game equals game 1 of {file}, and is filed beside it");
    assert_eq!(
        note,
        format!(
            "{{\"file\":\"{file}\",\"game\":10,\"line\":37,\"note\":\"duplicate\",\"reason\":\"{words}\",\"source\":\"{file}\",\"of\":1}}"
        )
    );
    let counts = "{\"games\":10,\"filed\":9,\"filed_before\":0,\"skipped\":0,\"refused\":1,\"moves\":20,\"positions\":29,\"new\":";
    assert!(last.starts_with(counts) && last.ends_with(",\"notes\":1,\"dry_run\":false,\"stopped\":null,\"complete\":true}"), "{last}");
}

#[test]
fn another_file_under_the_same_name_is_trouble() {
    let (folder, held) = (Folder::new(), fresh());
    let file = folder.file("a.pgn", ten());
    import(&held, &[&file], How { writes: 3, ..PLAIN });
    let before = held.lock().unwrap().clone();
    // The whole file's digest is the store's to compare; what was cut is compared here, even if the store has forgotten the file's.
    for other in [ten().replacen("e5", "e6", 1), ten().replacen("\n\n", "\n", 1), "d4 *".to_string(), String::new()] {
        folder.file("a.pgn", &other);
        let ran = import(&held, &[&file], PLAIN);
        assert_eq!((ran.end.stopped.as_deref(), ran.tally.filed), (Some("other bytes under the same name"), 0));
        held.lock().unwrap().sources.get_mut(&file).unwrap().0 = super::source::known(file.as_ref()).unwrap().0;
        let ran = import(&held, &[&file], PLAIN);
        let stopped = ran.end.stopped.unwrap();
        let why = if other.len() < 100 {
            "it has fewer games than were filed"
        } else {
            "the games that were filed from it are no longer the same"
        };
        assert!(stopped.contains(why) && stopped.starts_with(&file), "{stopped}");
        assert_eq!(held.lock().unwrap().games, before.games);
        held.lock().unwrap().sources.clone_from(&before.sources);
    }
}

#[test]
fn duplicates_are_kept_skipped_or_told() {
    let folder = Folder::new();
    let (a, b) = (folder.file("a.pgn", ten()), folder.file("b.pgn", ten()));
    for (duplicates, filed, skipped, told) in [(Duplicates::Keep, 18, 0, 0), (Duplicates::Skip, 8, 10, 0), (Duplicates::Tell, 18, 0, 10)] {
        for batch in [1, 7, 1_000] {
            let held = fresh();
            let ran = import(&held, &[&a, &b], How { duplicates, batch, ..PLAIN });
            assert_eq!((ran.tally.filed, ran.tally.skipped, ran.tally.notes, ran.tally.refused), (filed, skipped, told, 2));
            assert_eq!(held.lock().unwrap().games.len() as u64, filed);
            let notes: Vec<&str> = ran.lines.lines().filter(|line| line.contains(" note: ")).collect();
            assert_eq!(notes.len() as u64, told);
            if duplicates == Duplicates::Tell {
                assert_eq!(notes[0], format!("{a}:37: game 10 note: the game equals game 1 of {a}, and is filed beside it"));
                assert_eq!(notes[2], format!("{b}:5: game 2 note: the game equals game 2 of {a}, and is filed beside it"));
            }
            // Each position was new once.
            assert_eq!(ran.tally.new, held.lock().unwrap().positions.len() as u64);
        }
    }
}

#[test]
fn equal_games_have_equal_marks() {
    let (folder, held) = (Folder::new(), fresh());
    let tags = "[White \"a\"]\n[Black \"b\"]\n";
    let texts = ["1. e4 e5 *", "e4 {x} (d4) e5! *", "e4 e6 *"];
    let games: String = texts.iter().map(|text| format!("{tags}[Annotator \"{}\"]\n\n{text}\n\n", text.len())).collect();
    import(&held, &[&folder.file("a.pgn", games)], PLAIN);
    let marks: Vec<u64> = held.lock().unwrap().games.iter().map(|game| game.1.mark).collect();
    assert_eq!((marks[0] == marks[1], marks[0] == marks[2]), (true, false));
}

#[test]
fn a_refused_game_is_kept_with_its_place() {
    let (folder, held) = (Folder::new(), fresh());
    let file = folder.file("a.pgn", "[Event \"a\"]\n\ne4\n  e5 Ke3 *\n\n[Variant \"Atomic\"]\n\n*\n");
    let ran = import(&held, &[&file], PLAIN);
    assert_eq!((ran.tally.games(), ran.tally.refused, ran.tally.status()), (2, 2, Status::Found));
    let row = |number, line, at_line, at_column, answer, kind, text: &str| Refused {
        number,
        line,
        at_line,
        at_column,
        answer,
        kind,
        text: text.to_string(),
    };
    let owed = [row(1, 1, 4, 6, 4, "move", "Ke3"), row(2, 6, 6, 11, 0, "variant", "Atomic")];
    assert_eq!(held.lock().unwrap().refused, owed.map(|refused| (file.clone(), refused)));
    let told = format!("{file}:4:6: game 1 ! 4 move no king can go to e3: 'Ke3'\n    e5 Ke3 *\n       ^\n");
    assert!(ran.lines.starts_with(&told), "{}", ran.lines);
}

#[test]
fn a_start_is_filed_settled_and_with_its_counters() {
    let (folder, held) = (Folder::new(), fresh());
    let game = |fen: &str, text: &str| format!("[FEN \"{fen}\"]\n\n{text} *\n\n");
    let games = [
        game("4k3/8/8/8/4P3/8/8/4K3 b - e3 0 1", "Kd7"),
        game("4k3/8/8/8/3pP3/8/8/4K3 b - e3 12 30", "dxe3"),
        game("4k3/8/8/8/8/8/4P3/4K3 w - - 130 9999", "Kd1 Kd8"),
        game("4k3/8/8/8/8/8/4P3/4K3 w - -", "Kd1"),
    ];
    let ran = import(&held, &[&folder.file("a.pgn", games.concat())], PLAIN);
    assert_eq!((ran.lines.as_str(), ran.tally.filed), ("", 4));
    let held = held.lock().unwrap();
    assert_eq!(keys(&held.games[0].1)[0], "4k3/8/8/8/4P3/8/8/4K3 b - - 0 1");
    assert_eq!(keys(&held.games[1].1), ["4k3/8/8/8/3pP3/8/8/4K3 b - e3 0 1", "4k3/8/8/8/8/4p3/8/4K3 w - - 0 1"]);
    // The counters are in the roll alone, in groups of seven bits: 12 and 30, 130 and 9,999, and 0 and 1 where the text has none.
    let rolls: Vec<&[u8]> = held.games.iter().map(|game| &game.1.roll[68..]).collect();
    assert_eq!((&rolls[1][..2], &rolls[2][..4], &rolls[3][..2]), (&[12, 30][..], &[0x82, 1, 0x8f, 0x4e][..], &[0, 1][..]));
}

#[test]
fn games_before_an_input_that_cannot_be_read_any_further_are_filed() {
    let (folder, held) = (Folder::new(), fresh());
    let file = folder.file("a.pgn", "e4 *\n");
    let none = folder.0.join("none").to_str().unwrap().to_string();
    let ran = import(&held, &[&file, &none, folder.0.to_str().unwrap()], PLAIN);
    assert_eq!((ran.tally.filed, ran.end.whole, ran.end.stopped), (1, false, None));
}

/// Gives a text, and then an error.
struct Failing<'a>(&'a [u8]);

impl Read for Failing<'_> {
    fn read(&mut self, into: &mut [u8]) -> io::Result<usize> {
        if self.0.is_empty() { Err(io::Error::other("the disk has a hole")) } else { self.0.read(into) }
    }
}

#[test]
fn a_game_that_a_failed_read_cut_is_not_filed() {
    let text = b"e4 *\n\nd4 d5 *\n\n[Event \"c\"]\n\nc4 e5\nNc3 Nf";
    for (length, filed) in [(text.len(), 2), (30, 2), (14, 2), (13, 1), (6, 1), (5, 1), (4, 0), (0, 0)] {
        let held = fresh();
        let source = Source { name: "a".to_string(), bytes: Some(1), digest: Some(1) };
        let mut import = ready(&held, File::create("/dev/null").unwrap(), PLAIN);
        let whole = import.read("a".as_ref(), Some(source), &mut Failing(&text[..length]), &mut crate::input::room()).unwrap();
        let (tally, end) = import.end(Ok(()), whole).unwrap();
        assert_eq!((tally.filed, tally.games(), end.whole, end.stopped), (filed, filed, false, None), "{length}");
        let held = held.lock().unwrap();
        assert_eq!((held.games.len() as u64, held.sources["a"].1.done, held.sources["a"].2), (filed, filed, false), "{length}");
    }
}

/// The lines of pgn-extract for a file, the four fields of each position of each game, if it is installed.
fn extracted(file: &str) -> Option<Vec<Vec<String>>> {
    let ran =
        ["pgn-extract", "/usr/games/pgn-extract"].iter().find_map(|name| Command::new(name).args(["-s", "-Wepd", file]).output().ok())?;
    let text = String::from_utf8_lossy(&ran.stdout).into_owned();
    let game = |lines: &str| lines.lines().map(|line| line.split(' ').take(4).collect::<Vec<_>>().join(" ")).collect::<Vec<_>>();
    Some(text.split("\n\n").map(str::trim).filter(|lines| !lines.is_empty()).map(game).collect())
}

/// A position of four fields as it is filed: the en passant square stays only if a pawn of the side to move could stand to use it, which is beside
/// the pawn that has moved two squares.
fn settled(fields: &str) -> String {
    let parts: Vec<&str> = fields.split(' ').collect();
    let [ranks, side, rights, passing] = parts[..] else { panic!("{fields}") };
    let (rank, pawn) = if side == "w" { (3, 'P') } else { (4, 'p') };
    let row: String = ranks.split('/').nth(rank).unwrap().chars().fold(String::new(), |row, letter| match letter.to_digit(10) {
        Some(empty) => row + &".".repeat(empty as usize),
        None => row + &letter.to_string(),
    });
    let row: Vec<char> = row.chars().collect();
    let file = passing.bytes().next().map_or(0, |file| usize::from(file.wrapping_sub(b'a')));
    let beside = [file.wrapping_sub(1), file + 1].iter().any(|file| row.get(*file) == Some(&pawn));
    format!("{ranks} {side} {rights} {} 0 1", if passing != "-" && beside { passing } else { "-" })
}

// The judge knows nothing of this program. Skipped by name where it is not installed.
#[test]
fn the_positions_are_those_of_pgn_extract() {
    let own = format!("{}/tests/odd/plain.pgn", env!("CARGO_MANIFEST_DIR"));
    let mut compared = 0;
    for file in ["/usr/share/pgn-extract/eco.pgn".to_string(), own] {
        let (true, Some(owed)) = (fs::exists(&file).unwrap(), extracted(&file)) else {
            skipped(&format!("pgn-extract or {file} is missing, of the Debian package pgn-extract"));
            continue;
        };
        let held = fresh();
        let ran = import(&held, &[&file], How { batch: 100_000, ..PLAIN });
        let held = held.lock().unwrap();
        assert_eq!((ran.tally.refused, held.games.len()), (0, owed.len()));
        for (game, owed) in held.games.iter().zip(&owed) {
            assert_eq!(keys(&game.1), owed.iter().map(|fields| settled(fields)).collect::<Vec<_>>(), "{file} game {}", game.1.number);
            compared += owed.len();
        }
    }
    eprintln!("{compared} positions are pgn-extract's");
}
