//! `menkhodur show` and `menkhodur ruling`, on games of the crate with what the crate says of them (oracle/logs).

use crate::common::{ENTRIES, FULL_MOVES, Folder, HALF_MOVES, IN_CHECK, MOVES, empty_position, expect, run};
use crate::games::{self, old_roll, roll};
use menkhodur::lent::{ACTION_BYTES, ACTIONS_PART, MAX_ACTIONS, MAX_MOVES, POSITION_BYTES, POSITIONS_PART};
use std::collections::HashMap;
use std::fs;
use std::path::PathBuf;
use std::time::{Duration, Instant};

/// Where `logs` has written: cli/run-tests names the folder.
fn folder() -> PathBuf {
    let default = concat!(env!("CARGO_MANIFEST_DIR"), "/../target/logs");
    PathBuf::from(std::env::var("MENKHODUR_LOGS").unwrap_or(default.to_string()))
}

/// A game: its two files, and what the crate says after each action.
struct Game {
    actions: String,
    positions: String,
    told: Vec<Told>,
}

type Told = HashMap<String, String>;

/// Tells the counters of each position anew, from those of the start on: by the PGN standard, 16.1.3.5 and 16.1.3.6, and no further than 9,999.
fn count(told: &mut [Told], (mut half, mut full): (u16, u16)) {
    for told in told {
        if told["kind"] == "move" {
            let begins = ["a pawn move", "a capture"].iter().any(|cause| told["causes"].contains(cause));
            half = if begins { 0 } else { 9_999.min(half + 1) };
            full = 9_999.min(full + u16::from(told["side"] == "black"));
        }
        told.extend([("half", half), ("full", full)].map(|(name, value)| (name.to_string(), value.to_string())));
    }
}

/// A position's FEN with its counters.
fn fen(told: &Told) -> String {
    format!("{}{} {}", told["key"].strip_suffix("0 1").expect("a key"), told["half"], told["full"])
}

impl Game {
    fn of(name: &str) -> Game {
        let path = |kind: &str| folder().join(format!("{name}.{kind}")).to_str().expect("UTF-8").to_string();
        let text = fs::read_to_string(path("told")).expect("cli/run-tests makes the logs");
        let mut lines = text.lines().map(|line| line.split('\t').map(str::to_string).collect::<Vec<_>>());
        let head = lines.next().expect("a head");
        let told: Vec<Told> = lines.map(|line| head.iter().cloned().zip(line).collect()).collect();
        Game { actions: path("actions"), positions: path("positions"), told }
    }

    fn words<'a>(&'a self, words: &[&'a str]) -> Vec<&'a str> {
        words.iter().copied().chain([self.actions.as_str(), &self.positions]).collect()
    }

    /// The same from a start with other counters, its positions in a file of their own.
    fn counted_from(&self, start: (u16, u16), folder: &Folder) -> Game {
        let (mut told, mut positions) = (self.told.clone(), fs::read(&self.positions).unwrap());
        count(&mut told, start);
        for told in &told {
            let position = &mut positions[POSITION_BYTES * number(told, "moves")..];
            for (at, name) in [(HALF_MOVES, "half"), (FULL_MOVES, "full")] {
                position[at..at + 2].copy_from_slice(&(number(told, name) as u16).to_le_bytes());
            }
        }
        Game { actions: self.actions.clone(), positions: folder.file("positions", positions), told }
    }

    fn moves(&self) -> usize {
        self.told.last().expect("a start")["moves"].parse().expect("a number")
    }
}

fn games() -> Vec<Game> {
    let mut names: Vec<String> = fs::read_dir(folder())
        .expect("cli/run-tests makes the logs")
        .filter_map(|entry| entry.ok()?.file_name().to_str()?.strip_suffix(".told").map(str::to_string))
        .collect();
    names.sort();
    assert!(names.len() > 100, "{} games", names.len());
    names.iter().map(|name| Game::of(name)).collect()
}

/// The longest game: as many moves as a log holds, and an offer after each.
fn longest() -> Game {
    games().into_iter().find(|game| game.moves() == MAX_MOVES).expect("a game of the most moves")
}

fn done(told: &Told) -> &str {
    match told["kind"].as_str() {
        "move" => &told["name"],
        "offer" => "offers a draw",
        "accept" => "draw accepted",
        "declare" => "draw declared",
        "resign" => "resigns",
        kind => kind,
    }
}

/// What `show` owes a game.
fn shown(game: &Game) -> String {
    let line = |told: &Told| {
        let what = done(told);
        format!("{:>4} {:>4} {:5} {what:13} {:>3} {}\n", told["action"], told["moves"], told["side"], told["list"], fen(told))
    };
    game.told.iter().map(line).collect()
}

#[test]
fn show_prints_every_action_as_the_crate_has_it() {
    for game in games() {
        expect(&game.words(&["show"]), "", (shown(&game), "", 0));
    }
}

/// The crate's own lists are right.
#[test]
fn show_judges_the_lists_of_every_game() {
    for game in games() {
        let (ran, moves) = (run(&game.words(&["show", "--judge"]), b""), game.moves());
        let positions = if moves == 0 { "1 position".to_string() } else { format!("{} positions", moves + 1) };
        let judged = format!("\njudged       {positions}: each list has the legal moves, and who is in check is said rightly\n");
        assert_eq!((ran.text(), ran.err.as_str(), ran.status), ((shown(&game) + &judged).as_str(), "", 0));
    }
}

/// What `show` owes the game's roll: no names and no lists.
fn shown_of_roll(told: &[Told]) -> String {
    let line = |told: &Told| {
        let what = if told["kind"] == "move" { &told["coordinates"] } else { done(told) };
        format!("{:>4} {:>4} {:5} {what:13}   - {}\n", told["action"], told["moves"], told["side"], fen(told))
    };
    told.iter().map(line).collect()
}

#[test]
fn show_prints_a_roll_as_the_crate_has_its_game() {
    for (game, (_, _, rolled)) in games().into_iter().zip(games::Game::logs()) {
        expect(&["show", "-"], roll(&rolled), (shown_of_roll(&game.told), "", 0));
        let mut told = game.told.clone();
        count(&mut told, (0, 1));
        expect(&["show", "--old", "-"], old_roll(&rolled), (shown_of_roll(&told), "", 0));
    }
}

#[test]
fn show_has_the_same_of_a_roll_as_json() {
    for (game, (_, _, rolled)) in games().into_iter().zip(games::Game::logs()).step_by(7) {
        let unknown = |told: &Told| {
            let (name, list) = (format!("\"name\":\"{}\"", told["name"]), format!("\"list\":{}}}", told["list"]));
            let in_check = format!("\"in_check\":{}", told["in_check"] == "1");
            let plain = object(told).replace(&name, "\"name\":null").replace(&list, "\"list\":null}");
            plain.replace(&in_check, "\"in_check\":null") + "\n"
        };
        let owed: String = game.told.iter().map(unknown).collect();
        expect(&["show", "--json", "-"], roll(&rolled), (owed, "", 0));
    }
}

/// The fields of a position.
fn position(told: &Told) -> String {
    format!("\"key\":\"{}\",\"fen\":\"{}\",\"half_moves\":{},\"full_moves\":{}", told["key"], fen(told), told["half"], told["full"])
}

fn object(told: &Told) -> String {
    let side = if told["side"] == "-" { "null".to_string() } else { format!("\"{}\"", told["side"]) };
    let made = match told["kind"].as_str() {
        "move" => format!("\"name\":\"{}\",\"coordinates\":\"{}\",", told["name"], told["coordinates"]),
        _ => String::new(),
    };
    let head = format!("\"action\":{},\"moves\":{},\"side\":{side},\"kind\":\"{}\",", told["action"], told["moves"], told["kind"]);
    let tail = format!("\"in_check\":{},\"list\":{}", told["in_check"] == "1", told["list"]);
    format!("{{{head}{made}{},{tail}}}", position(told))
}

#[test]
fn show_has_the_same_as_json() {
    for game in games().into_iter().step_by(7) {
        let owed: String = game.told.iter().map(|told| object(told) + "\n").collect();
        expect(&game.words(&["show", "--json"]), "", (owed, "", 0));
    }
}

const RESULTS: [&str; 8] = [
    "the game goes on",
    "white checkmates",
    "white resigns",
    "black checkmates",
    "black resigns",
    "stalemate",
    "draw accepted",
    "draw declared",
];
const CLAIMS: [&str; 4] = [
    "no draw may be claimed",
    "a draw may be claimed by the count",
    "a draw may be claimed by equal positions",
    "a draw may be claimed by the count and by equal positions",
];

fn number(told: &Told, name: &str) -> usize {
    told[name].parse().expect("a number")
}

/// What a text says under a name.
fn row<'a>(text: &'a str, name: &str) -> &'a str {
    let name = format!("{name:13}");
    text.lines().find_map(|line| line.strip_prefix(name.as_str())).unwrap_or_else(|| panic!("{name} in {text}"))
}

/// Sees one ruling: after `at` actions of a game.
fn see_ruling(game: &Game, at: usize, words: &[&str]) {
    let ran = run(&game.words(words), b"");
    let (text, told) = (ran.text(), &game.told[at]);
    let claims = ["claim", "laws_claim"].map(|name| number(told, name));
    assert_eq!((ran.err.as_str(), ran.status), ("", i32::from(claims[1] == 0)), "{} after {at}", game.actions);
    assert!(row(text, "result").starts_with(&format!("{}, after {at} action", RESULTS[number(told, "result")])), "{text}");
    // No claim stands in a game that is over, and that comes first.
    let over = if number(told, "result") == 0 { "" } else { "the game is over: " };
    let owed = claims.map(|claim| format!("{over}{}", CLAIMS[claim]));
    assert_eq!([row(text, "claim"), row(text, "Laws' claim")], owed.each_ref().map(String::as_str));
    for (name, field, by_rights) in [("count", "count", true), ("Laws' count", "laws_count", false)] {
        let began = number(told, "moves") - number(told, field);
        let since = game.told[..=at].iter().position(|entry| number(entry, "moves") == began).unwrap();
        see_count(row(text, name), number(told, field), &game.told[..=since], by_rights);
    }
    see_equals(text, game, told);
    see_drawn(text, &game.told[..=at]);
    assert_eq!(row(text, "start"), fen(&game.told[0]));
    see_names(text, &game.told[..=at]);
}

/// `told` is up to the move that the count began with.
fn see_count(line: &str, count: usize, told: &[Told], by_rights: bool) {
    assert!(line.starts_with(&format!("{count} of 100 moves without a pawn move")), "{line}");
    match told {
        [.., before, since] => {
            let causes: Vec<&str> = since["causes"].split(',').filter(|cause| by_rights || !cause.contains("rights")).collect();
            let (after, dots) = (&since["moves"], if since["side"] == "white" { "." } else { "..." });
            let owed = format!(", since move {after} ({}{dots} {}), {}", before["full"], since["name"], causes.join(" and "));
            assert!(line.ends_with(&owed), "{line} {owed}");
        }
        _ => assert!(line.ends_with(", since the start"), "{line}"),
    }
}

/// By article 9.6 a game is drawn by the first move after which a position has come five times or 150 moves were made, if it did not mate.
fn see_drawn(text: &str, told: &[Told]) {
    let mated = |entry: &Told| ["1", "3"].contains(&entry["result"].as_str());
    let drawn = told.iter().find(|entry| !mated(entry) && (number(entry, "equals") >= 4 || number(entry, "laws_count") >= 150));
    let shown = text.lines().find_map(|line| line.strip_prefix("drawn        "));
    match (drawn, shown) {
        (None, None) => {}
        (Some(drawn), Some(shown)) => {
            assert!(shown.starts_with(&format!("without a claim since move {} (", drawn["moves"])), "{shown}");
            assert_eq!(shown.contains("9.6.1"), number(drawn, "equals") >= 4, "{shown}");
            assert_eq!(shown.contains("9.6.2"), number(drawn, "laws_count") >= 150, "{shown}");
        }
        (_, shown) => panic!("{shown:?} in {text}"),
    }
}

/// The count of the equal positions, the two earliest and the last, each with its key.
fn see_equals(text: &str, game: &Game, told: &Told) {
    let equals = number(told, "equals");
    let places: Vec<&str> = text.lines().skip_while(|line| !line.starts_with("equal")).skip(1).collect();
    assert_eq!(places.len(), equals + 1, "{text}");
    let owed = [(0, "first"), (1, "second")].iter().filter(|(nth, _)| *nth < equals).map(|(nth, name)| (*nth, number(told, name)));
    for (nth, moves) in owed.chain([(equals, number(told, "moves"))]) {
        let place = if moves == 0 { "at the start".to_string() } else { format!("after move {moves} (") };
        let key = &game.told.iter().find(|entry| number(entry, "moves") == moves).unwrap()["key"];
        assert!(places[nth].trim_start().starts_with(&place) && places[nth].ends_with(&format!(": {key}")), "{} {place}", places[nth]);
    }
    assert!(places.iter().all(|place| place.ends_with(&told["key"])), "equal positions have one key: {text}");
}

/// The names stand in the game's text in order, each of white's with the number that the FEN before it has, and black's where something else
/// stands before it.
fn see_names(text: &str, told: &[Told]) {
    let game: Vec<&str> = text.lines().skip(1).take_while(|line| !line.starts_with("result")).collect();
    let mut owed = vec![];
    for pair in told.windows(2) {
        let (before, entry) = (&pair[0], &pair[1]);
        owed.extend(match (entry["kind"].as_str(), entry["side"].as_str()) {
            ("move", "white") => vec![format!("{}.", before["full"]), entry["name"].clone()],
            ("move", _) if before["kind"] != "move" => vec![format!("{}...", before["full"]), entry["name"].clone()],
            ("move", _) => vec![entry["name"].clone()],
            (_, "-") => vec![format!("({})", done(entry))],
            (_, side) => vec![format!("({side} {})", done(entry))],
        });
    }
    assert_eq!(game.join(" ").split_whitespace().collect::<Vec<_>>().join(" "), owed.join(" "));
    assert!(game.iter().all(|line| line.len() <= 96));
}

#[test]
fn a_ruling_is_what_the_crate_and_the_laws_say() {
    let mut claims = [0; 2];
    for game in games() {
        let last = game.told.len() - 1;
        see_ruling(&game, last, &["ruling"]);
        claims[usize::from(number(&game.told[last], "laws_claim") != 0)] += 1;
    }
    assert!(claims.iter().all(|seen| *seen > 10), "{claims:?}");
}

#[test]
fn a_ruling_after_some_actions_is_that_of_the_game_up_to_them() {
    for game in games() {
        // After every action of a short game, and at three places of a long one.
        let step = if game.told.len() <= 14 { 1 } else { game.told.len() / 2 };
        for at in (0..game.told.len()).step_by(step) {
            see_ruling(&game, at, &["ruling", "--at", &at.to_string()]);
        }
    }
}

#[test]
fn the_object_of_a_ruling_has_its_numbers() {
    for game in games().into_iter().step_by(5) {
        let ran = run(&game.words(&["ruling", "--json"]), b"");
        let told = game.told.last().unwrap();
        let text = ran.text();
        assert_eq!((text.lines().count(), ran.err.as_str()), (1, ""));
        let named = ["count", "laws_count", "equals", "moves"].map(|name| format!("\"{name}\":{},", told[name]));
        let numbered = ["result", "claim", "laws_claim"].map(|name| format!("\"{name}_number\":{},", told[name]));
        assert!(named.iter().chain(&numbered).all(|field| text.contains(field.as_str())), "{text} {told:?}");
        assert!(text.contains(&format!("\"last\":{{\"moves\":{},\"action\":", told["moves"])), "{text}");
        let last = game.told.iter().find(|entry| entry["moves"] == told["moves"]).unwrap();
        assert!(text.contains(&format!(",\"action\":{},{}}},\"game\":[", last["action"], position(last))), "{text}");
        let entries: Vec<String> = game.told.iter().map(object).collect();
        assert!(text.ends_with(&format!("\"game\":[{}]}}\n", entries.join(","))), "{text}");
        assert_eq!(text.contains("\"result\":null"), told["result"] == "0");
    }
}

#[test]
fn the_starts_counters_go_on_and_touch_no_ruling() {
    let folder = Folder::new();
    for game in games().into_iter().step_by(3) {
        // Two programs by the same words: what oracle/logs has told, and `count`.
        let (start, mut again) = (&game.told[0], game.told.clone());
        count(&mut again, (number(start, "half") as u16, number(start, "full") as u16));
        assert_eq!(again, game.told);
        let counted = game.counted_from((99, 60), &folder);
        expect(&counted.words(&["show"]), "", (shown(&counted), "", 0));
        see_ruling(&counted, counted.told.len() - 1, &["ruling"]);
    }
}

#[test]
fn counters_stop_at_9999() {
    let folder = Folder::new();
    let (game, last) = (longest(), longest().counted_from((9_998, 9_999), &folder));
    assert!(last.told.iter().all(|told| told["full"] == "9999") && last.told.last().unwrap()["half"] == "9999");
    expect(&last.words(&["show"]), "", (shown(&last), "", 0));
    see_ruling(&last, last.told.len() - 1, &["ruling"]);
    let texts = [game, last].map(|game| run(&game.words(&["ruling"]), b""));
    let rows = texts.each_ref().map(|ran| ["result", "claim", "Laws' claim"].map(|name| row(ran.text(), name)));
    assert_eq!((rows[0], texts[0].status), (rows[1], texts[1].status));
}

#[test]
fn the_longest_game_is_ruled_on_in_a_moment() {
    let game = longest();
    let least = (0..5).map(|_| {
        let start = Instant::now();
        assert_eq!(run(&game.words(&["ruling"]), b"").status, 0);
        start.elapsed()
    });
    // A tenth of a second is asked of the built program; a test need not be built for speed.
    let most = Duration::from_millis(if cfg!(debug_assertions) { 1_000 } else { 100 });
    let least = least.min().unwrap();
    assert!(least < most, "{least:?}");
}

#[test]
fn one_of_the_two_may_be_standard_input() {
    let game = longest();
    let (from_files, actions) = (run(&game.words(&["show"]), b""), fs::read(&game.actions).unwrap());
    assert_eq!(run(&["show", "-", &game.positions], &actions), from_files);
    assert_eq!(run(&["show", &game.actions, "-"], &fs::read(&game.positions).unwrap()), from_files);
    expect(&["show", "-", "-"], "", ("", "menkhodur: standard input can be only one of ACTIONS and POSITIONS\n", 2));
}

/// A log of some actions from the middle of the longest, to be damaged in one of its files.
struct Damaged {
    folder: Folder,
    actions: String,
    positions: String,
    /// The file that was damaged.
    at_fault: String,
}

fn damaged(actions: usize, damage: impl Fn(&mut Vec<u8>, &mut Vec<u8>)) -> Damaged {
    let game = longest();
    let (mut a, mut p) = (fs::read(&game.actions).unwrap(), fs::read(&game.positions).unwrap());
    a.truncate(ACTION_BYTES * actions);
    p.truncate(POSITION_BYTES * (number(&game.told[actions], "moves") + 1));
    let before = [a.clone(), p.clone()];
    damage(&mut a, &mut p);
    let is_damaged = [a != before[0], p != before[1]];
    assert_eq!(is_damaged.iter().filter(|is| **is).count(), 1);
    let folder = Folder::new();
    let (actions, positions) = (folder.file("a", a), folder.file("p", p));
    let at_fault = if is_damaged[0] { &actions } else { &positions }.clone();
    Damaged { folder, actions, positions, at_fault }
}

/// The three commands tell the fault, and blame the file that has it; `show` prints what stands before it, and `roll` writes nothing.
#[track_caller]
fn see_fault(actions: usize, standing: usize, fault: &str, damage: impl Fn(&mut Vec<u8>, &mut Vec<u8>)) {
    let Damaged { folder, actions: a, positions: p, at_fault } = damaged(actions, damage);
    let told = format!("menkhodur: {at_fault}: the log is not good: {fault}\n");
    expect(&["ruling", &a, &p], "", ("", &told, 2));
    let shown = run(&["show", &a, &p], b"");
    assert_eq!((shown.err.as_str(), shown.status, shown.text().lines().count()), (told.as_str(), 2, standing));
    let roll = folder.path("roll");
    expect(&["roll", "-o", &roll, &a, &p], "", ("", &told, 2));
    assert!(!fs::exists(roll).unwrap());
    // By standard input, the file at fault has another name.
    let (input, words) = if at_fault == a { (&a, ["show", "-", &p]) } else { (&p, ["show", &a, "-"]) };
    assert_eq!(run(&words, &fs::read(input).unwrap()).err, told.replace(&at_fault, "standard input"));
}

/// What is told of the fifth move, a knight's, if it comes with this position.
fn wrong(held: &str) -> String {
    let told = "the position after the move is not the one that the move leads to (answer 24)";
    let owed = "rnbqkbnr/pppppppp/8/8/8/2N5/PPPPPPPP/R1BQKBNR b KQkq - 5 3";
    format!("action 9 does not stand: {told}: it is {held}, and the move leads to {owed}")
}

// The log is white's move 1, its offer, black's move 2, its offer and so on: action 2k + 1 is a move, 2k + 2 an offer.
#[test]
fn the_first_action_that_does_not_stand_is_told() {
    see_fault(40, 7, "action 7 does not stand: the move is not in the list (answer 11)", |a, _| a[4 * 6 + 2] = 0);
    see_fault(40, 8, "action 8 does not stand: there is no action of kind 9", |a, _| a[4 * 7] = 9);
    let range = "a number of the board, a square, rank, file, colour, rights number or in-check byte is out of range (answer 5)";
    see_fault(40, 8, &format!("action 8 does not stand: {range}"), |a, _| a[4 * 7 + 1] = 2);
    see_fault(40, 9, &format!("action 9 does not stand: {range}"), |_, p| p[5 * POSITION_BYTES + 10] = 13);
    see_fault(40, 9, &format!("action 9 does not stand: {range}"), |_, p| p[5 * POSITION_BYTES + IN_CHECK] = 2);
    see_fault(40, 8, "action 8 does not stand: a byte of it is not 0 where it must be", |a, _| a[4 * 7 + 3] = 1);
    see_fault(40, 9, "action 9 does not stand: a byte of it is not 0 where it must be", |a, _| a[4 * 8 + 1] = 1);
    let bytes = "a byte of the position after it is not 0 where it must be";
    see_fault(40, 9, &format!("action 9 does not stand: {bytes}"), |_, p| p[6 * POSITION_BYTES - 1] = 1);
    let list = "the list has more than 255 moves, or a move's number is over 28,671 (answer 6)";
    see_fault(40, 9, &format!("action 9 does not stand: {list}"), |_, p| {
        p[5 * POSITION_BYTES + MOVES..][..2].copy_from_slice(&28_672_u16.to_le_bytes())
    });
    see_fault(40, 9, "action 9 does not stand: the position after the move has the wrong side to move (answer 12)", |_, p| {
        p[5 * POSITION_BYTES + 64] = 0
    });
    let knight_twice = wrong("rnbqkbnr/pppppppp/8/8/8/2N5/PPPPPPPP/RNBQKBNR b KQkq - 5 3");
    see_fault(40, 9, &knight_twice, |_, p| p[5 * POSITION_BYTES + 1] = 2);
    let right_lost = wrong("rnbqkbnr/pppppppp/8/8/8/2N5/PPPPPPPP/R1BQKBNR b KQq - 5 3");
    see_fault(40, 9, &right_lost, |_, p| p[5 * POSITION_BYTES + 66] = 2);
    see_fault(40, 12, "action 12 does not stand: no draw can be claimed (answer 15)", |a, _| a[44..48].copy_from_slice(&[4, 0, 0, 0]));
    see_fault(40, 22, "action 22 does not stand: the game is over (answer 10)", |a, _| a[80..84].copy_from_slice(&[5, 0, 0, 0]));
    let last = format!("action {MAX_ACTIONS} does not stand: there is no action of kind 0");
    see_fault(MAX_ACTIONS, MAX_ACTIONS, &last, |a, _| a[ACTIONS_PART - 4] = 0);
}

#[test]
fn a_counter_that_differs_is_told_with_what_it_must_be() {
    let knight = "rnbqkbnr/pppppppp/8/8/8/2N5/PPPPPPPP/R1BQKBNR b KQkq -";
    let (half, full) = (5 * POSITION_BYTES + HALF_MOVES, 5 * POSITION_BYTES + FULL_MOVES);
    let clock = wrong(&format!("{knight} 0 3")) + "; its half-move clock is 0, and must be 5";
    see_fault(40, 9, &clock, |_, p| p[half] = 0);
    let high_byte = wrong(&format!("{knight} 261 3")) + "; its half-move clock is 261, and must be 5";
    see_fault(40, 9, &high_byte, |_, p| p[half + 1] = 1);
    let move_number = wrong(&format!("{knight} 5 4")) + "; its move number is 4, and must be 3";
    see_fault(40, 9, &move_number, |_, p| p[full] = 4);
    let both = wrong(&format!("{knight} 0 1")) + "; its half-move clock is 0, and must be 5; its move number is 1, and must be 3";
    see_fault(40, 9, &both, |_, p| (p[half], p[full]) = (0, 1));
    let square_too = wrong("rnbqkbnr/pppppppp/8/8/8/2N5/PPPPPPPP/RNBQKBNR b KQkq - 6 3") + "; its half-move clock is 6, and must be 5";
    see_fault(40, 9, &square_too, |_, p| (p[5 * POSITION_BYTES + 1], p[half]) = (2, 6));
    let range = "a number of the board, a square, rank, file, colour, rights number or in-check byte is out of range (answer 5)";
    let over = format!("action 9 does not stand: {range}; its half-move clock is 10000, and must be 5");
    see_fault(40, 9, &over, |_, p| p[half..half + 2].copy_from_slice(&10_000_u16.to_le_bytes()));
    let zero = format!("action 9 does not stand: {range}; its move number is 0, and must be 3");
    see_fault(40, 9, &zero, |_, p| p[full] = 0);
}

#[test]
fn a_start_that_is_none_and_positions_too_few_or_too_many_are_told() {
    see_fault(40, 0, "the start is not a position", |_, p| p[0] = 13);
    let counter = |told: &str| format!("the start is not a position: its {told}");
    see_fault(40, 0, &counter("move number is 0, and must be from 1 to 9999"), |_, p| p[FULL_MOVES] = 0);
    see_fault(40, 0, &counter("half-move clock is 65535, and must be from 0 to 9999"), |_, p| p[HALF_MOVES..FULL_MOVES].fill(255));
    see_fault(40, 39, "action 39 does not stand: the position after it is missing", |_, p| p.truncate(POSITION_BYTES * 20));
    see_fault(40, 41, "its moves lead to 21 positions, counting the start, but there are 22", |_, p| p.extend([0; POSITION_BYTES]));
}

#[test]
fn actions_before_the_fault_can_be_ruled_on() {
    let Damaged { folder: _folder, actions: a, positions: p, .. } = damaged(40, |a, _| a[4 * 6 + 2] = 0);
    let ran = run(&["ruling", "--at", "6", &a, &p], b"");
    let fault = "the log is not good: action 7 does not stand: the move is not in the list (answer 11)";
    assert_eq!((ran.err.as_str(), ran.status), (format!("menkhodur: {a}: {fault}; the first 6 actions stand\n").as_str(), 1));
    assert!(ran.text().contains("result       the game goes on, after 6 actions and 3 moves\n"), "{}", ran.text());
    expect(&["ruling", "--at", "7", &a, &p], "", ("", &format!("menkhodur: {a}: {fault}\n"), 2));
}

#[test]
fn files_of_another_size_are_trouble() {
    let folder = Folder::new();
    let (empty, odd, start) =
        (folder.file("empty", ""), folder.file("odd", [1; POSITION_BYTES + 1]), folder.file("start", empty_position()));
    let (none, zeros) = (folder.path("none"), folder.file("zeros", [0; POSITION_BYTES]));
    let ruling = |a: &str, p: &str, told: &str| expect(&["ruling", a, p], "", ("", &format!("menkhodur: {told}\n"), 2));
    ruling(&odd, &start, &format!("{odd}: 585 bytes are not a whole number of actions of 4 bytes: 146, and 1 over"));
    ruling(&empty, &odd, &format!("{odd}: 585 bytes are not a whole number of positions of 584 bytes: 1, and 1 over"));
    let old = folder.file("old", [0; 2 * 580]);
    let told = "1160 bytes are not a whole number of positions of 584 bytes: 1, and 576 over; without counters, as before version 12, \
                a position had 580";
    ruling(&empty, &old, &format!("{old}: {told}"));
    let not_good = "the log is not good: the start is not a position: its move number is 0, and must be from 1 to 9999";
    ruling(&empty, &zeros, &format!("{zeros}: {not_good}"));
    ruling(&empty, &empty, &format!("{empty}: it is empty, but a log has a start"));
    ruling(&none, &start, &format!("{none}: No such file or directory"));
    ruling(&folder.path(""), &start, &format!("{}: Is a directory", folder.path("")));
    ruling("/dev/zero", &start, &format!("/dev/zero: more than {ACTIONS_PART} bytes, the most that the actions of a log may have"));
    ruling(&empty, "/dev/zero", &format!("/dev/zero: more than {POSITIONS_PART} bytes, the most that the positions of a log may have"));
    // An empty board with an empty list: a stalemate.
    let ran = run(&["ruling", &empty, &start], b"");
    let over = "the game is over: no draw may be claimed";
    let rows = format!("\nresult       stalemate, after 0 actions and 0 moves\nclaim        {over}\nLaws' claim  {over}\n");
    assert!(ran.text().contains(&rows), "{}", ran.text());
    assert_eq!(ran.status, 1);
}

#[test]
fn a_number_of_actions_must_be_one_of_the_log() {
    let game = longest();
    let ruling =
        |at: &str, told: &str| expect(&game.words(&["ruling", "--at", at]), "", ("", &format!("menkhodur: --at {at}: {told}\n"), 2));
    ruling(&(MAX_ACTIONS + 1).to_string(), &format!("the log has {MAX_ACTIONS} actions"));
    ruling("-1", "a number of actions is needed");
    ruling("x", "a number of actions is needed");
}

// A king that goes to e8 as a king: document 01's form has no text for it where e8 is also reached plainly (docs/DECISIONS.md).
#[test]
fn a_move_without_a_name_is_shown_in_coordinates() {
    let folder = Folder::new();
    let (mut start, mut after) = (empty_position(), empty_position());
    (start[52], start[ENTRIES]) = (1, 2);
    start[MOVES..MOVES + 4].copy_from_slice(&[3892_u16.to_le_bytes(), 28468_u16.to_le_bytes()].concat());
    (after[60], after[64]) = (6, 1);
    let a = folder.file("a", [&[1, 0], &28468_u16.to_le_bytes()[..]].concat());
    let p = folder.file("p", [start, after].concat());
    let ran = run(&["show", &a, &p], b"");
    assert_eq!(ran.text().lines().nth(1).unwrap(), "   1    1 white e7e8k (no text names it)   0 4K3/8/8/8/8/8/8/8 b - - 0 1");
    let ran = run(&["show", "--json", &a, &p], b"");
    assert!(ran.text().contains("\"name\":null,\"coordinates\":\"e7e8k\""), "{}", ran.text());
    let ran = run(&["ruling", &a, &p], b"");
    assert!(ran.text().contains("1. e7e8k (no text names it)\n"), "{}", ran.text());
}
