//! The pages of `ruling`, `show` and `diff`, read as text: links, diagrams, marks, and that nothing out of a file is markup. What a browser makes of them
//! is in tests/pages.

use crate::common::{Folder, Ran, expect, repository, run};
use crate::games::{Game, roll};
use crate::pictures::{men_of_fen, men_of_picture, title, values};
use std::collections::{BTreeSet, HashMap};
use std::ffi::{OsStr, OsString};
use std::fs;
use std::os::unix::ffi::OsStrExt;
use std::process::Command;

/// A diagram: its id if it has one, its FEN, and the squares that are marked.
#[derive(Debug)]
struct Figure {
    id: Option<String>,
    fen: String,
    marked: Vec<String>,
}

/// The diagrams of a page, each with the men of its FEN.
fn figures(page: &str) -> Vec<Figure> {
    let one = |text: &str| {
        let (head, rest) = text.split_once('>').unwrap();
        let picture = rest.split("</svg>").next().unwrap();
        let fen = title(picture).to_string();
        assert_eq!(men_of_picture(picture), men_of_fen(&fen), "{fen}");
        assert!(rest.contains(&format!("<code>{fen}</code></figcaption>")), "{rest}");
        let marked = values(picture, "data-marked").iter().map(|square| square.to_string()).collect();
        Figure { id: values(head, "id").first().map(|id| id.to_string()), fen, marked }
    };
    page.split("<figure").skip(1).map(one).collect()
}

const ELEMENTS: &str = "a bdi body code defs div figcaption figure footer g h1 h2 h3 head html li main mark meta p path rect section span style sup svg \
                        text title ul use";
const ATTRIBUTES: &str = "aria-hidden charset class content d data-man data-marked data-square fill font-family font-size height href http-equiv id lang \
                          name role stroke stroke-linecap stroke-linejoin stroke-width text-anchor title viewBox width x y";

/// Whatever stands on a page, it has no other elements and attributes than these, no link that leads elsewhere, and each id once.
fn see_page(page: &str) {
    assert!(page.starts_with("<!DOCTYPE html>\n<html lang=\"en\"><head><meta charset=\"utf-8\"/>\n<meta http-equiv="), "{page}");
    assert!(page.contains("content=\"default-src &#39;none&#39;; style-src &#39;unsafe-inline&#39;\""), "{page}");
    let known = |names: &str, name: &str| names.split_whitespace().any(|known| known == name);
    for tag in page.split('<').skip(2).map(|tag| tag.split('>').next().unwrap()) {
        let name = tag.trim_start_matches('/').split([' ', '/']).next().unwrap();
        assert!(known(ELEMENTS, name), "<{tag}>");
        let quoted = tag.split('"').step_by(2).filter_map(|part| part.strip_suffix('='));
        assert!(quoted.map(str::trim).all(|part| known(ATTRIBUTES, part.rsplit(' ').next().unwrap())), "<{tag}>");
    }
    let ids = values(page, "id");
    let all: BTreeSet<&str> = ids.iter().copied().collect();
    assert_eq!(all.len(), ids.len(), "an id stands twice");
    for link in values(page, "href") {
        assert!(link.strip_prefix('#').is_some_and(|id| all.contains(id)), "{link} leads nowhere");
    }
    assert!(page.chars().all(|letter| letter == '\n' || !letter.is_control()));
}

fn sentence(page: &str) -> &str {
    page.split("<h1>").nth(1).unwrap().split("</h1>").next().unwrap()
}

/// A line of what the crate says of a game, by its names.
type Told = HashMap<String, String>;

fn told(actions: &str) -> Vec<Told> {
    let text = fs::read_to_string(actions.replace(".actions", ".told")).unwrap();
    let mut lines = text.lines().map(|line| line.split('\t').map(str::to_string).collect::<Vec<_>>());
    let head = lines.next().unwrap();
    lines.map(|line| head.iter().cloned().zip(line).collect()).collect()
}

fn fen(told: &Told) -> String {
    format!("{}{} {}", told["key"].strip_suffix("0 1").unwrap(), told["half"], told["full"])
}

/// Each move of a game has its link on the score sheet, and its diagram, with the move's squares marked.
fn see_moves(page: &str, told: &[Told]) {
    let figures: HashMap<String, Figure> = figures(page).into_iter().filter_map(|figure| Some((figure.id.clone()?, figure))).collect();
    let moved: Vec<&Told> = told.iter().filter(|entry| ["start", "move"].contains(&entry["kind"].as_str())).collect();
    assert_eq!(figures.len(), moved.len());
    for entry in moved {
        let (moves, is_start) = (&entry["moves"], entry["kind"] == "start");
        let name = if is_start { "start" } else { &entry["name"] };
        assert!(page.contains(&format!("<a id=\"m{moves}\" href=\"#p{moves}\">{name}</a>")), "{moves} {name}");
        let figure = &figures[&format!("p{moves}")];
        let squares = if is_start { vec![] } else { vec![entry["coordinates"][..2].to_string(), entry["coordinates"][2..4].to_string()] };
        assert_eq!((&figure.fen, &figure.marked), (&fen(entry), &squares));
    }
}

/// The equal positions, earliest first, that the crate tells: the first two and the last; the boards in between are of the same key.
fn see_equal(page: &str, told: &[Told]) {
    let last = told.last().unwrap();
    let shown: Vec<Figure> = figures(page).into_iter().filter(|figure| figure.id.is_none()).collect();
    let equals: usize = last["equals"].parse().unwrap();
    let at = |moves: &str| fen(told.iter().find(|entry| entry["moves"] == *moves).unwrap());
    let shown = &shown[shown.len() - (equals + 1).min(6)..];
    assert_eq!(shown.last().unwrap().fen, at(&last["moves"]));
    for (nth, name) in ["first", "second"].iter().enumerate().take(equals) {
        assert_eq!(shown[nth].fen, at(&last[*name]));
    }
    let counts = format!("The Laws&#39; count: {} of 100 moves", last["laws_count"]);
    assert!(page.contains(&counts) && page.contains(&format!("The log&#39;s count: {} of 100 moves", last["count"])));
}

/// The article that the sentence must have.
fn see_sentence(page: &str, told: &[Told]) {
    let last = told.last().unwrap();
    let sentence = sentence(page);
    let drawn = page.contains("; D, since when the game is drawn") || page.contains("; D1 to D5, the position that came five times");
    assert_eq!(sentence.starts_with("The game is drawn without a claim since "), drawn);
    match (last["laws_claim"].as_str(), last["result"].as_str()) {
        _ if drawn => assert!(sentence.contains("(article 9.6.") || sentence.contains("(articles 9.6.1 and 9.6.2)"), "{sentence}"),
        ("1", _) => assert!(sentence.contains("having the move, may claim a draw (article 9.3): "), "{sentence}"),
        ("2", _) => assert!(sentence.contains("having the move, may claim a draw (article 9.2): "), "{sentence}"),
        ("3", _) => assert!(sentence.contains("having the move, may claim a draw (articles 9.2 and 9.3): "), "{sentence}"),
        (_, "0") => assert!(sentence.starts_with("No draw may be claimed: ") && sentence.contains("9.2") && sentence.contains("9.3")),
        _ => assert!(sentence.starts_with("The game is over (") && sentence.ends_with("): no draw may be claimed."), "{sentence}"),
    }
    let only = last["laws_claim"] != "0" && last["claim"] == "0" && !drawn;
    assert_eq!(sentence.contains("though the log&#39;s own count"), only, "{sentence}");
}

#[test]
fn the_page_of_a_ruling_has_what_the_crate_says() {
    for (actions, positions, _) in Game::logs().into_iter().filter(|(actions, ..)| fs::metadata(actions).unwrap().len() < 4 * 400) {
        let ran = run(&["ruling", "--html", "-", &actions, &positions], b"");
        let (page, told) = (ran.text(), told(&actions));
        assert_eq!((ran.err.as_str(), ran.status), ("", run(&["ruling", &actions, &positions], b"").status));
        see_page(page);
        see_moves(page, &told);
        see_equal(page, &told);
        see_sentence(page, &told);
    }
}

#[test]
fn the_page_of_a_game_has_each_position_with_names_or_coordinates() {
    let folder = Folder::new();
    for (actions, positions, game) in
        Game::logs().into_iter().step_by(9).filter(|(actions, ..)| fs::metadata(actions).unwrap().len() < 4 * 400)
    {
        let (ran, mut told) = (run(&["show", "--html", "-", &actions, &positions], b""), told(&actions));
        assert_eq!((ran.err.as_str(), ran.status), ("", 0));
        see_page(ran.text());
        see_moves(ran.text(), &told);
        let ran = run(&["show", "--html", "-", &folder.file("roll", roll(&game))], b"");
        for told in &mut told {
            told.insert("name".into(), told["coordinates"].clone());
        }
        see_page(ran.text());
        see_moves(ran.text(), &told);
    }
}

fn examples(name: &str) -> [String; 2] {
    ["actions", "positions"].map(|part| repository(&format!("examples/{name}.{part}")))
}

#[test]
fn a_log_that_is_not_good_is_told_as_before_and_has_its_page() {
    let ([a, p], folder) = (examples("not-good"), Folder::new());
    let plain = run(&["ruling", &a, &p], b"");
    let file = folder.path("page");
    expect(&["ruling", "--html", &file, &a, &p], "", ("", &plain.err, 2));
    let page = fs::read_to_string(&file).unwrap();
    see_page(&page);
    let boards: Vec<Figure> = figures(&page).into_iter().filter(|figure| figure.id.is_none()).collect();
    let fens = ["8/PPPP1PPP/RNBQR1K1 w kq - 1 7", "8/PPPPBPPP/RNBQR1K1 b kq - 2 7", "8/PPPP1PPP/RNBQRBK1 b kq - 2 7"];
    assert_eq!(boards.len(), 3);
    assert!(boards.iter().zip(fens).all(|(board, fen)| board.fen.ends_with(fen)), "{boards:?}");
    assert_eq!(boards[0].marked, ["b5", "f1"]);
    assert_eq!(
        (&boards[1].marked, &boards[2].marked),
        (&vec!["f1".to_string(), "e2".to_string()], &vec!["f1".to_string(), "e2".to_string()])
    );
    let ran = run(&["show", "--html", "-", &a, &p], b"");
    assert_eq!((&ran.err, ran.status, figures(ran.text()).len()), (&plain.err, 2, 3 + 13));
    see_page(ran.text());
    // What comes before it can be ruled on, and the page says what is behind.
    let ran = run(&["ruling", "--at", "12", "--html", "-", &a, &p], b"");
    assert!(ran.status == 1 && ran.text().contains("<p class=\"fault\">") && ran.text().contains("; the first 12 actions stand</p>"));
    see_page(ran.text());
}

#[test]
fn every_kind_of_fault_has_its_page() {
    let ([a, p], folder) = (examples("threefold"), Folder::new());
    let (actions, positions) = (fs::read(a).unwrap(), fs::read(p).unwrap());
    let see = |damage: &dyn Fn(&mut Vec<u8>, &mut Vec<u8>), boards: usize| {
        let (mut actions, mut positions) = (actions.clone(), positions.clone());
        damage(&mut actions, &mut positions);
        let (a, p) = (folder.file("a", actions), folder.file("p", positions));
        let ran = run(&["ruling", "--html", "-", &a, &p], b"");
        assert_eq!((&ran.err, ran.status), (&run(&["ruling", &a, &p], b"").err, 2));
        see_page(ran.text());
        assert_eq!(figures(ran.text()).iter().filter(|figure| figure.id.is_none()).count(), boards);
    };
    see(&|_, p| p[0] = 13, 0);
    see(&|a, _| a[4 * 5] = 9, 1);
    see(&|a, _| a[4 * 5 + 2] = 0, 1);
    see(&|a, _| a[4 * 5 + 2..4 * 6].fill(255), 1);
    see(&|_, p| p[584 * 4 + 583] = 1, 1);
    see(&|_, p| p[584 * 4 + 68] = 9, 3);
    see(&|_, p| p.truncate(584 * 9), 1);
    see(&|_, p| p.extend([0; 584]), 0);
}

#[test]
fn any_bytes_have_a_page_or_none() {
    let ([a, p], folder) = (examples("threefold"), Folder::new());
    let (actions, positions) = (fs::read(a).unwrap(), fs::read(p).unwrap());
    let mut random = 1_u64;
    let mut next = |below: usize| {
        random = random.wrapping_mul(6_364_136_223_846_793_005).wrapping_add(1_442_695_040_888_963_407);
        (random >> 33) as usize % below
    };
    for turn in 0..80 {
        let (mut actions, mut positions) = (actions.clone(), positions.clone());
        let (at, byte) = (next(actions.len()), next(256) as u8);
        if turn % 2 == 0 {
            actions[at] = byte
        } else {
            positions[next(21_608)] = byte
        }
        let (a, p) = (folder.file("a", actions), folder.file("p", positions));
        for command in ["ruling", "show"] {
            let ran = run(&[command, "--html", "-", &a, &p], b"");
            let plain = run(&[command, &a, &p], b"");
            assert_eq!((&ran.err, ran.status), (&plain.err, plain.status));
            see_page(ran.text());
            figures(ran.text());
        }
    }
}

#[test]
fn the_page_of_two_games_has_both_starts_and_what_follows() {
    let (folder, games) = (Folder::new(), Game::logs());
    for (index, (_, _, game)) in games.iter().enumerate().step_by(7).filter(|(_, (_, _, game))| game.actions.len() < 400) {
        let mut other = game.clone();
        other.start[index % 64] = (other.start[index % 64] + 1) % 13;
        other.actions.truncate(game.actions.len() / 2);
        let (a, b) = (folder.file("a", roll(game)), folder.file("b", roll(&other)));
        let lines = run(&["diff", "--names", &a, &b], b"");
        let ran = run(&["diff", "--html", "-", &a, &b], b"");
        assert_eq!((ran.err.as_str(), ran.status), ("", 1));
        see_page(ran.text());
        let starts: Vec<Figure> = figures(ran.text()).into_iter().filter(|figure| figure.id.is_none()).collect();
        let square = format!("{}{}", char::from(b'a' + (index % 8) as u8), index % 64 / 8 + 1);
        assert!(starts.len() == 2 && starts.iter().all(|start| start.marked == [square.clone()]), "{starts:?}");
        for line in lines.text().lines() {
            let words = line.split('\t').nth(1).unwrap();
            assert!(ran.text().contains(&format!("<li>{words}</li>")), "{words}");
        }
        let moves = game.actions[other.actions.len()..].iter().filter(|(_, made)| made.is_some()).count();
        assert_eq!(figures(ran.text()).len(), 2 + moves);
    }
    let same = folder.file("same", roll(&games[0].2));
    let ran = run(&["diff", "--html", "-", &same, &same], b"");
    assert_eq!((sentence(ran.text()), ran.status), ("The two games are equal.", 0));
    let cut = folder.file("cut", b"cut");
    assert_eq!(run(&["diff", "--html", &folder.path("none"), &same, &cut], b""), run(&["diff", &same, &cut], b""));
    assert!(!fs::exists(folder.path("none")).unwrap());
}

/// Runs the program on files with these names.
fn with_names(words: &[&str], names: &[(&[u8], Vec<u8>)]) -> Ran {
    let folder = Folder::new();
    let mut all: Vec<OsString> = words.iter().map(OsString::from).collect();
    for (name, bytes) in names {
        let path = folder.0.join(OsStr::from_bytes(name));
        fs::write(&path, bytes).unwrap();
        all.push(path.into());
    }
    run(&all, b"")
}

#[test]
fn hostile_names_are_text() {
    let names: [&[u8]; 4] = [
        b"<script>alert(1)<\\script>",
        b"\"><img src=x onerror='alert(1)'>&lt;&#60;",
        b"</style></title></footer><svg onload=alert(1)>",
        b"--><!--\x01\x1b[31m\x7f\xff\xfe\xc3\x28\xe2\x80\xae.]]>",
    ];
    let names = names.map(|name| name.iter().map(|byte| if *byte == b'/' { b'|' } else { *byte }).collect::<Vec<u8>>());
    let parts = |name: &str| examples(name).map(|path| fs::read(path).unwrap());
    for (at, name) in names.iter().enumerate() {
        let other = &names[(at + 1) % names.len()];
        for log in ["threefold", "not-good"] {
            let [a, p] = parts(log);
            let log = [(&name[..], a), (&other[..], p)];
            for words in [&["ruling", "--html", "-"][..], &["show", "--html", "-"], &["ruling", "--at", "3", "--html", "-"]] {
                see_page(with_names(words, &log).text());
            }
        }
        let rolls = [Game::empty(), Game { actions: vec![(2, Some(796))], ..Game::empty() }].map(|game| roll(&game));
        let [first, second] = rolls;
        see_page(with_names(&["diff", "--html", "-"], &[(name, first.clone()), (other, second)]).text());
        let page = with_names(&["show", "--html", "-"], &[(name, first)]);
        see_page(page.text());
        // The name is there, as text.
        assert!(
            page.text()
                .contains(["&lt;script&gt;alert(1)&lt;", "&quot;&gt;&lt;img", "&lt;|style&gt;", "\\x01\\x1b[31m\\x7f\\xff\\xfe\\xc3("][at])
        );
    }
}

#[test]
fn a_page_is_written_whole_and_replaced_with_force_alone() {
    let ([a, p], folder) = (examples("threefold"), Folder::new());
    let file = folder.file("page", "old");
    expect(&["ruling", "--html", &file, &a, &p], "", ("", &format!("menkhodur: {file}: it exists; --force replaces it\n"), 2));
    assert_eq!(fs::read(&file).unwrap(), b"old");
    // A disk that takes 8 blocks of a file, where a write that goes over is refused and does not kill.
    let limited =
        format!("trap '' XFSZ; ulimit -f 8; exec '{}' ruling --force --html '{file}' '{a}' '{p}'", env!("CARGO_BIN_EXE_menkhodur"));
    let ran = Ran::of(Command::new("sh").args(["-c", &limited]).output().unwrap());
    assert_eq!((ran.text(), ran.err.as_str(), ran.status), ("", format!("menkhodur: {file}: File too large\n").as_str(), 2));
    assert_eq!((fs::read(&file).unwrap().as_slice(), fs::read_dir(&folder.0).unwrap().count()), (&b"old"[..], 1));
    expect(&["ruling", "--force", "--html", &file, &a, &p], "", ("", "", 0));
    assert_eq!(fs::read(&file).unwrap(), run(&["ruling", "--html", "-", &a, &p], b"").out);
    assert_eq!(fs::read_dir(&folder.0).unwrap().count(), 1);
    for words in [&["ruling", &a, &p][..], &["show", &a, &p], &["diff", &a, &p]] {
        let told = "menkhodur: only one of --html and --json can be written\n";
        expect(&[words, &["--json", "--html", "-"]].concat(), "", ("", told, 2));
    }
}
