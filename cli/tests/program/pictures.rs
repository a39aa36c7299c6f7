//! Pictures of boards: `menkhodur explain --svg`. What a picture shows is read off it and compared with a reading of the FEN of our own.

use crate::common::{Folder, INITIAL, expect, repository, run};
use std::fs;

/// The men that a FEN says, by its own words: from a8, rank by rank, digits being empty squares; as `e4 P`, sorted.
pub fn men_of_fen(fen: &str) -> Vec<String> {
    let mut men = vec![];
    for (rank, row) in ('1'..='8').rev().zip(fen.split(' ').next().unwrap().split('/')) {
        let mut file = b'a';
        for letter in row.bytes() {
            match letter {
                b'1'..=b'8' => file += letter - b'0',
                man => {
                    men.push(format!("{}{rank} {}", char::from(file), char::from(man)));
                    file += 1;
                }
            }
        }
    }
    men.sort();
    men
}

/// The values of an attribute, in order.
pub fn values<'a>(markup: &'a str, name: &str) -> Vec<&'a str> {
    let name = format!(" {name}=\"");
    markup.split(name.as_str()).skip(1).map(|rest| rest.split('"').next().unwrap()).collect()
}

/// The men that a picture says, in the same way.
pub fn men_of_picture(markup: &str) -> Vec<String> {
    let mut men: Vec<String> =
        values(markup, "data-square").iter().zip(values(markup, "data-man")).map(|(square, man)| format!("{square} {man}")).collect();
    men.sort();
    men
}

/// What stands for a picture where it cannot be seen.
pub fn title(markup: &str) -> &str {
    markup.split("<title>").nth(1).unwrap().split("</title>").next().unwrap()
}

#[test]
fn a_picture_has_the_men_of_its_fen() {
    let fens = fs::read_to_string(repository("examples/positions.fen")).unwrap();
    for fen in fens.lines().step_by(97).chain([INITIAL, "8/8/8/8/8/8/8/8 w - - 0 1", "qqqqqqqq/8/8/8/8/8/8/KRBNQPpk b - - 3 4"]) {
        let ran = run(&["explain", "--full", "--svg", "-", fen], b"");
        let text = ran.text();
        // Some examples are second names, but their men are those of the key.
        assert_eq!((ran.err.as_str(), ran.status, title(text).split(' ').next()), ("", 0, fen.split(' ').next()));
        assert_eq!(men_of_picture(text), men_of_fen(fen));
        assert!(
            text.starts_with("<svg xmlns=\"http://www.w3.org/2000/svg\" ") && text.contains(" role=\"img\"") && text.ends_with("</svg>\n")
        );
        assert!(!text.contains("href") && !text.contains("script") && !text.contains("style"), "{text}");
    }
}

#[test]
fn a_man_stands_on_its_square() {
    let ran = run(&["explain", "--svg", "-", "8/8/8/8/4P3/8/8/8 w - - 7 9"], b"");
    assert_eq!(title(ran.text()), "8/8/8/8/4P3/8/8/8 w - - 0 1");
    assert!(ran.text().contains("<g transform=\"translate(202 182)\" data-square=\"e4\" data-man=\"P\">"), "{}", ran.text());
}

#[test]
fn a_file_is_written_whole_and_replaced_with_force_alone() {
    let folder = Folder::new();
    let file = folder.path("board.svg");
    let picture = run(&["explain", "--svg", "-", INITIAL], b"").out;
    expect(&["explain", "--svg", &file, INITIAL], "", ("", "", 0));
    assert_eq!(fs::read(&file).unwrap(), picture);
    expect(
        &["explain", "--svg", &file, "8/8/8/8/8/8/8/8 w - -"],
        "",
        ("", &format!("menkhodur: {file}: it exists; --force replaces it\n"), 2),
    );
    assert_eq!(fs::read(&file).unwrap(), picture);
    expect(&["explain", "--force", "--svg", &file, "8/8/8/8/8/8/8/8", "w", "-", "-"], "", ("", "", 0));
    assert_ne!(fs::read(&file).unwrap(), picture);
    assert_eq!(fs::read_dir(&folder.0).unwrap().count(), 1);
}

#[test]
fn a_refused_text_has_no_picture() {
    let folder = Folder::new();
    let file = folder.path("none.svg");
    let told = "menkhodur: refused: the FEN text ends before its fourth token, at byte 7 (answer 18)\n  8/8 w -\n         ^\n";
    expect(&["explain", "--svg", &file, "8/8 w -"], "", ("", told, 1));
    expect(&["explain", "--svg", "-", "8/8 w -"], "", ("", told, 1));
    assert!(!fs::exists(&file).unwrap());
    let told = "menkhodur: --svg is for one FEN, without --json; see menkhodur explain --help\n";
    expect(&["explain", "--svg", &file, "-"], INITIAL, ("", told, 2));
    expect(&["explain", "--json", "--svg", &file, INITIAL], "", ("", told, 2));
}
