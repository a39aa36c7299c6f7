//! Pages for people to look at: HTML that needs nothing but itself, without scripts, that can be printed.

pub mod differences;
mod figure;
pub mod not_good;
pub mod ruled;
mod sentence;
mod sheet;
pub mod shown;
mod strip;

use crate::entry::Entry;
use crate::input;
use crate::lists::Lists;
use crate::markup::{Markup, element, empty};
use crate::options::{Asked, Flag, Status, Stop};
use crate::roll;
use crate::svg;
use crate::whole;
use std::ffi::OsString;

pub const HTML: Flag = Flag {
    name: "html",
    value: Some("FILE"),
    about: "write a page for people to look at, and nothing else, to FILE; - is standard output",
};

const STYLE: &str = include_str!("style.css");

/// Whatever a page has inside, a browser runs and fetches nothing.
const POLICY: &str = "default-src 'none'; style-src 'unsafe-inline'";

/// Writes a page to the file of `--html`; the status is what the command has come to.
pub fn put(asked: &Asked, page: &Markup, status: Status) -> Result<Status, Stop> {
    let file = asked.value(&HTML).unwrap_or_default();
    whole::put_or_say(file, page.as_str().as_bytes(), asked.has(&roll::FORCE), status)
}

/// Whether a page is asked for, which has the place of everything else that is printed.
pub fn wanted(asked: &Asked, json: &Flag) -> Result<bool, Stop> {
    match asked.has(&HTML) && asked.has(json) {
        true => Err(Stop::trouble("only one of --html and --json can be written")),
        false => Ok(asked.has(&HTML)),
    }
}

/// A page with a title and a body, made from the files that some words name.
fn page(title: &str, body: Markup, words: &[OsString]) -> Markup {
    let policy = [("http-equiv", "Content-Security-Policy"), ("content", POLICY)];
    let view = [("name", "viewport"), ("content", "width=device-width, initial-scale=1")];
    let head = [
        empty("meta", &[("charset", "utf-8")]).line(),
        empty("meta", &policy).line(),
        empty("meta", &view).line(),
        element("title", &[], Markup::text(title)).line(),
        element("style", &[], Markup::fixed(STYLE)).line(),
    ];
    let body = svg::shared().then(element("main", &[], body)).line().then(footer(words));
    let inside = element("head", &[], head.into_iter().collect()).line().then(element("body", &[], body)).line();
    Markup::fixed("<!DOCTYPE html>\n").then(element("html", &[("lang", "en")], inside)).line()
}

fn footer(words: &[OsString]) -> Markup {
    let name = |word: &OsString| element("bdi", &[], Markup::text(input::shown(word)));
    let mut names = words.iter().map(name);
    let first = names.next().unwrap_or_default();
    let all = names.fold(first, |all, next| all.then(Markup::text(" and ")).then(next));
    let about = ". Positions, names, counts and what is equal are the proved archive's; the words are the program's.";
    element("footer", &[], Markup::text("Made by menkhodur from ").then(all).then(Markup::text(about))).line()
}

/// What came of the lists, if they were judged: each position that is wrong stands out.
fn judged(lists: Option<&Lists>, entries: &[Entry]) -> Markup {
    lists.map_or(Markup::NONE, |lists| {
        let each = lists.each(entries).map(|told| element("p", &[("class", "fault")], Markup::text(told)).line());
        paragraph(format!("Judged: {}.", lists.told())).then(each.collect())
    })
}

fn heading(text: &str) -> Markup {
    element("h2", &[], Markup::text(text)).line()
}

fn paragraph(text: impl AsRef<[u8]>) -> Markup {
    element("p", &[], Markup::text(text)).line()
}

#[cfg(test)]
mod tests {
    use super::*;

    /// How bright a colour is, and how far two are apart, by the guidelines for accessible pages (WCAG 2.1).
    fn brightness(colour: &str) -> f64 {
        let hex = colour.trim_start_matches('#');
        let wide = hex.len() / 3;
        let part = |at: usize| u8::from_str_radix(&hex[wide * at..wide * (at + 1)].repeat(3 - wide), 16).unwrap();
        let linear = |part: u8| match f64::from(part) / 255.0 {
            low if low <= 0.03928 => low / 12.92,
            high => ((high + 0.055) / 1.055).powf(2.4),
        };
        0.2126 * linear(part(0)) + 0.7152 * linear(part(1)) + 0.0722 * linear(part(2))
    }

    fn contrast(one: &str, other: &str) -> f64 {
        let (one, other) = (brightness(one), brightness(other));
        (one.max(other) + 0.05) / (one.min(other) + 0.05)
    }

    #[test]
    fn colours_are_far_enough_apart() {
        assert!((contrast("#000", "#ffffff") - 21.0).abs() < 0.01 && (contrast("#777777", "#fff") - 4.48).abs() < 0.01);
        let text = STYLE.split(" color: #").skip(1).map(|rest| &rest[..rest.find(';').unwrap()]);
        for colour in text {
            assert!(contrast(colour, "#fff") >= 7.0, "{colour}");
        }
        // What is drawn: black men and outlines on every square, and the marks' frames on what is beside them.
        for square in [svg::LIGHT, svg::DARK, svg::MARK] {
            assert!(contrast("#000", square) >= 7.0, "{square}");
            assert!(contrast(svg::MARK_FRAME, square) >= 3.0, "{square}");
        }
        assert!(strip::COLOURS.iter().all(|colour| contrast(colour, "#fff") >= 4.5));
    }
}
