//! The counts as a strip over the game: where each began, how far it has come, and where 100 is.

use crate::drawn;
use crate::markup::{Attributes, Markup, element, empty};
use crate::ruling::{Case, Since};
use menkhodur::lent::CLAIM_COUNT;

const WIDTH: usize = 640;
const EDGE: usize = 16;
/// Of the game, of a count and of the marks.
pub const COLOURS: [&str; 3] = ["#767676", "#0b3d91", "#a00000"];
/// The height of a bar, and of all that belongs to it.
const BAR: usize = 20;
const ROW: usize = 84;

/// The strip, one bar if the counts are one.
pub fn of(case: &Case) -> Markup {
    let ruling = &case.ruling;
    let one = ruling.count == ruling.laws_count;
    let laws = Bar { name: if one { "both counts" } else { "count of the Laws (9.3)" }, since: &case.laws_since, count: ruling.laws_count };
    let own = Bar { name: "count of the log", since: &case.since, count: ruling.count };
    let bars = if one { vec![laws] } else { vec![laws, own] };
    let end = bars.iter().map(|bar| bar.since.moves + CLAIM_COUNT).max().unwrap_or_default().max(ruling.moves);
    let scale = Scale { end, moves: ruling.moves };
    let title =
        format!("{} of {CLAIM_COUNT} moves by the Laws, {} by the log, over {} moves", ruling.laws_count, ruling.count, ruling.moves);
    // Only by the Laws' count, which comes first, a game is drawn without a claim.
    let marks = |at: usize| if at == 0 { &[CLAIM_COUNT, drawn::MOVES][..] } else { &[CLAIM_COUNT] };
    let drawn = bars.iter().enumerate().map(|(at, bar)| scale.bar(at * ROW, bar, marks(at)));
    let height = bars.len() * ROW;
    let view = format!("0 0 {WIDTH} {height}");
    let drawn = element("g", &[("font-family", "sans-serif"), ("font-size", "15")], drawn.collect());
    let inside = element("title", &[], Markup::text(title)).then(drawn);
    element("svg", &[("viewBox", &view), ("role", "img"), ("class", "strip")], inside).line()
}

struct Bar<'a> {
    name: &'static str,
    since: &'a Since,
    count: usize,
}

struct Scale {
    /// The number of moves at the right edge, and that of the game.
    end: usize,
    moves: usize,
}

impl Scale {
    fn x(&self, moves: usize) -> usize {
        EDGE + (WIDTH - 2 * EDGE) * moves / self.end.max(1)
    }

    /// A bar with its name over it, and under it where it begins and by what.
    fn bar(&self, top: usize, bar: &Bar<'_>, marks: &[usize]) -> Markup {
        let y = top + 40;
        let (from, to) = (self.x(bar.since.moves), self.x(bar.since.moves + bar.count));
        let began = match bar.since.moves {
            0 => "from the start".to_string(),
            moves => format!("from move {moves}: {}", bar.since.by.join(" and ")),
        };
        // About the width of a letter: so far left that the words are not cut.
        let x = from.min((WIDTH - EDGE).saturating_sub(8 * began.len())).max(EDGE);
        let parts = [
            rectangle(EDGE, y + BAR / 2 - 2, self.x(self.moves) - EDGE, 4, COLOURS[0]),
            rectangle(from, y, (to - from).max(2), BAR, COLOURS[1]),
            text(EDGE, top + 15, "start", &format!("{}: {}", bar.name, bar.count)),
            text(x, y + BAR + 16, "start", &began),
            marks.iter().map(|mark| self.mark(top + 22, bar, *mark)).collect(),
        ];
        element("g", &[], parts.into_iter().collect()).line()
    }

    /// Where a count comes to a number, which is 100, or behind it one that it has come to.
    fn mark(&self, top: usize, bar: &Bar<'_>, number: usize) -> Markup {
        if number > CLAIM_COUNT && bar.count < number {
            return Markup::NONE;
        }
        let x = self.x(bar.since.moves + number);
        // The first stands left of its mark, so that the second does not stand on it.
        let (anchor, at) = if number == CLAIM_COUNT { ("end", x - 4) } else { ("start", x + 6) };
        rectangle(x - 1, top, 3, BAR + 22, COLOURS[2]).then(text(at, top + 12, anchor, &number.to_string()))
    }
}

fn rectangle(x: usize, y: usize, width: usize, height: usize, fill: &str) -> Markup {
    let size = [x, y, width, height].map(|number| number.to_string());
    empty("rect", &[("x", &size[0]), ("y", &size[1]), ("width", &size[2]), ("height", &size[3]), ("fill", fill)])
}

fn text(x: usize, y: usize, anchor: &str, words: &str) -> Markup {
    let place: [String; 2] = [x.to_string(), y.to_string()];
    let names: Attributes<'_> = &[("x", &place[0]), ("y", &place[1]), ("text-anchor", anchor)];
    element("text", names, Markup::text(words))
}
