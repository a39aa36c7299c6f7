//! `pgn`: both calls over PGN move text, from the start and from any place. What is owed comes from `movetext`, which was
//! written from the paper: the crate has no PGN.

use crate::movetext::{crossed, walk};
use crate::part::{Part, Tally};
use both::abi::{self, PgnCount, PgnMove};
use both::random::Random;

/// A text, and a place in it or past it.
#[derive(Clone)]
pub struct Input {
    pub text: Vec<u8>,
    pub offset: u64,
    pub level: u64,
}

#[derive(Default)]
pub struct Pgn;

/// Of these every text of up to six bytes is tried.
const ALPHABET: &[u8] = b"e10-*(){}; ";

const TOKENS: [&str; 40] = [
    "e4", "d5", "Nf3", "Nbxd2+", "O-O", "O-O-O#", "e8=Q", "exd6!?", "a1", "h8", "1.", "1", "12...", "10-1", "007.", "(", "(", "(", ")", ")", ")",
    "{a (b) c}", "{}", "{", "}", "; rest ( } \n", ";\r\n", "$1", "$139", "$", "1-0", "0-1", "1/2-1/2", "1/2", "*", "%", "x", ".", "\t", "\r\n",
];

/// Games as PGN has them, with comments and variations.
const GAMES: [&str; 3] = [
    "1. e4 e5 2. Nf3 d6 3. d4 Bg4 $6 {Better is (3... exd4).} (3... exd4 4. Nxd4 (4. Qxd4 Nc6 5. Bb5)) 4. dxe5 Bxf3 5. Qxf3 dxe5\n6. Bc4 Nf6 \
     7. Qb3 Qe7 8. Nc3 c6 9. Bg5 b5 10. Nxb5! cxb5 11. Bxb5+ Nbd7 12. O-O-O Rd8 ; all is pinned\n13. Rxd7 Rxd7 14. Rd1 Qe6 15. Bxd7+ Nxd7 \
     16. Qb8+ Nxb8 17. Rd8# 1-0",
    "1.e4 e5 2.f4 exf4 3.Bc4 Qh4+ 4.Kf1 b5?! 5.Bxb5 Nf6 6.Nf3 Qh6 7.d3 Nh5 8.Nh4 Qg5 9.Nf5 c6 10.g4 Nf6 11.Rg1! cxb5 12.h4 Qg6 13.h5 Qg5\r\n\
     14.Qf3 Ng8 15.Bxf4 Qf6 16.Nc3 Bc5 17.Nd5 Qxb2 18.Bd6! (18.d4 {first} (18.Be3 $5 (18.Re1))) 18...Bxg1 {threatens nothing} 19.e5 Qxa1+ 20.Ke2 \
     Na6 21.Nxg7+ Kd8 22.Qf6+ Nxf6 23.Be7# 1-0",
    "1. d4 d5 2. c4 c6 ( 2... e6 3. Nc3 ( 3. Nf3 ( 3. g3 ( 3. e3 ( 3. a3 ( 3. b3 ( 3. h3 ) ) ) ) ) ) ) 3. Nf3 Nf6 4. e3 Bf5 5. Nc3 e6 6. Nh4 Bg6 \
     7. Nxg6 hxg6 $10 1/2-1/2",
];

fn soup(random: &mut Random) -> Vec<u8> {
    let mut text = vec![];
    for _ in 0..random.below(18) {
        text.extend(random.pick(&TOKENS).bytes());
        if !random.once_in(3) {
            text.push(b' ');
        }
    }
    text
}

/// A game with some bytes changed, left out or put in.
fn damaged(random: &mut Random) -> Vec<u8> {
    let mut text = random.pick(&GAMES).as_bytes().to_vec();
    for _ in 0..random.below(4) {
        if text.is_empty() {
            break;
        }
        let at = random.below(text.len());
        match random.below(4) {
            0 => drop(text.remove(at)),
            1 => text.insert(at, *random.pick(b"(){};$*1. %")),
            2 => text[at] = random.next() as u8,
            _ => text.truncate(at + 1),
        }
    }
    text
}

/// Seven, eight and nine levels, closed or not.
fn nested(random: &mut Random) -> Vec<u8> {
    let opened = 6 + random.below(5);
    let closed = (opened + random.below(3)).saturating_sub(random.below(3));
    let part = |random: &mut Random, byte: u8| [vec![byte], random.pick(&TOKENS[..12]).bytes().collect()].concat();
    let mut text: Vec<u8> = (0..opened).flat_map(|_| part(random, b'(')).collect();
    text.extend((0..closed).flat_map(|_| part(random, b')')));
    text
}

fn any_place(text: &[u8], random: &mut Random) -> (u64, u64) {
    let wide = |random: &mut Random| random.next() >> random.below(64);
    let offset = if random.once_in(20) { wide(random) } else { random.below(text.len() + 3) as u64 };
    let level = if random.once_in(20) { wide(random) } else { random.below(10) as u64 };
    (offset, level)
}

/// The next move from a place.
fn compare_next(text: &[u8], offset: u64, level: u64, tally: &mut Tally) -> Result<PgnMove, String> {
    let (moves, number, at) = walk(text, offset, level);
    let (closed, opened) = crossed(text, offset, level);
    let owed = match moves.first() {
        Some(&(start, length, level)) => {
            let (start, length, level) = (start as u64, length as u64, level as u64);
            PgnMove { number: 0, offset: 0, found: 1, start, length, level, closed, opened }
        }
        None => PgnMove { number, offset: at, found: 0, start: 0, length: 0, level: 0, closed: 0, opened: 0 },
    };
    let ours = abi::pgn_next(text, offset, level);
    if ours != owed {
        return Err(format!("next from {} at level {}: owed {:?}, ours {:?}", offset, level, owed, ours));
    }
    tally.count("pgn: next", ours.number == 0);
    Ok(ours)
}

/// The check, and the walk from the start by the calls themselves: the moves that are owed, in their order, and then the end.
fn compare_whole(text: &[u8], tally: &mut Tally) -> Result<(), String> {
    let (moves, number, at) = walk(text, 0, 0);
    let counted = if number == 0 { moves.len() as u64 } else { 0 };
    let owed = PgnCount { number, offset: at, moves: counted };
    let ours = abi::pgn_check(text);
    if ours != owed {
        return Err(format!("check: owed {:?}, ours {:?}", owed, ours));
    }
    tally.count("pgn: check", ours.number == 0);
    let (mut offset, mut level, mut met) = (0, 0, vec![]);
    loop {
        let next = compare_next(text, offset, level, tally)?;
        if next.found == 0 {
            break;
        }
        met.push((next.start as usize, next.length as usize, next.level as usize));
        (offset, level) = (next.start + next.length, next.level);
    }
    if met != moves {
        return Err(format!("walked: owed {:?}, ours {:?}", moves, met));
    }
    Ok(())
}

impl Part for Pgn {
    type Input = Input;
    const NAME: &'static str = "pgn";

    fn fixed(&self) -> Box<dyn Iterator<Item = Input>> {
        let short = (0..=6_u32).flat_map(|length| {
            (0..ALPHABET.len().pow(length)).map(move |number| {
                let text: Vec<u8> = (0..length).map(|i| ALPHABET[number / ALPHABET.len().pow(i) % ALPHABET.len()]).collect();
                Input { text, offset: (number % 8) as u64, level: (number / 8 % 11) as u64 }
            })
        });
        let at_place = |game: &'static str, at: usize| Input { text: game.into(), offset: at as u64, level: at as u64 % 10 };
        let games = GAMES.iter().flat_map(move |game| (0..=game.len() + 1).map(move |at| at_place(game, at)));
        Box::new(short.chain(games))
    }

    fn random(&mut self, random: &mut Random) -> Option<Input> {
        let text = match random.below(4) {
            0 => damaged(random),
            1 => nested(random),
            _ => soup(random),
        };
        let (offset, level) = any_place(&text, random);
        Some(Input { text, offset, level })
    }

    fn compare(&self, input: &Input, tally: &mut Tally) -> Result<(), String> {
        compare_whole(&input.text, tally)?;
        compare_next(&input.text, input.offset, input.level, tally).map(drop)
    }

    fn smaller(&self, input: &Input) -> Vec<Input> {
        let (text, mut all) = (&input.text, vec![]);
        let mut size = text.len();
        while size > 0 {
            for from in (0..=text.len() - size).step_by(size.max(1)) {
                all.push(Input { text: [&text[..from], &text[from + size..]].concat(), ..*input });
            }
            size /= 2;
        }
        if input.level > 0 {
            all.push(Input { level: input.level / 2, ..input.clone() });
        }
        if input.offset > 0 {
            all.push(Input { offset: input.offset / 2, ..input.clone() });
        }
        all
    }

    fn show(&self, input: &Input) -> String {
        format!("{:?} from {} at level {}", String::from_utf8_lossy(&input.text), input.offset, input.level)
    }
}
