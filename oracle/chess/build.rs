//! STAND-IN (not the crate's code): writes the tables that the given magic.rs and zobrist.rs include, computed from the
//! rules of chess. The magic and Zobrist numbers are our own.

use std::fmt::Write as _;
use std::{env, fs, path::Path};

type Steps = [(i32, i32)];

const STRAIGHT: [(i32, i32); 4] = [(0, 1), (0, -1), (1, 0), (-1, 0)];
const DIAGONAL: [(i32, i32); 4] = [(1, 1), (1, -1), (-1, 1), (-1, -1)];
const AROUND: [(i32, i32); 8] = [(0, 1), (0, -1), (1, 0), (-1, 0), (1, 1), (1, -1), (-1, 1), (-1, -1)];
const LEAPS: [(i32, i32); 8] = [(1, 2), (2, 1), (-1, 2), (-2, 1), (1, -2), (2, -1), (-1, -2), (-2, -1)];

/// The square so many ranks and files away, if it is on the board.
fn step(square: usize, (ranks, files): (i32, i32)) -> Option<usize> {
    let (rank, file) = ((square / 8) as i32 + ranks, (square % 8) as i32 + files);
    ((0..8).contains(&rank) && (0..8).contains(&file)).then(|| (rank * 8 + file) as usize)
}

fn set(squares: &[usize]) -> u64 {
    squares.iter().fold(0, |all, s| all | 1 << s)
}

fn leaps(square: usize, steps: &Steps) -> u64 {
    set(&steps.iter().filter_map(|d| step(square, *d)).collect::<Vec<_>>())
}

fn slide(square: usize, steps: &Steps, blockers: u64) -> u64 {
    let mut reached = 0;
    for d in steps {
        let mut at = square;
        while let Some(next) = step(at, *d) {
            reached |= 1 << next;
            at = next;
            if blockers >> next & 1 == 1 {
                break;
            }
        }
    }
    reached
}

/// The squares whose blocking matters: the rays without their last square.
fn mask(square: usize, steps: &Steps) -> u64 {
    let mut inner = 0;
    for d in steps {
        let mut at = square;
        while let Some(next) = step(at, *d) {
            if step(next, *d).is_some() {
                inner |= 1 << next;
            }
            at = next;
        }
    }
    inner
}

struct Random(u64);

impl Random {
    fn next(&mut self) -> u64 {
        self.0 = self.0.wrapping_add(0x9E37_79B9_7F4A_7C15);
        let mut z = self.0;
        z = (z ^ (z >> 30)).wrapping_mul(0xBF58_476D_1CE4_E5B9);
        z = (z ^ (z >> 27)).wrapping_mul(0x94D0_49BB_1331_11EB);
        z ^ (z >> 31)
    }

    fn row(&mut self, length: usize) -> Vec<u64> {
        (0..length).map(|_| self.next()).collect()
    }
}

fn subsets(mask: u64) -> Vec<u64> {
    let mut all = vec![0];
    let mut one = 0u64.wrapping_sub(mask) & mask;
    while one != 0 {
        all.push(one);
        one = one.wrapping_sub(mask) & mask;
    }
    all
}

/// The table that this number makes, or none if two blockings with different moves meet in one place.
fn table_of(number: u64, shift: u32, cases: &[(u64, u64)]) -> Option<Vec<u64>> {
    let mut table = vec![0; cases.len()];
    for (blockers, moves) in cases {
        let place = &mut table[(blockers.wrapping_mul(number) >> shift) as usize];
        // No slider has an empty set of moves, so 0 says that the place is free.
        if *place != 0 && *place != *moves {
            return None;
        }
        *place = *moves;
    }
    Some(table)
}

fn find_magic(square: usize, steps: &Steps, random: &mut Random) -> (u64, u32, Vec<u64>) {
    let mask = mask(square, steps);
    let shift = 64 - mask.count_ones();
    let cases: Vec<(u64, u64)> = subsets(mask).iter().map(|b| (*b, slide(square, steps, *b))).collect();
    loop {
        let number = random.next() & random.next() & random.next();
        if (mask.wrapping_mul(number) >> 56).count_ones() < 6 {
            continue;
        }
        if let Some(table) = table_of(number, shift, &cases) {
            return (number, shift, table);
        }
    }
}

fn row(numbers: &[u64]) -> String {
    let cells: Vec<String> = numbers.iter().map(|n| format!("BitBoard({})", n)).collect();
    format!("[{}]", cells.join(","))
}

fn rows(table: &[Vec<u64>]) -> String {
    let lines: Vec<String> = table.iter().map(|r| row(r)).collect();
    format!("[{}]", lines.join(","))
}

fn of_squares(entry: impl Fn(usize) -> u64) -> Vec<u64> {
    (0..64).map(entry).collect()
}

/// Writes `pub static NAME: [BitBoard; n]`.
fn table(out: &mut String, name: &str, numbers: &[u64]) {
    writeln!(out, "pub static {}: [BitBoard; {}] = {};", name, numbers.len(), row(numbers)).unwrap();
}

/// Writes `pub static NAME: [[BitBoard; 64]; n]`.
fn tables(out: &mut String, name: &str, numbers: &[Vec<u64>]) {
    writeln!(out, "pub static {}: [[BitBoard; 64]; {}] = {};", name, numbers.len(), rows(numbers)).unwrap();
}

fn constant(out: &mut String, name: &str, number: u64) {
    writeln!(out, "/// A set of squares.\npub const {}: BitBoard = BitBoard({});", name, number).unwrap();
}

fn sliders(out: &mut String, random: &mut Random) {
    out.push_str("pub const ROOK: usize = 0;\npub const BISHOP: usize = 1;\n");
    out.push_str("#[derive(Copy, Clone)]\npub struct Magic {");
    out.push_str("magic_number: BitBoard, mask: BitBoard, offset: u32, rightshift: u8 }\n");
    let rays = [&STRAIGHT, &DIAGONAL].map(|steps| of_squares(|s| slide(s, steps, 0)));
    tables(out, "RAYS", &rays);
    let mut moves: Vec<u64> = vec![];
    out.push_str("static MAGIC_NUMBERS: [[Magic; 64]; 2] = [");
    for steps in [&STRAIGHT, &DIAGONAL] {
        out.push('[');
        for square in 0..64 {
            let (number, shift, table) = find_magic(square, steps, random);
            let (mask, offset) = (mask(square, steps), moves.len());
            let numbers = format!("magic_number: BitBoard({}), mask: BitBoard({})", number, mask);
            write!(out, "Magic {{ {}, offset: {}, rightshift: {} }},", numbers, offset, shift).unwrap();
            moves.extend(table);
        }
        out.push_str("],");
    }
    out.push_str("];\n");
    table(out, "MOVES", &moves);
}

fn leapers_and_pawns(out: &mut String) {
    table(out, "KING_MOVES", &of_squares(|s| leaps(s, &AROUND)));
    table(out, "KNIGHT_MOVES", &of_squares(|s| leaps(s, &LEAPS)));
    let attacks = |up: i32| of_squares(|s| leaps(s, &[(up, 1), (up, -1)]));
    tables(out, "PAWN_ATTACKS", &[attacks(1), attacks(-1)]);
    let pushes = |up: i32, second: usize| {
        let steps = [(up, 0), (2 * up, 0)];
        of_squares(|s| leaps(s, if s / 8 == second { &steps } else { &steps[..1] }))
    };
    tables(out, "PAWN_MOVES", &[pushes(1, 1), pushes(-1, 6)]);
}

fn sets(out: &mut String) {
    let rank = |r: usize| 0xFFu64 << (8 * r);
    let file = |f: usize| 0x0101_0101_0101_0101u64 << f;
    let beside = |f: usize| (if f > 0 { file(f - 1) } else { 0 }) | (if f < 7 { file(f + 1) } else { 0 });
    constant(out, "CASTLE_MOVES", set(&[2, 4, 6, 58, 60, 62]));
    constant(out, "PAWN_SOURCE_DOUBLE_MOVES", rank(1) | rank(6));
    constant(out, "PAWN_DEST_DOUBLE_MOVES", rank(3) | rank(4));
    constant(out, "EDGES", rank(0) | rank(7) | file(0) | file(7));
    table(out, "KINGSIDE_CASTLE_SQUARES", &[set(&[5, 6]), set(&[61, 62])]);
    table(out, "QUEENSIDE_CASTLE_SQUARES", &[set(&[1, 2, 3]), set(&[57, 58, 59])]);
    table(out, "RANKS", &(0..8).map(rank).collect::<Vec<_>>());
    table(out, "FILES", &(0..8).map(file).collect::<Vec<_>>());
    table(out, "ADJACENT_FILES", &(0..8).map(beside).collect::<Vec<_>>());
}

/// For two squares on one line: the whole line, and what lies between them.
fn lines(out: &mut String) {
    let mut line = vec![vec![0u64; 64]; 64];
    let mut between = vec![vec![0u64; 64]; 64];
    for from in 0..64 {
        for d in AROUND {
            let whole = 1u64 << from | slide(from, &[d, (-d.0, -d.1)], 0);
            let (mut at, mut passed) = (from, 0u64);
            while let Some(next) = step(at, d) {
                line[from][next] = whole;
                between[from][next] = passed;
                passed |= 1 << next;
                at = next;
            }
        }
    }
    tables(out, "LINE", &line);
    tables(out, "BETWEEN", &between);
}

fn zobrist(random: &mut Random) -> String {
    let two = |make: &mut dyn FnMut() -> String| format!("[{}, {}]", make(), make());
    let men = two(&mut || format!("{:?}", (0..6).map(|_| random.row(64)).collect::<Vec<_>>()));
    let castles = two(&mut || format!("{:?}", random.row(4)));
    let files = two(&mut || format!("{:?}", random.row(8)));
    format!(
        "const SIDE_TO_MOVE: u64 = {};
         const ZOBRIST_PIECES: [[[u64; NUM_SQUARES]; NUM_PIECES]; NUM_COLORS] = {};
         const ZOBRIST_CASTLES: [[u64; 4]; NUM_COLORS] = {};
         const ZOBRIST_EP: [[u64; NUM_FILES]; NUM_COLORS] = {};\n",
        random.next(), men, castles, files
    )
}

fn main() {
    println!("cargo:rerun-if-changed=build.rs");
    let mut random = Random(1);
    let mut magic = String::new();
    sliders(&mut magic, &mut random);
    leapers_and_pawns(&mut magic);
    sets(&mut magic);
    lines(&mut magic);
    let out = env::var("OUT_DIR").expect("cargo sets OUT_DIR");
    fs::write(Path::new(&out).join("magic_gen.rs"), magic).expect("room for the tables");
    fs::write(Path::new(&out).join("zobrist_gen.rs"), zobrist(&mut random)).expect("room for the tables");
}
