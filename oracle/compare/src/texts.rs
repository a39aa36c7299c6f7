//! Texts to try: all short ones over an alphabet, random ones, damaged ones, and what is left of one after a cut.

use both::random::Random;

/// Characters of two, three and four bytes, at the edges of each length, and two that look like letters of chess.
const WIDE: [char; 10] =
    ['\u{80}', '\u{7FF}', '\u{800}', '\u{FFFF}', '\u{10000}', '\u{10FFFF}', 'é', 'а', '€', '𝄞'];

/// Every text of at most `most` bytes over the alphabet, the short ones first.
pub fn all(alphabet: &'static [u8], most: u32) -> impl Iterator<Item = String> {
    let base = alphabet.len() as u64;
    (0..=most).flat_map(move |length| {
        (0..base.pow(length)).map(move |mut n| {
            let mut text = String::with_capacity(length as usize);
            for _ in 0..length {
                text.push(alphabet[(n % base) as usize] as char);
                n /= base;
            }
            text
        })
    })
}

/// All 128 ASCII characters.
pub const ASCII: [u8; 128] = {
    let mut all = [0; 128];
    let mut i = 0;
    while i < 128 {
        all[i] = i as u8;
        i += 1;
    }
    all
};

/// A length near one of the boundaries, from two below to two above, or any up to the first of them.
pub fn length_near(boundaries: &[usize], random: &mut Random) -> usize {
    if random.once_in(2) {
        return random.below(boundaries[0] + 1);
    }
    (*random.pick(boundaries) + random.below(5)).saturating_sub(2)
}

pub fn random(length: usize, alphabet: &[u8], random: &mut Random) -> String {
    (0..length).map(|_| *random.pick(alphabet) as char).collect()
}

/// A text of about so many bytes with characters of every width.
pub fn random_wide(length: usize, alphabet: &[u8], random: &mut Random) -> String {
    let mut text = String::new();
    while text.len() < length {
        text.push(if random.once_in(3) { *random.pick(&WIDE) } else { *random.pick(alphabet) as char });
    }
    text
}

/// One to three small changes: a character dropped, replaced, doubled or put in, or an end cut off.
pub fn damage(text: &str, alphabet: &[u8], wide: bool, random: &mut Random) -> String {
    let mut chars: Vec<char> = text.chars().collect();
    for _ in 0..1 + random.below(3) {
        let at = random.below(chars.len() + 1);
        let new = if wide && random.once_in(4) { *random.pick(&WIDE) } else { *random.pick(alphabet) as char };
        match random.below(6) {
            0 if at < chars.len() => drop(chars.remove(at)),
            1 if at < chars.len() => chars[at] = new,
            2 if at < chars.len() => chars.insert(at, chars[at]),
            3 if random.once_in(2) => chars.truncate(at),
            _ => chars.insert(at, new),
        }
    }
    chars.into_iter().collect()
}

/// The text with some characters left out: halves first, then quarters, down to single characters.
pub fn cuts(text: &str) -> Vec<String> {
    let chars: Vec<char> = text.chars().collect();
    cut_lists(&chars).into_iter().map(|c| c.into_iter().collect()).collect()
}

/// So many entries are in all the cuts of one size at most, so that those of a long list do not fill the memory.
const MOST_CUT: usize = 1 << 22;

/// The list with a stretch left out: halves first, then quarters, down to single entries, of a long list not so far.
pub fn cut_lists<T: Clone>(list: &[T]) -> Vec<Vec<T>> {
    let mut out = vec![];
    let mut size = list.len();
    while size > 0 && list.len().div_ceil(size) * list.len() <= MOST_CUT {
        for start in (0..list.len()).step_by(size) {
            let end = (start + size).min(list.len());
            out.push([&list[..start], &list[end..]].concat());
        }
        size /= 2;
    }
    out
}

#[test]
fn all_are_there_once() {
    let texts: Vec<String> = all(b"ab", 3).collect();
    let different: std::collections::HashSet<&String> = texts.iter().collect();
    assert_eq!((texts.len(), different.len()), (15, 15));
}
