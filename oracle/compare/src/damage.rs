//! Rolls that are damaged: each byte cut, changed, doubled, removed, and bytes behind.

use both::random::Random;

/// How many ways a byte is damaged in.
const WAYS: usize = 9;

/// One damage at one place; behind the last byte, something is added.
fn one(roll: &[u8], at: usize, way: usize, random: &mut Random) -> Vec<u8> {
    let any = random.next() as u8;
    let (before, behind) = roll.split_at(at);
    let Some((byte, behind)) = behind.split_first() else { return [before, &[[0, 2, 4, 128, any][way % 5]]].concat() };
    let instead: &[u8] = match way {
        0 => return before.to_vec(),
        1 => &[byte.wrapping_add(1)],
        2 => &[byte ^ 128],
        3 => &[0],
        4 => &[255],
        5 => &[any],
        6 => &[*byte, *byte],
        7 => &[*byte, any],
        _ => &[],
    };
    [before, instead, behind].concat()
}

/// Every damage of a roll from one of its places on; those that leave it as it was are left out.
pub fn all(roll: Vec<u8>, from: usize, mut random: Random) -> impl Iterator<Item = Vec<u8>> {
    (WAYS * from..WAYS * (roll.len() + 1)).filter_map(move |n| {
        let damaged = one(&roll, n / WAYS, n % WAYS, &mut random);
        if damaged == roll { None } else { Some(damaged) }
    })
}

/// Two damages at once, at any two places.
pub fn twice(roll: &[u8], random: &mut Random) -> Vec<u8> {
    let mut damaged = roll.to_vec();
    for _ in 0..2 {
        let (at, way) = (random.below(damaged.len() + 1), random.below(WAYS));
        damaged = one(&damaged, at, way, random);
    }
    damaged
}

#[test]
fn each_way_is_taken() {
    let damaged: Vec<Vec<u8>> = all(vec![7, 9], 0, Random::new(1, "damage")).collect();
    for owed in [&[][..], &[7], &[9], &[8, 9], &[7, 137], &[7, 0], &[255, 9], &[7, 7, 9], &[7, 9, 9], &[7, 9, 0]] {
        assert!(damaged.iter().any(|d| d == owed), "{:?}", owed);
    }
}
