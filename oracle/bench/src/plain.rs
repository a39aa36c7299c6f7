//! The same job as `menkhodur_roll_read` and `menkhodur_roll_write`, with the same checks and nothing written when refused, in
//! plain safe Rust, as one would write it who has no proofs.

use both::abi::{Answer, Numbers, Record, Roll, ACTIONS_LENGTH, LAST_COUNT, MOST_ACTIONS, MOST_MOVES, NUMBERS};

const LARGEST_MOVE: u64 = 28_671;

fn in_range(record: &Numbers) -> bool {
    record[..64].iter().all(|n| *n <= 12) && record[64] <= 1 && record[65] <= 3 && record[66] <= 3 && record[67] <= 8
}

/// The number at the front of a text and what is behind it.
fn number(text: &[u8]) -> Option<(u64, &[u8])> {
    let mut n = 0;
    for (i, byte) in text.iter().take(5).enumerate() {
        n |= u64::from(byte & 127) << (7 * i);
        if *byte < 128 {
            let shortest = i == 0 || *byte != 0;
            return shortest.then(|| (n, &text[i + 1..]));
        }
    }
    None
}

fn counters_in_range(half: u64, full: u64) -> bool {
    let last = u64::from(LAST_COUNT);
    half <= last && full >= 1 && full <= last
}

/// The refusal of a record that is not 68 single bytes in range, the first from the left.
fn bad_record(mut text: &[u8]) -> u64 {
    for place in 0..NUMBERS {
        let most = match place {
            0..=63 => 12,
            64 => 1,
            65 | 66 => 3,
            _ => 8,
        };
        match number(text) {
            Some((n, behind)) if n <= most => text = behind,
            Some(_) => return 5,
            None => return 17,
        }
    }
    17
}

/// Hands each action's bytes on, or gives the refusal.
pub fn walk(mut text: &[u8], count: usize, mut put: impl FnMut(usize, [u8; 4])) -> Result<(), u64> {
    let mut moves = 0;
    for i in 0..count {
        let (code, behind) = number(text).ok_or(17u64)?;
        text = behind;
        let bytes = match code {
            2 if moves == MOST_MOVES => return Err(13),
            2 => {
                let (n, behind) = number(text).filter(|(n, _)| *n <= LARGEST_MOVE).ok_or(17u64)?;
                text = behind;
                moves += 1;
                [1, 0, n as u8, (n >> 8) as u8]
            }
            4 | 5 | 6 | 8 | 10 | 11 => [(code / 2) as u8, (code % 2) as u8, 0, 0],
            _ => return Err(17),
        };
        put(i, bytes);
    }
    if text.is_empty() { Ok(()) } else { Err(17) }
}

fn numbers_of(roll: &[u8]) -> Result<(&Numbers, &[u8]), u64> {
    match roll.split_first_chunk::<NUMBERS>() {
        Some((record, behind)) if in_range(record) => Ok((record, behind)),
        _ => Err(bad_record(roll)),
    }
}

/// One counter after the other, each judged before the next is looked at.
fn start_of(roll: &[u8]) -> Result<(Record, &[u8]), u64> {
    let (numbers, text) = numbers_of(roll)?;
    let (half, text) = number(text).ok_or(17u64)?;
    if !counters_in_range(half, 1) {
        return Err(5);
    }
    let (full, text) = number(text).ok_or(17u64)?;
    if !counters_in_range(half, full) {
        return Err(5);
    }
    Ok((Record { numbers: *numbers, half_moves: half as u16, full_moves: full as u16 }, text))
}

/// The start, the count, and the text of the actions, which is not looked at yet.
pub fn opened(roll: &[u8]) -> Result<(Record, usize, &[u8]), u64> {
    let (record, text) = start_of(roll)?;
    let (actions, text) = number(text).ok_or(17u64)?;
    if actions > MOST_ACTIONS as u64 {
        return Err(13);
    }
    Ok((record, actions as usize, text))
}

/// The same as an answer, behind the check of the part.
fn opening<'a>(roll: &'a [u8], part: &[u8]) -> Result<(Roll, &'a [u8]), u64> {
    if part.len() < ACTIONS_LENGTH {
        return Err(16);
    }
    let (record, actions, text) = opened(roll)?;
    Ok((Roll { number: 0, actions: actions as u64, board: record }, text))
}

/// Looks at the whole text before it writes.
fn try_read(roll: &[u8], part: &mut [u8]) -> Result<Roll, u64> {
    let (answer, text) = opening(roll, part)?;
    let count = answer.actions as usize;
    walk(text, count, |_, _| ())?;
    walk(text, count, |i, bytes| part[4 * i..4 * i + 4].copy_from_slice(&bytes))?;
    Ok(answer)
}

/// Gathers the actions and then copies them: one look at the text, and memory of its own.
fn try_read_gathering(roll: &[u8], part: &mut [u8]) -> Result<Roll, u64> {
    let (answer, text) = opening(roll, part)?;
    let count = answer.actions as usize;
    let mut gathered: Vec<[u8; 4]> = Vec::with_capacity(count);
    walk(text, count, |_, bytes| gathered.push(bytes))?;
    part[..4 * count].copy_from_slice(gathered.as_flattened());
    Ok(answer)
}

fn refused(number: u64) -> Roll {
    Roll { number, actions: 0, board: Record { full_moves: 0, ..Record::of([0; NUMBERS]) } }
}

pub fn read(roll: &[u8], part: &mut [u8]) -> Roll {
    try_read(roll, part).unwrap_or_else(refused)
}

pub fn read_gathering(roll: &[u8], part: &mut [u8]) -> Roll {
    try_read_gathering(roll, part).unwrap_or_else(refused)
}

fn length(n: u64) -> usize {
    match n {
        0..=127 => 1,
        128..=16_383 => 2,
        _ => 3,
    }
}

/// How many bytes the action takes in a roll; none if its bytes are no action's.
fn action_length(bytes: [u8; 4]) -> Option<usize> {
    let n = u64::from(u16::from_le_bytes([bytes[2], bytes[3]]));
    match (bytes[0], bytes[1], n) {
        (1, 0, 0..=LARGEST_MOVE) => Some(1 + length(n)),
        (2 | 5, 0 | 1, 0) | (3 | 4, 0, 0) => Some(1),
        _ => None,
    }
}

/// The length of the actions in a roll, or the refusal: too many moves before bytes that are no action.
fn actions_length(actions: &[[u8; 4]]) -> Result<usize, u64> {
    let (mut sum, mut moves, mut bad) = (0, 0, false);
    for bytes in actions {
        match action_length(*bytes) {
            Some(n) => {
                sum += n;
                moves += usize::from(bytes[0] == 1);
            }
            None => bad = true,
        }
    }
    match (moves > MOST_MOVES, bad) {
        (true, _) => Err(13),
        (false, true) => Err(17),
        (false, false) => Ok(sum),
    }
}

/// Writes a number and gives what is left of the room.
fn put(mut n: u64, mut room: &mut [u8]) -> &mut [u8] {
    loop {
        let (byte, left) = room.split_first_mut().expect("the length was counted");
        room = left;
        if n < 128 {
            *byte = n as u8;
            return room;
        }
        *byte = n as u8 | 128;
        n >>= 7;
    }
}

fn try_write(b: Record, part: &[u8], count: u64, out: &mut [u8]) -> Result<Answer, u64> {
    if part.len() < ACTIONS_LENGTH {
        return Err(16);
    }
    let (half, full) = (u64::from(b.half_moves), u64::from(b.full_moves));
    if !in_range(&b.numbers) || !counters_in_range(half, full) {
        return Err(5);
    }
    if count > MOST_ACTIONS as u64 {
        return Err(13);
    }
    let actions = &part.as_chunks::<4>().0[..count as usize];
    let needed = NUMBERS + length(half) + length(full) + length(count) + actions_length(actions)?;
    if out.len() < needed {
        return Ok(Answer { number: 7, value: needed as u64 });
    }
    let (front, behind) = out.split_at_mut(NUMBERS);
    front.copy_from_slice(&b.numbers);
    let mut room = put(count, put(full, put(half, behind)));
    for [kind, colour, low, high] in actions {
        room = put(u64::from(kind * 2 + colour), room);
        if *kind == 1 {
            room = put(u64::from(u16::from_le_bytes([*low, *high])), room);
        }
    }
    Ok(Answer { number: 0, value: needed as u64 })
}

pub fn write(b: Record, part: &[u8], count: u64, out: &mut [u8]) -> Answer {
    try_write(b, part, count, out).unwrap_or_else(|number| Answer { number, value: 0 })
}
