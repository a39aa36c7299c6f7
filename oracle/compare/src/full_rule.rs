//! The counters of a FEN text by the words of document 02, order 12, and by nothing else: the judge of the full reader's 25 and of the two numbers that
//! it adds to what the crate reads from the first four tokens.

/// "a fifth, then a sixth token"
const FIFTH: usize = 4;
const SIXTH: usize = 5;

/// Where the token with this index begins: behind so many spaces. None if there are fewer.
fn start_of(text: &[u8], index: usize) -> Option<usize> {
    match index {
        0 => Some(0),
        _ => text.iter().enumerate().filter(|(_, byte)| **byte == b' ').nth(index - 1).map(|(at, _)| at + 1),
    }
}

/// What a token says, or the offset of the refusal: the text's length where it "is missing", its start where it is "not one to four digits" or below
/// `least`, which for a move number is 1.
fn counter(text: &[u8], index: usize, least: u16) -> Result<u16, usize> {
    let start = start_of(text, index).ok_or(text.len())?;
    let mut sum = 0;
    let mut digits = 0;
    for byte in text[start..].iter().take_while(|byte| **byte != b' ') {
        digits += 1;
        if !byte.is_ascii_digit() || digits > 4 {
            return Err(start);
        }
        sum = 10 * sum + u16::from(byte - b'0');
    }
    if digits == 0 || sum < least { Err(start) } else { Ok(sum) }
}

/// The half-move clock and the move number, or where the first of them is wrong. What stands behind the sixth token is not looked at.
pub fn counters(text: &[u8]) -> Result<(u16, u16), usize> {
    let half = counter(text, FIFTH, 0)?;
    Ok((half, counter(text, SIXTH, 1)?))
}

#[test]
fn tells_the_first_bad_token_and_its_place() {
    let tells = |text: &str, told: Result<(u16, u16), usize>| assert_eq!(counters(text.as_bytes()), told, "{:?}", text);
    tells("8 w - -", Err(7));
    tells("8 w - - ", Err(8));
    tells("8 w - - x", Err(8));
    tells("8 w - - x y", Err(8));
    tells("8 w - - 0", Err(9));
    tells("8 w - - 0 ", Err(10));
    tells("8 w - - 0 0", Err(10));
    tells("8 w - -  1", Err(8));
    tells("8 w - - 00001 1", Err(8));
    tells("8 w - - 1 1\r", Err(10));
    for bad in ["+1", "-0", "0000", "10000", "1.", "0x1"] {
        tells(&format!("8 w - - 7 {} 1", bad), Err(10));
    }
    tells("8 w - - 0 1", Ok((0, 1)));
    tells("8 w - - 0000 0001", Ok((0, 1)));
    tells("8 w - - 9999 9999 x", Ok((9_999, 9_999)));
}
