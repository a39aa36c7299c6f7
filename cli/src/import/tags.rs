//! A game's tags as a store keeps them: the seven of the PGN standard each in a column of its own, and all others, with their order and with equal
//! names, as JSON: `[["ECO","C57"],["WhiteElo","2700"]]`.

use super::digest::SEVEN;
use crate::json;
use std::str::Chars;

/// Tag pairs apart. A second pair with a name of the seven is one of the others.
pub struct Apart<'a> {
    pub seven: [Option<&'a str>; SEVEN.len()],
    pub others: String,
}

pub fn apart(tags: &[(String, String)]) -> Apart<'_> {
    let mut seven = [None; SEVEN.len()];
    let mut others = vec![];
    for (name, value) in tags {
        match SEVEN.iter().position(|known| known == name).filter(|at| seven[*at].is_none()) {
            Some(at) => seven[at] = Some(value.as_str()),
            None => others.push(json::array([json::quoted(name), json::quoted(value)])),
        }
    }
    Apart { seven, others: json::array(others) }
}

/// The pairs again, the seven first. None if the others are no such JSON.
pub fn together(seven: [Option<String>; SEVEN.len()], others: &str) -> Option<Vec<(String, String)>> {
    let mut pairs: Vec<_> = SEVEN.iter().zip(seven).filter_map(|(name, value)| Some((name.to_string(), value?))).collect();
    pairs.extend(Reader(others.chars()).pairs()?);
    Some(pairs)
}

/// Reads JSON of the form above, with blanks wherever JSON allows them.
struct Reader<'a>(Chars<'a>);

impl Reader<'_> {
    fn pairs(mut self) -> Option<Vec<(String, String)>> {
        let mut pairs = vec![];
        self.take('[')?;
        let mut more = self.take(']').is_none();
        while more {
            self.take('[')?;
            let name = self.text()?;
            self.take(',')?;
            let value = self.text()?;
            self.take(']')?;
            pairs.push((name, value));
            more = self.take(',').is_some();
            if !more {
                self.take(']')?;
            }
        }
        self.blanks().is_empty().then_some(pairs)
    }

    fn blanks(&mut self) -> &str {
        self.0 = self.0.as_str().trim_start_matches([' ', '\t', '\n', '\r']).chars();
        self.0.as_str()
    }

    fn take(&mut self, letter: char) -> Option<()> {
        let rest = self.blanks().strip_prefix(letter)?.len();
        let all = self.0.as_str();
        self.0 = all[all.len() - rest..].chars();
        Some(())
    }

    fn text(&mut self) -> Option<String> {
        let mut text = String::new();
        self.take('"')?;
        loop {
            match self.0.next()? {
                '"' => return Some(text),
                '\\' => text.push(self.escaped()?),
                letter => text.push(letter),
            }
        }
    }

    fn escaped(&mut self) -> Option<char> {
        Some(match self.0.next()? {
            letter @ ('"' | '\\' | '/') => letter,
            'b' => '\u{8}',
            'f' => '\u{c}',
            'n' => '\n',
            'r' => '\r',
            't' => '\t',
            'u' => return self.coded(),
            _ => return None,
        })
    }

    /// The four digits behind `\u`, and those of a second part if the first is one of two.
    fn coded(&mut self) -> Option<char> {
        let first = self.digits()?;
        if !(0xd800..0xdc00).contains(&first) {
            return char::from_u32(first);
        }
        if (self.0.next(), self.0.next()) != (Some('\\'), Some('u')) {
            return None;
        }
        let second = self.digits()?.checked_sub(0xdc00).filter(|second| *second < 0x400)?;
        char::from_u32(0x1_0000 + (first - 0xd800) * 0x400 + second)
    }

    fn digits(&mut self) -> Option<u32> {
        (0..4).try_fold(0, |sum, _| Some(sum * 16 + self.0.next()?.to_digit(16)?))
    }
}

#[cfg(test)]
mod tests {
    use super::*;

    fn pairs(pairs: &[(&str, &str)]) -> Vec<(String, String)> {
        pairs.iter().map(|(name, value)| (name.to_string(), value.to_string())).collect()
    }

    fn seven(apart: &Apart<'_>) -> [Option<String>; SEVEN.len()] {
        apart.seven.map(|value| value.map(str::to_string))
    }

    #[test]
    fn the_seven_are_apart_and_the_others_keep_their_order() {
        let tags = pairs(&[("ECO", "C57"), ("Site", "Hastings"), ("Event", "?"), ("Site", "twice"), ("ECO", "C57"), ("event", "")]);
        let kept = apart(&tags);
        assert_eq!(kept.seven, [Some("?"), Some("Hastings"), None, None, None, None, None]);
        assert_eq!(kept.others, r#"[["ECO","C57"],["Site","twice"],["ECO","C57"],["event",""]]"#);
        let again = together(seven(&kept), &kept.others);
        let expected = pairs(&[("Event", "?"), ("Site", "Hastings"), ("ECO", "C57"), ("Site", "twice"), ("ECO", "C57"), ("event", "")]);
        assert_eq!(again, Some(expected));
    }

    #[test]
    fn every_letter_comes_back() {
        let odd = "\0\u{1}\t\n\"\\/\u{7f}é\u{2028}\u{10ffff}😀 ";
        let tags = pairs(&[(odd, odd), ("", "")]);
        let kept = apart(&tags);
        assert!(kept.others.chars().all(|letter| !letter.is_control()));
        assert_eq!(together(seven(&kept), &kept.others), Some(tags));
        assert_eq!(together(Default::default(), "[]"), Some(vec![]));
    }

    #[test]
    fn json_of_other_writers_is_read_and_what_is_none_is_refused() {
        let read = |text: &str| together(Default::default(), text);
        let told = read(" [ [ \"a\\/\\b\\f\\n\\r\\t\" , \"\\u00e9\\ud83d\\ude00\" ] ,\n[\"\",\"\\\"\\\\\"] ] ");
        assert_eq!(told, Some(pairs(&[("a/\u{8}\u{c}\n\r\t", "é😀"), ("", "\"\\")])));
        for bad in ["", "[", "[]]", "[[]]", "[[\"a\"]]", "[[\"a\",\"b\"]", "[[\"a\",\"b\"],]", "[[\"a\",\"b\",\"c\"]]", "{}", "[[\"a\",1]]"]
        {
            assert_eq!(read(bad), None, "{bad}");
        }
        for bad in ["\\x", "\\u12", "\\ud800", "\\ud800\\u0041", "\\udc00", "\\ud800x", "\\"] {
            assert_eq!(read(&format!("[[\"{bad}\",\"\"]]")), None, "{bad}");
        }
    }
}
