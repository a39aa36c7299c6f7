//! A source that a store knows, and how far its import is.

use super::store::{Begun, Source};

/// A source that was begun, with the bytes and the digest that it had then.
#[derive(Clone, Debug, PartialEq, Eq)]
pub struct Known {
    pub id: i64,
    pub name: String,
    pub bytes: Option<u64>,
    pub digest: Option<u64>,
    pub begun: Begun,
}

impl Known {
    /// Whether it is the source whose name it has, or another with that name. While no game of it is done, it may change.
    pub fn judge(&self, source: &Source) -> Result<(), String> {
        if (self.bytes, self.digest) == (source.bytes, source.digest) || self.begun.done == 0 {
            return Ok(());
        }
        let told = |bytes: Option<u64>| bytes.map_or("an unknown number of bytes".to_string(), |bytes| format!("{bytes} bytes"));
        let differs = match (self.bytes, source.bytes) {
            (then, now) if then == now => "of as many bytes, but other ones".to_string(),
            (then, now) => format!("of {} then and {} now", told(then), told(now)),
        };
        let advice = "give it another name, or bring the file back that was begun";
        Err(format!("{}: the import of another file was begun under this name, {differs}: {advice}", self.name))
    }

    /// Whether its import is as far as it was left here, and of the same file: nobody else goes on with it.
    pub fn judge_progress(&self, found: Option<&Known>) -> Result<(), String> {
        let Some(found) = found else { return Err(format!("{}: someone has removed it from the store", self.name)) };
        if found == self {
            return Ok(());
        }
        let (here, there) = (self.begun.done, found.begun.done);
        let differs =
            if here == there { "of another file".to_string() } else { format!("{here} games were done here, and {there} are now") };
        Err(format!("{}: another import of it is under way: {differs}", self.name))
    }
}

#[cfg(test)]
mod tests {
    use super::*;

    #[test]
    fn another_file_of_the_same_name_is_told_unless_nothing_is_done() {
        let begun = Begun { done: 7, digest: 8 };
        let known = Known { id: 1, name: "a.pgn".into(), bytes: Some(10), digest: Some(3), begun };
        let source = |bytes, digest| Source { name: "a.pgn".into(), bytes, digest };
        assert_eq!(known.judge(&source(Some(10), Some(3))), Ok(()));
        let told = known.judge(&source(Some(11), Some(3))).unwrap_err();
        assert!(
            told.starts_with("a.pgn: the import of another file was begun under this name, of 10 bytes then and 11 bytes now: give"),
            "{told}"
        );
        assert!(known.judge(&source(Some(10), Some(4))).unwrap_err().contains("of as many bytes, but other ones"));
        assert!(known.judge(&source(None, None)).unwrap_err().contains("an unknown number of bytes now"));
        assert_eq!(Known { begun: Begun::default(), ..known.clone() }.judge(&source(Some(11), None)), Ok(()));
    }

    #[test]
    fn whoever_else_goes_on_is_told() {
        let begun = Begun { done: 7, digest: 8 };
        let known = Known { id: 1, name: "a.pgn".into(), bytes: Some(3), digest: None, begun };
        assert_eq!(known.judge_progress(Some(&known)), Ok(()));
        let further = |done, digest| Known { begun: Begun { done, digest }, ..known.clone() };
        let told = |found: &Known| known.judge_progress(Some(found)).unwrap_err();
        assert_eq!(told(&further(9, 8)), "a.pgn: another import of it is under way: 7 games were done here, and 9 are now");
        let other = "a.pgn: another import of it is under way: of another file";
        assert_eq!(told(&further(7, 9)), other);
        assert_eq!(told(&Known { bytes: Some(4), ..known.clone() }), other);
        assert_eq!(told(&Known { digest: Some(1), ..known.clone() }), other);
        assert!(known.judge_progress(None).is_err());
    }
}
