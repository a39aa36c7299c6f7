//! `--host COMMAND`: another program lends the lists of moves, over a pipe. For each position it is given one line, the full FEN, and
//! answers one line: the moves in coordinates, single spaces between them, in any order, and an empty line for none. A line that begins
//! with `!` tells why it has no list.

use crate::told;
use menkhodur::lent::{self, MAX_FULL_FEN, MAX_LIST, Record};
use menkhodur::{Lends, Lent};
use std::ffi::{OsStr, OsString};
use std::io::{self, BufRead, BufReader, Read, Write};
use std::os::unix::ffi::OsStrExt;
use std::process::{Child, ChildStdin, ChildStdout, Command, ExitStatus, Stdio};
use std::thread;
use std::time::Duration;

/// The most bytes that an answer may have. A longest list of moves has some 1,500.
const LONGEST: usize = 65_536;

/// How much of an answer is told.
const TOLD: usize = 200;

/// A program that is asked over a pipe.
pub struct Piped {
    command: OsString,
    child: Child,
    /// None once the pipe is closed.
    to: Option<ChildStdin>,
    from: BufReader<ChildStdout>,
    /// The question, and then the answer.
    line: Vec<u8>,
}

impl Piped {
    /// Has the shell start the command. What the command says on its standard error goes to our own.
    pub fn start(command: &OsStr) -> Result<Piped, String> {
        let told = |why: &str| format!("{}: it cannot be started: {why}", named(command));
        let mut shell = Command::new("sh");
        shell.arg("-c").arg(command).stdin(Stdio::piped()).stdout(Stdio::piped());
        let mut child = shell.spawn().map_err(|error| told(&told::system(&error)))?;
        let (to, from) = (child.stdin.take(), child.stdout.take());
        let from = BufReader::new(from.ok_or_else(|| told("there is no pipe"))?);
        Ok(Piped { command: command.to_owned(), child, to, from, line: Vec::new() })
    }

    /// Closes the pipe and waits until the command has ended. Trouble: an exit status that is not 0, and an answer without a question.
    pub fn end(&mut self) -> Result<(), String> {
        self.to = None;
        let more = self.answer_left().map_err(|error| self.told(&told::system(&error)))?;
        let status = self.child.wait().map_err(|error| self.told(&told::system(&error)))?;
        match more {
            true => Err(self.told(UNASKED)),
            false if status.success() => Ok(()),
            false => Err(self.told(&format!("it has ended with {status}"))),
        }
    }

    fn told(&self, why: &str) -> String {
        format!("{}: {why}", named(&self.command))
    }

    /// Whether anything is left to read. Bytes behind the first are read and dropped, so that the command is not held up.
    fn answer_left(&mut self) -> io::Result<bool> {
        let more = !self.from.fill_buf()?.is_empty();
        io::copy(&mut self.from, &mut io::sink())?;
        Ok(more)
    }

    fn ask(&mut self, fen: &[u8], into: &mut Lent) -> Result<(), String> {
        if !self.from.buffer().is_empty() {
            return Err(UNASKED.into());
        }
        self.line.clear();
        self.line.extend_from_slice(fen);
        self.line.push(b'\n');
        let asked = self.to.as_mut().ok_or("it has been ended")?.write_all(&self.line);
        match asked {
            Err(error) if error.kind() == io::ErrorKind::BrokenPipe => return Err(self.gone("it reads no more")),
            asked => asked.map_err(|error| told::system(&error))?,
        }
        self.hear()?;
        read_list(&self.line, into)
    }

    /// Reads a line, without its newline.
    fn hear(&mut self) -> Result<(), String> {
        self.line.clear();
        let mut from = self.from.by_ref().take(LONGEST as u64 + 1);
        from.read_until(b'\n', &mut self.line).map_err(|error| told::system(&error))?;
        match self.line.pop() {
            Some(b'\n') => Ok(()),
            Some(_) if self.line.len() == LONGEST => Err(format!("its answer has more than {LONGEST} bytes: {}", shown(&self.line))),
            Some(last) => {
                self.line.push(last);
                Err(self.gone(&format!("its output ends within an answer: {}", shown(&self.line))))
            }
            None => Err(self.gone("its output has ended")),
        }
    }

    /// Why there is no answer, with how the command has ended, if it does so at once.
    fn gone(&mut self, why: &str) -> String {
        self.to = None;
        match self.status_soon() {
            Some(status) => format!("{why} ({status})"),
            None => why.to_string(),
        }
    }

    fn status_soon(&mut self) -> Option<ExitStatus> {
        for _ in 0..200 {
            match self.child.try_wait() {
                Ok(None) => thread::sleep(Duration::from_millis(10)),
                Ok(ended) => return ended,
                Err(_) => return None,
            }
        }
        None
    }
}

const UNASKED: &str = "it has answered more than it was asked";

impl Lends for Piped {
    type Error = String;

    /// The whole list, whatever the text is.
    fn lend(&mut self, record: &Record, _text: &[u8], into: &mut Lent) -> Result<(), String> {
        let mut room = [0; MAX_FULL_FEN];
        let length = lent::fen_write_full(record, &mut room).map_err(|refused| self.told(&refused.to_string()))?;
        let fen = &room[..length];
        self.ask(fen, into).map_err(|why| self.told(&format!("asked for the moves of '{}': {why}", told::visible(fen))))
    }
}

/// The option, with its value cut where it is long.
fn named(command: &OsStr) -> String {
    format!("--host {}", shown(command.as_bytes()))
}

fn shown(text: &[u8]) -> String {
    match text.get(..TOLD) {
        Some(front) if text.len() > TOLD => format!("'{}'..", told::visible(front)),
        _ => format!("'{}'", told::visible(text)),
    }
}

fn read_list(answer: &[u8], into: &mut Lent) -> Result<(), String> {
    into.clear();
    match answer {
        [] => Ok(()),
        [b'!', ..] => Err(format!("it answers {}", shown(answer))),
        _ => answer
            .split(|byte| *byte == b' ')
            .try_for_each(|text| read_move(text, into))
            .map_err(|why| format!("{why}, in {}", shown(answer))),
    }
}

fn read_move(text: &[u8], into: &mut Lent) -> Result<(), String> {
    let number = lent::move_read(text).map_err(|refused| format!("{} is no move: {}", shown(text), refused.meaning()))?;
    // The reader drops what stands behind a move; two moves with no space between would be one.
    let mut room = [0; 5];
    let length = lent::move_write(number.into(), &mut room).map_err(|refused| refused.meaning().to_string())?;
    if text != &room[..length] {
        return Err(format!("{} is no move: more stands behind '{}'", shown(text), told::visible(&room[..length])));
    }
    // Two equal entries are two moves to the reader, and no text could tell which is meant.
    if into.as_slice().contains(&number) {
        return Err(format!("{} is listed twice", shown(text)));
    }
    into.push(number).map_err(|_| format!("it lists more than {MAX_LIST} moves"))
}

#[cfg(test)]
mod tests {
    use super::*;

    const START: &[u8] = b"rnbqkbnr/pppppppp/8/8/8/8/PPPPPPPP/RNBQKBNR w KQkq - 0 1";
    const EMPTY: &str = "8/8/8/8/8/8/8/8 w - - 7 20";

    fn started(command: &str) -> Piped {
        Piped::start(OsStr::new(command)).unwrap()
    }

    /// Asks for the moves of the empty board.
    fn lent_by(host: &mut Piped) -> Result<Vec<u16>, String> {
        let (record, mut list) = (lent::fen_read_full(EMPTY.as_bytes()).unwrap(), Lent::new());
        host.lend(&record, b"e4", &mut list).map(|()| list.as_slice().to_vec())
    }

    /// A host that gives the same answer each time.
    fn answers(answer: &str) -> Result<Vec<u16>, String> {
        let mut host = started(&format!("while read -r fen; do printf '%s\\n' '{answer}'; done"));
        let lent = lent_by(&mut host);
        assert_eq!(host.end(), Ok(()));
        lent
    }

    /// Asks for trouble that is told with the command and the position in front.
    fn trouble(command: &str, why: &str) {
        let told = lent_by(&mut started(command)).unwrap_err();
        assert_eq!(told, format!("--host {}: asked for the moves of '{EMPTY}': {why}", shown(command.as_bytes())));
    }

    #[test]
    fn the_position_is_asked_with_its_counters() {
        // The host answers with a move only if it is asked as it must be, and with none if it is asked of another position.
        let mut host =
            started("while IFS= read -r fen; do case $fen in '8/8/8/8/8/8/8/8 w - - 7 20') echo b1c3 e7e8q;; *) echo;; esac; done");
        for _ in 0..3 {
            assert_eq!(lent_by(&mut host), Ok(vec![1_153, 52 + 64 * 60 + 4_096 * 5]));
            let (start, mut list) = (lent::fen_read(START).unwrap(), Lent::new());
            list.push(0).unwrap();
            assert_eq!(host.lend(&start, b"", &mut list), Ok(()));
            assert!(list.is_empty());
        }
        assert_eq!(host.end(), Ok(()));
        assert_eq!(host.end(), Ok(()));
    }

    #[test]
    fn the_order_is_the_hosts() {
        assert_eq!(answers("h8a1 a1a1 e7e8n"), Ok(vec![63, 0, 52 + 64 * 60 + 4_096 * 2]));
        assert_eq!(answers(""), Ok(vec![]));
    }

    /// So many different moves.
    fn moves(count: u32) -> String {
        let text = |square: u32| format!("{}{}", char::from(b'a' + (square % 8) as u8), square / 8 + 1);
        (0..count).map(|number| text(number % 64) + &text(number / 64)).collect::<Vec<_>>().join(" ")
    }

    #[test]
    fn at_most_255_moves() {
        assert_eq!(answers(&moves(255)), Ok((0..255).collect()));
        let told = answers(&moves(256)).unwrap_err();
        assert!(told.contains("it lists more than 255 moves, in 'a1a1 b1a1 "), "{told}");
    }

    #[test]
    fn an_answer_that_is_no_list() {
        for (answer, why) in [
            ("! what is this", "it answers '! what is this'"),
            ("!", "it answers '!'"),
            ("e2e4 e2e9", "'e2e9' is no move: the text has something else where a square such as e4 should be, in 'e2e4 e2e9'"),
            ("e2e4  d2d4", "'' is no move: the text is not a move such as e2e4 or e7e8q, in 'e2e4  d2d4'"),
            (" e2e4", "'' is no move: the text is not a move such as e2e4 or e7e8q, in ' e2e4'"),
            ("e2e4 ", "'' is no move: the text is not a move such as e2e4 or e7e8q, in 'e2e4 '"),
            ("e7e8k", "'e7e8k' is no move: the text is not a move such as e2e4 or e7e8q, in 'e7e8k'"),
            ("e2e4e7e5", "'e2e4e7e5' is no move: more stands behind 'e2e4', in 'e2e4e7e5'"),
            ("e2e4\td2d4", "'e2e4\\x09d2d4' is no move: more stands behind 'e2e4', in 'e2e4\\x09d2d4'"),
            ("e2e4 d2d4 e2e4", "'e2e4' is listed twice, in 'e2e4 d2d4 e2e4'"),
        ] {
            let told = answers(answer).unwrap_err();
            assert!(told.ends_with(&format!(": asked for the moves of '{EMPTY}': {why}")), "{told}");
        }
        trouble(
            "printf 'e2e4\\r\\n'; cat >/dev/null",
            "'e2e4\\x0d' is no move: the text is not a move such as e2e4 or e7e8q, in 'e2e4\\x0d'",
        );
    }

    #[test]
    fn a_host_that_goes_away() {
        trouble("read fen; exit 3", "its output has ended (exit status: 3)");
        trouble("read fen; exit 0", "its output has ended (exit status: 0)");
        trouble("read fen; kill -9 $$", "its output has ended (signal: 9 (SIGKILL))");
        trouble("read fen; printf e2e4; exit 1", "its output ends within an answer: 'e2e4' (exit status: 1)");
        // Whether these still take the question depends on how soon they are gone.
        assert!(lent_by(&mut started("there-is-no-such-command 2>/dev/null")).unwrap_err().ends_with(" (exit status: 127)"));
        let mut host = started("exec <&-; sleep 0.2; exit 3");
        thread::sleep(Duration::from_millis(100));
        assert!(lent_by(&mut host).unwrap_err().ends_with(" (exit status: 3)"));
        let mut host = started("read fen; echo e2e4; exit 5");
        assert_eq!(lent_by(&mut host), Ok(vec![1_804]));
        assert!(lent_by(&mut host).unwrap_err().ends_with("(exit status: 5)"));
        assert!(lent_by(&mut host).unwrap_err().ends_with("it has been ended"));
    }

    #[test]
    fn an_answer_without_an_end_is_bounded() {
        let told = lent_by(&mut started("while :; do echo aaaaaaaaaaaaaaaaaaaaaaaaaaaaaaa; done | tr -d '\\n'")).unwrap_err();
        assert!(told.contains(": its answer has more than 65536 bytes: 'aaaa") && told.ends_with("aaaa'.."), "{told}");
        assert!(told.len() < 1_000);
        let fits = format!("head -c {LONGEST} /dev/zero | tr '\\000' x; echo; cat >/dev/null");
        assert!(lent_by(&mut started(&fits)).unwrap_err().contains("is no move"));
    }

    #[test]
    fn a_host_that_answers_too_often() {
        let mut host = started("while read -r fen; do printf 'e2e4\\ne2e4\\n'; done");
        assert_eq!(lent_by(&mut host), Ok(vec![1_804]));
        // The second answer came at once, and is seen before the next question, or later, and then one is left over at the end.
        let told = lent_by(&mut host).err().or_else(|| host.end().err()).unwrap();
        assert!(told.ends_with("it has answered more than it was asked"), "{told}");
        let mut host = started("while read -r fen; do echo e2e4; done; echo bye");
        assert_eq!(lent_by(&mut host), Ok(vec![1_804]));
        assert_eq!(
            host.end().unwrap_err(),
            "--host 'while read -r fen; do echo e2e4; done; echo bye': it has answered more than it was asked"
        );
    }

    #[test]
    fn how_a_host_ends_is_told() {
        let mut host = started("while read -r fen; do echo; done; exit 4");
        assert_eq!(lent_by(&mut host), Ok(vec![]));
        assert_eq!(host.end().unwrap_err(), "--host 'while read -r fen; do echo; done; exit 4': it has ended with exit status: 4");
        assert_eq!(started("cat >/dev/null").end(), Ok(()));
    }

    #[test]
    fn a_record_that_has_no_fen_is_not_asked() {
        let (mut host, mut bad) = (started("cat"), Record::from([0; 68]));
        bad.numbers[0] = 13;
        assert!(host.lend(&bad, b"", &mut Lent::new()).unwrap_err().ends_with("(answer 5)"));
        assert_eq!(host.end(), Ok(()));
    }
}
