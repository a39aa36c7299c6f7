//! The one table of commands. Help, man page, completion and the reader of words are made from it; a command is added here and in a
//! module of its own.

use crate::import::shelf;
use crate::options::{Argument, Command, Example, Flag, Takes};
use crate::{completion, diff, explain, export, found, help, import, keys, lists, man, page, pgn, report, roll, ruling, show};
use std::ffi::OsStr;

pub const ABOUT: &str = "FEN keys, explanations and reports, PGN games and their import into a store, rulings, stored logs, rolls, and what differs \
                         between games";

pub const TEXT: &[&str] = &[
    "A chess archive files each position once, under its FEN text. Every judgement of this program, keys, numbers, offsets, names and \
     rulings, is the proved archive's.",
    "Where a file is expected, - is standard input. Messages go to standard error and begin with `menkhodur: `. Answers go out as soon as a \
     read brings less than it could, so that a slow pipe gets each one at once; if the reader of a pipe has gone, the program ends quietly.",
];

/// What status 2 includes in every command.
pub const TROUBLE: &str = "an option, a file that could not be read to its end, standard input or output that is needed and not open, or a write \
                           that failed";

/// Options that every command takes.
pub const COMMON: &[Flag] = &[
    Flag { name: "help", value: None, about: "print this help; also -h" },
    Flag { name: "version", value: None, about: "print the version" },
];

/// Short names of options, and the names that they stand for.
pub const SHORT: &[(&str, &str)] = &[("-h", "--help"), ("-o", "--output")];

const fn file(name: &'static str, about: &'static str) -> Argument {
    Argument { name, takes: Takes::File, least: 1, most: Some(1), about }
}

const LOG: &[Argument] = &[
    file("ACTIONS", "the used bytes of a log's actions, 4 for each"),
    file("POSITIONS", "the used bytes of its positions, 584 for the start and for each move"),
];

const WHICH_KIND: &str = "The same bytes can be an old roll and a new one, with two meanings, so nothing is guessed: a store must know which kind it \
                          keeps.";

const NOT_GOOD: &str = "If a log is not good, standard error says so, with the file that is at fault and the first action that does not stand; where a \
                        move came with another position than it leads to, with both, and with each counter that differs.";

const JUDGED: &str = "A log believes the list of moves, and whether the side to move is in check, that a host lent with each position. With --judge each is compared \
                      with the legal moves by articles 3.1 to 3.10 of the Laws, which the proved archive lists itself. Of each position where something \
                      is wrong the first thing is told, with the position's number, which is that of the moves that led to it, 0 for the start: a \
                      listed move that is not legal, one that is listed twice, a legal one that is not listed, or who is in check. A move has its \
                      name by the position's own list, else by the legal one, and its coordinates. If nothing is wrong, that is said, with the \
                      number of positions. The order of a list does not matter.";

const WHOLE: &str = "A file is written whole or not at all: to one beside it, .menkhodur-PROCESS-N, which then takes its place. One that exists is \
                     left alone, unless there is --force; then it is replaced and keeps its permissions. Only a regular file is replaced. If the \
                     program is killed, the file beside it may be left behind, and can be removed.";

const PAGE: &str = "A page is one file that needs no other, no network and no script. Its diagrams have their FEN as a text alternative; what comes from \
                    the names of files is escaped.";

pub const COMMANDS: &[Command] = &[
    Command {
        name: "keys",
        about: "the key of each FEN text, or what is wrong with it",
        forms: &[&[Argument {
            name: "FILE",
            takes: Takes::File,
            least: 0,
            most: None,
            about: "FEN texts, one per line; standard input if none is named",
        }]],
        flags: &[keys::CHECK, keys::SETTLE, keys::STRICT, keys::CRLF, keys::JSON],
        text: &[
            "Prints for each line, in order, its key, which is the one FEN of its position, or `! N OFFSET`: 18, fewer than four fields, \
             at the line's length; 19, the first byte that may not stand in a placement; 20, the start of a field that is not a side. Offsets count \
             the bytes of the line from 0. A line of more than 131071 bytes gives `! long`.",
            "With --check the lines are a store's own keys. Only those that are not their own key are printed, `FILE:LINE: TEXT -> KEY` if \
             the text is a second name for a position, `FILE:LINE: TEXT ! N OFFSET reason` if it is refused. On a terminal, control characters \
             of the text, and bytes that are not UTF-8, are shown as \\xNN.",
            "Many programs write an en passant square after every double step, whether a pawn can use it or not, and then one position has two \
             keys. With --settle the square goes, unless a pawn of the side to move stands beside the file: on rank 5 with white to move, on rank 4 \
             with black. Every other key stays. A store files under the keys of --settle or under those without it, never under both.",
            "With --check and --settle a line that is a key without --settle, and not with it, is printed as `FILE:LINE: TEXT => KEY`; the last line \
             of standard error counts these as unsettled keys. Any other second name has `->`. Behind either arrow stands the key of --settle, which has \
             no >, so that the last arrow of a line decides.",
            "With --strict a text that is accepted, but that the PGN standard would not allow, is refused too, as `! strict OFFSET NAME`. A square \
             that no pawn can use is what the standard asks for, and is not refused.",
            "An empty line is a text like any other, and a carriage return is part of its line, unless --crlf says that lines end as on Windows. \
             A last line without a newline counts if it has a byte; one cut short by a failed read does not. The last line of standard error \
             counts the lines that were written whole.",
            "An object of --json has file, line and text, and key, or number, offset and reason, or strict, offset and reason. With --settle, one \
             with a key has unsettled, which is true for the lines of `=>`. Where a text is not UTF-8, text_hex has its bytes.",
        ],
        statuses: &["nothing was refused (with --check: every line is its own key)", "something was (with --check: some line is not)"],
        trouble: "",
        examples: &[
            Example { command: "menkhodur keys examples/few.fen", about: "five lines, of which the second and the third have one key" },
            Example { command: "menkhodur keys --check store.keys || echo 'second names, or no keys'", about: "what filled the disk" },
            Example {
                command: "menkhodur keys --check --settle store.keys | grep -c ' => [^>]*$'",
                about: "how many keys of a store have a file that no pawn can use",
            },
        ],
        run: keys::run,
    },
    Command {
        name: "explain",
        about: "what a FEN text says, or why and where it is refused",
        forms: &[&[Argument {
            name: "FEN",
            takes: Takes::Text,
            least: 1,
            most: None,
            about: "the text; several words are joined by single spaces, and - alone reads texts, one per line, from standard input",
        }]],
        flags: &[explain::FULL, explain::SVG, roll::FORCE, explain::JSON],
        text: &[
            "Prints whether the text is accepted; if not, why, with a caret under the byte; if so, the board, the key, the side to move, the \
             castling rights, the en passant square, and the half-move clock and the move number, or why the text has none that can be read. Then \
             come warnings, each with a name and a caret: what the rules of the archive let pass and the PGN standard, section 16.1, would not. \
             Warnings do not change the exit status; `menkhodur keys --strict` refuses whatever has a warning.",
            "Last comes a note, en-passant-unusable, if no pawn can use the text's en passant file; then the settled key is shown too, which \
             `menkhodur keys --settle` prints. It is no warning: by the standard a text has its square after every double step.",
            "A key has no counters: it ends in ` 0 1` whatever they are. With --full the full FEN is printed too, which ends in the text's \
             own, and a text without two good ones is refused: 25, at the start of the fifth or sixth field if that is not one to four digits, or \
             is a move number of 0, and at the text's length if it is missing.",
            "With --svg the board is written as a picture that stands alone, for a mail or a page, with the key as its text alternative, with --full the \
             full FEN; nothing is printed. Of a text that is refused there is none, and standard error says why.",
            WHOLE,
            "In the texts shown, a byte that is not printable ASCII is \\xNN, and a long text is cut around the caret.",
            "An object of --json has text and accepted, and number, offset and reason, or key, settled_key, ranks (from the eighth), side, \
             castling, en_passant, half_moves and full_moves, both null if the text has none, and warnings and notes, each with name, offset and \
             reason; with --full also fen, the full FEN.",
        ],
        statuses: &["the text is accepted", "it is refused"],
        trouble: "a FILE that exists, without --force",
        examples: &[
            Example {
                command: "menkhodur explain 'rnbqkbnr/pppppppp/8/8/8/8/PPPPPPP/RNBQKBNR w KQkq - 0 1'",
                about: "a rank with one pawn too few",
            },
            Example {
                command: "menkhodur explain --full '8/5k2/8/8/8/8/5K2/8 b - - 49 120'",
                about: "a clock of 49 at move 120, which the key does not have",
            },
            Example { command: "menkhodur explain --svg board.svg '8/5k2/8/8/8/8/5K2/8 b - - 49 120'", about: "the board as a picture" },
        ],
        run: explain::run,
    },
    Command {
        name: "report",
        about: "what is counted over FEN texts: accepted and refused lines, men of each kind, repeated positions",
        forms: &[&[Argument {
            name: "FILE",
            takes: Takes::File,
            least: 0,
            most: None,
            about: "FEN texts, one per line; standard input if none is named",
        }]],
        flags: &[report::SETTLE, report::JSON],
        text: &[
            "Prints how many lines were accepted and refused; how many repeat an earlier one; and how many men of each kind stand on the boards of \
             the accepted lines, with their share of all men. Where several files are named, or one was not read to its end, each has a row of its \
             own too. Nothing is printed before all is read.",
            "Repeats are counted in two ways. In pages: the archive reports on pages of 4096 lines, each of one file, and an accepted line is counted \
             if an earlier one of its page has its position. Over all: by their keys, if an earlier one of any page and file has its position. \
             Counters and spellings do not matter, as in a key; three equal lines are two repeats.",
            "With --settle both are counted over the keys of `menkhodur keys --settle`: an en passant file that no pawn can use does not keep positions \
             apart. The archive's report compares positions as they are, so it is given each line's settled key in the line's place. Refused lines are \
             told as they stand.",
            "Then come the refused lines: of each kind its number as `menkhodur keys` has it, or long for lines of more than 131071 bytes, how many \
             there are, and the first one's file, line and offset, the bytes of the line counted from 0.",
            "On a terminal there is a bar for each kind of men, made of blocks if the locale (LC_ALL, LC_CTYPE or LANG) has UTF-8, and control \
             characters in the names of files, and bytes that are not UTF-8, are shown as \\xNN.",
            "An empty line is a text like any other, and a carriage return is part of its line. A last line without a newline counts if it has a \
             byte; one cut short by a failed read does not. The last line of standard error counts the lines.",
            "Every different position is kept until the end, in 40 to 80 bytes: ten million take about 600 MB. If there is no memory for more, \
             repeats over all are not counted, which is said, and everything else is.",
            "The object of --json has lines, accepted, refused, repeated_within_pages, repeated (over all; null if it was not counted), men (white_pawn \
             to black_king), refusals, each with number, or long, then count, file, line, offset and reason, files, each with file, the same five \
             counts and complete, and complete: whether all files were read to their ends. With --settle it ends in settled, which is true.",
        ],
        statuses: &["no line was refused", "some line was"],
        trouble: "no memory for all positions, or for a page",
        examples: &[
            Example { command: "menkhodur report examples/few.fen", about: "five lines, of which one is a repeat and one is refused" },
            Example {
                command: "menkhodur report --json evening/*.fen >evening.json",
                about: "the figures of an evening for another program",
            },
        ],
        run: report::run,
    },
    Command {
        name: "pgn",
        about: "the games of PGN files, each with its moves counted, or what is wrong with its move text",
        forms: &[&[Argument {
            name: "FILE",
            takes: Takes::File,
            least: 0,
            most: None,
            about: "games: tag pairs, then move text; standard input if none is named",
        }]],
        flags: &[pgn::TAGS, pgn::MOVES, pgn::STRICT, pgn::LIMIT, pgn::JSON],
        text: &[
            "Prints for each game a line: its number in the file, its line there, its number of moves, the number in its variations, and its \
             result, - if it has none; or its number, its line, and `! N LINE:COLUMN reason`, with the line and a caret under the byte: 21, a \
             comment or bracket left open; 22, brackets deeper than 8 levels; 23, something that is not a token, a result in brackets, a stray \
             closing bracket. Columns count bytes from 1. Where several files are named, each line begins with `FILE: `.",
            "A game ends with its result, or at the next tag pairs. They may follow on the same line, as they do where a file without a last \
             newline was joined to another, and a second Event tag begins a game too. Tag pairs, lines that begin with %, byte order marks \
             before a line, a game or tag pairs, and comments that belong to no game are passed over. A line that begins with `[Event \"` begins a \
             game even in a comment that was left open. What a move says is not checked, only that it may be a move.",
            "If a file ends without the result of its last game, standard error says so; with --strict it tells every game that has no result, \
             and the status is 1.",
            "A game or a line of more than 64 MB, or of more than --limit says, is not kept: it gives `! large LINE reason`, with the line in which the \
             game became too large. A game cut short by a failed read is left out. The last line of standard error counts the games that were \
             written whole.",
            "The tag pairs of --tags are as they stand in the file, but on a terminal control characters, and bytes that are not UTF-8, are shown \
             as \\xNN.",
            "An object of --json has file, game and line, then moves and variations, or number, at (the line), column, text (the line, or what of it \
             is near the column, from text_column on) and reason, or large, at and reason; then result, null if there is none, with --tags tags, \
             each with name and value, and with --moves list, each move with its level.",
        ],
        statuses: &["no game was refused (with --strict: and each has its result)", "some game was (with --strict: or has no result)"],
        trouble: "",
        examples: &[
            Example { command: "menkhodur pgn games.pgn", about: "one line per game" },
            Example { command: "menkhodur pgn --moves - <game.pgn", about: "the moves of a game, each with the level of its brackets" },
            Example { command: "cat *.pgn | menkhodur pgn --strict --tags", about: "whose games they are, and which have no result" },
        ],
        run: pgn::run,
    },
    Command {
        name: "import",
        about: "the games of PGN files into a store, each position once",
        forms: &[&[Argument {
            name: "FILE",
            takes: Takes::File,
            least: 0,
            most: None,
            about: "games: tag pairs, then move text; standard input if none is named",
        }]],
        flags: &[
            import::SQLITE,
            import::POSTGRES,
            import::DRY_RUN,
            import::VARIATIONS,
            import::PLACES,
            import::LOOSE,
            import::DUPLICATES,
            import::BATCH,
            import::HOST,
            pgn::LIMIT,
            import::JSON,
        ],
        text: &[
            "Files the games of PGN files, each with its tag pairs and its roll, and each position that they come to once, under its settled key, \
             that of `menkhodur keys --settle`. A game is judged from the left: the archive walks its text, reads each move in the form of the PGN \
             standard, plays it and names what it leads to. Which moves a position has is not proved: this program's own lists are tested, and \
             --host asks another program. With --dry-run all is done but the filing.",
            "For each game that is refused there is a line, `FILE:LINE:COLUMN: game INDEX ! N KIND reason: 'text'`, with the line of the file and a \
             caret, as `menkhodur pgn` has them; nothing of the game is filed, and the next is looked at. N is the archive's number, - if it has \
             none. KIND is large, of a game over the limit; variant, of a Variant tag that is not chess; start, of a FEN tag: 18, 19 or 20, what \
             `menkhodur explain` warns about in its ranks or castling letters, a side without its one king, castling rights without king and rook at \
             home, an en passant square that no pawn has come over, or a side in check that is not to move, and of a first move with another number \
             than 1 where there is no FEN tag; text, 21, 22 or 23 as `menkhodur pgn` has them; move, 4, a text that is no move, or not one alone; or limit, 13, more than 4096 moves. Marks like !? behind a move are passed \
             over. A move in a variation is looked at with --variations only; a game with more than 1048576 of them is refused then. The variations \
             themselves are kept with it, so that `menkhodur export` gives them back.",
            "A game has a note, `FILE:LINE: game INDEX note: words`, and is filed all the same, if its Result tag and the result behind its moves \
             differ, if it ends in mate or stalemate with another result than * and the right one, or if it equals one filed before, of any file: the \
             same start, moves of the main line and \
             seven tags, whatever their variations. With --duplicates=skip an equal game is not filed and has no note, nor are its variations; with keep it \
             is filed without one.",
            "With --loose a game that is refused as it stands is judged once more with what has one reading: zeros for O in castling, unless they end \
             the text, `e.p.` and \
             `ep` behind a pawn's capture, marks like ! and signs like += that stand alone, periods without a number, a hyphen between squares, an x \
             too much or too few, ++, a promotion as e8Q, e8=q or e8(Q), and coordinates. If repairs come to two moves, the game is refused. A \
             promotion without its man, small letters for men, null moves and letters of other languages are never taken. How much was taken of \
             each kind is told at the end.",
            "A store knows a file by its name as it is given here, with its size and a digest of its bytes, and standard input or a pipe by a digest \
             of its first 65536 bytes. Whole games are filed in one transaction, with how far the file has come. If an import is broken off, the same \
             command goes on behind the last game that was filed; the games before are cut once more, and must be the same. A file of the same name \
             with other bytes is trouble. A game cut short by a failed read is not filed, and those before it are.",
            "The last line of standard error is always `menkhodur: import: G games, A filed, B filed before, C skipped, R refused; M moves, P \
             positions, N new`, with `; stopped: why` or `; input incomplete` behind it if that is so; B are the games that an earlier run was done \
             with, refused or not, and nothing is counted that the store has not confirmed. That of a dry run is `menkhodur: import: dry run: G games, A \
             accepted, R refused; M moves, P positions`. Moves and positions are those of the games that are filed. On a terminal it is told every \
             second how far the import has come. If the reader of a pipe has gone, a dry run ends, and an import goes on without lines.",
            "The command of --host is run by sh. For each position it is given a line, the full FEN, and answers a line: the legal moves in \
             coordinates with single spaces between them, in any order.",
            "An object of --json has file, game and line, then of a refused game number, null if there is none, kind, at (the line), column, token (the \
             text that is refused), text (the line, or what of it is near the column, from text_column on) and reason; of a note note, which is \
             result, mate, stalemate or duplicate, and reason, of a duplicate also source and of, the game that it equals. The last has the counts of \
             the last line, notes, dry_run, with --loose loose, \
             stopped, null if it was not, and complete.",
        ],
        statuses: &[
            "every game was filed, now or before, without a note (with --dry-run: could be)",
            "some game was refused, or has a note",
        ],
        trouble: "not one of --sqlite, --postgres and --dry-run; a store that cannot be used, or holds another file of that name; a host that does not \
                  answer",
        examples: &[
            Example { command: "menkhodur import --dry-run games.pgn", about: "what would be refused, and nothing is filed" },
            Example {
                command: "menkhodur import --sqlite chess.db games.pgn",
                about: "a store with its games; the same again goes on, or does nothing",
            },
            Example {
                command: "zcat *.pgn.gz | menkhodur import --loose --postgres dbname=chess -",
                about: "many files as one, by what can be read in one way",
            },
            Example {
                command: "menkhodur import --dry-run --json games.pgn | jq -r 'select(.kind) | .kind' | sort | uniq -c",
                about: "how many games are refused, by kind",
            },
        ],
        run: import::run,
    },
    Command {
        name: "export",
        about: "the games of a store as a PGN file",
        forms: &[&[]],
        flags: &[shelf::SQLITE, shelf::POSTGRES, export::SOURCE, export::OUTPUT, roll::FORCE],
        text: &[
            "Writes the games that `menkhodur import` has filed, in the order of their files and numbers, in the export form of the PGN standard of \
             1994: the seven tags, then the others by their names; an empty line; the moves, by the archive's names in the standard's form, with + \
             behind a check and # behind mate, in lines of at most 79 characters; the result; an empty line. The text is UTF-8.",
            "Moves come from the rolls, and of games that were filed with --variations from what was kept of those, whose main line must be the \
             roll's; they stand in brackets, and behind a bracket black's move has its number. \
             A missing one of the seven is `?`, Date `????.??.??` and Result `*`. A game that does not \
             start from the initial position, at move 1 with the clock 0, has SetUp and FEN. A FEN tag of its own stays, if it is the standard's and says \
             the start; else it is the full FEN of the start. Which moves a position has is not proved, as for the import.",
            "Imported again, into an empty store, the file gives the same games with the same rolls, and the same positions, with --variations those of \
             variations too. Lost are comments, glyphs, variations of games that were imported without --variations, or before stores kept them, lines \
             and numbers in the file, and refused games. Tags come in another order, with \
             the seven as above and with blanks for control characters of ASCII; SetUp without FEN goes, unless it is 0. Behind the moves stands the \
             Result tag, or * if it is none of 1-0, 0-1, 1/2-1/2 and *. On a terminal all control characters are shown as \\xNN.",
            WHOLE,
            "If a roll is refused, or a move of one is none of its position's, that ends the export, with the game's file and number. The last line of \
             standard error counts the games that were written and the moves of their main lines.",
        ],
        statuses: &["the games were written, all or those of --source"],
        trouble: "not one of --sqlite and --postgres; a store that cannot be read; a roll that is refused; a NAME that the store has no games of; a \
                  FILE that exists, without --force",
        examples: &[
            Example { command: "menkhodur export --sqlite chess.db -o all.pgn", about: "every game of a store" },
            Example {
                command: "menkhodur export --postgres dbname=chess --source games.pgn | menkhodur import --dry-run",
                about: "whether what was filed from a file can be read again",
            },
        ],
        run: export::run,
    },
    Command {
        name: "games",
        about: "which games of a store came to a position, and when",
        forms: &[&[]],
        flags: &[shelf::SQLITE, shelf::POSTGRES, found::POSITION, found::JSON],
        text: &[
            "Prints a line for each time that a game's main line came to the position, in the order of files, games and moves, with tabs between its \
             ten columns: the file, the game's number in it, the line it begins in there, how many moves of either side were made (0: the game \
             starts so), the number of the last of them as people write it, `4.` for white's and `4...` for black's, and its name in the form of \
             the PGN standard, with + behind a check and # behind mate, both - if the game starts so; then White, Black, Date and Result, as \
             `menkhodur export` has them. Control characters are shown as \\xNN, so that a line has ten columns always.",
            "The position is that of the settled key of FEN (`menkhodur keys --settle`): counters do not matter, nor does an en passant square that no \
             pawn can use. If FEN is refused, nothing is looked for, and standard error has the number, 18, 19 or 20, and the place. What \
             `menkhodur explain` warns about in its ranks or castling letters is told there too, since it says another position than it seems to.",
            "In a store that was filled with `menkhodur import --places` the places tell which games; in any other all rolls are played again, which \
             takes a second or so for ten million moves, and gives the same lines. The last line of standard error counts games and places.",
            "An object of --json has source, game, line, ply, number and side of the last move and move, its name, all three null if the game starts so, \
             and white, black, date and result, each null if the game has no such tag.",
        ],
        statuses: &["some game came to the position", "none did"],
        trouble: "no FEN, or one that is refused; not one of --sqlite and --postgres; a store that cannot be read; a roll that is refused, or that \
                  does not come to the position where the places say so",
        examples: &[
            Example {
                command: "menkhodur games --sqlite chess.db --position 'r1bqkbnr/pppp1ppp/2n5/1B2p3/4P3/5N2/PPPP1PPP/RNBQK2R b KQkq -'",
                about: "who has played the Spanish Game, whatever moves led to it",
            },
            Example {
                command: "menkhodur games --sqlite chess.db --position \"$FEN\" | cut -f 7-10 | sort | uniq -c",
                about: "players, dates and results alone",
            },
        ],
        run: found::run,
    },
    Command {
        name: "ruling",
        about: "a stored game, its result, and whether a draw may be claimed",
        forms: &[LOG],
        flags: &[ruling::AT, lists::JUDGE, page::HTML, roll::FORCE, ruling::JSON],
        text: &[
            "Prints the start with its counters; the game, each move by its name from the stored lists and with its number by the position \
             that it was made in, with offers and resignations; the result; the ruling by the crate's count and by that of article 9.3 of the Laws; and what \
             they rest on: both counts, where each began and by what, and the earlier positions of the run that equal the last, by the log's \
             move numbers, with their key. Both counts begin with the log: what the start's half-move clock says is not added. Counters \
             do not keep positions from being equal. In a game that is over no draw may be claimed, and the ruling says so.",
            "By article 9.6 a game is drawn without a claim once the same position has appeared five times (9.6.1), or 75 moves were made by each \
             player without a pawn move and without a capture (9.6.2), unless the last of them mated. The row drawn tells it, with the move since \
             which it is so; what was done after that move does not change it. The log's rules do not have the article, and its result and the \
             exit status do not know it.",
            NOT_GOOD,
            "With --at the actions after N need not stand.",
            JUDGED,
            "With --html a page is written, for people to look at, to print on A4 and to send: the ruling in one sentence with its article; the equal \
             positions side by side, the squares of the last move marked; the counts over the game; the score sheet, on which the evidence is marked \
             and each move leads to its diagram. Of a log that is not good it shows the action that does not stand, and where a move came with \
             another position than it leads to, both boards with the squares that differ marked; standard error and the status are the same.",
            PAGE,
            WHOLE,
            "The object of --json has actions, moves, result, claim and laws_claim in words and as numbers, drawn (null, or moves, action, articles and \
             reasons), count with count_since, laws_count with laws_since, equals, equal and last, and as game the objects of `menkhodur show`; with \
             --judge also judged, which has positions and as wrong the objects that `menkhodur show` has as judged.",
        ],
        statuses: &["a claim stands, by the log's rules or only by the Laws", "none stands, or with --judge something is wrong"],
        trouble: "a log that is not good (with --at: up to N), or that has fewer actions than N; files that are not a log's parts by their size; \
                  a FILE that exists, without --force",
        examples: &[
            Example { command: "menkhodur ruling --at 8 game.actions game.positions", about: "after the first eight actions" },
            Example {
                command: "menkhodur ruling --html ruling.html game.actions game.positions",
                about: "a page to look at, to print or to send",
            },
        ],
        run: ruling::run,
    },
    Command {
        name: "show",
        about: "a roll or a stored log as text, one action per line",
        forms: &[&[file("ROLL", "a game's start and its actions as bytes")], LOG],
        flags: &[show::OLD, lists::JUDGE, page::HTML, roll::FORCE, show::JSON],
        text: &[
            "Prints a line for the start, as action 0, and for each action: its number, how many moves have been made, the side, the move's \
             name or what else was done, the length of the list of the position after it, and that position's full FEN, which ends in its \
             half-move clock and its move number, where a key always ends in ` 0 1`.",
            "A roll has no lists, by which a move is named: a move is told in coordinates, the length of a list is -, and the position after a move \
             is the one that the archive makes of the move and the position before it. Whether a roll's actions make a game is not asked.",
            "An old roll, from before version 12, has no counters. With --old ROLL is read as an old one, and its start gets 0 and 1.",
            WHICH_KIND,
            NOT_GOOD,
            "Of a log that is not good, what stands is printed.",
            JUDGED,
            "With --html a page is written: the score sheet, and a diagram of each position with its FEN.",
            PAGE,
            WHOLE,
            "An object of --json has action, moves, side, kind (start, move, offer, accept, declare, resign), key, fen (the full one), \
             half_moves, full_moves, in_check and list; that of a move has name, null if no text names it, and coordinates. Of a roll, name, \
             in_check and list are null. With --judge it has judged, null if nothing is wrong with the position after it, else position; wrong, 1 to 4 \
             in the order above, null if there are more legal moves than a list may have; reason; name and coordinates of the move, null if none \
             is told; and in_check and list as they should be.",
        ],
        statuses: &["the log is good, or the roll is one (with --judge: and nothing is wrong)", "with --judge: something is wrong"],
        trouble: "a log that is not good; a roll that is refused, 5, 13 or 17 as for `menkhodur diff`; files that are not a log's parts by their size; \
                  a FILE that exists, without --force",
        examples: &[
            Example { command: "menkhodur show game.roll", about: "every action of a game, and the position after it" },
            Example { command: "menkhodur show game.actions game.positions", about: "the same of a log, with the names of its moves" },
            Example { command: "menkhodur show --html game.html game.roll", about: "a diagram of each position" },
            Example {
                command: "menkhodur show --judge game.actions game.positions | sed -n '/^judged/,$p'",
                about: "whether the lists that a log was lent are right",
            },
        ],
        run: show::run,
    },
    Command {
        name: "diff",
        about: "what differs between two games, by their rolls",
        forms: &[&[
            file("FIRST", "a roll: a game's start and its actions as bytes"),
            file("SECOND", "another; - may stand for one of the two"),
        ]],
        flags: &[diff::NAMES, diff::OLD_FIRST, diff::OLD_SECOND, page::HTML, roll::FORCE, diff::JSON],
        text: &[
            "Prints a line for each of these that differs, in this order: the squares of the start, keyed by number (a1 is 0, e4 is 28, h8 is \
             63), side, white, black, ep, half, full, then the first action that differs, keyed action and its index from 0. A line is its key, \
             then the first and the second game's number: a man from 1, the white pawn, to 12, the black king; the side to move, 0 or 1; \
             castling rights, 1 for the king's side and 2 for the queen's; the file of en passant from 1; the half-move clock; the move number; \
             and for an action its code in a roll + 16 times its move, 0 if there is none. Nothing is printed exactly if the rolls are equal, \
             byte for byte.",
            "With --names each line is followed, after a tab, by the same in words, as in `e4: white pawn, nothing`.",
            "An old roll, from before version 12, has no counters. With --old-first or --old-second that roll is read as an old one and compared \
             as `menkhodur roll upgrade` writes it, with 0 and 1.",
            WHICH_KIND,
            "For a roll that is refused only the number is printed: 5, a number of the start out of range; 13, more actions or moves than a log \
             has; 17, anything else. If both would be refused, it is the first one's. Standard error tells which roll, and why.",
            "With --html a page is written: what differs, in words; both starts side by side, the squares that differ marked; and both score sheets from \
             the first action on that differs, with their diagrams. Of a roll that is refused, none.",
            PAGE,
            WHOLE,
            "An object of --json has key, for an action index, first and second, and in words name, first_name and second_name; that of a refused \
             roll has roll (first or second), number and reason.",
        ],
        statuses: &["the rolls are equal", "they differ"],
        trouble: "a roll that is refused; a FILE that exists, without --force",
        examples: &[
            Example { command: "menkhodur diff --names here.roll there.roll", about: "two sites' copies of a game" },
            Example { command: "menkhodur diff --old-first old/7.roll new/7.roll", about: "whether a new roll has the game of an old one" },
            Example {
                command: "menkhodur diff --html differs.html here.roll there.roll",
                about: "a page with both starts and score sheets",
            },
        ],
        run: diff::run,
    },
    Command {
        name: "roll",
        about: "the roll of a stored log, or of a game of a PGN file",
        forms: &[LOG, &[]],
        flags: &[roll::PGN, roll::GAME, roll::OUTPUT, roll::FORCE],
        text: &[
            "Writes the game of a log, or of a PGN file, as a roll: the start with its counters and what was done, without the positions after it, to \
             standard output \
             or to the file of --output. `menkhodur show` shows it, and `menkhodur diff` compares it with another.",
            NOT_GOOD,
            "Of a log that is not good, nothing is written.",
            "With --pgn no log is named. The game is read as `menkhodur import` reads it, moves of variations not looked at, and its roll is the one \
             that the import files: the start, settled, and the moves of the main line. Games are numbered as there, refused ones counted. A game that \
             is refused is told on standard error in the import's words, and nothing is written; what stands behind the game is not read.",
            WHOLE,
            "Where the actions are in a file named upgrade, ./upgrade names it: `menkhodur roll upgrade` is another command.",
        ],
        statuses: &["the roll was written"],
        trouble: "a log that is not good; files that are not a log's parts by their size; a game of --pgn that is refused, or is not there; a FILE \
                  that exists, without --force",
        examples: &[
            Example { command: "menkhodur roll -o game.roll game.actions game.positions", about: "a log's roll in a file" },
            Example { command: "menkhodur roll --pgn games.pgn --game 7 | menkhodur show -", about: "the moves and positions of a game" },
            Example {
                command: "menkhodur roll game.actions game.positions | menkhodur diff - there.roll",
                about: "whether another site has the same game",
            },
        ],
        run: roll::run,
    },
    Command {
        name: "roll upgrade",
        about: "an old roll, without counters, written anew",
        forms: &[&[
            file("OLD", "a roll from before version 12: the 68 numbers of the start, and its actions"),
            file("NEW", "the file to write; - is standard output"),
        ]],
        flags: &[roll::FORCE],
        text: &[
            "Writes the game of an old roll as a new one, in which the start has the half-move clock 0 and the move number 1: the same bytes \
             with 0 and 1 put in behind the 68th.",
            "OLD is taken for an old roll. A roll that this command wrote is never upgraded again: as an old one it is refused with 17.",
            WHICH_KIND,
            "If OLD is refused, standard error says why, with the number: 5, a number of the start out of range; 13, more actions or moves than \
             a log has; 17, anything else.",
            WHOLE,
            "With --force NEW may be OLD itself.",
        ],
        statuses: &["NEW was written"],
        trouble: "a roll that is refused; a NEW that exists, without --force",
        examples: &[
            Example { command: "menkhodur roll upgrade old/7.roll new/7.roll", about: "one game; docs/STORE.md has the loop over all" },
            Example { command: "menkhodur roll upgrade - - <old >new", about: "between two pipes" },
        ],
        run: roll::upgrade,
    },
    Command {
        name: "completion",
        about: "a script with which a shell completes the words of this program",
        forms: &[&[Argument {
            name: "SHELL",
            takes: Takes::OneOf(&["bash", "zsh", "fish"]),
            least: 1,
            most: Some(1),
            about: "bash, zsh or fish",
        }]],
        flags: &[],
        text: &["cli/install puts the scripts of all three, and the manual page, where the shells and man look for them."],
        statuses: &["the script was written"],
        trouble: "",
        examples: &[Example {
            command: "menkhodur completion bash >~/.local/share/bash-completion/completions/menkhodur",
            about: "for bash",
        }],
        run: completion::run,
    },
    Command {
        name: "man",
        about: "the manual page of this program",
        forms: &[&[]],
        flags: &[],
        text: &[],
        statuses: &["the page was written"],
        trouble: "",
        examples: &[Example { command: "menkhodur man >menkhodur.1 && man ./menkhodur.1", about: "to read it" }],
        run: man::run,
    },
    Command {
        name: "help",
        about: "what --help says, of this program or of a command",
        forms: &[&[Argument {
            name: "COMMAND",
            takes: Takes::Command,
            least: 0,
            most: Some(2),
            about: "the command's name; some have two words",
        }]],
        flags: &[],
        text: &[],
        statuses: &["the help was written"],
        trouble: "",
        examples: &[Example { command: "menkhodur help roll upgrade", about: "the same as menkhodur roll upgrade --help" }],
        run: help::run,
    },
];

/// The commands of one word.
pub fn on_top() -> impl Iterator<Item = &'static Command> {
    COMMANDS.iter().filter(|command| !command.name.contains(' '))
}

/// The commands of two words that begin with a command's, each with its second word.
pub fn lower(command: &Command) -> impl Iterator<Item = (&'static str, &'static Command)> {
    COMMANDS.iter().filter_map(|other| Some((other.name.strip_prefix(command.name)?.strip_prefix(' ')?, other)))
}

/// The command that a word names under another.
pub fn under(command: &Command, word: &OsStr) -> Option<&'static Command> {
    lower(command).find(|(second, _)| word == *second).map(|(_, lower)| lower)
}

/// An option by its long name.
pub fn long(word: &OsStr) -> &OsStr {
    SHORT.iter().find(|(short, _)| word == *short).map_or(word, |(_, long)| OsStr::new(long))
}

pub fn names() -> Vec<&'static str> {
    on_top().map(|command| command.name).collect()
}
