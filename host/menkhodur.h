/* The host's side of target/staticlib/libmenkhodur.a, for C (from C99) and C++ (from C++11).
 *
 * Numbers, records, moves, logs and texts are those of docs/papers/01-scope.md ("document 01"), rolls, the refusals of FEN texts, the
 * offsets in texts, the ruling of the Laws, the standard's form of SAN, pages of FENs, PGN move text, the board after a move, what differs
 * between two rolls, the counters of a FEN and the evening report those of docs/papers/02-change-requests.md ("document 02"); the names and
 * the order of the parameters are those of docs/papers/HOST-ABI.md, which also has what is beyond document 02: settled records, the
 * steps through a game's text, and the legal moves. tools/abi compares them, and the constants below, with the crates.
 *
 * What every function does: it answers for every value of its numbers, it ends, it keeps nothing between calls and allocates
 * nothing, and it reads and writes only what it was lent. A refused call (a number other than 0) changes no lent byte.
 *
 * Threads: every function may be called from any number of threads at once. What is only read may be lent to many calls at once; what
 * one call writes, nobody else reads or writes until it has returned.
 *
 * Cost: a log call reads the used part of the log each time, to see that the log is good: a quarter of a millisecond on the longest
 * game, 4,096 moves, on the slowest machine that was timed (docs/SPEED.md).
 *
 * What a caller owes:
 *   - A pointer is valid for its length: readable, and writable where it is not const. `room` and the lengths of parts, texts, rolls
 *     and records count bytes, `entries` counts moves, and so does the `room` of menkhodur_legal_list; `numbers_length` counts numbers.
 *   - A `const uint16_t *` list and a `uint16_t *` room of moves are aligned to 2 bytes, a `uint64_t *` room of numbers to 8. Parts, texts,
 *     rolls and records are bytes and need no alignment.
 *   - What a call only reads (its const pointers) may overlap, or be the same memory. What it may write (a room, a part that is not
 *     const) overlaps nothing else that is lent to it.
 *   - NULL with length 0 is an empty text, list, part, roll or room. This was tried for each of them (host/c/nulls.c): each works, and
 *     is answered like any other pointer with length 0. NULL with any other length is an invalid pointer; no function tests for it.
 */
#ifndef MENKHODUR_H
#define MENKHODUR_H

#include <stddef.h>
#include <stdint.h>

/* Rises by one with each landing that adds or changes a function. CHANGELOG.md tells what a host must change, and a struct that has
 * changed says beside it since which version it is so. */
#define MENKHODUR_VERSION 16

#ifdef __cplusplus
extern "C" {
#endif

/* Answer numbers: document 01's table, and from 17 on document 02's. Since version 3 none is 1: 18, 19 and 20 stand in its place. */
enum {
    MENKHODUR_ACCEPTED = 0,
    MENKHODUR_INVALID_SQUARE = 2,   /* in a coordinate text */
    MENKHODUR_INVALID_UCI_MOVE = 3,
    MENKHODUR_INVALID_SAN_MOVE = 4,
    MENKHODUR_OUT_OF_RANGE = 5,     /* a record number, square, rank, file, colour, rights number or in-check byte */
    MENKHODUR_BAD_LIST = 6,         /* list over 255, or an entry (or the coordinate writer's move) over 28,671; more than 255 legal moves */
    MENKHODUR_OUTPUT_TOO_SHORT = 7, /* the value is the length needed; for a page, its lines */
    MENKHODUR_NO_NAME = 8,          /* no text names the move */
    MENKHODUR_NOT_GOOD = 9,         /* log not good, or a count over its limit */
    MENKHODUR_GAME_OVER = 10,
    MENKHODUR_NOT_LISTED = 11,
    MENKHODUR_WRONG_SIDE = 12,      /* next position has the wrong side to move */
    MENKHODUR_LOG_FULL = 13,        /* 8,192 actions reached, or for a move 4,096 moves; a roll with more; a report on over 4,096 lines */
    MENKHODUR_NO_OFFER = 14,
    MENKHODUR_NO_CLAIM = 15,
    MENKHODUR_PART_TOO_SHORT = 16,
    MENKHODUR_BAD_ROLL = 17,        /* no roll, or bytes for one that are no action */
    MENKHODUR_TOO_FEW_TOKENS = 18,  /* in a FEN text: fewer than four */
    MENKHODUR_BAD_PLACEMENT = 19,   /* in a FEN text: a byte of the first token that is none of a placement */
    MENKHODUR_BAD_SIDE = 20,        /* in a FEN text: a second token that is no side to move */
    MENKHODUR_LEFT_OPEN = 21,       /* in PGN move text: a comment or bracket left open */
    MENKHODUR_TOO_DEEP = 22,        /* in PGN move text: brackets deeper than 8, or a place that is */
    MENKHODUR_UNKNOWN_TOKEN = 23,   /* in PGN move text: also a result in brackets, a stray closing bracket, an offset past the text */
    MENKHODUR_WRONG_RECORD = 24,    /* a logged move came with another record than menkhodur_board_after gives */
    MENKHODUR_BAD_COUNTER = 25      /* in a FEN text, menkhodur_fen_read_full only: a fifth or sixth token that is no counter */
};

/* Results of a game: the order of `GameResult`, 0 for none. */
enum {
    MENKHODUR_GOES_ON = 0,
    MENKHODUR_WHITE_CHECKMATES = 1,
    MENKHODUR_WHITE_RESIGNS = 2,
    MENKHODUR_BLACK_CHECKMATES = 3,
    MENKHODUR_BLACK_RESIGNS = 4,
    MENKHODUR_STALEMATE = 5,
    MENKHODUR_DRAW_ACCEPTED = 6,
    MENKHODUR_DRAW_DECLARED = 7
};

/* Why a draw may be claimed: the numbers of `claim` and `laws_claim` of a ruling. */
enum {
    MENKHODUR_CLAIM_NONE = 0,         /* it may not, or the game has ended */
    MENKHODUR_CLAIM_BY_COUNT = 1,     /* the count is MENKHODUR_CLAIM_COUNT or more */
    MENKHODUR_CLAIM_BY_POSITIONS = 2, /* two or more earlier positions of the run equal the last */
    MENKHODUR_CLAIM_BY_BOTH = 3
};

/* What is wrong with a list and an in-check byte: `wrong` of a judgement (since version 16), the first of these. */
enum {
    MENKHODUR_JUDGED_RIGHT = 0,     /* nothing: the list has the legal moves, each once, in any order, and the byte is owed */
    MENKHODUR_JUDGED_NOT_LEGAL = 1, /* an entry is no legal move */
    MENKHODUR_JUDGED_TWICE = 2,     /* an entry comes again */
    MENKHODUR_JUDGED_MISSING = 3,   /* a legal move is missing */
    MENKHODUR_JUDGED_IN_CHECK = 4   /* the in-check byte is the other one */
};

/* Limits. */
enum {
    MENKHODUR_MAX_ACTIONS = 8192,
    MENKHODUR_MAX_MOVES = 4096,
    MENKHODUR_LONGEST_LIST = 255,
    MENKHODUR_LAST_MOVE = 28671,
    MENKHODUR_LAST_COUNT = 9999, /* the largest that either counter of a record may be */
    MENKHODUR_CLAIM_COUNT = 100, /* moves of either side, fifty of each, from which on a count lets a draw be claimed */
    MENKHODUR_DEEPEST_LEVEL = 8  /* of variations in PGN move text */
};

/* Colours: the side to move, and who offers or resigns. */
enum {
    MENKHODUR_WHITE = 0,
    MENKHODUR_BLACK = 1
};

/* Men: what stands on a square. */
enum {
    MENKHODUR_EMPTY = 0,
    MENKHODUR_WHITE_PAWN = 1,
    MENKHODUR_WHITE_KNIGHT = 2,
    MENKHODUR_WHITE_BISHOP = 3,
    MENKHODUR_WHITE_ROOK = 4,
    MENKHODUR_WHITE_QUEEN = 5,
    MENKHODUR_WHITE_KING = 6,
    MENKHODUR_BLACK_PAWN = 7,
    MENKHODUR_BLACK_KNIGHT = 8,
    MENKHODUR_BLACK_BISHOP = 9,
    MENKHODUR_BLACK_ROOK = 10,
    MENKHODUR_BLACK_QUEEN = 11,
    MENKHODUR_BLACK_KING = 12
};

/* Castling rights of one colour, a bit for each side. */
enum {
    MENKHODUR_NO_RIGHTS = 0,
    MENKHODUR_KING_SIDE = 1,
    MENKHODUR_QUEEN_SIDE = 2,
    MENKHODUR_BOTH_SIDES = 3
};

/* Promotions: what the man that moves becomes. */
enum {
    MENKHODUR_PROMOTE_NONE = 0,
    MENKHODUR_PROMOTE_PAWN = 1,
    MENKHODUR_PROMOTE_KNIGHT = 2,
    MENKHODUR_PROMOTE_BISHOP = 3,
    MENKHODUR_PROMOTE_ROOK = 4,
    MENKHODUR_PROMOTE_QUEEN = 5,
    MENKHODUR_PROMOTE_KING = 6
};

#ifdef __cplusplus
#define MENKHODUR_CAST(type, value) (static_cast<type>(value))
#else
#define MENKHODUR_CAST(type, value) ((type)(value))
#endif

/* A square's number, as a uint8_t: MENKHODUR_SQUARE('e', 4) is 28. The file is a letter from 'a' to 'h' and the rank a number from 1 to 8; each is
 * evaluated once, and the number is a constant if they are. menkhodur_make_square also refuses what is out of range. */
#define MENKHODUR_SQUARE(file, rank) \
    MENKHODUR_CAST(uint8_t, MENKHODUR_CAST(unsigned, file) - MENKHODUR_CAST(unsigned, 'a') + 8u * (MENKHODUR_CAST(unsigned, rank) - 1u))

/* A move's number, as a uint16_t: source + 64 * destination + 4,096 * promotion. The arguments must be in range, squares of 0 to 63 and
 * a promotion of 0 to 6, and each is evaluated once; the number is a constant if they are. Then the three parts of such a number. */
#define MENKHODUR_MOVE(source, destination, promotion) \
    MENKHODUR_CAST(uint16_t, MENKHODUR_CAST(unsigned, source) + 64u * MENKHODUR_CAST(unsigned, destination) \
                                 + 4096u * MENKHODUR_CAST(unsigned, promotion))
#define MENKHODUR_MOVE_SOURCE(move) MENKHODUR_CAST(uint8_t, MENKHODUR_CAST(unsigned, move) % 64u)
#define MENKHODUR_MOVE_DESTINATION(move) MENKHODUR_CAST(uint8_t, MENKHODUR_CAST(unsigned, move) / 64u % 64u)
#define MENKHODUR_MOVE_PROMOTION(move) MENKHODUR_CAST(uint8_t, MENKHODUR_CAST(unsigned, move) / 4096u)

/* Kinds of action, in the order of the original's `Action`. */
enum {
    MENKHODUR_MAKE_MOVE = 1,
    MENKHODUR_OFFER_DRAW = 2,
    MENKHODUR_ACCEPT_DRAW = 3,
    MENKHODUR_DECLARE_DRAW = 4,
    MENKHODUR_RESIGN = 5
};

/* Bytes of the log. Action i lies from byte 4 * i of its part on: its kind, a colour, and a move of two bytes, low byte first; fields
 * that its kind does not use are 0. Position k, the start for 0 and else the one after k moves, lies from byte 584 * k of its part on:
 * the record in the order of menkhodur_board, each of its two counters in two bytes, low byte first (since version 12), an in-check byte 0 or
 * 1, the length of its list, and 255 moves of two bytes, low byte first, unused ones 0. The two parts that are lent may be longer than the
 * lengths here. */
enum {
    MENKHODUR_ACTION_SIZE = 4,
    MENKHODUR_ACTION_KIND = 0,
    MENKHODUR_ACTION_COLOUR = 1,        /* of an offer or a resignation */
    MENKHODUR_ACTION_MOVE = 2,          /* of a move */
    MENKHODUR_POSITION_SIZE = 584,
    MENKHODUR_POSITION_RECORD = 0,
    MENKHODUR_POSITION_HALF_MOVES = 68,
    MENKHODUR_POSITION_FULL_MOVES = 70,
    MENKHODUR_POSITION_IN_CHECK = 72,
    MENKHODUR_POSITION_ENTRIES = 73,
    MENKHODUR_POSITION_MOVES = 74,
    MENKHODUR_ACTIONS_LENGTH = 32768,    /* 8,192 actions */
    MENKHODUR_POSITIONS_LENGTH = 2392648 /* 4,097 positions */
};

/* Bytes of texts. No text ends in a 0 byte: its length is the answer's value. A coordinate text has 4 bytes, or 5 with a promotion. */
enum {
    MENKHODUR_SHORTEST_FEN = 25,
    MENKHODUR_LONGEST_FEN = 85,
    MENKHODUR_LONGEST_FULL_FEN = 91,     /* of menkhodur_fen_write_full; its shortest has MENKHODUR_SHORTEST_FEN bytes too */
    MENKHODUR_SHORTEST_NAME = 2,
    MENKHODUR_LONGEST_NAME = 11,
    MENKHODUR_LONGEST_STANDARD_NAME = 8, /* of menkhodur_san_name_standard; its shortest has MENKHODUR_SHORTEST_NAME bytes too */
    MENKHODUR_SHORTEST_COORDINATE = 4,
    MENKHODUR_LONGEST_COORDINATE = 5
};

/* Bytes of the longest roll: 68 numbers of one byte, two counters and a count of two, 4,096 moves of four and 4,096 other actions of one. */
enum {
    MENKHODUR_LONGEST_ROLL = 20554
};

/* Bytes of the longest text that menkhodur_roll_differences writes: a room of so many is never too short. */
enum {
    MENKHODUR_MAX_DIFFERENCES = 658
};

/* What a page of FENs takes of its two rooms for each line, and how many lines a page may have that is reported on. */
enum {
    MENKHODUR_PAGE_RECORD = 68, /* bytes: a record without its counters, in the order of menkhodur_board */
    MENKHODUR_PAGE_NUMBERS = 2, /* the answer's number, then its offset */
    MENKHODUR_REPORT_LINES = 4096
};

/* How many kinds of men there are. */
enum {
    MENKHODUR_KINDS = 12
};

/* The board record: 68 numbers in document 01's order, which are what a key names, what a page holds and what repetition compares, and the
 * two counters of a FEN: 70 numbers, 72 bytes, aligned to 2. A square is a rank of 0 to 7 times 8 plus a file of 0 to 7, a1 = 0. Since
 * version 12 the counters are there, and a record of zeros is not in range: set `full_moves` to 1. The structs that hold a board are as
 * large as before, so a program that was compiled with an older header links and hands over whatever lies behind its 68 bytes: only
 * menkhodur_version() tells. */
typedef struct {
    uint8_t pieces[64];          /* men: 0 empty, 1..6 white pawn knight bishop rook queen king, 7..12 black */
    uint8_t side_to_move;        /* 0 white, 1 black */
    uint8_t white_castle_rights; /* 0..3: 1 king side, 2 queen side, 3 both */
    uint8_t black_castle_rights; /* 0..3 */
    uint8_t en_passant;          /* 0 none, 1..8 files a..h */
    uint16_t half_moves;         /* 0..9,999: since the last capture or pawn move */
    uint16_t full_moves;         /* 1..9,999: the number of the move, from 1 on, one more after each move by black */
} menkhodur_board;

/* `value` is the answer with number 0, the length needed with number 7, and 0 with every other number. For a page it is the
 * number of lines, with either of its two numbers. */
typedef struct { uint64_t number; uint64_t value; } menkhodur_answer;
/* The same for a text; `offset` is the place in it of what is wrong, and 0 with number 0. Since version 4 this is the answer of
 * menkhodur_move_read; until then it was a menkhodur_answer. */
typedef struct { uint64_t number; uint64_t value; uint64_t offset; } menkhodur_placed;
typedef struct { uint64_t number; menkhodur_board board; } menkhodur_stepped;
/* Since version 3 `offset` is the place in the text of what is wrong with it, and 0 with number 0; until then it was 0 in every
 * answer. */
typedef struct { uint64_t number; uint64_t offset; menkhodur_board board; } menkhodur_fen;
typedef struct { uint64_t number; uint64_t actions; uint64_t moves; } menkhodur_counts;
typedef struct { uint64_t number; uint64_t actions; menkhodur_board board; } menkhodur_roll;
/* What the two rulings on a draw rest on. The counts are of moves of either side, since the start if nothing has emptied them. A pawn move,
 * a capture and a change of either side's castling rights each empty the run of positions, which then begins with the position after that
 * move. A position's number is the number of moves that led to it, 0 for the start. Where the game has ended both claims are 0, and the
 * rest is as it was. */
typedef struct {
    uint64_t number;
    uint64_t count;      /* moves since a pawn move, a capture or a change of rights: the reversible count of document 01 */
    uint64_t laws_count; /* moves since a pawn move or a capture: the count of article 9.3 of the Laws, never below `count` */
    uint64_t equals;     /* how many earlier positions of the run equal the last, in record and list */
    uint64_t first;      /* the number of the earliest of them; 0 is the start, or none if `equals` is 0 */
    uint64_t second;     /* the number of the next one; 0 if `equals` is 0 or 1 */
    uint64_t claim;      /* MENKHODUR_CLAIM_.. by `count` and `equals`: what menkhodur_game_declare_draw asks for */
    uint64_t laws_claim; /* MENKHODUR_CLAIM_.. by `laws_count` and `equals` */
} menkhodur_ruling;
/* PGN move text. `offset` is the place in the text of what is wrong, and 0 with number 0. A refused check has 0 moves; where there is no
 * move, `found` and all behind it are 0. Since version 15 menkhodur_pgn_move has its last two fields, 64 bytes in place of 48: a program
 * that was compiled with an older header must not call it, for its room for the answer is too short. */
typedef struct { uint64_t number; uint64_t offset; uint64_t moves; } menkhodur_pgn_count;
typedef struct {
    uint64_t number;
    uint64_t offset;
    uint64_t found;  /* 1 if there is a move, else 0 */
    uint64_t start;  /* the move is text[start .. start + length); the next place is start + length at the same level */
    uint64_t length;
    uint64_t level;  /* 0 outside brackets, 1 to 8 inside */
    uint64_t closed; /* how many brackets are closed between the place and the move; of one that opens and closes in between nothing is told */
    uint64_t opened; /* how many are then opened: the move's level is the place's - closed + opened */
} menkhodur_pgn_move;
/* A step through a game's move text. `board` is the record after the move, or the one that was given if none was played. With 21, 22, 23
 * and where no move is left all else but the number and the offset is 0. */
typedef struct {
    uint64_t number;
    uint64_t offset;     /* the place in the text of what is wrong, `start` with 4, 5, 6 and 7; 0 with number 0 */
    uint64_t found;      /* 1 if there is a move text, played or refused, else 0 */
    uint64_t start;      /* it is text[start .. start + length); the next step begins at start + length */
    uint64_t length;
    uint64_t move;       /* the listed move that was played; 0 if refused */
    uint64_t key_length; /* the bytes of the key that is in the room, or with 7 those needed; else 0 */
    menkhodur_board board;
} menkhodur_step;

/* What is owed to a record, and the first thing that is wrong with what was lent. Of a refused judgement all is 0 but the number. */
typedef struct {
    uint64_t number;
    uint64_t in_check; /* the byte that is owed, 0 or 1 */
    uint64_t entries;  /* how many moves the list owes */
    uint64_t wrong;    /* MENKHODUR_JUDGED_.. */
    uint64_t move;     /* with 1 the first entry that is not legal, with 2 the first that comes again, with 3 the smallest missing move; else 0 */
} menkhodur_judged;

/* What is reported on a page of FENs. Of a refused report all is 0 but the number and, with 7, the lines. */
typedef struct {
    uint64_t number;
    uint64_t lines;
    uint64_t accepted;
    uint64_t refused;  /* accepted + refused = lines */
    uint64_t men[12];  /* on the accepted lines, man `code` at code - 1: white pawn .. king, black pawn .. king */
    uint64_t repeated; /* accepted lines whose record, without counters, an earlier accepted line has: three equal ones are two */
} menkhodur_report;

#if defined(__cplusplus)
#define MENKHODUR_ASSERT(fact, text) static_assert(fact, text)
#elif defined(__STDC_VERSION__) && __STDC_VERSION__ >= 201112L
#define MENKHODUR_ASSERT(fact, text) _Static_assert(fact, text)
#endif
#ifdef MENKHODUR_ASSERT
MENKHODUR_ASSERT(sizeof(menkhodur_board) == 72, "68 numbers of one byte and two counters");
MENKHODUR_ASSERT(offsetof(menkhodur_board, half_moves) == 68 && offsetof(menkhodur_board, full_moves) == 70, "the counters are last");
MENKHODUR_ASSERT(sizeof(menkhodur_answer) == 16, "a number and a value");
MENKHODUR_ASSERT(sizeof(menkhodur_placed) == 24, "a number, a value and an offset");
MENKHODUR_ASSERT(offsetof(menkhodur_stepped, board) == 8 && sizeof(menkhodur_stepped) == 80, "a number and a board");
MENKHODUR_ASSERT(offsetof(menkhodur_fen, board) == 16 && sizeof(menkhodur_fen) == 88, "two numbers and a board");
MENKHODUR_ASSERT(sizeof(menkhodur_counts) == 24, "a number and two counts");
MENKHODUR_ASSERT(offsetof(menkhodur_roll, board) == 16 && sizeof(menkhodur_roll) == 88, "two numbers and a board");
MENKHODUR_ASSERT(sizeof(menkhodur_ruling) == 64, "eight numbers");
MENKHODUR_ASSERT(sizeof(menkhodur_pgn_count) == 24, "three numbers");
MENKHODUR_ASSERT(sizeof(menkhodur_pgn_move) == 64, "eight numbers");
MENKHODUR_ASSERT(offsetof(menkhodur_step, board) == 56 && sizeof(menkhodur_step) == 128, "seven numbers and a board");
MENKHODUR_ASSERT(sizeof(menkhodur_judged) == 40, "five numbers");
MENKHODUR_ASSERT(sizeof(menkhodur_report) == 136, "seventeen numbers");
MENKHODUR_ASSERT(sizeof(size_t) == 8, "lengths have 64 bits");
#undef MENKHODUR_ASSERT
#endif

/* ---- The version -------------------------------------------------------------------------------------------------------------- */

/* The archive's own MENKHODUR_VERSION: if the two differ, a program was compiled with the header of another version. */
uint64_t menkhodur_version(void);

/* ---- Squares and castling rights ---------------------------------------------------------------------------------------------- */

/* 0: the value is the square, 8 * rank + file. 5: rank or file over 7. */
menkhodur_answer menkhodur_make_square(uint8_t rank, uint8_t file);

/* 0: the value is the rights with those added, per bit. 5: one of the two is over 3. */
menkhodur_answer menkhodur_rights_add(uint8_t rights, uint8_t added);

/* 0: the value is the rights without those removed, per bit. 5: one of the two is over 3. */
menkhodur_answer menkhodur_rights_remove(uint8_t rights, uint8_t removed);

/* 0: the value is the rights of the colour that depend on that square: 2, 3, 1 at files a, e, h of its own back rank, 0
 * elsewhere. 5: colour over 1 or square over 63. */
menkhodur_answer menkhodur_square_rights(uint8_t colour, uint8_t square);

/* ---- The board record --------------------------------------------------------------------------------------------------------- */
/* Each of the first seven, a step, answers 0 with the record in which one number is set, or 5 with the record exactly as given: if one of the
 * record's own 70 numbers is out of range, or a parameter is. All other numbers, the counters too, stay. */

/* Sets a square to the code of a man. 5 also: square over 63; code 0 or over 12 (menkhodur_clear_square empties a square). */
menkhodur_stepped menkhodur_piece(menkhodur_board b, uint8_t square, uint8_t code);

/* Empties a square. 5 also: square over 63. */
menkhodur_stepped menkhodur_clear_square(menkhodur_board b, uint8_t square);

/* Sets the side to move. 5 also: colour over 1. */
menkhodur_stepped menkhodur_side_to_move(menkhodur_board b, uint8_t colour);

/* Sets all rights of one colour. 5 also: colour over 1, rights over 3. */
menkhodur_stepped menkhodur_castle_rights(menkhodur_board b, uint8_t colour, uint8_t rights);

/* Sets the en passant file 1 to 8, or clears it with 0. 5 also: file over 8. */
menkhodur_stepped menkhodur_en_passant(menkhodur_board b, uint8_t file);

/* Sets the half-move clock (document 02, order 12), of any 64-bit value, which is never cut. 5 also: over 9,999. */
menkhodur_stepped menkhodur_half_moves(menkhodur_board b, uint64_t half_moves);

/* Sets the move number, likewise. 5 also: 0 or over 9,999. No relation between the two counters is asked. */
menkhodur_stepped menkhodur_full_moves(menkhodur_board b, uint64_t full_moves);

/* The board after a move (document 02, order 9): what menkhodur_game_make_move asks for. 0: the record after it. For a legal move that is the
 * original's; for any other the same rule runs as written, and whether a move is legal is not asked:
 *   - The man of the source is set down, last, on the destination; with a promotion that piece of his colour is, whatever man he is. The
 *     source is empty. If it was empty before, both squares are.
 *   - A king that goes two files along its rank: what stood in that side's corner of the rank goes to the square passed over.
 *   - A pawn that changes files to an empty square: the square on its old rank and new file is emptied.
 *   - Both sides lose the rights that menkhodur_square_rights gives for the source and for the destination.
 *   - The other side is to move.
 *   - The en passant file is that of a pawn that goes two ranks on one file and arrives beside a pawn of the other colour than its own; else
 *     it is 0.
 *   - The half-move clock is 0 if a pawn stands on the source or the destination is occupied, else one more; the move number is one more if
 *     black is to move in the record, whoever moves. Either stops at 9,999 (since version 12).
 * Refused, with the record exactly as given: 5: a record number out of range; 6: a move over 28,671, at any size. */
menkhodur_stepped menkhodur_board_after(menkhodur_board b, uint64_t move);

/* ---- FEN ---------------------------------------------------------------------------------------------------------------------- */

/* Reads a FEN text, which is split at each single space, so that empty tokens count. 0: the board is what the first four tokens say, with
 * the counters 0 and 1 whatever stands behind them, and the offset is 0. Refused, in this order, with a board of zeros, the move number
 * too, which no call takes: 18: there are fewer than four tokens; the offset is the text's length. 19: a
 * byte of the first token, the placement, is none of `/12345678PNBRQKpnbrqk`; the offset is the place of the first such byte. 20: the
 * second token, the side to move, is not `w`, `W`, `b` or `B`; the offset is the place where it starts, one past the first space. The
 * text is left alone. */
menkhodur_fen menkhodur_fen_read(const uint8_t *text, size_t length);

/* 0: the record's one FEN without its counters, 25 to 85 bytes, is at the front of `out`, and the value is its length; the bytes of `out`
 * behind it are left alone. It ends in ` 0 1` whatever the counters are: it is the key, and two records have one key exactly if they have the
 * same 68 numbers before the counters. Refused, in this order: 5: a record number out of range; 7: `room` is shorter than the text, whose length is the value.
 * A refused call leaves all of `out` alone. */
menkhodur_answer menkhodur_fen_write(menkhodur_board b, uint8_t *out, size_t room);

/* Reads a FEN text with its two counters (document 02, order 12): the first four tokens as menkhodur_fen_read does, then the fifth as the
 * half-move clock and the sixth as the move number, each one to four digits, the move number not 0; tokens behind the sixth are ignored.
 * Refused, in this order, with a board of zeros: 18, 19, 20 as there; 25: the fifth token, and then the sixth, is not there (the offset is
 * the text's length), or is not one to four digits, or is a move number of 0 (the offset is the place where it starts). The text is left
 * alone. */
menkhodur_fen menkhodur_fen_read_full(const uint8_t *text, size_t length);

/* Writes the record's one FEN with its own counters, 25 to 91 bytes, which menkhodur_fen_read_full reads back to exactly that record; all
 * else as menkhodur_fen_write. */
menkhodur_answer menkhodur_fen_write_full(menkhodur_board b, uint8_t *out, size_t room);

/* The settled record: its en passant file is cleared unless a pawn of the side to move stands beside the pawn that moved, on rank 5 with white to
 * move and on rank 4 with black. That is the rule by which the crate's `Board` keeps a file; many programs write one after every double step, and
 * then two records are one position. Every other number stays, the counters too, and what is settled stays as it is. A record that
 * menkhodur_board_after has given for a legal move is settled. 5: one of the record's 70 numbers is out of range; the record is handed back. */
menkhodur_stepped menkhodur_board_settled(menkhodur_board b);

/* The key of a text's settled record in one call: what menkhodur_fen_read reads, settled and written by menkhodur_fen_write. 0: the value is the
 * key's length, and the offset is 0. Refused, in this order: 18, 19, 20 with the offset that menkhodur_fen_read gives, and the value 0; 7 with the
 * length needed as the value, and the offset 0. Then nothing is written. A store that files positions under these keys must file none under those
 * of menkhodur_fen_write beside them (docs/STORE.md). The text and the room do not overlap. */
menkhodur_placed menkhodur_fen_settled(const uint8_t *text, size_t length, uint8_t *out, size_t room);

/* Reads a page of FEN texts, one per line: each as menkhodur_fen_read reads it by itself. A newline byte (10) ends a line and
 * belongs to none; a last line without one counts if it has a byte in it, so that an empty text has no line and a newline alone
 * has an empty one. No other byte ends a line: in a line that ends in CR and LF, the CR is the last byte.
 * 0: the value is the number of lines. Line i, counted from 0, has its record in the 68 bytes of `records` from 68 * i on, 68 zeros if it is
 * refused; its own number, 0, 18, 19 or 20, in numbers[2 * i]; and its offset, from the line's start and 0 if it is accepted, in
 * numbers[2 * i + 1]. A refused line does not refuse the page. The bytes and numbers behind the last line's are left alone.
 * Refused: 7: `records` has fewer than 68 bytes per line, or `numbers` fewer than two numbers per line; the value is the number
 * of lines, and both rooms are left alone: so a call with two empty rooms counts the lines. The text is left alone. */
menkhodur_answer menkhodur_fen_page(const uint8_t *text, size_t length, uint8_t *records, size_t records_length,
                                    uint64_t *numbers, size_t numbers_length);

/* The evening report (document 02, order 14): reads a page as menkhodur_fen_page does, for at most 4,096 lines, and counts over what it has read.
 * 0: all figures; both rooms are as menkhodur_fen_page leaves them, so that each line's record, number and offset is there too.
 * Refused, in this order: 13: more than 4,096 lines; all else is 0. 7: a room is too short, as for menkhodur_fen_page; `lines` is their
 * number, all else 0. Both leave the rooms alone. The figures do not depend on the order of the lines.
 * Cost: one and a half to twice that of menkhodur_fen_page, in time that goes with the number of lines. Records that were made up so that all of
 * them fall into one of the 4,093 buckets by which equal ones are found are each compared with all others: under a tenth of a second for
 * 4,096 of them. It takes 25 kilobytes of stack. */
menkhodur_report menkhodur_fen_report(const uint8_t *text, size_t length, uint8_t *records, size_t records_length,
                                      uint64_t *numbers, size_t numbers_length);

/* ---- Move texts --------------------------------------------------------------------------------------------------------------- */
/* A move is a number as MENKHODUR_MOVE makes it, at most 28,671. */

/* Reads a coordinate text: two pairs of bytes, each a file a to h and a rank 1 to 8. 0: the value is the move, and the offset is 0.
 * Refused, in this order, with the value 0: 3: the first pair is not there; the offset is the text's length, 0 or 1. 2: it is no square;
 * the offset is the place of its file byte, 0, or if only its rank byte is wrong the place of that, 1. 3: the second pair is not there;
 * the offset is the text's length, 2 or 3. 2: it is no square; the offset is that of its file byte, 2, or of its rank byte, 3. 3: there
 * are exactly five bytes, and the fifth is none of q r n b; the offset is 4. A text of six bytes or more drops its tail, the fifth byte
 * with it. The text is left alone. */
menkhodur_placed menkhodur_move_read(const uint8_t *text, size_t length);

/* Writes a coordinate text, 4 or 5 bytes. 0: it is at the front of `out`, and the value is its length; the bytes of `out` behind it
 * are left alone. Refused, in this order, with all of `out` left alone: 6: the move is over 28,671, at any size; 7: `room` is shorter
 * than the text, whose length is the value. */
menkhodur_answer menkhodur_move_write(uint64_t move, uint8_t *out, size_t room);

/* Reads a SAN text. 0: the value is the move that it names in the list. Refused, in this order: 5: a record number out of range;
 * 6: more than 255 entries, or an entry over 28,671; 4: the text is no SAN text, or it is a castling text and its move is not listed, or
 * it is another text and not exactly one entry fits it, or the one that fits fails the capture test (without `x` its destination must be
 * empty, with `x` and without ` e.p.` occupied). List and text are left alone.
 * For this function and the next three: the order of the list does not matter; the same entries, each as often, get the same
 * answer and the same bytes. Entries other than the move that a text names can go, and the text still names it; a move's name may
 * then be another one, but the old one still names it. With entries added, 255 in all at most, a text names the same move or is
 * refused with 4. */
menkhodur_answer menkhodur_san_read(menkhodur_board b, const uint16_t *list, size_t entries, const uint8_t *text, size_t length);

/* Writes the SAN text, 2 to 11 bytes, that menkhodur_san_read with the same record and list reads as exactly this move. 0: it is at
 * the front of `out`, and the value is its length; the bytes of `out` behind it are left alone. Refused, in this order, with all of
 * `out` left alone: 5: a record number out of range; 6: more than 255 entries, or an entry over 28,671; 11: the move is not in the
 * list, at any size; 8: no text names it; 7: `room` is shorter than the text, whose length is the value. The list is left alone. */
menkhodur_answer menkhodur_san_name(menkhodur_board b, const uint16_t *list, size_t entries, uint64_t move, uint8_t *out, size_t room);

/* The same two for SAN as the PGN standard writes it, as in files of other programs. A text is a castling text, `O-O` or `O-O-O`, or an
 * optional N B R Q K, an optional file, an optional rank, an optional `x`, the square of the destination and, for a promotion, `=` with
 * one of N B R Q; one `+` or `#` may follow either, and then the text ends: a longer one is refused, also one that ends in ` e.p.`. */

/* Reads such a text. 0: the value is the move that it names in the list. Refused, in this order: 5: a record number out of range;
 * 6: more than 255 entries, or an entry over 28,671; 4: the text is no such text, or it is a castling text and its move is not listed or no
 * king, of either colour, stands on file e of the back rank of the side to move, or it is another text and not exactly one entry fits it,
 * or the one that fits fails the capture test: `x` stands exactly when the destination is occupied or a pawn changes files, and a pawn's
 * `x` comes with the file that it leaves (`exd6`, en passant too). List and text are left alone. */
menkhodur_answer menkhodur_san_read_standard(menkhodur_board b, const uint16_t *list, size_t entries, const uint8_t *text, size_t length);

/* Writes such a text, 2 to 8 bytes and without `+` or `#`, that menkhodur_san_read_standard with the same record and list reads as exactly
 * this move. 0: it is at the front of `out`, and the value is its length; the bytes of `out` behind it are left alone. Refused, in this
 * order, with all of `out` left alone: 5: a record number out of range; 6: more than 255 entries, or an entry over 28,671; 11: the move is
 * not in the list, at any size; 8: no text names it; 7: `room` is shorter than the text, whose length is the value. The list is left
 * alone. */
menkhodur_answer menkhodur_san_name_standard(menkhodur_board b, const uint16_t *list, size_t entries, uint64_t move, uint8_t *out, size_t room);

/* ---- Legal moves -------------------------------------------------------------------------------------------------------------- */
/* The legal moves of a record by articles 3.1 to 3.10 of the FIDE Laws of Chess, for any record in range, and no other call asks them: every
 * call that takes a list goes on taking the host's. A list of the legal moves in any order has a name for each of them
 * (menkhodur_san_name and menkhodur_san_name_standard never answer 8 over it), and a log whose lists and bytes are all found right rules
 * mate and stalemate as articles 1.4.1 and 5.2.1 do.
 *   - A side is in check if one of its kings is attacked; a side without a king never is. A king is never taken.
 *   - Castling needs the right, the king on e1 or e8 and a rook of its own in the corner, nothing between the two, and no attack on the
 *     square that the king leaves, passes or arrives on.
 *   - A capture in passing needs the record's file, the other side's pawn on it, on rank 5 with white to move and on rank 4 with black, and
 *     an empty square behind that pawn.
 *   - A pawn that arrives on the last rank becomes a knight, bishop, rook or queen, and one that stands there has no move. One on its own
 *     first rank goes one step.
 * Cost: a list looks at every number that a move may have, tens of microseconds (docs/SPEED.md); a judgement makes the list. */

/* 0: the value is 1 if the side to move is in check, else 0. 5: a record number out of range. */
menkhodur_answer menkhodur_in_check(menkhodur_board b);

/* Writes the legal moves in rising order of their numbers. 0: they are at the front of `out`, and the value is how many there are; what
 * lies behind them in `out` is left alone. With 0 moves the side to move is mated or stalemated, as menkhodur_in_check tells. `room` counts
 * moves, and 255 is never too little. Refused, in this order, with all of `out` left alone: 5: a record number out of range; 6: there are
 * more than 255 legal moves, which no game comes to; 7: `room` is less than the number of moves, which is the value. */
menkhodur_answer menkhodur_legal_list(menkhodur_board b, uint16_t *out, size_t room);

/* Judges a list and an in-check byte as a host lends them to a log. 0: what is owed, and the first thing that is wrong, asked for in the
 * order of MENKHODUR_JUDGED_..; the order of the list does not matter to whether it is right. Refused, in this order, with all else 0: 5: a
 * record number or the in-check byte out of range; 6: more than 255 entries, or an entry over 28,671, or more than 255 legal moves. What
 * menkhodur_legal_list and menkhodur_in_check give is always found right. The list is left alone. */
menkhodur_judged menkhodur_list_judged(menkhodur_board b, uint8_t in_check, const uint16_t *list, size_t entries);

/* ---- The game log ------------------------------------------------------------------------------------------------------------- */
/* A log lies in two lent parts, actions and positions, of at least 32,768 and 2,392,648 bytes, and its two counts travel by value: hand
 * each call the counts that the one before returned. Bytes past the used actions and positions are not looked at. In every call
 *     16  one of the parts is shorter than that;
 *      9  the log is not good (no sequence of accepted calls from a start makes it; since version 9, then, every move came with the record
 *         that menkhodur_board_after gives), or a count is over its limit, at any size;
 *     10  (not in a query) the game is over
 * stand before the call's own numbers, in this order. An accepted call writes the 4 bytes of its action behind the used ones, a move
 * also the 584 bytes of its position, and returns the counts after it. A refused call writes nothing and returns the counts as given.
 * A position is a record, an in-check byte 0 or 1 and the list of its moves, which is copied into the log. Two positions are
 * equal if their records are but for the counters, and their lists too, in the same order. A host that sorts must sort every list of a game alike, its
 * start's too: or else a position that came before is not recognised, and a claim by equal positions does not stand
 * (menkhodur_game_can_declare_draw, menkhodur_game_can_claim_by_laws, menkhodur_game_declare_draw, and `equals` of
 * menkhodur_game_ruling). Nothing else depends on it. */

/* Begins a log with a position, which is written over the first 584 bytes of `positions`. The counts are 0 and 0, accepted or
 * refused. Of `actions` only the length is looked at: it is never read or written. Refused, in this order: 16; 5: a record number or
 * the in-check byte out of range; 6: more than 255 entries, or an entry over 28,671. */
menkhodur_counts menkhodur_game_start(uint8_t *actions, size_t actions_length, uint8_t *positions, size_t positions_length,
                                      menkhodur_board b, uint8_t in_check, const uint16_t *list, size_t entries);

/* Plays a move of the current position's list; `next`, `in_check` and `list` are the position after it. Refused, in this order: 16;
 * 9; 10; 11: the move is not in the current list, at any size; 5: a number of `next` or the in-check byte out of range; 6: more than
 * 255 entries, or an entry over 28,671; 12: `next` has the side to move of the current position; 24 (since version 9): `next` is not the
 * record that menkhodur_board_after gives for the current one and the move; 13: 8,192 actions or 4,096 moves are reached. */
menkhodur_counts menkhodur_game_make_move(uint8_t *actions, size_t actions_length, uint8_t *positions, size_t positions_length,
                                          uint64_t action_count, uint64_t move_count, uint64_t move,
                                          menkhodur_board next, uint8_t in_check, const uint16_t *list, size_t entries);

/* Offers a draw in the name of a colour. Refused, in this order: 16; 9; 10; 5: colour over 1; 13: 8,192 actions are reached. The
 * positions are left alone. */
menkhodur_counts menkhodur_game_offer_draw(uint8_t *actions, size_t actions_length, const uint8_t *positions, size_t positions_length,
                                           uint64_t action_count, uint64_t move_count, uint8_t colour);

/* Resigns in the name of a colour. Refused, in this order: 16; 9; 10; 5: colour over 1; 13: 8,192 actions are reached. The positions
 * are left alone. */
menkhodur_counts menkhodur_game_resign(uint8_t *actions, size_t actions_length, const uint8_t *positions, size_t positions_length,
                                       uint64_t action_count, uint64_t move_count, uint8_t colour);

/* Accepts the offer that stands: the last action, by either colour, or the last but one by the side not to move. Refused, in this
 * order: 16; 9; 10; 14: none stands; 13: 8,192 actions are reached. The positions are left alone. */
menkhodur_counts menkhodur_game_accept_draw(uint8_t *actions, size_t actions_length, const uint8_t *positions, size_t positions_length,
                                            uint64_t action_count, uint64_t move_count);

/* Declares the draw that may be claimed (menkhodur_game_can_declare_draw). Refused, in this order: 16; 9; 10; 15: no claim stands;
 * 13: 8,192 actions are reached. The positions are left alone. */
menkhodur_counts menkhodur_game_declare_draw(uint8_t *actions, size_t actions_length, const uint8_t *positions, size_t positions_length,
                                             uint64_t action_count, uint64_t move_count);

/* 0: the value is the result, 1 to 7, or 0 while the game goes on. Refused, in this order: 16; 9. Both parts are left alone. */
menkhodur_answer menkhodur_game_result(const uint8_t *actions, size_t actions_length, const uint8_t *positions, size_t positions_length,
                                       uint64_t action_count, uint64_t move_count);

/* 0: the value is 1 if a draw may be declared and 0 if not, as in a game that is over. Refused, in this order: 16; 9. Both parts are
 * left alone. */
menkhodur_answer menkhodur_game_can_declare_draw(const uint8_t *actions, size_t actions_length,
                                                 const uint8_t *positions, size_t positions_length,
                                                 uint64_t action_count, uint64_t move_count);

/* 0: the value is 1 if the Laws let a draw be claimed and 0 if not, as in a game that is over: as menkhodur_game_can_declare_draw, but by
 * the count of article 9.3, which a change of castling rights leaves running (document 02, order 5). It is 1 wherever that one is. A draw
 * that only this one allows cannot be declared in the log. Refused, in this order: 16; 9. Both parts are left alone. */
menkhodur_answer menkhodur_game_can_claim_by_laws(const uint8_t *actions, size_t actions_length,
                                                  const uint8_t *positions, size_t positions_length,
                                                  uint64_t action_count, uint64_t move_count);

/* 0: what both rulings rest on. `claim` is not 0 exactly if the value of menkhodur_game_can_declare_draw is 1, and `laws_claim` is not 0
 * exactly if that of menkhodur_game_can_claim_by_laws is. Refused, in this order, with all other numbers 0: 16; 9. Both parts are left
 * alone. */
menkhodur_ruling menkhodur_game_ruling(const uint8_t *actions, size_t actions_length, const uint8_t *positions, size_t positions_length,
                                       uint64_t action_count, uint64_t move_count);

/* ---- Rolls -------------------------------------------------------------------------------------------------------------------- */
/* A roll is a game without its positions, for a store (document 02, orders 1 and 12): the 70 numbers of the start's record in the order of
 * menkhodur_board, the count of the actions, then for each action its kind * 2 + its colour and, for a move, the move's number. Every
 * number is written in groups of seven bits, a byte each, the lowest group first, the top bit set on all but the last, in the fewest
 * groups. So a roll has 71 to 20,554 bytes, and a code of an action is 2 for a move, 4 or 5 for an offer by white or black, 6 for an
 * accepted draw, 8 for a declared one, 10 or 11 for a resignation. One start with one list of actions has one roll, and every roll that
 * is read is written back as it came.
 * The actions lie in a part as a log has them, of at least 32,768 bytes. Only bounds are judged: whether the actions make a game, only a
 * log with its positions can tell.
 * Until version 11 a roll had no counters: such an old roll is read by menkhodur_roll_read_old. A byte string can be both (the smallest has
 * 71 bytes: 68 zeros, then 1, 2, 0), with two meanings, so never try one call after the other: a store must know which kind it keeps. */

/* Writes the roll of a start and of the first `action_count` actions. 0: it is at the front of `out`, and the value is its length; the
 * bytes of `out` behind it are left alone. Refused, in this order, with all of `out` left alone: 16: `actions` is shorter than 32,768
 * bytes; 5: a record number out of range; 13: the count is over 8,192, at any size, or more than 4,096 of the counted actions are of kind
 * 1, moves, whatever else their bytes say; 17: the bytes of a counted action are not an action's: kind, colour or move is out of range,
 * or a field that the kind does not use is not 0; 7: `room` is shorter than the roll, whose length is the value. The actions are left
 * alone; those past the count are not looked at. */
menkhodur_answer menkhodur_roll_write(menkhodur_board b, const uint8_t *actions, size_t actions_length, uint64_t action_count,
                                      uint8_t *out, size_t room);

/* Reads a roll. 0: the board is the start, the answer's `actions` is the count, and that many actions of 4 bytes are at the front of the
 * part; the bytes of the part behind them are left alone. Refused, with all of the part left alone, a count of 0 and a board of zeros:
 * 16: the part is shorter than 32,768 bytes; then whichever comes first from the left: 5: a record number out of range; 13: a count over
 * 8,192, or the code of a 4,097th move; 17: the roll ends too early, or goes on behind its last action; a number is not in the fewest
 * groups, or has more than five, before its size is judged; a code is no action's; a move's number is over 28,671. The roll is left
 * alone. */
menkhodur_roll menkhodur_roll_read(const uint8_t *roll, size_t length, uint8_t *actions, size_t actions_length);

/* Reads an old roll, one without counters, in which the count stands behind the 68 numbers: the start has the counters 0 and 1. All else as
 * menkhodur_roll_read. Written by menkhodur_roll_write, what it gives is the old roll with the bytes 0 and 1 put in behind its 68th. */
menkhodur_roll menkhodur_roll_read_old(const uint8_t *roll, size_t length, uint8_t *actions, size_t actions_length);

/* What differs between two games (document 02, order 10). 0: the text is at the front of `out`, and the value is its length, 0 exactly if
 * the two rolls are equal, byte for byte; the bytes of `out` behind it are left alone. It has a line for each number of the start that
 * differs, in this order: the squares, keyed by number, `side`, `white`, `black`, `ep`, `half`, `full`; then one for the first action that differs, keyed
 * `action` and its index from 0. A line is its key, the first and the second game's number, in decimal with single spaces between, and a
 * newline byte: `28 1 0`. An action's number is 0 if there is none, else its code in a roll + 16 * its move. Refused, with all of `out` left
 * alone: the numbers of menkhodur_roll_read, first roll first, but for 16, for no part is lent; then 7: `room` is shorter than the text, whose
 * length is the value. Both rolls are left alone. */
menkhodur_answer menkhodur_roll_differences(const uint8_t *first, size_t first_length, const uint8_t *second, size_t second_length,
                                            uint8_t *out, size_t room);

/* ---- PGN move text ------------------------------------------------------------------------------------------------------------ */
/* The moves of a game as PGN has them, without tag pairs (document 02, order 8). A text is made of move numbers (digits, then any
 * periods), moves, brace comments, semicolon comments to LF or the end, `$` and digits, results (`1-0`, `0-1`, `1/2-1/2`, `*`, tried
 * before numbers, with no look at what follows) and variations in round brackets, down to 8 levels; space, tab, CR and LF are skipped. A
 * move starts with a to h, N, B, R, Q, K or O and runs on over letters, digits and `+#=-!?`; what it says is not asked (that is
 * menkhodur_san_read_standard's). A result outside brackets ends the walk, whatever follows it.
 * Refused with the first of these from the left, and its place: 22: a bracket that would open the ninth level; 23: anything else that is
 * no token, a result in brackets, a stray closing bracket. If the end is reached: 21, with the place of the innermost comment or bracket
 * that is left open. */

/* 0: the whole text is well formed, and `moves` is the number of its moves, those of variations among them. Refused: 21, 22, 23. */
menkhodur_pgn_count menkhodur_pgn_check(const uint8_t *text, size_t length);

/* The next move from a place, an offset and a level, as if the text began there at that level: 0 with `found` 1, or with `found` 0 if none
 * is left. Nothing past the end of the move is looked at. From the start at level 0, and then from the end of each move at its level, it
 * gives the moves that menkhodur_pgn_check counts, in text order. Refused: 22 with the offset, if the level is over 8; 23 with the offset,
 * if that is past the text (an offset equal to the length is not); else 21, 22, 23 for what is met before a move. A bracket that was opened
 * before the place and is left open has the place's offset. Any 64-bit offset and level are judged as they are. `closed` and `opened`
 * (since version 15) tell `e4 (d4 d5) (c4 e5) e5` from `e4 (d4 d5 c4 e5) e5`, whose moves are at the same levels: with 1 and 1 a variation
 * ends before c4 and another begins. A variation is played from the record before the last move of the sequence that it stands in. */
menkhodur_pgn_move menkhodur_pgn_next(const uint8_t *text, size_t length, uint64_t offset, uint64_t level);

/* ---- The positions of a game's text -------------------------------------------------------------------------------------------- */

/* One step of the main line: the next move outside brackets from an offset outside brackets, read by menkhodur_san_read_standard over the
 * list that the record has, played by menkhodur_board_after, and the key of the record after it written by menkhodur_fen_write: four calls
 * in one. 0 with `found` 1: that record is `board`, and its key is at the front of `out`; the bytes of `out` behind it are left alone. 0
 * with `found` 0: no move outside brackets is left. Refused, in this order, with all of `out` left alone and the record handed back: 23
 * with the offset, if that is past the text; 21, 22, 23 as menkhodur_pgn_check gives them for what is met before that move, in variations
 * too; 5: a record number out of range; 6: more than 255 entries, or an entry over 28,671; 4: the text is no name of a listed move; 7:
 * `room` is shorter than the key. From the start at offset 0, and then from the end of each move with the record after it and the list that
 * this record has, it gives every position of the game once, in order. Entries that the move text cannot mean may be left out of a list
 * without any change to the answer. Text and list are left alone. */
menkhodur_step menkhodur_game_step(const uint8_t *text, size_t length, uint64_t offset, menkhodur_board b,
                                   const uint16_t *list, size_t entries, uint8_t *out, size_t room);

/* One move text, the whole of `text`, played from any record, for whoever finds the moves of variations with menkhodur_pgn_next: as a step,
 * with `start` and `offset` 0, `found` 1 and the text's length. Refused, in this order: 5, 6, 4, 7. */
menkhodur_step menkhodur_play(const uint8_t *text, size_t length, menkhodur_board b,
                              const uint16_t *list, size_t entries, uint8_t *out, size_t room);

#ifdef __cplusplus
}
#endif

#endif
