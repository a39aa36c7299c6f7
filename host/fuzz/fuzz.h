/* What the harness's files share: violations, the two copies of the archive, lent memory, and the input with its registers. */
#ifndef FUZZ_H
#define FUZZ_H

#include "../c/after_rule.h"
#include "../c/record.h"
#include "../c/settled_rule.h"

#include <stdbool.h>

/* Each call is made twice: turn 0 calls the archive as it is linked by a host. With GUIDED, turn 1 calls the same LLVM module compiled
 * with coverage (its functions renamed by `run`), so that what is judged is the archive and what guides is its own code. */
#ifdef GUIDED
#define TWIN(f) guided_##f
#else
#define TWIN(f) f
#endif
#define CALL(turn, f, ...) ((turn) ? TWIN(f)(__VA_ARGS__) : f(__VA_ARGS__))

#ifdef GUIDED
#define TWIN_OF(f) extern __typeof__(f) guided_##f
TWIN_OF(menkhodur_version);
TWIN_OF(menkhodur_make_square);
TWIN_OF(menkhodur_rights_add);
TWIN_OF(menkhodur_rights_remove);
TWIN_OF(menkhodur_square_rights);
TWIN_OF(menkhodur_piece);
TWIN_OF(menkhodur_clear_square);
TWIN_OF(menkhodur_side_to_move);
TWIN_OF(menkhodur_castle_rights);
TWIN_OF(menkhodur_en_passant);
TWIN_OF(menkhodur_board_after);
TWIN_OF(menkhodur_fen_read);
TWIN_OF(menkhodur_fen_write);
TWIN_OF(menkhodur_fen_page);
TWIN_OF(menkhodur_move_read);
TWIN_OF(menkhodur_move_write);
TWIN_OF(menkhodur_san_read);
TWIN_OF(menkhodur_san_name);
TWIN_OF(menkhodur_san_read_standard);
TWIN_OF(menkhodur_san_name_standard);
TWIN_OF(menkhodur_game_start);
TWIN_OF(menkhodur_game_make_move);
TWIN_OF(menkhodur_game_offer_draw);
TWIN_OF(menkhodur_game_resign);
TWIN_OF(menkhodur_game_accept_draw);
TWIN_OF(menkhodur_game_declare_draw);
TWIN_OF(menkhodur_game_result);
TWIN_OF(menkhodur_game_can_declare_draw);
TWIN_OF(menkhodur_game_can_claim_by_laws);
TWIN_OF(menkhodur_game_ruling);
TWIN_OF(menkhodur_roll_write);
TWIN_OF(menkhodur_roll_read);
TWIN_OF(menkhodur_roll_differences);
TWIN_OF(menkhodur_pgn_check);
TWIN_OF(menkhodur_pgn_next);
TWIN_OF(menkhodur_half_moves);
TWIN_OF(menkhodur_full_moves);
TWIN_OF(menkhodur_fen_read_full);
TWIN_OF(menkhodur_fen_write_full);
TWIN_OF(menkhodur_roll_read_old);
TWIN_OF(menkhodur_fen_report);
TWIN_OF(menkhodur_board_settled);
TWIN_OF(menkhodur_fen_settled);
TWIN_OF(menkhodur_game_step);
TWIN_OF(menkhodur_play);
TWIN_OF(menkhodur_in_check);
TWIN_OF(menkhodur_legal_list);
TWIN_OF(menkhodur_list_judged);
#endif

/* ---- Violations (lent.c) ---- */

/* The checks that follow are of this function. */
void about(const char *function);
void expect(const char *what, uint64_t want, uint64_t got);
void expect_answer(menkhodur_answer want, menkhodur_answer got);
void expect_bytes(const char *what, const void *want, const void *got, size_t length);

/* With `counting` set, the numbers that each function answered are kept, and `report` prints them. */
extern bool counting;
void report(void);

/* ---- Lent memory (lent.c) ---- */

/* Pages between pages that fault. `bytes` is the part lent: it ends where the pages end, or begins where they begin, so that one byte
 * too far faults on that side; on the other side lie guard bytes. `kept` is what the open pages must hold. */
struct lent {
    uint8_t *low, *kept, *bytes;
    size_t open, all, length;
};

/* Room for parts of up to `most` bytes, opened in full. */
void lent_make(struct lent *p, size_t most);
/* Places a part of `length` bytes and fills all open pages; the fills of the two turns have no byte in common. */
void lend(struct lent *p, size_t length, bool front, unsigned turn);
/* The caller's own change, and the change that a call must have made. */
void lent_put(struct lent *p, size_t at, const void *bytes, size_t length);
void lent_expect(struct lent *p, size_t at, const void *bytes, size_t length);
void lent_same(const char *what, const struct lent *p);
/* Only the part's first `length` bytes (in whole pages) can be read or written from here on; what is opened anew is filled. */
void lent_open(struct lent *p, size_t length);
/* Fills what lies open from `at` on with other bytes than before. */
void lent_stir(struct lent *p, size_t at);

/* ---- The input and its registers (harness.c) ---- */

enum { MOST_ENTRIES = 300, MOST_TEXT = 400 };

/* The record that builder steps begin with: no man, white to move, no rights, no file, the counters 0 and 1. */
extern const menkhodur_board no_men;

struct input {
    const uint8_t *at, *end;
    menkhodur_board board;
    uint16_t list[MOST_ENTRIES];
    size_t entries;
    uint8_t text[MOST_TEXT];
    size_t length;
    uint64_t move;
    bool front;         /* which side of lent texts, lists and rooms faults */
    bool long_log;      /* whether a log of full length may be made: once in an input */
    bool had_long_page; /* whether a page of full length was reported on: once in an input */
};

/* The next byte, 0 behind the end; two of them; and a number of up to 64 bits, mostly small. */
uint8_t take(struct input *in);
uint16_t take_pair(struct input *in);
uint64_t take_wide(struct input *in);

/* What document 01 calls in range, and document 02 of the counters. */
bool board_good(const menkhodur_board *b);
bool list_good(const uint16_t *list, size_t entries);

/* The list register as a lent part, between the same guards in both turns. */
const uint16_t *lend_list(struct input *in, unsigned turn);
void list_same(void);

/* ---- Models that several files ask ---- */

/* Of a text with the 0 byte that sprintf sets. */
enum { FEN_ROOM = MENKHODUR_LONGEST_FULL_FEN + 16 };

/* The room that the input asks for: any, or the text's own length and a byte around it (texts.c). */
size_t room_near(struct input *in, size_t length);
/* The key of a record in range; its length (texts.c). */
size_t model_key(const menkhodur_board *b, uint8_t *key);
/* The move that a text names over the registers' board and list, in the standard's form (san.c). */
menkhodur_answer model_standard(const struct input *in, const uint8_t *text, size_t length);
/* The next move outside brackets from an offset outside brackets in the text register (pgn.c). */
menkhodur_pgn_move model_main(const struct input *in, uint64_t offset);

/* ---- Steps: each takes its parameters from the input, calls, and judges ---- */

typedef void step(struct input *in);

step call_version, call_make_square, call_rights, call_square_rights, call_board_step;
step call_fen_read, call_fen_write, call_move_read, call_move_write, call_san_read, call_san_name;
step call_san_read_standard, call_san_name_standard, call_fen_page;
step call_start, call_log, call_round, tamper, garbage, long_log, log_to_registers;
step call_roll_write, call_roll_read, call_roll_differences, keep_roll, add_actions, roll_of_game, poke_roll, insert_in_roll, cut_roll;
step call_pgn_check, call_pgn_next, walk_pgn, put_token;
step call_board_after;
step call_counter_step, call_fen_read_full, call_fen_write_full, call_roll_read_old, old_roll_of_game;
step call_fen_report, call_long_report;
step call_board_settled, call_fen_settled;
step call_play, call_game_step, step_through;
step call_in_check, call_legal_list, call_list_judged, legal_to_list;

/* The texts that the register can be set to. */
void text_of_board(struct input *in);
void full_text_of_board(struct input *in);
void text_of_move(struct input *in);
void standard_text_of_move(struct input *in);

/* At the beginning and the end of an input. */
void texts_begin(void);
void san_begin(void);
void log_begin(void);
void log_end(void);
void rolls_begin(void);
void pgn_begin(void);
void played_begin(void);
void legal_begin(void);

#endif
