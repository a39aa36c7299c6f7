/* Takes an input apart into steps: some set the registers (a board, a list, a text, a move), the others call the archive with them. */
#include "fuzz.h"

#include <signal.h>
#include <stdio.h>
#include <stdlib.h>
#include <string.h>
#include <unistd.h>

enum { MOST_STEPS = 120, LONG_LOG = 0xFF };

/* ---- The input ---- */

uint8_t take(struct input *in)
{
    return in->at < in->end ? *in->at++ : 0;
}

uint16_t take_pair(struct input *in)
{
    unsigned low = take(in);
    return (uint16_t)(low | (unsigned)take(in) << 8);
}

uint64_t take_wide(struct input *in)
{
    unsigned form = take(in);
    uint64_t pair = take_pair(in);
    if (form < 192) return pair;
    if (form < 224) return pair << (form % 49);
    return (UINT64_MAX << (form % 33)) + pair;
}

/* ---- In range ---- */

const menkhodur_board no_men = { .full_moves = 1 };

bool board_good(const menkhodur_board *b)
{
    for (unsigned i = 0; i < ALL_NUMBERS; i++)
        if (get_number(*b, i) < least_of(i) || get_number(*b, i) > limit_of(i)) return false;
    return true;
}

bool list_good(const uint16_t *list, size_t entries)
{
    if (entries > MENKHODUR_LONGEST_LIST) return false;
    for (size_t i = 0; i < entries; i++)
        if (list[i] > MENKHODUR_LAST_MOVE) return false;
    return true;
}

/* ---- The list, lent ---- */

static struct lent list_part;

const uint16_t *lend_list(struct input *in, unsigned turn)
{
    lend(&list_part, 2 * in->entries, in->front, turn);
    lent_put(&list_part, 0, in->list, 2 * in->entries);
    return (const uint16_t *)(const void *)list_part.bytes;
}

void list_same(void)
{
    lent_same("list", &list_part);
}

/* ---- Steps that set the board ---- */

static void initial_board(struct input *in)
{
    static const uint8_t men[8] = { 4, 2, 3, 5, 6, 3, 2, 4 };
    in->board = no_men;
    for (unsigned file = 0; file < 8; file++) {
        in->board.pieces[file] = men[file];
        in->board.pieces[8 + file] = 1;
        in->board.pieces[48 + file] = 7;
        in->board.pieces[56 + file] = (uint8_t)(men[file] + 6);
    }
    in->board.white_castle_rights = in->board.black_castle_rights = 3;
}

static void empty_board(struct input *in)
{
    in->board = no_men;
    in->board.side_to_move = take(in) & 1;
}

/* All but the counters. */
static void any_board(struct input *in)
{
    for (unsigned i = 0; i < KEY_NUMBERS; i++) *number_of(&in->board, i) = (uint8_t)(take(in) % (limit_of(i) + 1));
}

/* Up to eight numbers, none a counter, set as the input says: in range as a rule, and to any value if the place's byte is 196 or more. */
static void poke_board(struct input *in)
{
    for (unsigned count = take(in) % 8 + 1; count; count--) {
        unsigned which = take(in), value = take(in);
        bool any = which >= 196;
        which %= KEY_NUMBERS;
        *number_of(&in->board, which) = (uint8_t)(any ? value : value % (limit_of(which) + 1u));
    }
}

/* Both counters: in range as a rule, at a bound or just past it, or any. */
static void take_counters(struct input *in)
{
    static const uint16_t bounds[] = { 0, 1, MENKHODUR_LAST_COUNT - 1, MENKHODUR_LAST_COUNT, MENKHODUR_LAST_COUNT + 1, UINT16_MAX };
    for (unsigned which = HALF_MOVES; which <= FULL_MOVES; which++) {
        unsigned form = take(in), any = take_pair(in), count = any % (limit_of(which) + 1);
        if (count < least_of(which)) count = least_of(which);
        if (form >= 128) count = form < 192 ? bounds[form % (sizeof bounds / sizeof *bounds)] : any;
        set_number(&in->board, which, count);
    }
}

/* The board after a move of the list. */
static void step_board(struct input *in)
{
    uint16_t move = in->entries ? in->list[take(in) % in->entries] : 0;
    in->board = after_of(in->board, move % (MENKHODUR_LAST_MOVE + 1u));
    in->move = move;
}

/* ---- Steps that set the list ---- */

static void take_list(struct input *in)
{
    in->entries = take(in) % 16;
    for (size_t i = 0; i < in->entries; i++) in->list[i] = (uint16_t)(take_pair(in) % (MENKHODUR_LAST_MOVE + 1));
}

static void row_of_moves(struct input *in)
{
    unsigned base = take_pair(in), step = take(in);
    in->entries = take(in);
    if (in->entries > 250) in->entries += take(in) % 46;
    for (size_t i = 0; i < in->entries; i++) in->list[i] = (uint16_t)(base + i * step);
}

static void add_entry(struct input *in, unsigned move)
{
    if (in->entries < MOST_ENTRIES) in->list[in->entries++] = (uint16_t)move;
}

static void add_row(struct input *in)
{
    unsigned base = take_pair(in), step = take(in), count = take(in);
    for (unsigned i = 0; i < count; i++) add_entry(in, base + i * step);
}

static void add_any(struct input *in)
{
    add_entry(in, take_pair(in));
}

/* Every man of the side to move goes to one square: what names and readers have to tell apart. */
static void men_to_square(struct input *in)
{
    unsigned square = take(in), kind = take(in), promotion = take(in) % 7;
    for (unsigned from = 0; from < 64; from++) {
        unsigned man = in->board.pieces[from];
        bool fits = man && (man > 6) == (in->board.side_to_move == 1) && (kind >= 7 || (man - 1) % 6 + 1 == kind);
        if (fits) add_entry(in, from + 64 * (square % 64) + 4096 * promotion);
    }
}

static void poke_list(struct input *in)
{
    size_t at = take(in);
    uint16_t move = take_pair(in);
    if (in->entries) in->list[at % in->entries] = move;
}

static void clear_list(struct input *in)
{
    in->entries = 0;
}

/* ---- Steps that set the text and the move ---- */

static void take_text(struct input *in)
{
    size_t left;
    in->length = take(in);
    if (in->length >= 200) in->length = in->length * 2 - 200;
    left = (size_t)(in->end - in->at);
    if (in->length > left) in->length = left;
    if (in->length) memcpy(in->text, in->at, in->length);
    in->at += in->length;
}

static void poke_text(struct input *in)
{
    size_t at = take(in);
    uint8_t byte = take(in);
    if (in->length) in->text[at % in->length] = byte;
}

static void insert_in_text(struct input *in)
{
    size_t at = take(in);
    uint8_t byte = take(in);
    if (in->length == MOST_TEXT) return;
    at %= in->length + 1;
    memmove(in->text + at + 1, in->text + at, in->length - at);
    in->text[at] = byte;
    in->length++;
}

/* One byte many times: the archive's loops over long texts take many bytes at once. */
static void stretch_text(struct input *in)
{
    size_t at = take(in), count = take(in);
    uint8_t byte = take(in);
    at %= in->length + 1;
    if (count > MOST_TEXT - in->length) count = MOST_TEXT - in->length;
    memmove(in->text + at + count, in->text + at, in->length - at);
    memset(in->text + at, byte, count);
    in->length += count;
}

static void cut_text(struct input *in)
{
    in->length = in->length ? take(in) % in->length : 0;
}

static void pick_move(struct input *in)
{
    size_t at = take(in);
    if (in->entries) in->move = in->list[at % in->entries];
}

static void any_move(struct input *in)
{
    in->move = take_wide(in);
}

static void turn_sides(struct input *in)
{
    in->front = !in->front;
}

/* ---- An input ---- */

/* New steps go at the end, so that seeds and corpora keep their meaning. */
static step *const steps[] = {
    initial_board, empty_board, any_board, poke_board, step_board, take_list, row_of_moves, add_any, men_to_square, poke_list, clear_list,
    take_text, poke_text, insert_in_text, cut_text, text_of_board, text_of_move, pick_move, any_move, turn_sides, log_to_registers,
    call_version, call_make_square, call_rights, call_square_rights, call_board_step, call_fen_read, call_fen_write, call_move_read,
    call_move_write, call_san_read, call_san_name, call_start, call_log, call_log, call_log, call_round, tamper, garbage, long_log,
    add_row, stretch_text, call_roll_write, call_roll_read, add_actions, roll_of_game, poke_roll, insert_in_roll, cut_roll,
    call_san_read_standard, call_san_name_standard, standard_text_of_move, call_fen_page,
    call_pgn_check, call_pgn_next, walk_pgn, put_token,
    call_board_after, call_roll_differences, keep_roll,
    take_counters, call_counter_step, call_fen_read_full, call_fen_write_full, full_text_of_board, call_roll_read_old, old_roll_of_game,
    call_fen_report, call_long_report, call_board_settled, call_fen_settled,
    call_play, call_game_step, step_through,
    call_in_check, call_legal_list, call_list_judged, legal_to_list,
};

int LLVMFuzzerTestOneInput(const uint8_t *data, size_t size);

int LLVMFuzzerTestOneInput(const uint8_t *data, size_t size)
{
    static struct input in;
    if (!list_part.low) lent_make(&list_part, 2 * MOST_ENTRIES);
    memset(&in, 0, sizeof in);
    in.board = no_men;
    in.at = data;
    in.end = data + size;
    in.long_log = take(&in) == LONG_LOG;
    texts_begin();
    san_begin();
    log_begin();
    rolls_begin();
    pgn_begin();
    played_begin();
    legal_begin();
    for (unsigned i = 0; in.at < in.end && i < MOST_STEPS; i++) steps[take(&in) % (sizeof steps / sizeof *steps)](&in);
    log_end();
    return 0;
}

#ifndef GUIDED
/* Without a fuzzer: runs the files named. */
static const char *file = "";

static void told_by_signal(int signal)
{
    static const char text[] = "VIOLATION or fault in ";
    (void)!write(2, text, sizeof text - 1);
    (void)!write(2, file, strlen(file));
    (void)!write(2, "\n", 1);
    _exit(128 + signal);
}

static void run_file(const char *name)
{
    static uint8_t bytes[1 << 16];
    FILE *f = fopen(name, "rb");
    if (!f) {
        perror(name);
        exit(2);
    }
    file = name;
    size_t size = fread(bytes, 1, sizeof bytes, f);
    fclose(f);
    LLVMFuzzerTestOneInput(bytes, size);
}

int main(int count, char **names)
{
    signal(SIGSEGV, told_by_signal);
    signal(SIGBUS, told_by_signal);
    signal(SIGABRT, told_by_signal);
    counting = true;
    for (int i = 1; i < count; i++) run_file(names[i]);
    report();
    printf("%d inputs, no violation\n", count - 1);
    return 0;
}
#endif
