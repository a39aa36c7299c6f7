/* Squares, castling rights and the steps of the record, over every value of their numbers. */
#include "check.h"

static const char make_square[] = "menkhodur_make_square";
static const char rights_add[] = "menkhodur_rights_add";
static const char rights_remove[] = "menkhodur_rights_remove";
static const char square_rights[] = "menkhodur_square_rights";

static uint64_t out_of_range_unless(bool ok)
{
    return ok ? MENKHODUR_ACCEPTED : MENKHODUR_OUT_OF_RANGE;
}

static unsigned rights_on(unsigned colour, unsigned square)
{
    if (square / 8 != (colour ? 7 : 0)) return 0;
    return square % 8 == 0 ? 2 : square % 8 == 4 ? 3 : square % 8 == 7 ? 1 : 0;
}

static void check_pair(uint8_t a, uint8_t b)
{
    bool in = a < 8 && b < 8, rights = a < 4 && b < 4, square = a < 2 && b < 64;
    about(make_square, "rank %u, file %u", a, b);
    expect_answer(out_of_range_unless(in), in ? 8u * a + b : 0, menkhodur_make_square(a, b));
    about(rights_add, "rights %u, added %u", a, b);
    expect_answer(out_of_range_unless(rights), rights ? a | b : 0, menkhodur_rights_add(a, b));
    about(rights_remove, "rights %u, removed %u", a, b);
    expect_answer(out_of_range_unless(rights), rights ? a & ~b & 3 : 0, menkhodur_rights_remove(a, b));
    about(square_rights, "colour %u, square %u", a, b);
    expect_answer(out_of_range_unless(square), square ? rights_on(a, b) : 0, menkhodur_square_rights(a, b));
}

void check_base(void)
{
    for (unsigned a = 0; a < 256; a++)
        for (unsigned b = 0; b < 256; b++) check_pair((uint8_t)a, (uint8_t)b);
}

/* A step sets one number of the record: `which`, to `value`. */
static void expect_step(bool ok, menkhodur_board before, unsigned which, unsigned value, menkhodur_stepped got)
{
    menkhodur_board want = before;
    if (ok) set_number(&want, which, value);
    expect("number", out_of_range_unless(ok), got.number);
    expect_board(&want, &got.board);
}

static void check_square_steps(menkhodur_board b, bool in_range, uint8_t square, uint8_t code)
{
    bool on = in_range && square < 64;
    about("menkhodur_piece", "square %u, code %u, record %s", square, code, in_range ? "in range" : "out of range");
    expect_step(on && code >= 1 && code <= 12, b, square % 64, code, menkhodur_piece(b, square, code));
    about("menkhodur_clear_square", "square %u, record %s", square, in_range ? "in range" : "out of range");
    expect_step(on, b, square % 64, 0, menkhodur_clear_square(b, square));
}

static void check_other_steps(menkhodur_board b, bool in_range, uint8_t colour, uint8_t number)
{
    about("menkhodur_side_to_move", "colour %u, record %s", colour, in_range ? "in range" : "out of range");
    expect_step(in_range && colour < 2, b, 64, colour, menkhodur_side_to_move(b, colour));
    about("menkhodur_castle_rights", "colour %u, rights %u, record %s", colour, number, in_range ? "in range" : "out of range");
    expect_step(in_range && colour < 2 && number < 4, b, 65u + colour % 2, number, menkhodur_castle_rights(b, colour, number));
    about("menkhodur_en_passant", "file %u, record %s", number, in_range ? "in range" : "out of range");
    expect_step(in_range && number < 9, b, 67, number, menkhodur_en_passant(b, number));
}

/* The counters' steps take a number of any size, which is never cut. */
static void check_counter_steps(menkhodur_board b, bool in_range, uint64_t number)
{
    const char *record = in_range ? "in range" : "out of range";
    about("menkhodur_half_moves", "%llu, record %s", (unsigned long long)number, record);
    expect_step(in_range && number <= 9999, b, HALF_MOVES, (unsigned)number, menkhodur_half_moves(b, number));
    about("menkhodur_full_moves", "%llu, record %s", (unsigned long long)number, record);
    expect_step(in_range && number >= 1 && number <= 9999, b, FULL_MOVES, (unsigned)number, menkhodur_full_moves(b, number));
}

static void check_record(menkhodur_board b, bool in_range)
{
    check_square_steps(b, in_range, 28, 5);
    check_square_steps(b, in_range, 63, 12);
    check_square_steps(b, in_range, 64, 13);
    check_other_steps(b, in_range, 1, 3);
    check_other_steps(b, in_range, 0, 8);
    check_other_steps(b, in_range, 2, 9);
    check_counter_steps(b, in_range, 0);
    check_counter_steps(b, in_range, 9999);
    check_counter_steps(b, in_range, 10000);
}

/* Each number of the record at either end of its range, and out of it. No relation between the two counters is asked. */
static void check_record_range(void)
{
    menkhodur_board b;
    for (unsigned which = 0; which < ALL_NUMBERS; which++) {
        b = initial;
        set_number(&b, which, limit_of(which));
        check_record(b, true);
        set_number(&b, which, least_of(which));
        check_record(b, true);
    }
    for (unsigned i = 0; i < BAD_BOARDS; i++) check_record(bad_board(initial, i), false);
    check_record(no_board, false);
    b.half_moves = b.full_moves = 9999;
    check_record(b, true);
}

/* Every number of 16 bits and some behind them, and numbers that a narrower type would cut to good ones. A step keeps the other counter. */
static void check_counter_numbers(void)
{
    menkhodur_board b = initial;
    b.half_moves = 500;
    b.full_moves = 7;
    for (uint64_t number = 0; number < 65536 + 9999 + 2; number += few ? 101 : 1) check_counter_steps(b, true, number);
    check_counter_steps(b, true, 65536);
    check_counter_steps(b, true, 65537);
    for (unsigned i = 0; i < WIDE; i++) {
        check_counter_steps(b, true, wide[i]);
        check_counter_steps(b, true, wide_over(i, 0));
        check_counter_steps(b, true, wide_over(i, 1));
    }
}

void check_steps(void)
{
    for (unsigned a = 0; a < 256; a++)
        for (unsigned b = 0; b < 256; b++) {
            check_square_steps(initial, true, (uint8_t)a, (uint8_t)b);
            check_other_steps(initial, true, (uint8_t)a, (uint8_t)b);
        }
    check_record_range();
    check_counter_numbers();
}
