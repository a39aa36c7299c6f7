/* The board after a move: the archive beside document 02, orders 9 and 12, as after_rule.h has it: over rows by hand, over every move of some
 * boards, and over random ones; and logs, which ask for it. */
#include "game.h"

static const char board_after[] = "menkhodur_board_after";

/* ---- Rows by hand ---- */

static menkhodur_board board_of(const char *fen)
{
    struct part text = lend_text(fen);
    menkhodur_fen read = menkhodur_fen_read_full(text.bytes, text.length);
    about(board_after, "the FEN %s", fen);
    expect("read", MENKHODUR_ACCEPTED, read.number);
    give_back(&text);
    return read.board;
}

static uint64_t move_of(const char *coordinates)
{
    struct part text = lend_text(coordinates);
    menkhodur_placed read = menkhodur_move_read(text.bytes, text.length);
    expect("read", MENKHODUR_ACCEPTED, read.number);
    give_back(&text);
    return read.value;
}

static void expect_after(const menkhodur_board *want, menkhodur_stepped got)
{
    expect("number", MENKHODUR_ACCEPTED, got.number);
    expect_board(want, &got.board);
}

static void check_row(const char *before, const char *coordinates, const char *after)
{
    menkhodur_board b = board_of(before), want = board_of(after);
    uint64_t move = move_of(coordinates);
    menkhodur_board again = after_of(b, move);
    about(board_after, "%s, %s", before, coordinates);
    expect_after(&want, menkhodur_board_after(b, move));
    expect_board(&want, &again);
}

static void check_men_moved(void)
{
    check_row("8/8/8/8/8/8/8/1N6 w - - 7 3", "b1c3", "8/8/8/8/8/2N5/8/8 b - - 8 3");
    check_row("8/8/8/8/8/2p5/8/1N6 w - - 7 3", "b1c3", "8/8/8/8/8/2N5/8/8 b - - 0 3");
    check_row("3r4/4P3/8/8/8/8/8/8 w - - 7 3", "e7d8n", "3N4/8/8/8/8/8/8/8 b - - 0 3");
    check_row("8/8/8/8/8/8/4p3/8 b - - 7 3", "e2e1q", "8/8/8/8/8/8/8/4q3 w - - 0 4");
    check_row("8/8/8/8/8/8/8/4k3 w - - 7 3", "e1e2r", "8/8/8/8/8/8/4r3/8 b - - 8 3");
    check_row("8/8/8/8/8/2p5/8/8 w - - 7 3", "b1c3q", "8/8/8/8/8/8/8/8 b - - 0 3");
    check_row("8/8/8/8/8/8/8/1N6 b - - 7 3", "b1b1", "8/8/8/8/8/8/8/1N6 w - - 0 4");
}

static void check_castling(void)
{
    check_row("r3k2r/8/8/8/8/8/8/R3K2R w KQkq - 7 3", "e1g1", "r3k2r/8/8/8/8/8/8/R4RK1 b kq - 8 3");
    check_row("r3k2r/8/8/8/8/8/8/R3K2R b KQkq - 7 3", "e8c8", "2kr3r/8/8/8/8/8/8/R3K2R w KQ - 8 4");
    check_row("8/8/8/8/4K2n/8/8/8 b - - 7 3", "e4g4", "8/8/8/8/5nK1/8/8/8 w - - 8 4");
    check_row("8/8/8/8/8/8/8/4KQ2 w - - 7 3", "e1g1", "8/8/8/8/8/8/8/6K1 b - - 8 3");
    check_row("8/8/8/8/8/8/8/5K1N w - - 7 3", "f1h1", "8/8/8/8/8/8/8/6NK b - - 0 3");
    check_row("8/8/8/8/8/8/8/N1K5 w - - 7 3", "c1a1", "8/8/8/8/8/8/8/KN6 b - - 0 3");
    check_row("8/8/8/8/8/8/8/R1K4B w - - 7 3", "c1e1", "8/8/8/8/8/8/8/R2BK3 b - - 8 3");
    check_row("8/8/8/8/8/8/8/4K2R w - - 7 3", "e1g1b", "8/8/8/8/8/8/8/5RB1 b - - 8 3");
    check_row("8/8/8/8/8/8/8/6KR w - - 7 3", "g1a2", "8/8/8/8/8/8/K7/7R b - - 8 3");
}

static void check_en_passant(void)
{
    check_row("8/8/8/3Pp3/8/8/8/8 w - e6 7 3", "d5e6", "8/8/4P3/8/8/8/8/8 b - - 0 3");
    check_row("8/8/8/8/3Pp3/8/8/8 b - d3 7 3", "e4d3", "8/8/8/8/8/3p4/8/8 w - - 0 4");
    check_row("8/8/8/3P3q/8/8/8/8 w - - 7 3", "d5h1", "8/8/8/8/8/8/8/7P b - - 0 3");
    check_row("8/8/8/3P4/8/8/8/8 w - - 7 3", "d5e5", "8/8/8/4P3/8/8/8/8 b - - 0 3");
    check_row("8/8/4n3/3Pp3/8/8/8/8 w - e6 7 3", "d5e6", "8/8/4P3/4p3/8/8/8/8 b - - 0 3");
    check_row("8/8/8/3Bp3/8/8/8/8 w - e6 7 3", "d5e6", "8/8/4B3/4p3/8/8/8/8 b - - 8 3");
}

static void check_rights_and_file(void)
{
    check_row("r3k2r/8/8/8/8/8/8/R3K2R w KQkq - 7 3", "h1h8", "r3k2R/8/8/8/8/8/8/R3K3 b Qq - 0 3");
    check_row("8/8/8/8/8/8/8/8 w KQkq - 7 3", "e1e8", "8/8/8/8/8/8/8/8 b - - 8 3");
    check_row("8/8/8/8/3p4/8/4P3/8 w - - 7 3", "e2e4", "8/8/8/8/3pP3/8/8/8 b - e3 0 3");
    check_row("8/3p4/8/4P3/8/8/8/8 b - - 7 3", "d7d5", "8/8/8/3pP3/8/8/8/8 w - d6 0 4");
    check_row("8/8/8/8/8/8/4P3/8 w - a6 7 3", "e2e4", "8/8/8/8/4P3/8/8/8 b - - 0 3");
    check_row("8/8/8/8/3P4/8/4P3/8 w - - 7 3", "e2e4", "8/8/8/8/3PP3/8/8/8 b - - 0 3");
    check_row("8/8/8/7p/8/p7/7P/8 w - - 7 3", "h2h4", "8/8/8/7p/7P/p7/8/8 b - - 0 3");
    check_row("8/8/8/p7/8/7p/P7/8 w - - 7 3", "a2a4", "8/8/8/p7/P7/7p/8/8 b - - 0 3");
    check_row("8/8/8/4P3/8/3p4/8/8 b - - 7 3", "e5e3", "8/8/8/8/8/3pP3/8/8 w - e6 0 4");
    check_row("8/8/8/8/3p4/8/4P3/8 b - - 7 3", "e2e4q", "8/8/8/8/3pQ3/8/8/8 w - e6 0 4");
}

/* What is no pawn move and no capture by document 01's words leaves the clock running: an empty square to itself, nobody's move to an empty
 * square, a king that castles over a man, a right that is lost. A man's own square is occupied. The move number goes by the record's side. */
static void check_counters_after(void)
{
    check_row("8/8/8/8/8/8/8/8 w - - 7 3", "b1b1", "8/8/8/8/8/8/8/8 b - - 8 3");
    check_row("8/8/8/8/8/8/8/8 b - - 7 3", "b1c3", "8/8/8/8/8/8/8/8 w - - 8 4");
    check_row("8/8/8/8/8/8/8/1n6 w - - 7 3", "b1c3", "8/8/8/8/8/2n5/8/8 b - - 8 3");
    check_row("8/8/8/8/8/8/P7/8 w - - 7 3", "a2a2", "8/8/8/8/8/8/P7/8 b - - 0 3");
    check_row("8/8/8/8/8/8/8/4Kq1R w K - 7 3", "e1g1", "8/8/8/8/8/8/8/5RK1 b - - 8 3");
    check_row("8/8/8/8/8/8/8/4K1nR w K - 7 3", "e1g1", "8/8/8/8/8/8/8/5RK1 b - - 0 3");
    check_row("8/8/8/8/8/8/8/4K2R w K - 7 3", "h1h3", "8/8/8/8/8/7R/8/4K3 b - - 8 3");
    check_row("8/8/8/8/8/8/8/1N6 w - - 500 1", "b1c3", "8/8/8/8/8/2N5/8/8 b - - 501 1");
    check_row("8/8/8/8/8/8/8/1N6 w - - 9998 9999", "b1c3", "8/8/8/8/8/2N5/8/8 b - - 9999 9999");
    check_row("8/8/8/8/8/8/8/1N6 b - - 9999 9998", "b1c3", "8/8/8/8/8/2N5/8/8 w - - 9999 9999");
    check_row("8/8/8/8/8/8/8/1N6 b - - 9999 9999", "b1c3", "8/8/8/8/8/2N5/8/8 w - - 9999 9999");
    check_row("8/8/8/8/8/2p5/8/1N6 b - - 9999 9999", "b1c3", "8/8/8/8/8/2N5/8/8 w - - 0 9999");
}

/* ---- Every move, random boards, refusals ---- */

static void check_every_move(menkhodur_board b)
{
    unsigned step = few ? 37 : 1;
    for (uint64_t move = 0; move <= MENKHODUR_LAST_MOVE; move += step) {
        menkhodur_board want = after_of(b, move);
        about(board_after, "every move: %llu", (unsigned long long)move);
        expect_after(&want, menkhodur_board_after(b, move));
    }
}

/* Few kinds of men, so that kings, pawns and empty squares meet. */
static menkhodur_board some_board(void)
{
    static const uint8_t men[] = { 0, 0, 0, 0, 1, 1, 7, 7, 6, 12, 4, 10 };
    menkhodur_board b;
    for (unsigned i = 0; i < 64; i++) b.pieces[i] = any(4) ? men[any(sizeof men)] : (uint8_t)any(13);
    for (unsigned i = 64; i < ALL_NUMBERS; i++) set_number(&b, i, any_number(i));
    return b;
}

/* A source, and a destination near it more often than not: along the rank, along the file, or aslant. */
static uint64_t some_move(void)
{
    static const int steps[] = { 2, -2, 16, -16, 7, 9, -7, -9, 1, -1, 8, -8 };
    unsigned source = any(64), near = (source + 64u + (unsigned)(steps[any(12)] + 64)) % 64;
    return MENKHODUR_MOVE(source, any(4) ? near : any(64), any(3) ? 0 : any(7));
}

static void check_random(void)
{
    for (unsigned i = 0; i < (few ? 1000u : 200000u); i++) {
        menkhodur_board b = some_board();
        uint64_t move = some_move();
        menkhodur_board want = after_of(b, move);
        about(board_after, "random board %u, move %llu", i, (unsigned long long)move);
        expect_after(&want, menkhodur_board_after(b, move));
    }
}

static void refuse_after(uint64_t number, menkhodur_board b, uint64_t move)
{
    menkhodur_stepped got = menkhodur_board_after(b, move);
    expect("number", number, got.number);
    expect_board(&b, &got.board);
}

static void check_refusals(void)
{
    for (unsigned i = 0; i < BAD_BOARDS; i++) {
        menkhodur_board b = bad_board(some_board(), i);
        about(board_after, "number %u out of range", i / 2);
        refuse_after(MENKHODUR_OUT_OF_RANGE, b, some_move());
        refuse_after(MENKHODUR_OUT_OF_RANGE, b, MENKHODUR_LAST_MOVE + 1);
    }
    about(board_after, "moves over the last");
    for (uint64_t move = MENKHODUR_LAST_MOVE + 1; move < 65536; move += 811) refuse_after(MENKHODUR_BAD_LIST, some_board(), move);
    for (unsigned i = 0; i < WIDE; i++) {
        refuse_after(MENKHODUR_BAD_LIST, some_board(), wide[i]);
        refuse_after(MENKHODUR_BAD_LIST, some_board(), wide_over(i, 1804));
    }
}

/* ---- The log asks for this record ---- */

/* Every move that a list can hold, lent with the record after it and with one number of that changed. */
static void check_logged(menkhodur_board b, uint64_t move)
{
    struct game g = lend_game(MENKHODUR_ACTIONS_LENGTH, MENKHODUR_POSITIONS_LENGTH);
    struct position p = { b, 0, { (uint16_t)move }, 1 }, good = { after_of(b, move), 1, { 0 }, 0 }, bad = good;
    unsigned which = any(4) ? any(ALL_NUMBERS - 1) : HALF_MOVES - any(2), past_side = which < 64 ? which : which + 1;
    while (same_board(good.board, bad.board)) set_number(&bad.board, past_side, any_number(past_side));
    start(&g, &p, MENKHODUR_ACCEPTED);
    play(&g, (struct request){ MAKE_MOVE, move, 0, &bad }, MENKHODUR_WRONG_RECORD);
    play(&g, (struct request){ MAKE_MOVE, move, 0, &good }, MENKHODUR_ACCEPTED);
    put_position(&g, 1, &bad);
    for (enum call c = 0; c < CALLS; c++) refuse(&g, c, MENKHODUR_NOT_GOOD);
    give_back_game(&g);
}

void check_after(void)
{
    check_men_moved();
    check_castling();
    check_en_passant();
    check_rights_and_file();
    check_counters_after();
    check_every_move(initial);
    for (unsigned i = 0; i < 4; i++) check_every_move(some_board());
    check_random();
    check_refusals();
    for (unsigned i = 0; i < (few ? 5u : 60u); i++) check_logged(some_board(), some_move());
}
