/* The log: starts, accepted calls, endings, offers, claims, logs that are not good, parts and counts of every size. */
#include "game.h"

#include <string.h>

static struct game usual_game(void)
{
    return lend_game(MENKHODUR_ACTIONS_LENGTH, MENKHODUR_POSITIONS_LENGTH);
}

static struct game started(bool fresh)
{
    struct game g = usual_game();
    struct position p = round_position(0, fresh);
    start(&g, &p, MENKHODUR_ACCEPTED);
    return g;
}

/* ---- Starts ---- */

static void check_start_lists(struct game *g)
{
    struct position p = round_position(0, false);
    p.list[1] = MENKHODUR_LAST_MOVE;
    start(g, &p, MENKHODUR_ACCEPTED);
    p.list[1] = MENKHODUR_LAST_MOVE + 1;
    start(g, &p, MENKHODUR_BAD_LIST);
    p.list[1] = 65535;
    start(g, &p, MENKHODUR_BAD_LIST);
    memset(p.list, 0, sizeof p.list);
    for (p.entries = 0; p.entries <= MENKHODUR_LONGEST_LIST; p.entries += 51) start(g, &p, MENKHODUR_ACCEPTED);
    for (p.entries = 256; p.entries <= 257; p.entries++) start(g, &p, MENKHODUR_BAD_LIST);
}

static void check_start_numbers(struct game *g)
{
    for (unsigned which = 0; which < ALL_NUMBERS; which++) {
        struct position p = round_position(0, false);
        set_number(&p.board, which, limit_of(which));
        start(g, &p, MENKHODUR_ACCEPTED);
    }
    for (unsigned i = 0; i < BAD_BOARDS; i++) {
        struct position p = round_position(0, false);
        p.board = bad_board(p.board, i);
        start(g, &p, MENKHODUR_OUT_OF_RANGE);
    }
    for (unsigned in_check = 0; in_check < 256; in_check++) {
        struct position p = round_position(0, false);
        p.in_check = (uint8_t)in_check;
        start(g, &p, in_check < 2 ? MENKHODUR_ACCEPTED : MENKHODUR_OUT_OF_RANGE);
    }
}

static void check_starts(void)
{
    struct game g = usual_game();
    check_start_lists(&g);
    check_start_numbers(&g);
    give_back_game(&g);
}

/* ---- Parts one byte short, exact and one byte long ---- */

static void check_parts(int actions, int positions)
{
    struct game g = lend_game((size_t)(MENKHODUR_ACTIONS_LENGTH + actions), (size_t)(MENKHODUR_POSITIONS_LENGTH + positions));
    struct position p = round_position(0, false);
    bool short_part = actions < 0 || positions < 0;
    start(&g, &p, short_part ? MENKHODUR_PART_TOO_SHORT : MENKHODUR_ACCEPTED);
    put_start(&g, &p);
    append_round(&g, 2, false);
    for (enum call c = 0; c < CALLS && short_part; c++) refuse(&g, c, MENKHODUR_PART_TOO_SHORT);
    if (!short_part) {
        play_round(&g, 6, false);
        play(&g, (struct request){ OFFER_DRAW, 0, 1, NULL }, MENKHODUR_ACCEPTED);
        ask(&g, CAN_DECLARE, MENKHODUR_ACCEPTED, 1);
        play(&g, (struct request){ DECLARE_DRAW, 0, 0, NULL }, MENKHODUR_ACCEPTED);
        ask(&g, RESULT, MENKHODUR_ACCEPTED, MENKHODUR_DRAW_DECLARED);
    }
    give_back_game(&g);
}

/* A part of 0 bytes too, with the other one whole. */
static void check_empty_part(size_t actions, size_t positions)
{
    struct game g = lend_game(actions, positions);
    struct position p = round_position(0, false);
    start(&g, &p, MENKHODUR_PART_TOO_SHORT);
    for (enum call c = 0; c < CALLS; c++) refuse(&g, c, MENKHODUR_PART_TOO_SHORT);
    give_back_game(&g);
}

static void check_part_sizes(void)
{
    for (int actions = -1; actions <= 1; actions++)
        for (int positions = -1; positions <= 1; positions++) check_parts(actions, positions);
    check_empty_part(0, 0);
    check_empty_part(0, MENKHODUR_POSITIONS_LENGTH);
    check_empty_part(MENKHODUR_ACTIONS_LENGTH, 0);
}

/* ---- Endings ---- */

static void check_over(struct game *g, uint64_t result)
{
    ask(g, RESULT, MENKHODUR_ACCEPTED, result);
    ask(g, CAN_DECLARE, MENKHODUR_ACCEPTED, 0);
    ask(g, CAN_CLAIM, MENKHODUR_ACCEPTED, 0);
    for (enum call c = MAKE_MOVE; c < RESULT; c++) refuse(g, c, MENKHODUR_GAME_OVER);
}

/* No moves for the side to move, at the start and after a move; a claim that stood stands no more. */
static void check_no_moves(uint64_t moves, uint8_t in_check, uint64_t result)
{
    struct game g = started(false);
    struct position last = round_position(moves, false);
    last.entries = 0;
    last.in_check = in_check;
    if (moves == 0) start(&g, &last, MENKHODUR_ACCEPTED);
    else {
        play_round(&g, moves - 1, false);
        play(&g, (struct request){ MAKE_MOVE, round_move(moves - 1), 0, &last }, MENKHODUR_ACCEPTED);
    }
    check_over(&g, result);
    give_back_game(&g);
}

/* The end by an action, with a claim and an offer that stood. */
static void check_ending(struct request r, uint64_t result)
{
    struct game g = started(false);
    play_round(&g, 8, false);
    play(&g, (struct request){ OFFER_DRAW, 0, 0, NULL }, MENKHODUR_ACCEPTED);
    ask(&g, RESULT, MENKHODUR_ACCEPTED, MENKHODUR_GOES_ON);
    ask(&g, CAN_DECLARE, MENKHODUR_ACCEPTED, 1);
    play(&g, r, MENKHODUR_ACCEPTED);
    check_over(&g, result);
    give_back_game(&g);
}

static void check_endings(void)
{
    check_no_moves(0, 1, MENKHODUR_BLACK_CHECKMATES);
    check_no_moves(0, 0, MENKHODUR_STALEMATE);
    check_no_moves(1, 1, MENKHODUR_WHITE_CHECKMATES);
    check_no_moves(10, 1, MENKHODUR_BLACK_CHECKMATES);
    check_no_moves(11, 0, MENKHODUR_STALEMATE);
    check_ending((struct request){ ACCEPT_DRAW, 0, 0, NULL }, MENKHODUR_DRAW_ACCEPTED);
    check_ending((struct request){ DECLARE_DRAW, 0, 0, NULL }, MENKHODUR_DRAW_DECLARED);
    check_ending((struct request){ RESIGN, 0, 0, NULL }, MENKHODUR_WHITE_RESIGNS);
    check_ending((struct request){ RESIGN, 0, 1, NULL }, MENKHODUR_BLACK_RESIGNS);
}

/* ---- Offers ---- */

/* An offer, then `moves` moves: it stands at once by either colour, and one move later if it is the mover's. */
static void check_offer(uint64_t moves_before, uint8_t colour, uint64_t moves, uint64_t number)
{
    struct game g = started(false);
    play_round(&g, moves_before, false);
    play(&g, (struct request){ ACCEPT_DRAW, 0, 0, NULL }, MENKHODUR_NO_OFFER);
    play(&g, (struct request){ OFFER_DRAW, 0, colour, NULL }, MENKHODUR_ACCEPTED);
    play_round(&g, moves, false);
    play(&g, (struct request){ ACCEPT_DRAW, 0, 0, NULL }, number);
    give_back_game(&g);
}

static void check_offers(void)
{
    for (uint64_t before = 0; before < 3; before++)
        for (unsigned colour = 0; colour < 2; colour++) {
            check_offer(before, (uint8_t)colour, 0, MENKHODUR_ACCEPTED);
            check_offer(before, (uint8_t)colour, 1, colour == before % 2 ? MENKHODUR_ACCEPTED : MENKHODUR_NO_OFFER);
            check_offer(before, (uint8_t)colour, 2, MENKHODUR_NO_OFFER);
        }
}

static void check_colours(void)
{
    struct game g = started(false);
    for (unsigned colour = 2; colour < 256; colour++) {
        play(&g, (struct request){ OFFER_DRAW, 0, (uint8_t)colour, NULL }, MENKHODUR_OUT_OF_RANGE);
        play(&g, (struct request){ RESIGN, 0, (uint8_t)colour, NULL }, MENKHODUR_OUT_OF_RANGE);
    }
    give_back_game(&g);
}

/* ---- Moves ---- */

static void check_next_numbers(struct game *g)
{
    for (unsigned i = 0; i < BAD_BOARDS; i++) {
        struct position next = round_position(1, false);
        next.board = bad_board(next.board, i);
        play(g, (struct request){ MAKE_MOVE, round_move(0), 0, &next }, MENKHODUR_OUT_OF_RANGE);
    }
    for (unsigned in_check = 2; in_check < 256; in_check += 23) {
        struct position next = round_position(1, false);
        next.in_check = (uint8_t)in_check;
        play(g, (struct request){ MAKE_MOVE, round_move(0), 0, &next }, MENKHODUR_OUT_OF_RANGE);
    }
}

static void check_next_lists(struct game *g)
{
    struct position next = round_position(1, false);
    struct request r = { MAKE_MOVE, round_move(0), 0, &next };
    next.list[1] = MENKHODUR_LAST_MOVE + 1;
    play(g, r, MENKHODUR_BAD_LIST);
    next.list[1] = 65535;
    play(g, r, MENKHODUR_BAD_LIST);
    memset(next.list, 0, sizeof next.list);
    for (next.entries = 256; next.entries <= 257; next.entries++) play(g, r, MENKHODUR_BAD_LIST);
}

static void check_unlisted(struct game *g)
{
    struct position next = round_position(1, false);
    struct request r = { MAKE_MOVE, round_move(0), 0, &next };
    for (r.move = 0; r.move < 65536; r.move += 997) play(g, r, MENKHODUR_NOT_LISTED);
    r.move = MENKHODUR_LAST_MOVE + 1;
    play(g, r, MENKHODUR_NOT_LISTED);
    for (unsigned i = 0; i < 2 * WIDE; i++) {
        r.move = i % 2 ? wide_over(i / 2, round_move(0)) : wide[i / 2];
        play(g, r, MENKHODUR_NOT_LISTED);
    }
}

/* Each number of the record, but the side, changed to another in range. Of the counters' many, those below 20 and some that share a byte with the
 * right one. */
static void check_wrong_records(struct game *g)
{
    for (unsigned which = 0; which < ALL_NUMBERS; which++) {
        struct position next = round_position(1, false);
        unsigned right = get_number(next.board, which), limit = limit_of(which);
        for (unsigned other = least_of(which); other <= limit && which != 64; other += other < 20 ? 1 : 256 - other % 256 + any(3)) {
            set_number(&next.board, which, other);
            if (other != right) play(g, (struct request){ MAKE_MOVE, round_move(0), 0, &next }, MENKHODUR_WRONG_RECORD);
        }
    }
}

static void check_moves(void)
{
    struct game g = started(false);
    struct position next = round_position(1, false), same_side = round_position(0, false);
    check_next_numbers(&g);
    check_next_lists(&g);
    check_unlisted(&g);
    play(&g, (struct request){ MAKE_MOVE, round_move(0), 0, &same_side }, MENKHODUR_WRONG_SIDE);
    check_wrong_records(&g);
    play(&g, (struct request){ MAKE_MOVE, round_move(0), 0, &next }, MENKHODUR_ACCEPTED);
    give_back_game(&g);
}

/* A full list, whose last entry is the highest move; the position fills its 584 bytes. */
static void check_full_list(void)
{
    struct game g = usual_game();
    struct position p = round_position(0, false), next = { after_of(p.board, MENKHODUR_LAST_MOVE), 0, { 0 }, 0 };
    p.entries = next.entries = MENKHODUR_LONGEST_LIST;
    p.list[MENKHODUR_LONGEST_LIST - 1] = next.list[MENKHODUR_LONGEST_LIST - 1] = MENKHODUR_LAST_MOVE;
    start(&g, &p, MENKHODUR_ACCEPTED);
    play(&g, (struct request){ MAKE_MOVE, MENKHODUR_LAST_MOVE, 0, &next }, MENKHODUR_ACCEPTED);
    ask(&g, RESULT, MENKHODUR_ACCEPTED, MENKHODUR_GOES_ON);
    give_back_game(&g);
}

/* ---- Claims ---- */

static void check_claim(struct game *g, bool stands)
{
    ask(g, CAN_DECLARE, MENKHODUR_ACCEPTED, stands);
    if (!stands) refuse(g, DECLARE_DRAW, MENKHODUR_NO_CLAIM);
}

/* 99 and 100 reversible moves, no two positions equal. */
static void check_hundred(void)
{
    struct game g = started(true);
    play_round(&g, 99, true);
    check_claim(&g, false);
    play_round(&g, 1, true);
    check_claim(&g, true);
    play(&g, (struct request){ DECLARE_DRAW, 0, 0, NULL }, MENKHODUR_ACCEPTED);
    ask(&g, RESULT, MENKHODUR_ACCEPTED, MENKHODUR_DRAW_DECLARED);
    give_back_game(&g);
}

/* One and two earlier equal positions; the last is not its own predecessor. */
static void check_repeated(void)
{
    struct game g = started(false);
    for (uint64_t k = 0; k < 12; k++) {
        check_claim(&g, k >= 8);
        play_round(&g, 1, false);
    }
    give_back_game(&g);
}

enum emptying { PAWN_MOVES, CAPTURE, WHITE_RIGHTS, BLACK_RIGHTS, NOTHING, EMPTYINGS };

/* A round in which white's moves empty count and run, or do not, and black's are a knight's there and back: a pawn there and back; a bishop that
 * stays where it is, and so takes itself; a move of nobody from a corner, which loses a right once; a knight there and back. */
static uint64_t emptying_move(enum emptying how, uint64_t k)
{
    static const uint64_t white[EMPTYINGS][2] = {
        { MENKHODUR_MOVE(8, 16, 0), MENKHODUR_MOVE(16, 8, 0) }, { MENKHODUR_MOVE(2, 2, 0), MENKHODUR_MOVE(2, 2, 0) },
        { MENKHODUR_MOVE(7, 23, 0), MENKHODUR_MOVE(7, 23, 0) }, { MENKHODUR_MOVE(63, 47, 0), MENKHODUR_MOVE(63, 47, 0) },
        { MENKHODUR_MOVE(6, 21, 0), MENKHODUR_MOVE(21, 6, 0) },
    };
    return k % 2 ? round_move(k) : white[how][k / 2 % 2];
}

/* Where nothing is emptied, position 8 has equals at 0 and 4. A right that is lost never comes back: then position 9 has equals at 1 and 5. */
static void check_emptying(enum emptying how)
{
    struct game g = usual_game();
    struct position p = round_position(0, false);
    uint64_t claim_from = how == NOTHING ? 8 : how == WHITE_RIGHTS || how == BLACK_RIGHTS ? 9 : 13;
    p.board.pieces[7] = p.board.pieces[63] = MENKHODUR_EMPTY;
    p.list[1] = (uint16_t)emptying_move(how, 0);
    start(&g, &p, MENKHODUR_ACCEPTED);
    for (uint64_t k = 1; k <= 12; k++) {
        p.board = after_of(p.board, emptying_move(how, k - 1));
        p.list[1] = (uint16_t)emptying_move(how, k);
        play(&g, (struct request){ MAKE_MOVE, emptying_move(how, k - 1), 0, &p }, MENKHODUR_ACCEPTED);
        check_claim(&g, k >= claim_from);
    }
    give_back_game(&g);
}

/* Equal means the same record but for the counters, and the same list in order; the in-check byte is not part of it. */
static void check_equality(int what, bool stands)
{
    struct game g = usual_game();
    struct position first = round_position(0, false), odd = round_position(8, false);
    if (what == 0) first.board.en_passant = 1;
    start(&g, &first, MENKHODUR_ACCEPTED);
    play_round(&g, 7, false);
    if (what == 1) odd.list[0] = (uint16_t)round_move(8), odd.list[1] = 1804;
    if (what == 2) odd.list[2] = 1804, odd.entries = 3;
    if (what == 3) odd.in_check = 1;
    play(&g, (struct request){ MAKE_MOVE, round_move(7), 0, &odd }, MENKHODUR_ACCEPTED);
    check_claim(&g, stands);
    give_back_game(&g);
}

static void check_claims(void)
{
    check_hundred();
    check_repeated();
    for (enum emptying how = 0; how < EMPTYINGS; how++) check_emptying(how);
    for (int what = 0; what < 5; what++) check_equality(what, what > 2);
}

/* ---- Logs that are not good ---- */

static void refuse_all(struct game *g)
{
    for (enum call c = 0; c < CALLS; c++) refuse(g, c, MENKHODUR_NOT_GOOD);
}

/* Move, offer, move, offer, move: 5 actions, 3 moves. */
static struct game short_log(void)
{
    struct game g = started(false);
    for (uint64_t k = 0; k < 3; k++) {
        play_round(&g, 1, false);
        if (k < 2) play(&g, (struct request){ OFFER_DRAW, 0, (uint8_t)k, NULL }, MENKHODUR_ACCEPTED);
    }
    return g;
}

static void check_spoilt(struct game *g, struct part *p, size_t at, uint8_t byte)
{
    uint8_t before = p->bytes[at];
    put_byte(p, at, byte);
    refuse_all(g);
    put_byte(p, at, before);
}

static void check_spoilt_actions(struct game *g)
{
    static const struct { uint8_t at, byte; } spoilt[] = {
        { 0, 0 }, { 0, 2 }, { 0, 6 }, { 0, 255 }, { 1, 1 }, { 2, 0 }, { 3, 0 }, { 3, 255 },      /* a move */
        { 4, 0 }, { 4, 1 }, { 4, 3 }, { 4, 4 }, { 4, 5 }, { 4, 6 }, { 5, 2 }, { 5, 255 }, { 6, 1 }, { 7, 1 }, /* an offer */
    };
    for (size_t i = 0; i < sizeof spoilt / sizeof *spoilt; i++) check_spoilt(g, &g->actions, spoilt[i].at, spoilt[i].byte);
}

/* A number of a record out of range; what comes before is put back. Each of these bytes of a counter makes it 10,000 or more, or a move number 0. */
static void check_bad_numbers(struct game *g, size_t from)
{
    for (unsigned which = 0; which < KEY_NUMBERS; which++) check_spoilt(g, &g->positions, from + which, (uint8_t)(limit_of(which) + 1));
    check_spoilt(g, &g->positions, from + MENKHODUR_POSITION_HALF_MOVES + 1, 0x28);
    check_spoilt(g, &g->positions, from + MENKHODUR_POSITION_FULL_MOVES + 1, 0x28);
    check_spoilt(g, &g->positions, from + MENKHODUR_POSITION_FULL_MOVES, 0);
}

/* In-check byte, length of a list of two, its last move, and what lies behind it. */
static void check_bad_rest(struct game *g, size_t from)
{
    check_spoilt(g, &g->positions, from + MENKHODUR_POSITION_IN_CHECK, 2);
    check_spoilt(g, &g->positions, from + MENKHODUR_POSITION_ENTRIES, 1);
    check_spoilt(g, &g->positions, from + MENKHODUR_POSITION_MOVES + 3, 0x70);
    check_spoilt(g, &g->positions, from + MENKHODUR_POSITION_SIZE - 1, 1);
}

/* Record, in-check byte, list length, moves and unused moves of the first, a middle and the last position. */
static void check_spoilt_position(struct game *g, size_t k)
{
    size_t from = MENKHODUR_POSITION_SIZE * k;
    check_bad_numbers(g, from);
    /* A number in range too: the next record does not follow from this one, or this one from the last. Of the start two are lost with its
     * move: what stood where the knight arrives, and the en passant file. */
    for (unsigned which = 0; which < KEY_NUMBERS; which++)
        if (k > 0 || (which != round_move(0) / 64 && which != 67))
            check_spoilt(g, &g->positions, from + which, (uint8_t)((g->positions.bytes[from + which] + 1) % (limit_of(which) + 1)));
    for (size_t at = MENKHODUR_POSITION_HALF_MOVES; at < MENKHODUR_POSITION_IN_CHECK; at++)
        check_spoilt(g, &g->positions, from + at, (uint8_t)(g->positions.bytes[from + at] + 1));
    check_spoilt(g, &g->positions, from + 64, (uint8_t)(1 - k % 2));
    check_bad_rest(g, from);
    check_spoilt(g, &g->positions, from + MENKHODUR_POSITION_ENTRIES, 0);
    check_spoilt(g, &g->positions, from + MENKHODUR_POSITION_MOVES + 1, 0x70);
    check_spoilt(g, &g->positions, from + MENKHODUR_POSITION_MOVES + 4, 1);
}

/* A longer list of zeros behind is a list of moves a1a1, and good; so is a start with an en passant file. */
static void check_longer_list(struct game *g)
{
    put_byte(&g->positions, 67, 8);
    ask(g, RESULT, MENKHODUR_ACCEPTED, MENKHODUR_GOES_ON);
    put_byte(&g->positions, 67, 0);
    put_byte(&g->positions, MENKHODUR_POSITION_ENTRIES, 3);
    ask(g, RESULT, MENKHODUR_ACCEPTED, MENKHODUR_GOES_ON);
    put_byte(&g->positions, MENKHODUR_POSITION_ENTRIES, 2);
}

static void check_with_counts(struct game *g, uint64_t actions, uint64_t moves)
{
    struct game other = *g;
    other.action_count = actions;
    other.move_count = moves;
    refuse_all(&other);
}

/* Counts one off, over their limits, and of every size. */
static void check_counts(struct game *g)
{
    uint64_t n = g->action_count, m = g->move_count;
    check_with_counts(g, n + 1, m);
    check_with_counts(g, n - 1, m);
    check_with_counts(g, n, m + 1);
    check_with_counts(g, n, m - 1);
    check_with_counts(g, n, 0);
    check_with_counts(g, 0, m);
    check_with_counts(g, MENKHODUR_MAX_ACTIONS, m);
    check_with_counts(g, MENKHODUR_MAX_ACTIONS + 1, m);
    check_with_counts(g, n, MENKHODUR_MAX_MOVES);
    check_with_counts(g, n, MENKHODUR_MAX_MOVES + 1);
    for (unsigned i = 0; i < WIDE; i++) {
        check_with_counts(g, wide[i], m);
        check_with_counts(g, wide_over(i, n), m);
        check_with_counts(g, n, wide[i]);
        check_with_counts(g, n, wide_over(i, m));
        check_with_counts(g, wide_over(i, n), wide_over(i, m));
    }
}

/* An accepted or declared draw, a resignation and an empty list end a game: nothing may follow in a good log. */
static void check_after_the_end(void)
{
    struct game g = started(false);
    play_round(&g, 2, false);
    play(&g, (struct request){ OFFER_DRAW, 0, 0, NULL }, MENKHODUR_ACCEPTED);
    play(&g, (struct request){ ACCEPT_DRAW, 0, 0, NULL }, MENKHODUR_ACCEPTED);
    append_offers(&g, 1, 0);
    refuse_all(&g);
    give_back_game(&g);
}

static void check_not_good(void)
{
    struct game g = short_log();
    check_spoilt_actions(&g);
    check_spoilt_position(&g, 0);
    check_spoilt_position(&g, 1);
    check_longer_list(&g);
    check_counts(&g);
    check_after_the_end();
    for (enum call c = RESULT; c <= CAN_CLAIM; c++) ask(&g, c, MENKHODUR_ACCEPTED, 0);
    ask_ruling(&g, (menkhodur_ruling){ .count = 3, .laws_count = 3 });
    give_back_game(&g);
}

/* The last position: its list is not looked at by an earlier move, so a byte of it that keeps it in range keeps the log good. Its record is
 * the one after the last move. */
static void check_last_position(void)
{
    struct game g = short_log();
    size_t last = MENKHODUR_POSITION_SIZE * g.move_count;
    check_bad_numbers(&g, last);
    check_spoilt(&g, &g.positions, last + 64, 0);
    for (unsigned which = 0; which < KEY_NUMBERS; which++)
        check_spoilt(&g, &g.positions, last + which, (uint8_t)((g.positions.bytes[last + which] + 1) % (limit_of(which) + 1)));
    for (size_t at = MENKHODUR_POSITION_HALF_MOVES; at < MENKHODUR_POSITION_IN_CHECK; at++)
        check_spoilt(&g, &g.positions, last + at, (uint8_t)(g.positions.bytes[last + at] + 1));
    check_bad_rest(&g, last);
    put_byte(&g.positions, last + MENKHODUR_POSITION_MOVES + 1, 0);
    ask(&g, RESULT, MENKHODUR_ACCEPTED, MENKHODUR_GOES_ON);
    give_back_game(&g);
}

/* ---- Bytes past the used ones ---- */

static void check_unused(uint8_t fill)
{
    struct game g = usual_game();
    struct position p = round_position(0, false);
    for (size_t i = 0; i < g.actions.length; i++) put_byte(&g.actions, i, fill);
    for (size_t i = 0; i < g.positions.length; i++) put_byte(&g.positions, i, fill);
    start(&g, &p, MENKHODUR_ACCEPTED);
    check_claim(&g, false);
    refuse(&g, ACCEPT_DRAW, MENKHODUR_NO_OFFER);
    play_round(&g, 3, false);
    play(&g, (struct request){ OFFER_DRAW, 0, 0, NULL }, MENKHODUR_ACCEPTED);
    play(&g, (struct request){ ACCEPT_DRAW, 0, 0, NULL }, MENKHODUR_ACCEPTED);
    check_over(&g, MENKHODUR_DRAW_ACCEPTED);
    give_back_game(&g);
}

void check_log(void)
{
    check_starts();
    check_part_sizes();
    check_endings();
    check_offers();
    check_colours();
    check_moves();
    check_full_list();
    check_claims();
    check_not_good();
    check_last_position();
    check_unused(0);
    check_unused(2);
    check_unused(255);
}
