/* The two counters in the log (document 02, order 12): which are refused and when, what is stored, and what does not depend on them. Rows are
 * counted by hand; after_rule.h gives the records of longer games. */
#include "game.h"

enum { A2A3 = MENKHODUR_MOVE(8, 16, 0), OLD_POSITIONS_LENGTH = 2376260 };

static struct game usual_game(void)
{
    return lend_game(MENKHODUR_ACTIONS_LENGTH, MENKHODUR_POSITIONS_LENGTH);
}

/* The start of the knights' round with these counters, and a pawn's move in its list too. */
static struct position counted_start(uint16_t half_moves, uint16_t full_moves)
{
    struct position p = round_position(0, false);
    p.board.half_moves = half_moves;
    p.board.full_moves = full_moves;
    p.list[0] = A2A3;
    return p;
}

static struct game started(const struct position *p)
{
    struct game g = usual_game();
    start(&g, p, MENKHODUR_ACCEPTED);
    return g;
}

/* Plays a move from the position, which becomes the one after it; its list has the round's next move, and the pawn's if no two are to differ. */
static void move_on(struct game *g, struct position *p, uint64_t move, bool fresh)
{
    p->board = after_of(p->board, move);
    p->list[0] = fresh ? (uint16_t)(8192 + g->move_count) : A2A3;
    p->list[1] = (uint16_t)round_move(g->move_count + 1);
    play(g, (struct request){ MAKE_MOVE, move, 0, p }, MENKHODUR_ACCEPTED);
}

static void go_round(struct game *g, struct position *p, unsigned moves, bool fresh)
{
    for (unsigned i = 0; i < moves; i++) move_on(g, p, round_move(g->move_count), fresh);
}

static void refuse_all(struct game *g)
{
    for (enum call c = 0; c < CALLS; c++) refuse(g, c, MENKHODUR_NOT_GOOD);
}

/* ---- A move comes with its counters ---- */

/* One move from a start with counters, lent with these: `number` is what document 02 gives. */
static void check_next(uint16_t half_before, uint16_t full_before, uint64_t move, uint16_t half_moves, uint16_t full_moves, uint64_t number)
{
    struct position p = counted_start(half_before, full_before), next = p;
    struct game g = started(&p);
    next.board = after_of(p.board, move);
    next.board.half_moves = half_moves;
    next.board.full_moves = full_moves;
    play(&g, (struct request){ MAKE_MOVE, move, 0, &next }, number);
    give_back_game(&g);
}

/* White's move: the clock goes on or begins again, the move number stays. A host that always lends 0 and 1 is refused. */
static void check_first_move(void)
{
    const uint64_t knight = round_move(0), wrong = MENKHODUR_WRONG_RECORD, range = MENKHODUR_OUT_OF_RANGE;
    check_next(0, 1, knight, 1, 1, MENKHODUR_ACCEPTED);
    check_next(0, 1, knight, 0, 1, wrong);
    check_next(0, 1, knight, 2, 1, wrong);
    check_next(0, 1, knight, 1, 2, wrong);
    check_next(0, 1, knight, 257, 1, wrong);
    check_next(0, 1, knight, 1, 257, wrong);
    check_next(0, 1, knight, 9999, 1, wrong);
    check_next(0, 1, knight, 10000, 1, range);
    check_next(0, 1, knight, 65535, 1, range);
    check_next(0, 1, knight, 1, 0, range);
    check_next(0, 1, knight, 1, 10000, range);
    check_next(0, 1, knight, 1, 65535, range);
    check_next(255, 256, knight, 256, 256, MENKHODUR_ACCEPTED);
    check_next(255, 256, knight, 0, 256, wrong);
    check_next(9998, 9999, knight, 9999, 9999, MENKHODUR_ACCEPTED);
    check_next(9999, 9999, knight, 9999, 9999, MENKHODUR_ACCEPTED);
    check_next(9999, 9999, knight, 10000, 9999, range);
    check_next(9999, 9999, knight, 0, 9999, wrong);
    check_next(9999, 5, A2A3, 0, 5, MENKHODUR_ACCEPTED);
    check_next(9999, 5, A2A3, 9999, 5, wrong);
    check_next(0, 5, A2A3, 1, 5, wrong);
}

/* Black's move adds to the move number, and it stops at 9,999. */
static void check_second_move(uint16_t full_before, uint16_t full_moves, uint64_t number)
{
    struct position p = counted_start(40, full_before), next;
    struct game g = started(&p);
    go_round(&g, &p, 1, false);
    next = p;
    next.board = after_of(p.board, round_move(1));
    next.board.half_moves = 42;
    next.board.full_moves = full_moves;
    play(&g, (struct request){ MAKE_MOVE, round_move(1), 0, &next }, number);
    give_back_game(&g);
}

/* ---- 11, 5, 6, 12, 24, 13: 5 and 24 for a counter alone ---- */

enum full { HAS_ROOM, BY_ACTIONS, BY_MOVES };

static struct game log_of(enum full full)
{
    struct game g = usual_game();
    struct position p = round_position(0, false);
    put_start(&g, &p);
    if (full == BY_ACTIONS) append_offers(&g, MENKHODUR_MAX_ACTIONS - 2, 0);
    append_round(&g, full == BY_MOVES ? MENKHODUR_MAX_MOVES : 2, false);
    return g;
}

/* A counter out of range, of four ways; else, with 24 among the faults, one in range that is wrong. */
static void spoil_counters(menkhodur_board *b, unsigned faults, unsigned way)
{
    if (faults & 16 && way % 2) b->half_moves++;
    else if (faults & 16) b->full_moves++;
    if (faults & 2) *b = bad_board(*b, BAD_BOARDS - 1 - way);
}

static void check_order(enum full full, unsigned faults, unsigned way)
{
    static const uint64_t numbers[] = { MENKHODUR_NOT_LISTED, MENKHODUR_OUT_OF_RANGE, MENKHODUR_BAD_LIST, MENKHODUR_WRONG_SIDE, MENKHODUR_WRONG_RECORD,
                                        MENKHODUR_LOG_FULL };
    struct game g = log_of(full);
    struct position next = round_position(g.move_count + 1, false);
    struct request r = { MAKE_MOVE, faults & 1 ? 70000 : round_move(g.move_count), 0, &next };
    spoil_counters(&next.board, faults, way);
    if (faults & 4) next.list[0] = MENKHODUR_LAST_MOVE + 1;
    if (faults & 8) next.board.side_to_move ^= 1;
    play(&g, r, first_of(full ? faults | 32 : faults, numbers));
    give_back_game(&g);
}

static void check_orders_of_counters(void)
{
    for (enum full full = HAS_ROOM; full <= BY_MOVES; full++)
        for (unsigned faults = 0; faults < 32; faults++)
            for (unsigned way = 0; way < (faults & 2 ? 4 : faults & 16 ? 2 : 1); way++) check_order(full, faults, way);
}

/* ---- Stored counters ---- */

static void put_counter(struct game *g, uint64_t k, size_t place, unsigned count)
{
    const uint8_t bytes[2] = { (uint8_t)(count % 256), (uint8_t)(count / 256) };
    put(&g->positions, MENKHODUR_POSITION_SIZE * k + place, bytes, sizeof bytes);
}

static void expect_stored(const struct game *g, uint64_t k, unsigned half_moves, unsigned full_moves)
{
    const uint8_t *at = g->positions.bytes + MENKHODUR_POSITION_SIZE * k;
    about("places of a position", "counters of position %llu", (unsigned long long)k);
    expect("clock", half_moves, at[68] + 256u * at[69]);
    expect("move number", full_moves, at[70] + 256u * at[71]);
}

/* A counter of position k at every one of these, of which `right` alone makes a good log. */
static void check_stored(struct game *g, uint64_t k, size_t place, unsigned right)
{
    static const unsigned counts[] = { 0, 1, 2, 3, 4, 255, 256, 257, 258, 512, 9998, 9999, 10000, 10001, 32768, 65535 };
    for (size_t i = 0; i < sizeof counts / sizeof *counts; i++) {
        if (counts[i] == right) continue;
        put_counter(g, k, place, counts[i]);
        refuse_all(g);
    }
    put_counter(g, k, place, right);
    ask(g, RESULT, MENKHODUR_ACCEPTED, MENKHODUR_GOES_ON);
}

/* Of a log with three moves from 255 and 256, each counter of each position. */
static void check_stored_counters(void)
{
    struct position p = counted_start(255, 256);
    struct game g = started(&p);
    go_round(&g, &p, 3, false);
    for (uint64_t k = 0; k <= 3; k++) {
        unsigned half_moves = 255 + (unsigned)k, full_moves = 256 + (unsigned)k / 2;
        expect_stored(&g, k, half_moves, full_moves);
        check_stored(&g, k, MENKHODUR_POSITION_HALF_MOVES, half_moves);
        check_stored(&g, k, MENKHODUR_POSITION_FULL_MOVES, full_moves);
    }
    give_back_game(&g);
}

/* A counter of the start at this number, in a log whose calls then answer or are all refused; then `back` again. */
static void check_start_at(struct game *g, size_t place, unsigned count, bool good, unsigned back)
{
    put_counter(g, 0, place, count);
    if (good) ask(g, RESULT, MENKHODUR_ACCEPTED, MENKHODUR_GOES_ON);
    else refuse_all(g);
    put_counter(g, 0, place, back);
}

/* A start's counter is free within its range while no move rests on it. */
static void check_free_start(void)
{
    struct position p = counted_start(7, 9);
    struct game g = started(&p);
    play(&g, (struct request){ OFFER_DRAW, 0, 1, NULL }, MENKHODUR_ACCEPTED);
    for (unsigned count = 0; count < 10002; count += count % 256 < 2 || count > 9997 ? 1 : 127) {
        check_start_at(&g, MENKHODUR_POSITION_HALF_MOVES, count, count <= 9999, 7);
        check_start_at(&g, MENKHODUR_POSITION_FULL_MOVES, count, count >= 1 && count <= 9999, 9);
    }
    check_start_at(&g, MENKHODUR_POSITION_HALF_MOVES, 65535, false, 7);
    check_start_at(&g, MENKHODUR_POSITION_FULL_MOVES, 65535, false, 9);
    give_back_game(&g);
}

/* The first move rests on the start's clock, but not if it is a pawn's, or leads to 9,999 either way; and always on its move number. */
static void check_start_of_move(uint16_t half_moves, uint64_t move, unsigned free, unsigned wrong)
{
    struct position p = counted_start(half_moves, 9);
    struct game g = started(&p);
    move_on(&g, &p, move, false);
    check_start_at(&g, MENKHODUR_POSITION_HALF_MOVES, free, true, half_moves);
    check_start_at(&g, MENKHODUR_POSITION_HALF_MOVES, wrong, false, half_moves);
    check_start_at(&g, MENKHODUR_POSITION_FULL_MOVES, 10, false, 9);
    check_start_at(&g, MENKHODUR_POSITION_FULL_MOVES, 8, false, 9);
    give_back_game(&g);
}

/* Zeros are no position any more, and a part of the size of before is too short for any call. */
static void check_from_before(void)
{
    struct game zeros = usual_game(), old = lend_game(MENKHODUR_ACTIONS_LENGTH, OLD_POSITIONS_LENGTH);
    struct position p = round_position(0, false);
    for (size_t i = 0; i < MENKHODUR_POSITION_SIZE; i++) put_byte(&zeros.positions, i, 0);
    refuse_all(&zeros);
    put_byte(&zeros.positions, MENKHODUR_POSITION_FULL_MOVES, 1);
    ask(&zeros, RESULT, MENKHODUR_ACCEPTED, MENKHODUR_STALEMATE);
    start(&old, &p, MENKHODUR_PART_TOO_SHORT);
    for (enum call c = 0; c < CALLS; c++) refuse(&old, c, MENKHODUR_PART_TOO_SHORT);
    give_back_game(&zeros);
    give_back_game(&old);
}

/* ---- What does not depend on them ---- */

/* A log never stops for its counters: from 9,997 and 9,998 they come to 9,999 and stay, and a pawn's move still gives a clock of 0. */
static void check_at_the_end(void)
{
    struct position p = counted_start(9997, 9998);
    struct game g = started(&p);
    go_round(&g, &p, 4, false);
    move_on(&g, &p, A2A3, false);
    expect_stored(&g, 0, 9997, 9998);
    expect_stored(&g, 1, 9998, 9998);
    expect_stored(&g, 2, 9999, 9999);
    expect_stored(&g, 3, 9999, 9999);
    expect_stored(&g, 4, 9999, 9999);
    expect_stored(&g, 5, 0, 9999);
    give_back_game(&g);
}

/* Equal positions are found though every move changes the clock, and where no counter changes any more too. */
static void check_repetition(uint16_t half_moves, uint16_t full_moves)
{
    struct position p = counted_start(half_moves, full_moves);
    struct game g = started(&p);
    go_round(&g, &p, 7, false);
    ask_ruling(&g, (menkhodur_ruling){ .count = 7, .laws_count = 7, .equals = 1, .first = 3 });
    refuse(&g, DECLARE_DRAW, MENKHODUR_NO_CLAIM);
    go_round(&g, &p, 1, false);
    ask_ruling(&g, (menkhodur_ruling){ 0, 8, 8, 2, 0, 4, MENKHODUR_CLAIM_BY_POSITIONS, MENKHODUR_CLAIM_BY_POSITIONS });
    play(&g, (struct request){ DECLARE_DRAW, 0, 0, NULL }, MENKHODUR_ACCEPTED);
    give_back_game(&g);
}

/* The counts of the rulings begin at 0, whatever the start's clock says. */
static void check_counts_of_rulings(uint16_t half_moves)
{
    struct position p = counted_start(half_moves, 50);
    struct game g = started(&p);
    ask_ruling(&g, (menkhodur_ruling){ 0 });
    go_round(&g, &p, 1, true);
    ask_ruling(&g, (menkhodur_ruling){ .count = 1, .laws_count = 1 });
    ask(&g, CAN_DECLARE, MENKHODUR_ACCEPTED, 0);
    ask(&g, CAN_CLAIM, MENKHODUR_ACCEPTED, 0);
    go_round(&g, &p, 98, true);
    ask_ruling(&g, (menkhodur_ruling){ .count = 99, .laws_count = 99 });
    go_round(&g, &p, 1, true);
    ask_ruling(&g, (menkhodur_ruling){ 0, 100, 100, 0, 0, 0, MENKHODUR_CLAIM_BY_COUNT, MENKHODUR_CLAIM_BY_COUNT });
    expect_stored(&g, 100, half_moves + 100 < 9999 ? half_moves + 100 : 9999, 100);
    give_back_game(&g);
}

void check_counters(void)
{
    check_first_move();
    check_second_move(7, 8, MENKHODUR_ACCEPTED);
    check_second_move(7, 7, MENKHODUR_WRONG_RECORD);
    check_second_move(7, 9, MENKHODUR_WRONG_RECORD);
    check_second_move(255, 256, MENKHODUR_ACCEPTED);
    check_second_move(9998, 9999, MENKHODUR_ACCEPTED);
    check_second_move(9999, 9999, MENKHODUR_ACCEPTED);
    check_second_move(9999, 10000, MENKHODUR_OUT_OF_RANGE);
    check_second_move(9999, 1, MENKHODUR_WRONG_RECORD);
    check_orders_of_counters();
    check_stored_counters();
    check_free_start();
    check_start_of_move(7, round_move(0), 7, 8);
    check_start_of_move(7, A2A3, 9999, 10000);
    check_start_of_move(9999, round_move(0), 9998, 9997);
    check_from_before();
    check_at_the_end();
    check_repetition(0, 1);
    check_repetition(7, 9);
    check_repetition(9999, 9999);
    check_counts_of_rulings(99);
    check_counts_of_rulings(100);
    check_counts_of_rulings(9999);
}
