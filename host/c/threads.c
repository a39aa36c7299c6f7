/* Every function from several threads at once: on a text, a page, a list, a log and a roll that all of them read, and on rooms and logs of
 * their own. */
#include "game.h"

#include <pthread.h>
#include <stdio.h>
#include <stdlib.h>
#include <string.h>

enum { THREADS = 4, ROUNDS = 400, ROUNDS_FEW = 10, OWN_MOVES = 4 };

#define KEY "rnbqkbnr/pppppppp/8/8/8/8/PPPPPPPP/RNBQKBNR w KQkq - 0 1"

static const char key[] = KEY, page[] = KEY "\n8/8 w -\n" KEY "\n";

/* What all threads read. */
static struct game log_of_all;
static struct part key_of_all, full_of_all, passing_of_all, page_of_all, name_of_all, list_of_all, roll_of_all, old_roll_of_all;

/* A thread's own log, and how often it saw something else than one thread alone would. */
struct worker {
    pthread_t id;
    struct game own;
    unsigned long wrong;
};

static bool is(uint64_t number, uint64_t value, menkhodur_answer got)
{
    return got.number == number && got.value == value;
}

static bool is_board(const menkhodur_board *want, menkhodur_stepped got)
{
    return got.number == MENKHODUR_ACCEPTED && memcmp(want, &got.board, sizeof *want) == 0;
}

static const uint16_t *list_of(const struct part *p)
{
    return (const uint16_t *)(const void *)p->bytes;
}

static menkhodur_board counted_board(void)
{
    menkhodur_board b = initial;
    b.half_moves = 258;
    b.full_moves = MENKHODUR_LAST_COUNT;
    return b;
}

static unsigned wrong_numbers(void)
{
    menkhodur_board b = initial;
    unsigned wrong = menkhodur_version() != MENKHODUR_VERSION;
    wrong += !is(MENKHODUR_ACCEPTED, 28, menkhodur_make_square(3, 4));
    wrong += !is(MENKHODUR_ACCEPTED, MENKHODUR_BOTH_SIDES, menkhodur_rights_add(MENKHODUR_KING_SIDE, MENKHODUR_QUEEN_SIDE));
    wrong += !is(MENKHODUR_ACCEPTED, MENKHODUR_QUEEN_SIDE, menkhodur_rights_remove(MENKHODUR_BOTH_SIDES, MENKHODUR_KING_SIDE));
    wrong += !is(MENKHODUR_ACCEPTED, MENKHODUR_BOTH_SIDES, menkhodur_square_rights(MENKHODUR_BLACK, 60));
    b.pieces[28] = MENKHODUR_WHITE_QUEEN;
    wrong += !is_board(&b, menkhodur_piece(initial, 28, MENKHODUR_WHITE_QUEEN));
    wrong += !is_board(&initial, menkhodur_clear_square(b, 28));
    wrong += !is_board(&initial, menkhodur_side_to_move(initial, MENKHODUR_WHITE));
    wrong += !is_board(&initial, menkhodur_castle_rights(initial, MENKHODUR_BLACK, MENKHODUR_BOTH_SIDES));
    wrong += !is_board(&initial, menkhodur_en_passant(initial, 0));
    b = counted_board();
    wrong += !is_board(&b, menkhodur_full_moves(menkhodur_half_moves(initial, b.half_moves).board, b.full_moves));
    b = round_position(1, false).board;
    wrong += !is_board(&b, menkhodur_board_after(initial, round_move(0)));
    b = initial;
    b.en_passant = 5;
    wrong += !is_board(&initial, menkhodur_board_settled(b));
    return wrong;
}

static unsigned wrong_texts(void)
{
    uint8_t room[MENKHODUR_LONGEST_FEN];
    menkhodur_fen fen = menkhodur_fen_read(key_of_all.bytes, key_of_all.length);
    menkhodur_placed moved;
    unsigned wrong = !is_board(&initial, (menkhodur_stepped){ fen.number, fen.board });
    wrong += !is(MENKHODUR_ACCEPTED, strlen(key), menkhodur_fen_write(initial, room, sizeof room)) || memcmp(room, key, strlen(key)) != 0;
    wrong += !is(MENKHODUR_ACCEPTED, 4, menkhodur_move_write(round_move(0), room, sizeof room));
    moved = menkhodur_move_read(room, 4);
    wrong += !is(MENKHODUR_ACCEPTED, round_move(0), (menkhodur_answer){ moved.number, moved.value }) || moved.offset != 0;
    wrong += !is(MENKHODUR_ACCEPTED, round_move(0), menkhodur_san_read(initial, list_of(&list_of_all), 2, name_of_all.bytes, name_of_all.length));
    wrong += !is(MENKHODUR_ACCEPTED, 3, menkhodur_san_name(initial, list_of(&list_of_all), 2, round_move(0), room, sizeof room));
    return wrong + (memcmp(room, name_of_all.bytes, 3) != 0);
}

/* The key with other counters in place of 0 and 1. */
static unsigned wrong_full_texts(void)
{
    uint8_t room[MENKHODUR_LONGEST_FULL_FEN];
    menkhodur_board b = counted_board();
    menkhodur_fen fen = menkhodur_fen_read_full(full_of_all.bytes, full_of_all.length);
    unsigned wrong = !is_board(&b, (menkhodur_stepped){ fen.number, fen.board });
    wrong += !is(MENKHODUR_ACCEPTED, full_of_all.length, menkhodur_fen_write_full(b, room, sizeof room));
    wrong += memcmp(room, full_of_all.bytes, full_of_all.length) != 0;
    wrong += !is(MENKHODUR_ACCEPTED, strlen(key), menkhodur_fen_write(b, room, sizeof room)) || memcmp(room, key, strlen(key)) != 0;
    return wrong;
}

/* The key with an en passant square that no pawn can use. */
static unsigned wrong_settled_texts(void)
{
    uint8_t room[MENKHODUR_LONGEST_FEN];
    menkhodur_placed got = menkhodur_fen_settled(passing_of_all.bytes, passing_of_all.length, room, sizeof room);
    unsigned wrong = !is(MENKHODUR_ACCEPTED, strlen(key), (menkhodur_answer){ got.number, got.value }) || got.offset != 0;
    return wrong + (memcmp(room, key, strlen(key)) != 0);
}

static unsigned wrong_standard_texts(void)
{
    uint8_t room[MENKHODUR_LONGEST_STANDARD_NAME];
    const uint16_t *list = list_of(&list_of_all);
    unsigned wrong = !is(MENKHODUR_ACCEPTED, round_move(0), menkhodur_san_read_standard(initial, list, 2, name_of_all.bytes, name_of_all.length));
    wrong += !is(MENKHODUR_ACCEPTED, 3, menkhodur_san_name_standard(initial, list, 2, round_move(0), room, sizeof room));
    return wrong + (memcmp(room, name_of_all.bytes, 3) != 0);
}

/* A page of three lines, the middle one refused, read by all. */
static unsigned wrong_pages(void)
{
    static const uint64_t owed[6] = { MENKHODUR_ACCEPTED, 0, MENKHODUR_TOO_FEW_TOKENS, 7, MENKHODUR_ACCEPTED, 0 };
    uint8_t read[3][MENKHODUR_PAGE_RECORD];
    uint64_t told[6];
    unsigned wrong = !is(MENKHODUR_OUTPUT_TOO_SHORT, 3, menkhodur_fen_page(page_of_all.bytes, page_of_all.length, NULL, 0, told, 6));
    wrong += !is(MENKHODUR_ACCEPTED, 3, menkhodur_fen_page(page_of_all.bytes, page_of_all.length, read[0], sizeof read, told, 6));
    wrong += memcmp(&initial, read[0], sizeof read[0]) || memcmp(&no_board, read[1], sizeof read[1]) || memcmp(&initial, read[2], sizeof read[2]);
    return wrong + (memcmp(owed, told, sizeof owed) != 0);
}

/* The same page reported on: the third line repeats the first, and two initial positions have 64 men. */
static unsigned wrong_reports(void)
{
    static const menkhodur_report owed = { MENKHODUR_ACCEPTED, 3, 2, 1, { 16, 4, 4, 4, 2, 2, 16, 4, 4, 4, 2, 2 }, 1 };
    static const menkhodur_report short_of_room = { .number = MENKHODUR_OUTPUT_TOO_SHORT, .lines = 3 };
    uint8_t read[3][MENKHODUR_PAGE_RECORD];
    uint64_t told[6];
    menkhodur_report got = menkhodur_fen_report(page_of_all.bytes, page_of_all.length, NULL, 0, told, 6);
    unsigned wrong = memcmp(&short_of_room, &got, sizeof got) != 0;
    got = menkhodur_fen_report(page_of_all.bytes, page_of_all.length, read[0], sizeof read, told, 6);
    wrong += memcmp(&owed, &got, sizeof got) != 0;
    return wrong + (memcmp(&initial, read[2], sizeof read[2]) || told[2] != MENKHODUR_TOO_FEW_TOKENS);
}

/* Of a log of the knights' round alone, of whole rounds: the last position equals each fourth before it, and the first of them is the start. */
static unsigned wrong_queries(const struct game *g, uint64_t result, uint64_t claim)
{
    const uint8_t *a = g->actions.bytes, *p = g->positions.bytes;
    size_t al = g->actions.length, pl = g->positions.length;
    uint64_t n = g->action_count, m = g->move_count, by = claim ? MENKHODUR_CLAIM_BY_POSITIONS : MENKHODUR_CLAIM_NONE;
    const menkhodur_ruling want = { MENKHODUR_ACCEPTED, m, m, m / 4, 0, m / 4 > 1 ? 4 : 0, by, by };
    const menkhodur_ruling got = menkhodur_game_ruling(a, al, p, pl, n, m);
    unsigned wrong = !is(MENKHODUR_ACCEPTED, result, menkhodur_game_result(a, al, p, pl, n, m));
    wrong += !is(MENKHODUR_ACCEPTED, claim, menkhodur_game_can_declare_draw(a, al, p, pl, n, m));
    wrong += !is(MENKHODUR_ACCEPTED, claim, menkhodur_game_can_claim_by_laws(a, al, p, pl, n, m));
    return wrong + (memcmp(&want, &got, sizeof want) != 0);
}

/* The log that all read has the roll that all read, from the start to the end of each. */
static unsigned wrong_rolls(void)
{
    uint8_t room[MENKHODUR_LONGEST_ROLL], actions[MENKHODUR_ACTIONS_LENGTH];
    const struct game *g = &log_of_all;
    menkhodur_answer written = menkhodur_roll_write(initial, g->actions.bytes, g->actions.length, g->action_count, room, sizeof room);
    menkhodur_roll read = menkhodur_roll_read(roll_of_all.bytes, roll_of_all.length, actions, sizeof actions);
    unsigned wrong = !is(MENKHODUR_ACCEPTED, roll_of_all.length, written) || memcmp(room, roll_of_all.bytes, roll_of_all.length) != 0;
    wrong += !is_board(&initial, (menkhodur_stepped){ read.number, read.board }) || read.actions != g->action_count;
    return wrong + (memcmp(actions, g->actions.bytes, MENKHODUR_ACTION_SIZE * g->action_count) != 0);
}

static unsigned wrong_old_rolls(void)
{
    uint8_t actions[MENKHODUR_ACTIONS_LENGTH];
    const struct game *g = &log_of_all;
    menkhodur_roll read = menkhodur_roll_read_old(old_roll_of_all.bytes, old_roll_of_all.length, actions, sizeof actions);
    unsigned wrong = !is_board(&initial, (menkhodur_stepped){ read.number, read.board }) || read.actions != g->action_count;
    return wrong + (memcmp(actions, g->actions.bytes, MENKHODUR_ACTION_SIZE * g->action_count) != 0);
}

/* That roll against itself and against the roll of a start alone: the first action is a move. */
static unsigned wrong_differences(void)
{
    uint8_t room[MENKHODUR_MAX_DIFFERENCES], bare[ALL_NUMBERS + 1] = { 0 };
    char want[32];
    const size_t length = (size_t)snprintf(want, sizeof want, "action 0 %u 0\n", 2 + 16 * (unsigned)round_move(0));
    const uint8_t *roll = roll_of_all.bytes;
    unsigned wrong = !is(MENKHODUR_ACCEPTED, 0, menkhodur_roll_differences(roll, roll_of_all.length, roll, roll_of_all.length, NULL, 0));
    for (unsigned which = 0; which < ALL_NUMBERS; which++) bare[which] = (uint8_t)get_number(initial, which);
    wrong += !is(MENKHODUR_ACCEPTED, length, menkhodur_roll_differences(roll, roll_of_all.length, bare, sizeof bare, room, sizeof room));
    return wrong + (memcmp(room, want, length) != 0);
}

/* A move text that all read, counted and walked. */
static unsigned wrong_move_text(void)
{
    static const uint8_t text[] = "1. e4 e5 (1... c5 2. Nf3 {open}) 2. Nf3 *";
    menkhodur_pgn_count count = menkhodur_pgn_check(text, sizeof text - 1);
    menkhodur_pgn_move m = { .found = 1 };
    uint64_t walked = 0, closed = 0, opened = 0;
    while (m.found && walked < 9) {
        m = menkhodur_pgn_next(text, sizeof text - 1, m.start + m.length, m.level);
        walked += m.found;
        closed += m.closed;
        opened += m.opened;
    }
    return count.number != MENKHODUR_ACCEPTED || count.moves != 5 || walked != 5 || m.number != MENKHODUR_ACCEPTED || closed != 1 || opened != 1;
}

/* A game's text stepped through, and its last move played alone. */
static unsigned wrong_steps(void)
{
    static const uint8_t text[] = "1. Nf3 (1. Nc3) Nc6 *";
    static const char owed[] = "r1bqkbnr/pppppppp/2n5/8/8/5N2/PPPPPPPP/RNBQKB1R w KQkq - 0 1";
    const uint16_t replies[2] = { MENKHODUR_MOVE(MENKHODUR_SQUARE('b', 8), MENKHODUR_SQUARE('c', 6), 0), 0 };
    const size_t length = sizeof text - 1;
    uint8_t room[MENKHODUR_LONGEST_FEN];
    menkhodur_step first = menkhodur_game_step(text, length, 0, initial, list_of(&list_of_all), 2, room, sizeof room), s;
    menkhodur_board b = round_position(1, false).board;
    unsigned wrong = !is_board(&b, (menkhodur_stepped){ first.number, first.board }) || first.start != 3 || first.move != round_move(0);
    s = menkhodur_game_step(text, length, 6, first.board, replies, 1, room, sizeof room);
    wrong += s.number != MENKHODUR_ACCEPTED || s.start != 16 || s.key_length != strlen(owed) || memcmp(room, owed, strlen(owed)) != 0;
    wrong += menkhodur_game_step(text, length, 19, s.board, replies, 1, room, sizeof room).found != 0;
    memset(room, 0, sizeof room);
    s = menkhodur_play(text + 16, 3, first.board, replies, 1, room, sizeof room);
    return wrong + (s.number != MENKHODUR_ACCEPTED || s.move != replies[0] || memcmp(room, owed, strlen(owed)) != 0);
}

/* Two moves of each knight and two of each pawn: b1a3 has the smallest number and h2h4 the greatest. Two of them are the list of all. */
static unsigned wrong_legal(void)
{
    uint16_t room[MENKHODUR_LONGEST_LIST];
    menkhodur_judged j = menkhodur_list_judged(initial, 0, list_of(&list_of_all), 2);
    unsigned wrong = !is(MENKHODUR_ACCEPTED, 20, menkhodur_legal_list(initial, room, MENKHODUR_LONGEST_LIST)) + !is(0, 0, menkhodur_in_check(initial));
    wrong += room[0] != MENKHODUR_MOVE(1, 16, 0) || room[19] != MENKHODUR_MOVE(15, 31, 0);
    wrong += menkhodur_list_judged(initial, 0, room, 20).wrong != MENKHODUR_JUDGED_RIGHT;
    return wrong + (j.number != 0 || j.entries != 20 || j.wrong != MENKHODUR_JUDGED_MISSING || j.move != room[0]);
}

static unsigned wrong_counts(struct game *g, menkhodur_counts c, uint64_t number, uint64_t actions, uint64_t moves)
{
    g->action_count = c.actions;
    g->move_count = c.moves;
    return c.number != number || c.actions != actions || c.moves != moves;
}

/* A start with the list of all, moves, an offer that one accepts, and calls that are then refused. */
static unsigned wrong_own(struct game *g)
{
    uint8_t *a = g->actions.bytes, *p = g->positions.bytes;
    const size_t al = g->actions.length, pl = g->positions.length;
    uint64_t n = OWN_MOVES;
    unsigned wrong = wrong_counts(g, menkhodur_game_start(a, al, p, pl, initial, 0, list_of(&list_of_all), 2), 0, 0, 0);
    for (uint64_t k = 0; k < n; k++) {
        struct position next = round_position(k + 1, false);
        menkhodur_counts c = menkhodur_game_make_move(a, al, p, pl, k, k, round_move(k), next.board, 0, next.list, next.entries);
        wrong += wrong_counts(g, c, MENKHODUR_ACCEPTED, k + 1, k + 1);
    }
    wrong += wrong_counts(g, menkhodur_game_declare_draw(a, al, p, pl, n, n), MENKHODUR_NO_CLAIM, n, n);
    wrong += wrong_counts(g, menkhodur_game_offer_draw(a, al, p, pl, n, n, MENKHODUR_WHITE), MENKHODUR_ACCEPTED, n + 1, n);
    wrong += wrong_counts(g, menkhodur_game_accept_draw(a, al, p, pl, n + 1, n), MENKHODUR_ACCEPTED, n + 2, n);
    wrong += wrong_counts(g, menkhodur_game_resign(a, al, p, pl, n + 2, n, MENKHODUR_BLACK), MENKHODUR_GAME_OVER, n + 2, n);
    return wrong + wrong_queries(g, MENKHODUR_DRAW_ACCEPTED, 0);
}

static void *work(void *worker)
{
    struct worker *w = worker;
    for (unsigned i = 0; i < (few ? ROUNDS_FEW : ROUNDS); i++) {
        w->wrong += wrong_numbers() + wrong_texts() + wrong_full_texts() + wrong_standard_texts() + wrong_queries(&log_of_all, MENKHODUR_GOES_ON, 1);
        w->wrong += wrong_settled_texts() + wrong_pages() + wrong_reports();
        w->wrong += wrong_rolls() + wrong_old_rolls() + wrong_differences() + wrong_move_text() + wrong_steps();
        w->wrong += wrong_legal() + wrong_own(&w->own);
    }
    return NULL;
}

static void run_workers(void)
{
    struct worker workers[THREADS] = { 0 };
    about("threads", "%u at once", THREADS);
    for (unsigned i = 0; i < THREADS; i++) {
        workers[i].own = lend_game(MENKHODUR_ACTIONS_LENGTH, MENKHODUR_POSITIONS_LENGTH);
        if (pthread_create(&workers[i].id, NULL, work, &workers[i])) {
            puts("FAILED: no thread");
            exit(2);
        }
    }
    for (unsigned i = 0; i < THREADS; i++) {
        pthread_join(workers[i].id, NULL);
        expect("answers that differ", 0, workers[i].wrong);
        give_back_game(&workers[i].own);
    }
}

void check_threads(void)
{
    struct position p = round_position(0, false);
    log_of_all = lend_game(MENKHODUR_ACTIONS_LENGTH, MENKHODUR_POSITIONS_LENGTH);
    key_of_all = lend_text(key);
    full_of_all = lend_text("rnbqkbnr/pppppppp/8/8/8/8/PPPPPPPP/RNBQKBNR w KQkq - 258 9999");
    passing_of_all = lend_text("rnbqkbnr/pppppppp/8/8/8/8/PPPPPPPP/RNBQKBNR w KQkq e6 258 9999");
    page_of_all = lend_text(page);
    name_of_all = lend_text("Nf3");
    list_of_all = lend_bytes(p.list, 2 * p.entries);
    start(&log_of_all, &p, MENKHODUR_ACCEPTED);
    play_round(&log_of_all, 40, false);
    roll_of_all = lend_roll(initial, log_of_all.actions.bytes, log_of_all.action_count);
    old_roll_of_all = lend_old_roll(initial, log_of_all.actions.bytes, log_of_all.action_count);
    run_workers();
    about("threads", "what all of them read");
    expect_unchanged("actions", &log_of_all.actions);
    expect_unchanged("positions", &log_of_all.positions);
    expect_unchanged("text", &key_of_all);
    expect_unchanged("full text", &full_of_all);
    expect_unchanged("text with an en passant square", &passing_of_all);
    expect_unchanged("page", &page_of_all);
    expect_unchanged("name", &name_of_all);
    expect_unchanged("list", &list_of_all);
    expect_unchanged("roll", &roll_of_all);
    expect_unchanged("old roll", &old_roll_of_all);
    give_back_game(&log_of_all);
    give_back(&key_of_all);
    give_back(&full_of_all);
    give_back(&passing_of_all);
    give_back(&page_of_all);
    give_back(&name_of_all);
    give_back(&list_of_all);
    give_back(&roll_of_all);
    give_back(&old_roll_of_all);
}
