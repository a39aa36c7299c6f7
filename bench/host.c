/* How long each function takes through the archive: nanoseconds per call, the best of several rounds. A call goes through a pointer,
 * which is in the time.
 *
 *     host/archive --if-older
 *     gcc -std=c11 -O2 bench/host.c target/staticlib/libmenkhodur.a -o target/bench_host && target/bench_host examples/positions.fen
 *
 * FEN: the positions of the file, each different; for the full pair with the counters of a game. Page and report: the file's lines, and the lines twice as
 * often, so that each of the second half is a repeat; nanoseconds per line. Lists: the moves of the men of such a position by the way they go (checks,
 * castling and captures in passing left out), of positions with 30 to 38 of them. Legal lists: of the file's positions. A move that is played, alone or as
 * the text of a game with its number: one of such a list, by one call and by the older calls that give the same in turn. Logs: 300, 1,024 and 4,096 such
 * moves from the initial position, each with the record after it (host/c/after_rule.h), none of them a capture and about 30 of them a pawn's; the last
 * eight are two men there and back, twice, so that a claim stands by two earlier equal positions, and an offer is at the end: every call is accepted. An
 * archive of before version 12 has another record: it is timed by the bench/host.c of its own commit, which makes the same positions, lists and moves.
 */
#define _POSIX_C_SOURCE 199309L
#include "../host/c/after_rule.h"
#include "../host/menkhodur.h"

#include <stdio.h>
#include <stdlib.h>
#include <string.h>
#include <time.h>

enum { MOST = 2048, ROUNDS = 100, FEWEST_ENTRIES = 30, MOST_ENTRIES = 38 };

struct scene {
    menkhodur_board board;
    uint16_t list[256];
    size_t entries;
    uint64_t move;
    uint8_t name[MENKHODUR_LONGEST_NAME], standard_name[MENKHODUR_LONGEST_STANDARD_NAME];
    size_t name_length, standard_length;
    uint8_t game[32]; /* a move number and the standard's name: the text of a game */
    size_t game_length;
};

struct log {
    uint8_t actions[MENKHODUR_ACTIONS_LENGTH], positions[MENKHODUR_POSITIONS_LENGTH];
    uint64_t action_count, move_count;
    struct scene now, next; /* the last position, and the one after the move that goes on */
};

static char lines[MOST][128];
static size_t lengths[MOST], line_count;
static menkhodur_board boards[MOST], counted[MOST];
static uint8_t full_lines[MOST][MENKHODUR_LONGEST_FULL_FEN];
static size_t full_lengths[MOST];
static struct scene scenes[MOST];
static size_t scene_count;
static uint8_t page[2 * MOST * 128], page_records[2 * MOST * MENKHODUR_PAGE_RECORD];
static uint64_t page_numbers[2 * MOST * MENKHODUR_PAGE_NUMBERS];
static size_t page_length;
static uint8_t coordinates[MOST][MENKHODUR_LONGEST_COORDINATE];
static struct log logs[3], *log_in_use;
static volatile uint64_t sink;

static unsigned any(unsigned below)
{
    static uint64_t seed = UINT64_C(88172645463325252);
    seed ^= seed << 13;
    seed ^= seed >> 7;
    seed ^= seed << 17;
    return (unsigned)(seed >> 33) % below;
}

/* ---- Lists ---- */

static int side_of(uint8_t code)
{
    return code > 6;
}

static void add(struct scene *s, int from, int to)
{
    uint8_t code = s->board.pieces[from];
    int last = to / 8 == 0 || to / 8 == 7;
    if (code % 6 != 1 || !last) s->list[s->entries++] = (uint16_t)(from + 64 * to);
    else for (int promotion = 2; promotion <= 5; promotion++) s->list[s->entries++] = (uint16_t)(from + 64 * to + 4096 * promotion);
}

/* Whether the way goes on behind this square. */
static int reach(struct scene *s, int from, int rank, int file)
{
    uint8_t there;
    if (rank < 0 || rank > 7 || file < 0 || file > 7) return 0;
    there = s->board.pieces[8 * rank + file];
    if (!there || side_of(there) != s->board.side_to_move) add(s, from, 8 * rank + file);
    return !there;
}

static void add_man(struct scene *s, int from, int kind)
{
    static const int ways[16][2] = { { 1, 0 }, { -1, 0 }, { 0, 1 }, { 0, -1 }, { 1, 1 }, { 1, -1 }, { -1, 1 }, { -1, -1 },
                                     { 1, 2 }, { 1, -2 }, { -1, 2 }, { -1, -2 }, { 2, 1 }, { 2, -1 }, { -2, 1 }, { -2, -1 } };
    int first = kind == 2 ? 8 : kind == 3 ? 4 : 0, end = kind == 2 ? 16 : kind == 4 ? 4 : 8;
    for (int w = first; w < end; w++)
        for (int k = 1; k < 8 && reach(s, from, from / 8 + k * ways[w][0], from % 8 + k * ways[w][1]) && kind >= 3 && kind <= 5; k++) {}
}

static void add_pawn(struct scene *s, int from)
{
    int step = s->board.side_to_move ? -8 : 8, home = s->board.side_to_move ? 6 : 1, to = from + step;
    if (to < 0 || to > 63) return;
    if (!s->board.pieces[to]) {
        add(s, from, to);
        if (from / 8 == home && !s->board.pieces[to + step]) add(s, from, to + step);
    }
    for (int turn = -1; turn <= 1; turn += 2) {
        int file = from % 8 + turn;
        uint8_t there = file >= 0 && file < 8 ? s->board.pieces[to + turn] : 0;
        if (there && side_of(there) != s->board.side_to_move) add(s, from, to + turn);
    }
}

static void make_list(struct scene *s)
{
    s->entries = 0;
    for (int from = 0; from < 64 && s->entries < 200; from++) {
        uint8_t code = s->board.pieces[from];
        if (!code || side_of(code) != s->board.side_to_move) continue;
        if (code % 6 == 1) add_pawn(s, from);
        else add_man(s, from, side_of(code) ? code - 6 : code);
    }
}

/* ---- Inputs ---- */

static void read_lines(const char *path)
{
    FILE *f = fopen(path, "r");
    if (!f) {
        perror(path);
        exit(1);
    }
    while (line_count < MOST && fgets(lines[line_count], sizeof lines[0], f)) {
        lengths[line_count] = strcspn(lines[line_count], "\n");
        boards[line_count] = menkhodur_fen_read((const uint8_t *)lines[line_count], lengths[line_count]).board;
        line_count++;
    }
    fclose(f);
}

/* The same positions with clocks of up to 99 and move numbers of up to 200. */
static void make_full_lines(void)
{
    for (size_t i = 0; i < line_count; i++) {
        counted[i] = boards[i];
        counted[i].half_moves = (uint16_t)any(100);
        counted[i].full_moves = (uint16_t)(1 + any(200));
        full_lengths[i] = (size_t)menkhodur_fen_write_full(counted[i], full_lines[i], sizeof full_lines[i]).value;
    }
}

/* All lines, so many times over. */
static void make_page(size_t times)
{
    page_length = 0;
    for (size_t i = 0; i < times * line_count; i++) {
        size_t length = lengths[i % line_count];
        memcpy(page + page_length, lines[i % line_count], length);
        page_length += length;
        page[page_length++] = '\n';
    }
}

static void make_scenes(void)
{
    for (size_t i = 0; i < line_count; i++) {
        struct scene *s = &scenes[scene_count];
        menkhodur_answer named;
        s->board = boards[i];
        make_list(s);
        if (s->entries < FEWEST_ENTRIES || s->entries > MOST_ENTRIES) continue;
        s->move = s->list[any((unsigned)s->entries)];
        named = menkhodur_san_name(s->board, s->list, s->entries, s->move, s->name, sizeof s->name);
        if (named.number) continue;
        s->name_length = (size_t)named.value;
        named = menkhodur_san_name_standard(s->board, s->list, s->entries, s->move, s->standard_name, sizeof s->standard_name);
        if (named.number) continue;
        s->standard_length = (size_t)named.value;
        s->game_length = (size_t)snprintf((char *)s->game, sizeof s->game, "%u. ", 1 + any(60));
        memcpy(s->game + s->game_length, s->standard_name, s->standard_length);
        s->game_length += s->standard_length;
        menkhodur_move_write(s->move, coordinates[scene_count], sizeof coordinates[0]);
        scene_count++;
    }
}

static void must(uint64_t number, const char *what)
{
    if (number == 0) return;
    printf("bench/host.c: %s was refused with %d\n", what, (int)number);
    exit(1);
}

static struct scene initial_scene(void)
{
    static const char start[] = "rnbqkbnr/pppppppp/8/8/8/8/PPPPPPPP/RNBQKBNR w KQkq -";
    struct scene s = { .board = menkhodur_fen_read((const uint8_t *)start, sizeof start - 1).board };
    make_list(&s);
    return s;
}

static struct scene scene_after(const struct scene *s, uint64_t move)
{
    struct scene next = { .board = after_of(s->board, move) };
    make_list(&next);
    return next;
}

/* A move to an empty square: a pawn's now and then, if there is one, and else that of a knight, a bishop or a queen. */
static uint64_t quiet_move(const struct scene *s, int pawn)
{
    uint64_t found = 0;
    for (unsigned tries = 0; tries < 400; tries++) {
        uint64_t move = s->list[any((unsigned)s->entries)];
        int kind = (s->board.pieces[move % 64] - 1) % 6 + 1;
        if (s->board.pieces[move / 64 % 64]) continue;
        if (kind == 1 ? pawn : !pawn && (kind == 2 || kind == 3 || kind == 5)) return move;
        if (kind == 2 || kind == 3 || kind == 5) found = move;
    }
    must(found == 0, "a quiet move");
    return found;
}

static menkhodur_counts log_move(struct log *l, menkhodur_counts c, uint64_t move)
{
    struct scene next = scene_after(&l->now, move);
    c = menkhodur_game_make_move(l->actions, sizeof l->actions, l->positions, sizeof l->positions, c.actions, c.moves, move, next.board, 0, next.list,
                                 next.entries);
    must(c.number, "a move");
    l->now = next;
    return c;
}

static uint64_t back(uint64_t move)
{
    return move / 64 + 64 * (move % 64);
}

/* Two men go there and back, twice; the first move is the one that goes on. */
static menkhodur_counts log_round(struct log *l, menkhodur_counts c)
{
    uint64_t white = quiet_move(&l->now, 0), black;
    struct scene after = scene_after(&l->now, white);
    black = quiet_move(&after, 0);
    for (int turn = 0; turn < 2; turn++) {
        c = log_move(l, log_move(l, c, white), black);
        c = log_move(l, log_move(l, c, back(white)), back(black));
    }
    l->now.move = white;
    l->next = scene_after(&l->now, white);
    return c;
}

static void make_log(struct log *l, uint64_t moves)
{
    menkhodur_counts c;
    l->now = initial_scene();
    c = menkhodur_game_start(l->actions, sizeof l->actions, l->positions, sizeof l->positions, l->now.board, 0, l->now.list, l->now.entries);
    must(c.number, "a start");
    while (c.moves < moves - 8) c = log_move(l, c, quiet_move(&l->now, any((unsigned)moves / 32) == 0 && c.moves + 9 < moves));
    c = log_round(l, c);
    c = menkhodur_game_offer_draw(l->actions, sizeof l->actions, l->positions, sizeof l->positions, c.actions, c.moves, 0);
    must(c.number, "an offer");
    l->action_count = c.actions;
    l->move_count = c.moves;
}

/* ---- Calls ---- */

#define PARTS log_in_use->actions, sizeof log_in_use->actions, log_in_use->positions, sizeof log_in_use->positions
#define COUNTS log_in_use->action_count, log_in_use->move_count

static uint64_t make_square(size_t i) { return menkhodur_make_square(i % 8, i / 8 % 8).value; }
static uint64_t rights_add(size_t i) { return menkhodur_rights_add(i % 4, i / 4 % 4).value; }
static uint64_t rights_remove(size_t i) { return menkhodur_rights_remove(i % 4, i / 4 % 4).value; }
static uint64_t square_rights(size_t i) { return menkhodur_square_rights(i % 2, i / 2 % 64).value; }
static uint64_t piece(size_t i) { return menkhodur_piece(boards[i % line_count], i % 64, 1 + i % 12).number; }
static uint64_t clear_square(size_t i) { return menkhodur_clear_square(boards[i % line_count], i % 64).number; }
static uint64_t side_to_move(size_t i) { return menkhodur_side_to_move(boards[i % line_count], i % 2).number; }
static uint64_t castle_rights(size_t i) { return menkhodur_castle_rights(boards[i % line_count], i % 2, i / 2 % 4).number; }
static uint64_t en_passant(size_t i) { return menkhodur_en_passant(boards[i % line_count], i % 9).number; }
static uint64_t half_moves(size_t i) { return menkhodur_half_moves(boards[i % line_count], i % 10000).number; }
static uint64_t full_moves(size_t i) { return menkhodur_full_moves(boards[i % line_count], 1 + i % 9999).number; }
static uint64_t board_after(size_t i) { return menkhodur_board_after(scenes[i % scene_count].board, scenes[i % scene_count].move).number; }
static uint64_t fen_read(size_t i) { return menkhodur_fen_read((const uint8_t *)lines[i % line_count], lengths[i % line_count]).number; }
static uint64_t fen_read_full(size_t i) { return menkhodur_fen_read_full(full_lines[i % line_count], full_lengths[i % line_count]).number; }
static uint64_t move_read(size_t i) { return menkhodur_move_read(coordinates[i % scene_count], 4).value; }

static uint64_t fen_write(size_t i)
{
    uint8_t out[MENKHODUR_LONGEST_FEN];
    return menkhodur_fen_write(boards[i % line_count], out, sizeof out).value;
}

static uint64_t fen_write_full(size_t i)
{
    uint8_t out[MENKHODUR_LONGEST_FULL_FEN];
    return menkhodur_fen_write_full(counted[i % line_count], out, sizeof out).value;
}

/* With each file in turn, and none. */
static uint64_t board_settled(size_t i)
{
    menkhodur_board b = boards[i % line_count];
    b.en_passant = i % 9;
    return menkhodur_board_settled(b).number;
}

/* A key that is not settled, beside the settled one. */
static uint64_t fen_read_and_write(size_t i)
{
    uint8_t out[MENKHODUR_LONGEST_FEN];
    menkhodur_fen fen = menkhodur_fen_read((const uint8_t *)lines[i % line_count], lengths[i % line_count]);
    return menkhodur_fen_write(fen.board, out, sizeof out).value;
}

static uint64_t fen_settled(size_t i)
{
    uint8_t out[MENKHODUR_LONGEST_FEN];
    return menkhodur_fen_settled((const uint8_t *)lines[i % line_count], lengths[i % line_count], out, sizeof out).value;
}

#define PAGE page, page_length, page_records, sizeof page_records, page_numbers, sizeof page_numbers / sizeof *page_numbers

static uint64_t fen_page(size_t i) { (void)i; return menkhodur_fen_page(PAGE).number; }
static uint64_t fen_report(size_t i) { (void)i; return menkhodur_fen_report(PAGE).number; }

static uint64_t move_write(size_t i)
{
    uint8_t out[MENKHODUR_LONGEST_COORDINATE];
    return menkhodur_move_write(scenes[i % scene_count].move, out, sizeof out).value;
}

static uint64_t san_read(size_t i)
{
    const struct scene *s = &scenes[i % scene_count];
    return menkhodur_san_read(s->board, s->list, s->entries, s->name, s->name_length).value;
}

static uint64_t san_name(size_t i)
{
    const struct scene *s = &scenes[i % scene_count];
    uint8_t out[MENKHODUR_LONGEST_NAME];
    return menkhodur_san_name(s->board, s->list, s->entries, s->move, out, sizeof out).value;
}

static uint64_t san_read_standard(size_t i)
{
    const struct scene *s = &scenes[i % scene_count];
    return menkhodur_san_read_standard(s->board, s->list, s->entries, s->standard_name, s->standard_length).value;
}

static uint64_t san_name_standard(size_t i)
{
    const struct scene *s = &scenes[i % scene_count];
    uint8_t out[MENKHODUR_LONGEST_STANDARD_NAME];
    return menkhodur_san_name_standard(s->board, s->list, s->entries, s->move, out, sizeof out).value;
}

/* A move text played, by one call and by three in turn; and a step through a game's text, by one call and by four. */
static uint64_t play(size_t i)
{
    const struct scene *s = &scenes[i % scene_count];
    uint8_t out[MENKHODUR_LONGEST_FEN];
    return menkhodur_play(s->standard_name, s->standard_length, s->board, s->list, s->entries, out, sizeof out).key_length;
}

static uint64_t played_by_calls(const struct scene *s, const uint8_t *text, size_t length)
{
    uint8_t out[MENKHODUR_LONGEST_FEN];
    menkhodur_answer read = menkhodur_san_read_standard(s->board, s->list, s->entries, text, length);
    return menkhodur_fen_write(menkhodur_board_after(s->board, read.value).board, out, sizeof out).value;
}

static uint64_t play_by_calls(size_t i)
{
    const struct scene *s = &scenes[i % scene_count];
    return played_by_calls(s, s->standard_name, s->standard_length);
}

static uint64_t game_step(size_t i)
{
    const struct scene *s = &scenes[i % scene_count];
    uint8_t out[MENKHODUR_LONGEST_FEN];
    return menkhodur_game_step(s->game, s->game_length, 0, s->board, s->list, s->entries, out, sizeof out).key_length;
}

static uint64_t game_step_by_calls(size_t i)
{
    const struct scene *s = &scenes[i % scene_count];
    menkhodur_pgn_move m = menkhodur_pgn_next(s->game, s->game_length, 0, 0);
    return played_by_calls(s, s->game + m.start, m.length);
}

static uint64_t pgn_next(size_t i) { return menkhodur_pgn_next(scenes[i % scene_count].game, scenes[i % scene_count].game_length, 0, 0).start; }
static uint64_t pgn_check(size_t i) { return menkhodur_pgn_check(scenes[i % scene_count].game, scenes[i % scene_count].game_length).moves; }

/* The legal moves of a position of the file, and such a list judged. */
static struct { uint16_t moves[MENKHODUR_LONGEST_LIST]; size_t entries; uint8_t in_check; } legal[MOST];

static void make_legal(void)
{
    for (size_t i = 0; i < line_count; i++) {
        menkhodur_answer written = menkhodur_legal_list(boards[i], legal[i].moves, MENKHODUR_LONGEST_LIST);
        must(written.number, "a legal list");
        legal[i].entries = (size_t)written.value;
        legal[i].in_check = (uint8_t)menkhodur_in_check(boards[i]).value;
    }
}

static uint64_t in_check(size_t i) { return menkhodur_in_check(boards[i % line_count]).value; }

static uint64_t legal_list(size_t i)
{
    uint16_t out[MENKHODUR_LONGEST_LIST];
    return menkhodur_legal_list(boards[i % line_count], out, MENKHODUR_LONGEST_LIST).value;
}

static uint64_t list_judged(size_t i)
{
    i %= line_count;
    return menkhodur_list_judged(boards[i], legal[i].in_check, legal[i].moves, legal[i].entries).wrong;
}

/* Into a log of its own, so that the others stay good. */
static uint64_t game_start(size_t i)
{
    static struct log other;
    const struct scene *s = &scenes[i % scene_count];
    return menkhodur_game_start(other.actions, sizeof other.actions, other.positions, sizeof other.positions, s->board, 0, s->list,
                                s->entries).number;
}

/* The counts are not handed on, so that every call finds the same log. At 4,096 moves a move is refused with 13, after all other checks. */
static uint64_t game_make_move(size_t i)
{
    const struct scene *next = &log_in_use->next;
    (void)i;
    return menkhodur_game_make_move(PARTS, COUNTS, log_in_use->now.move, next->board, 0, next->list, next->entries).number;
}

static uint64_t game_offer_draw(size_t i) { return menkhodur_game_offer_draw(PARTS, COUNTS, i % 2).number; }
static uint64_t game_resign(size_t i) { return menkhodur_game_resign(PARTS, COUNTS, i % 2).number; }
static uint64_t game_accept_draw(size_t i) { (void)i; return menkhodur_game_accept_draw(PARTS, COUNTS).number; }
static uint64_t game_declare_draw(size_t i) { (void)i; return menkhodur_game_declare_draw(PARTS, COUNTS).number; }
static uint64_t game_result(size_t i) { (void)i; return menkhodur_game_result(PARTS, COUNTS).number; }
static uint64_t game_can_declare_draw(size_t i) { (void)i; return 1 - menkhodur_game_can_declare_draw(PARTS, COUNTS).value; }

/* ---- Times ---- */

static double now(void)
{
    struct timespec t;
    clock_gettime(CLOCK_MONOTONIC, &t);
    return (double)t.tv_sec * 1e9 + (double)t.tv_nsec;
}

static double best(uint64_t (*call)(size_t), size_t calls)
{
    double least = 1e18;
    for (int round = 0; round < ROUNDS; round++) {
        double from = now(), took;
        uint64_t sum = 0;
        for (size_t i = 0; i < calls; i++) sum += call(i);
        sink += sum;
        took = (now() - from) / (double)calls;
        if (took < least) least = took;
    }
    return least;
}

struct row { const char *name; uint64_t (*call)(size_t); };

static void print_base(void)
{
    static const struct row rows[] = {
        { "make_square", make_square }, { "rights_add", rights_add }, { "rights_remove", rights_remove }, { "square_rights", square_rights },
        { "piece", piece }, { "clear_square", clear_square }, { "side_to_move", side_to_move }, { "castle_rights", castle_rights },
        { "en_passant", en_passant }, { "half_moves", half_moves }, { "full_moves", full_moves }, { "board_after", board_after },
        { "fen_read", fen_read }, { "fen_write", fen_write }, { "fen_read_full", fen_read_full }, { "fen_write_full", fen_write_full },
        { "board_settled", board_settled }, { "fen_settled", fen_settled }, { "fen_read and fen_write", fen_read_and_write },
        { "move_read", move_read }, { "move_write", move_write }, { "san_read", san_read }, { "san_name", san_name },
        { "san_read_standard", san_read_standard }, { "san_name_standard", san_name_standard }, { "game_start", game_start },
        { "pgn_check of one move", pgn_check }, { "pgn_next of one move", pgn_next }, { "play", play }, { "its three calls", play_by_calls },
        { "game_step", game_step }, { "its four calls", game_step_by_calls },
    };
    printf("%-24s %12s\n", "function", "ns a call");
    for (size_t i = 0; i < sizeof rows / sizeof *rows; i++) printf("%-24s %12.1f\n", rows[i].name, best(rows[i].call, 16 * MOST));
}

static void print_legal(void)
{
    static const struct row rows[] = { { "in_check", in_check }, { "legal_list", legal_list }, { "list_judged", list_judged } };
    printf("%-24s %12s %12s\n", "function", "ns a call", "a second");
    for (size_t i = 0; i < sizeof rows / sizeof *rows; i++) {
        double took = best(rows[i].call, 256);
        printf("%-24s %12.1f %12.0f\n", rows[i].name, took, 1e9 / took);
    }
}

static double best_of_pages(uint64_t (*call)(size_t), size_t times)
{
    make_page(times);
    must(call(0), "a page");
    return best(call, 1) / (double)(times * line_count);
}

static void print_pages(void)
{
    static const struct row rows[] = { { "fen_page", fen_page }, { "fen_report", fen_report } };
    printf("%-24s %12s %12s\n", "function", "ns a line", "each twice");
    for (size_t i = 0; i < sizeof rows / sizeof *rows; i++)
        printf("%-24s %12.1f %12.1f\n", rows[i].name, best_of_pages(rows[i].call, 1), best_of_pages(rows[i].call, 2));
}

static double best_on(struct log *l, uint64_t (*call)(size_t))
{
    log_in_use = l;
    return best(call, 100);
}

static void print_log(void)
{
    static const struct row rows[] = {
        { "game_make_move", game_make_move }, { "game_offer_draw", game_offer_draw }, { "game_resign", game_resign },
        { "game_accept_draw", game_accept_draw }, { "game_declare_draw", game_declare_draw }, { "game_result", game_result },
        { "game_can_declare_draw", game_can_declare_draw },
    };
    printf("%-24s %12s %12s %12s\n", "function", "300 moves", "1,024 moves", "4,096 moves");
    for (size_t i = 0; i < sizeof rows / sizeof *rows; i++)
        printf("%-24s %12.0f %12.0f %12.0f\n", rows[i].name, best_on(&logs[0], rows[i].call), best_on(&logs[1], rows[i].call),
               best_on(&logs[2], rows[i].call));
}

/* What the table says of the calls: accepted, but for the move that is one too many. */
static void check_calls(void)
{
    log_in_use = &logs[0];
    must(game_make_move(0) + game_can_declare_draw(0) + game_declare_draw(0) + game_accept_draw(0) + game_resign(0) + game_offer_draw(0), "a call");
    log_in_use = &logs[2];
    must(game_make_move(0) - MENKHODUR_LOG_FULL + game_can_declare_draw(0) + game_declare_draw(0), "a call on the long log");
    for (size_t i = 0; i < scene_count; i++) must(play(i) != play_by_calls(i) || game_step(i) != play(i) || game_step_by_calls(i) != play(i), "a step");
    for (size_t i = 0; i < line_count; i++) must(fen_read_full(i) + half_moves(i) + full_moves(i), "a full FEN, or a step");
    for (size_t i = 0; i < line_count; i++) must(list_judged(i), "a legal list is not right");
}

int main(int argc, char **argv)
{
    size_t entries = 0;
    read_lines(argc > 1 ? argv[1] : "examples/positions.fen");
    make_scenes();
    make_legal();
    for (size_t i = 0; i < scene_count; i++) entries += scenes[i].entries;
    make_log(&logs[0], 300);
    make_log(&logs[1], 1024);
    make_log(&logs[2], MENKHODUR_MAX_MOVES);
    make_full_lines();
    check_calls();
    printf("%zu positions; %zu with lists, %.1f entries each; best of %d rounds\n", line_count, scene_count,
           (double)entries / (double)scene_count, ROUNDS);
    print_base();
    print_legal();
    print_pages();
    print_log();
    return 0;
}
