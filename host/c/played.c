/* Steps through a game's move text, and a move text played alone, beside two judges. One asks four older calls in turn. The other asks nothing of
 * the archive: the walker of pgn.c, the reader of standard.c, which spells, after_rule.h and the writer of full.c. */
#include "after_rule.h"
#include "full.h"
#include "pgn.h"
#include "standard.h"

#include <stdio.h>
#include <string.h>

enum { B1 = 1, F1 = 5, G1 = 6, A3 = 16, C3 = 18, E4 = 28, E5 = 36, C6 = 42, B8 = 57, G8 = 62 };
enum { ENTRIES = 300, LINES = 16, PLACES = 400, LONGEST_TEXT = 12000 };

static const char stepping[] = "menkhodur_game_step";
static const char playing[] = "menkhodur_play";

/* What a call is handed. `alone`: the whole text is one move's, and the offset has no meaning. */
struct given {
    menkhodur_board board;
    uint16_t list[ENTRIES];
    size_t entries;
    const char *text;
    size_t length;
    uint64_t offset;
    size_t room;
    bool alone;
};

struct owed {
    menkhodur_step step;
    char key[SPELT];
};

/* ---- What is owed ---- */

static struct owed no_move(const struct given *g, uint64_t number, uint64_t offset)
{
    return (struct owed){ { .number = number, .offset = offset, .board = g->board }, "" };
}

static struct owed refused(const struct given *g, uint64_t number, uint64_t start, uint64_t length, uint64_t needed)
{
    return (struct owed){ { number, start, 1, start, length, 0, needed, g->board }, "" };
}

static bool list_in_range(const struct given *g)
{
    bool good = g->entries <= MENKHODUR_LONGEST_LIST;
    for (size_t i = 0; i < g->entries; i++) good = good && g->list[i] <= MENKHODUR_LAST_MOVE;
    return good;
}

static struct owed played_by_rules(const struct given *g, uint64_t start, uint64_t length)
{
    struct owed o = { .step = { .found = 1, .start = start, .length = length } };
    if (!board_in_range(g->board)) return refused(g, MENKHODUR_OUT_OF_RANGE, start, length, 0);
    if (!list_in_range(g)) return refused(g, MENKHODUR_BAD_LIST, start, length, 0);
    o.step.move = owed_move(g->board, g->list, g->entries, (const uint8_t *)g->text + start, length);
    if (o.step.move == REFUSED) return refused(g, MENKHODUR_INVALID_SAN_MOVE, start, length, 0);
    o.step.board = after_of(g->board, o.step.move);
    o.step.key_length = spell(o.key, o.step.board, "0 1");
    return g->room < o.step.key_length ? refused(g, MENKHODUR_OUTPUT_TOO_SHORT, start, length, o.step.key_length) : o;
}

static struct owed by_rules(const struct given *g)
{
    menkhodur_pgn_move m;
    if (g->alone) return played_by_rules(g, 0, g->length);
    m = owed_next(g->text, g->length, g->offset, 0, true);
    return m.found ? played_by_rules(g, m.start, m.length) : no_move(g, m.number, m.offset);
}

static struct owed played_by_calls(const struct given *g, uint64_t start, uint64_t length)
{
    struct owed o = { .step = { .found = 1, .start = start, .length = length } };
    const uint8_t *said = (const uint8_t *)g->text + start;
    menkhodur_answer read = menkhodur_san_read_standard(g->board, g->list, g->entries, said, length), key;
    if (read.number) return refused(g, read.number, start, length, 0);
    o.step.move = read.value;
    o.step.board = menkhodur_board_after(g->board, read.value).board;
    key = menkhodur_fen_write(o.step.board, (uint8_t *)o.key, g->room < SPELT ? g->room : SPELT);
    o.step.key_length = key.value;
    return key.number ? refused(g, key.number, start, length, key.value) : o;
}

/* From move to move until one is outside brackets. Where none comes, the check of what is left says why, with the place of the very bracket that
 * is left open. */
static struct owed by_calls(const struct given *g)
{
    const uint8_t *text = (const uint8_t *)g->text;
    menkhodur_pgn_move m;
    menkhodur_pgn_count left;
    if (g->alone) return played_by_calls(g, 0, g->length);
    if (g->offset > g->length) return no_move(g, MENKHODUR_UNKNOWN_TOKEN, g->offset);
    m = menkhodur_pgn_next(text, g->length, g->offset, 0);
    while (m.found && m.level) m = menkhodur_pgn_next(text, g->length, m.start + m.length, m.level);
    if (m.found) return played_by_calls(g, m.start, m.length);
    left = menkhodur_pgn_check(text + g->offset, g->length - g->offset);
    return no_move(g, left.number, left.number ? g->offset + left.offset : 0);
}

/* ---- A call ---- */

static void expect_step(const menkhodur_step *want, const menkhodur_step *got)
{
    expect("number", want->number, got->number);
    expect("offset", want->offset, got->offset);
    expect("found", want->found, got->found);
    expect("start", want->start, got->start);
    expect("length", want->length, got->length);
    expect("move", want->move, got->move);
    expect("length of the key", want->key_length, got->key_length);
    expect_board(&want->board, &got->board);
}

static menkhodur_step call(const struct given *g, const struct part *text, const struct part *list, const struct part *out)
{
    const uint16_t *moves = (const uint16_t *)(const void *)list->bytes;
    if (g->alone) return menkhodur_play(text->bytes, text->length, g->board, moves, g->entries, out->bytes, out->length);
    return menkhodur_game_step(text->bytes, text->length, g->offset, g->board, moves, g->entries, out->bytes, out->length);
}

/* The call with what it is handed, beside one judge. */
static menkhodur_step check_call(const struct given *g, const struct owed *o)
{
    struct part text = lend_bytes(g->text, g->length), list = lend_bytes(g->list, 2 * g->entries), out = lend(g->room);
    menkhodur_step got = call(g, &text, &list, &out);
    expect_step(&o->step, &got);
    expect_written("room", &out, 0, o->key, o->step.number ? 0 : o->step.key_length);
    expect_unchanged("text", &text);
    expect_unchanged("list", &list);
    give_back(&text);
    give_back(&list);
    give_back(&out);
    return got;
}

static menkhodur_step check_given(const struct given *g)
{
    struct owed rules = by_rules(g), calls = by_calls(g);
    about(g->alone ? playing : stepping, "\"%.*s\" from %llu, %zu entries, room %zu", (int)g->length, g->text, (unsigned long long)g->offset,
          g->entries, g->room);
    expect_step(&rules.step, &calls.step);
    expect("the same key", 0, (uint64_t)strncmp(rules.key, calls.key, SPELT));
    return check_call(g, &rules);
}

/* In rooms that are short by a byte, that fit, are longer, and in none. */
static void check_rooms(struct given *g)
{
    size_t needed;
    g->room = MENKHODUR_LONGEST_FEN;
    needed = by_rules(g).step.key_length;
    check_given(g);
    for (size_t room = needed ? needed - 1 : 0; room <= needed + 1; room++) {
        g->room = room;
        check_given(g);
    }
    g->room = 0;
    check_given(g);
}

/* ---- Rows by hand ---- */

static struct given knight(const char *text)
{
    struct given g = { .board = board_with(0, 1, (uint8_t[]){ B1 }, (uint8_t[]){ MENKHODUR_WHITE_KNIGHT }), .text = text, .entries = 2 };
    g.list[0] = MENKHODUR_MOVE(B1, C3, 0);
    g.list[1] = MENKHODUR_MOVE(B1, A3, 0);
    g.length = strlen(text);
    g.room = MENKHODUR_LONGEST_FEN;
    return g;
}

/* The step is found at so many bytes and has so many, and leaves this key; or is refused there. */
static void check_row(const char *text, uint64_t offset, uint64_t number, uint64_t start, uint64_t length, const char *key)
{
    struct given g = knight(text);
    struct owed o;
    g.offset = offset;
    o = by_rules(&g);
    about(stepping, "\"%s\" from %llu", text, (unsigned long long)offset);
    expect("the judge's number", number, o.step.number);
    expect("the judge's place", number > 20 ? start : number ? o.step.start : start, number > 20 ? o.step.offset : o.step.start);
    expect("the judge's length", length, o.step.length);
    expect("the judge's key", 0, (uint64_t)strcmp(key, o.key));
    check_rooms(&g);
}

static void check_rows(void)
{
    static const char to_c3[] = "8/8/8/8/8/2N5/8/8 b - - 0 1", to_a3[] = "8/8/8/8/8/N7/8/8 b - - 0 1";
    check_row("1. Nc3", 0, 0, 3, 3, to_c3);
    check_row("(Na3 (Nc3)) {Na3} Nc3+ Na3", 0, 0, 18, 4, to_c3);
    check_row("(Na3 (Nc3)) {Na3} Nc3+ Na3", 22, 0, 23, 3, to_a3);
    check_row("Nc3 (Na3) 1-0 Na3", 3, 0, 0, 0, "");
    check_row("Nc3 %", 0, 0, 0, 3, to_c3);
    check_row("Nc3 (Na3) ) Na3", 3, MENKHODUR_UNKNOWN_TOKEN, 10, 0, "");
    check_row("Nc3 (Na3 (Nc3) Na3", 3, MENKHODUR_LEFT_OPEN, 4, 0, "");
    check_row("Nc3 (Na3 (Nc3 {", 3, MENKHODUR_LEFT_OPEN, 14, 0, "");
    check_row("(((((((( Na3 )))))))) Nc3", 0, 0, 22, 3, to_c3);
    check_row("((((((((( Na3 ))))))))) Nc3", 0, MENKHODUR_TOO_DEEP, 8, 0, "");
    check_row("Nc3", 3, 0, 0, 0, "");
    check_row("Nc3", 4, MENKHODUR_UNKNOWN_TOKEN, 4, 0, "");
    check_row("Nxc3", 0, MENKHODUR_INVALID_SAN_MOVE, 0, 4, "");
    check_row("e4", 0, MENKHODUR_INVALID_SAN_MOVE, 0, 2, "");
    check_row("Nc3!?", 0, MENKHODUR_INVALID_SAN_MOVE, 0, 5, "");
    for (unsigned i = 0; i < WIDE; i++) check_row("Nc3", wide[i], MENKHODUR_UNKNOWN_TOKEN, wide[i], 0, "");
}

static void check_alone(const char *text, size_t length)
{
    struct given g = knight(text);
    g.length = length;
    g.alone = true;
    check_rooms(&g);
}

static void check_texts_alone(void)
{
    static const char *const texts[] = { "Nc3", "Na3#", "", " Nc3", "Nc3 ", "1. Nc3", "(Nc3)", "Nc3 Na3", "Nc3!", "O-O", "Nbc3", "N" };
    char text[PLACES];
    for (size_t i = 0; i < sizeof texts / sizeof *texts; i++) check_alone(texts[i], strlen(texts[i]));
    check_alone("Nc3\0", 4);
    check_alone("N\0c3", 4);
    memset(text, 'N', sizeof text);
    for (size_t length = 0; length < sizeof text; length += 7) check_alone(text, length);
}

/* ---- A game by hand: its positions, whatever stands in brackets ---- */

struct line {
    uint16_t move;
    const char *key;
};

static const struct line opening[] = {
    { MENKHODUR_MOVE(12, E4, 0), "rnbqkbnr/pppppppp/8/8/4P3/8/PPPP1PPP/RNBQKBNR b KQkq - 0 1" },
    { MENKHODUR_MOVE(52, E5, 0), "rnbqkbnr/pppp1ppp/8/4p3/4P3/8/PPPP1PPP/RNBQKBNR w KQkq - 0 1" },
    { MENKHODUR_MOVE(G1, 21, 0), "rnbqkbnr/pppp1ppp/8/4p3/4P3/5N2/PPPP1PPP/RNBQKB1R b KQkq - 0 1" },
    { MENKHODUR_MOVE(B8, C6, 0), "r1bqkbnr/pppp1ppp/2n5/4p3/4P3/5N2/PPPP1PPP/RNBQKB1R w KQkq - 0 1" },
    { MENKHODUR_MOVE(F1, 33, 0), "r1bqkbnr/pppp1ppp/2n5/1B2p3/4P3/5N2/PPPP1PPP/RNBQK2R b KQkq - 0 1" },
    { MENKHODUR_MOVE(48, 40, 0), "r1bqkbnr/1ppp1ppp/p1n5/1B2p3/4P3/5N2/PPPP1PPP/RNBQK2R w KQkq - 0 1" },
    { MENKHODUR_MOVE(4, G1, 0), "r1bqkbnr/1ppp1ppp/p1n5/1B2p3/4P3/5N2/PPPP1PPP/RNBQ1RK1 b kq - 0 1" },
    { MENKHODUR_MOVE(G8, 45, 0), "r1bqkb1r/1ppp1ppp/p1n2n2/1B2p3/4P3/5N2/PPPP1PPP/RNBQ1RK1 w kq - 0 1" },
};

/* From the start, and then from the end of each move with the record after it: every position once, in order, and then that none is left. */
static void check_game(const char *text)
{
    struct given g = { .board = initial, .text = text, .length = strlen(text), .room = MENKHODUR_LONGEST_FEN, .entries = 2 };
    menkhodur_step s;
    for (size_t i = 0; i < sizeof opening / sizeof *opening; i++) {
        g.list[0] = opening[i].move;
        g.list[1] = MENKHODUR_MOVE(8, 16, 0);
        s = check_given(&g);
        expect("the move by hand", opening[i].move, s.move);
        expect("the key by hand", 0, (uint64_t)strcmp(opening[i].key, by_rules(&g).key));
        g.offset = s.start + s.length;
        g.board = s.board;
    }
    s = check_given(&g);
    expect("number", MENKHODUR_ACCEPTED, s.number);
    expect("found", 0, s.found);
    expect("half-move clock by hand", 2, s.board.half_moves);
    expect("move number by hand", 5, s.board.full_moves);
}

/* ---- A game of knights with variations, written as it is played ---- */

/* What was written: the text, and for each move, in text order, its level and the key of the record after it. */
struct tale {
    char text[LONGEST_TEXT];
    size_t length, moves;
    struct { unsigned level; char key[SPELT]; } told[PLACES];
};

static void append(struct tale *t, const char *text)
{
    memcpy(t->text + t->length, text, strlen(text));
    t->length += strlen(text);
}

/* Every leap of a knight of the side to move to a square without a man of its own. */
static size_t leaps(const menkhodur_board *b, uint16_t *list)
{
    static const int far[8][2] = { { 1, 2 }, { 2, 1 }, { 2, -1 }, { 1, -2 }, { -1, -2 }, { -2, -1 }, { -2, 1 }, { -1, 2 } };
    unsigned own = b->side_to_move ? MENKHODUR_BLACK_KNIGHT : MENKHODUR_WHITE_KNIGHT;
    size_t entries = 0;
    for (unsigned i = 0; i < 64 * 8; i++) {
        int from = (int)i / 8, file = from % 8 + far[i % 8][0], rank = from / 8 + far[i % 8][1];
        if (b->pieces[from] != own || file < 0 || file > 7 || rank < 0 || rank > 7 || b->pieces[8 * rank + file] == own) continue;
        list[entries++] = MENKHODUR_MOVE(from, 8 * rank + file, 0);
    }
    return entries;
}

static menkhodur_board tell_move(struct tale *t, menkhodur_board before, unsigned level)
{
    uint16_t list[ENTRIES];
    size_t entries = leaps(&before, list);
    uint16_t move = list[any((unsigned)entries)];
    unsigned from = MENKHODUR_MOVE_SOURCE(move), to = MENKHODUR_MOVE_DESTINATION(move);
    menkhodur_board after = after_of(before, move);
    char name[16];
    snprintf(name, sizeof name, "N%c%u%s%c%u ", 'a' + from % 8, from / 8 + 1, before.pieces[to] ? "x" : "", 'a' + to % 8, to / 8 + 1);
    append(t, name);
    t->told[t->moves].level = level;
    spell(t->told[t->moves++].key, after, "0 1");
    return after;
}

/* A sequence of moves. Behind each may stand variations, which are played from the record before it; those without a move leave no trace. */
static void tell(struct tale *t, menkhodur_board before, unsigned level, unsigned moves)
{
    static const char *const between[] = { "", "1. ", "{(} ", "() ", "(() {)}) ", "$3 ", "; (\n", "12... " };
    uint16_t list[ENTRIES];
    while (moves-- && t->moves < PLACES && leaps(&before, list)) {
        menkhodur_board after;
        append(t, between[level < 7 ? any(8) : any(3)]);
        after = tell_move(t, before, level);
        for (unsigned branches = any(4) ? 0 : 1 + any(2); branches && level < MENKHODUR_DEEPEST_LEVEL; branches--) {
            append(t, "(");
            tell(t, before, level + 1, 1 + any(4));
            append(t, ") ");
        }
        before = after;
    }
}

/* A host that plays what is in brackets too: of each sequence that is open, the records before and after its last move. */
static void check_whole_tale(const struct tale *t, menkhodur_board start)
{
    struct { menkhodur_board before, after; } lines[LINES] = { { start, start } };
    menkhodur_pgn_move m = { .found = 1 };
    for (size_t i = 0; i < t->moves; i++) {
        struct given g = { .alone = true, .room = MENKHODUR_LONGEST_FEN };
        unsigned level = (unsigned)m.level;
        m = menkhodur_pgn_next((const uint8_t *)t->text, t->length, m.start + m.length, m.level);
        for (level -= (unsigned)m.closed; level < m.level; level++) lines[level + 1].before = lines[level + 1].after = lines[level].before;
        g.board = lines[level].after;
        g.entries = leaps(&g.board, g.list);
        g.text = t->text + m.start;
        g.length = m.length;
        lines[level].before = g.board;
        lines[level].after = check_given(&g).board;
        expect("level of the tale", t->told[i].level, m.level);
        expect("key of the tale", 0, (uint64_t)strcmp(t->told[i].key, by_rules(&g).key));
    }
    expect("no move behind the tale", 0, menkhodur_pgn_next((const uint8_t *)t->text, t->length, m.start + m.length, m.level).found);
}

/* The main line alone, by steps: the moves of the tale that are at level 0. */
static void check_main_line(const struct tale *t, menkhodur_board start)
{
    struct given g = { .board = start, .text = t->text, .length = t->length, .room = MENKHODUR_LONGEST_FEN };
    menkhodur_step s;
    for (size_t i = 0; i < t->moves; i++) {
        if (t->told[i].level) continue;
        g.entries = leaps(&g.board, g.list);
        s = check_given(&g);
        expect("key of the main line", 0, (uint64_t)strcmp(t->told[i].key, by_rules(&g).key));
        g.offset = s.start + s.length;
        g.board = s.board;
    }
    s = check_given(&g);
    expect("found", 0, s.found);
}

static void check_tales(void)
{
    static struct tale t;
    menkhodur_board start = board_with(0, 4, (uint8_t[]){ B1, G1, B8, G8 }, (uint8_t[]){ 2, 2, 8, 8 });
    for (unsigned i = 0; i < (few ? 3u : 60u); i++) {
        t.length = t.moves = 0;
        tell(&t, start, 0, 1 + any(20));
        append(&t, any(2) ? "*" : "");
        check_whole_tale(&t, start);
        check_main_line(&t, start);
    }
}

/* ---- Any texts, offsets, boards and lists ---- */

static void any_men(struct given *g)
{
    static const uint8_t from[] = { B1, G1, 4, 60, E5, 52, 12 }, to[] = { C3, A3, G1, 2, 62, 43, 44, 60 }, men[] = { 0, 1, 2, 2, 4, 6, 7, 12 };
    g->board = empty_board;
    for (unsigned i = 0; i < sizeof from; i++) g->board.pieces[from[i]] = men[any(sizeof men)];
    g->board.pieces[to[any(sizeof to)]] = men[any(sizeof men)];
    g->board.side_to_move = (uint8_t)any(2);
    g->board.white_castle_rights = g->board.black_castle_rights = (uint8_t)any(4);
    g->board.half_moves = (uint16_t)any_number(HALF_MOVES);
    g->board.full_moves = (uint16_t)any_number(FULL_MOVES);
    g->entries = any(7);
    for (size_t i = 0; i < g->entries; i++) g->list[i] = MENKHODUR_MOVE(from[any(sizeof from)], to[any(sizeof to)], any(4) ? 0 : any(7));
    if (any(20) == 0) set_number(&g->board, any(ALL_NUMBERS), 255);
    if (any(20) == 0) g->list[g->entries++] = (uint16_t)(MENKHODUR_LAST_MOVE + any(2));
}

static void check_soup(void)
{
    static const char *const tokens[] = { "Nc3", "Na3", "Nbc3+", "O-O", "O-O-O", "exd6", "e8=Q", "e6", "d6", "Kg1", "Kxc1", "Rc1", "Nxc3", "N", "1.",
                                          "e4", "(", "(", ")", ")", "()", "{a (b}", "{", ";)\n", "$1", "1-0", "*", "%", "\n", "!" };
    char text[PLACES];
    struct given g = { .text = text };
    for (unsigned n = any(9); n; n--) {
        const char *token = tokens[any(any(3) ? 16 : sizeof tokens / sizeof *tokens)];
        memcpy(text + g.length, token, strlen(token));
        g.length += strlen(token);
        if (any(8)) text[g.length++] = ' ';
    }
    any_men(&g);
    g.offset = any(3) ? 0 : any((unsigned)g.length + 2);
    check_rooms(&g);
    g.alone = true;
    check_rooms(&g);
}

/* ---- Refusals ---- */

/* A step 23, 5, 6, 4, 7, and a text alone but for the first: every set of faults is answered with the first. */
static void check_order(unsigned faults)
{
    static const uint64_t numbers[] = { MENKHODUR_UNKNOWN_TOKEN, MENKHODUR_OUT_OF_RANGE, MENKHODUR_BAD_LIST, MENKHODUR_INVALID_SAN_MOVE,
                                        MENKHODUR_OUTPUT_TOO_SHORT };
    struct given g = knight(faults & 1 ? "(%) Nc3" : faults & 8 ? "(Na3) Nc4" : "(Na3) Nc3");
    if (faults & 2) g.board.full_moves = 0;
    if (faults & 4) g.list[g.entries++] = MENKHODUR_LAST_MOVE + 1;
    if (faults & 16) g.room = 26;
    about(stepping, "faults %u", faults);
    expect("the judge's number", first_of(faults, numbers), by_rules(&g).step.number);
    check_given(&g);
    g.alone = true;
    g.text = faults & 8 ? "Nc4" : "Nc3";
    g.length = 3;
    about(playing, "faults %u", faults);
    expect("the judge's number", first_of(faults & ~1u, numbers), by_rules(&g).step.number);
    check_given(&g);
}

static void check_ranges_of(struct given g)
{
    static const size_t lengths[] = { 0, 1, 254, 255, 256, 257, 300 };
    struct given bad = g;
    for (unsigned i = 0; i < BAD_BOARDS; i++) {
        bad.board = bad_board(g.board, i);
        check_rooms(&bad);
    }
    for (size_t i = 0; i < sizeof lengths / sizeof *lengths; i++) {
        g.entries = lengths[i];
        for (size_t at = 2; at < g.entries; at++) g.list[at] = 0;
        check_rooms(&g);
    }
    g.entries = 3;
    g.list[2] = UINT16_MAX;
    check_rooms(&g);
}

void check_played(void)
{
    struct given g = knight("1. (Na3) Nc3 Na3");
    check_rows();
    check_texts_alone();
    check_game("1. e4 e5 2. Nf3 Nc6 3. Bb5 a6 4. O-O Nf6");
    check_game("1. e4 (1. d4 d5 (1... Nf6)) (1. c4) 1... e5 {(} 2. Nf3 $1 ; )\n Nc6 (2... d6 (2... f6 3. Nxe5)) 3. Bb5+ () a6# 4. O-O Nf6 1/2-1/2 Ng4");
    check_tales();
    check_ranges_of(g);
    g = knight("Nc3");
    g.alone = true;
    check_ranges_of(g);
    for (unsigned faults = 0; faults < 32; faults++) check_order(faults);
    for (unsigned i = 0; i < (few ? 100u : 20000u); i++) check_soup();
}
