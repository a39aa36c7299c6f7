/* The legal moves, whether a side is in check, and lists that are judged, beside legal_rule.h: over rows by hand, the known counts of leaves, games of
 * random moves, and records that no game comes to. */
#include "legal_rule.h"

#include "check.h"

#include <stdio.h>
#include <string.h>

static const char listing[] = "menkhodur_legal_list";
static const char checking[] = "menkhodur_in_check";
static const char judging[] = "menkhodur_list_judged";

enum { ENTRIES = 300 };

static menkhodur_board board_of(const char *fen)
{
    struct part text = lend_text(fen);
    menkhodur_fen read = menkhodur_fen_read(text.bytes, text.length);
    about(listing, "the FEN %s", fen);
    expect("read", MENKHODUR_ACCEPTED, read.number);
    give_back(&text);
    return read.board;
}

static uint16_t move_of(const char *coordinates, size_t length)
{
    menkhodur_placed read = menkhodur_move_read((const uint8_t *)coordinates, length);
    expect("read", MENKHODUR_ACCEPTED, read.number);
    return (uint16_t)read.value;
}

/* ---- What is owed, and the calls ---- */

static menkhodur_answer owed_list(const menkhodur_board *b, const struct legal *l, size_t room)
{
    if (!board_in_range(*b)) return (menkhodur_answer){ MENKHODUR_OUT_OF_RANGE, 0 };
    if (l->count > MENKHODUR_LONGEST_LIST) return (menkhodur_answer){ MENKHODUR_BAD_LIST, 0 };
    return (menkhodur_answer){ room < l->count ? MENKHODUR_OUTPUT_TOO_SHORT : MENKHODUR_ACCEPTED, l->count };
}

static void check_list(const menkhodur_board *b, const struct legal *l, size_t room)
{
    struct part out = lend(2 * room);
    menkhodur_answer want = owed_list(b, l, room);
    about(listing, "%zu moves, room %zu", l->count, room);
    expect_answer(want.number, want.value, menkhodur_legal_list(*b, (uint16_t *)(void *)out.bytes, room));
    expect_written("room", &out, 0, l->moves, want.number ? 0 : 2 * l->count);
    give_back(&out);
}

static menkhodur_judged owed_judgement(const menkhodur_board *b, const struct legal *l, uint8_t in_check, const uint16_t *list, size_t entries)
{
    bool good = entries <= MENKHODUR_LONGEST_LIST;
    for (size_t i = 0; i < entries; i++) good = good && list[i] <= MENKHODUR_LAST_MOVE;
    if (!board_in_range(*b) || in_check > 1) return (menkhodur_judged){ .number = MENKHODUR_OUT_OF_RANGE };
    if (!good || l->count > MENKHODUR_LONGEST_LIST) return (menkhodur_judged){ .number = MENKHODUR_BAD_LIST };
    return judgement_of(l, side_in_check(b->pieces, b->side_to_move), in_check, list, entries);
}

static menkhodur_judged check_judged(const menkhodur_board *b, const struct legal *l, uint8_t in_check, const uint16_t *list, size_t entries)
{
    struct part lent = lend_bytes(list, 2 * entries);
    menkhodur_judged want = owed_judgement(b, l, in_check, list, entries);
    menkhodur_judged got = menkhodur_list_judged(*b, in_check, (const uint16_t *)(const void *)lent.bytes, entries);
    about(judging, "%zu entries for %zu moves, byte %u", entries, l->count, in_check);
    expect("number", want.number, got.number);
    expect("in check", want.in_check, got.in_check);
    expect("entries", want.entries, got.entries);
    expect("wrong", want.wrong, got.wrong);
    expect("move", want.move, got.move);
    expect_unchanged("list", &lent);
    give_back(&lent);
    return got;
}

static uint8_t check_byte(const menkhodur_board *b)
{
    uint8_t want = side_in_check(b->pieces, b->side_to_move);
    about(checking, "a record");
    expect_answer(MENKHODUR_ACCEPTED, want, menkhodur_in_check(*b));
    return want;
}

/* Over a list of the legal moves each of them has a name, in either form, that is read back. */
static void check_names(const menkhodur_board *b, const struct legal *l)
{
    uint8_t out[MENKHODUR_LONGEST_NAME];
    for (size_t i = 0; i < l->count; i++) {
        menkhodur_answer name = menkhodur_san_name(*b, l->moves, l->count, l->moves[i], out, sizeof out);
        about("menkhodur_san_name", "the legal move %u", l->moves[i]);
        expect("named", MENKHODUR_ACCEPTED, name.number);
        expect_answer(MENKHODUR_ACCEPTED, l->moves[i], menkhodur_san_read(*b, l->moves, l->count, out, name.value));
        name = menkhodur_san_name_standard(*b, l->moves, l->count, l->moves[i], out, sizeof out);
        about("menkhodur_san_name_standard", "the legal move %u", l->moves[i]);
        expect("named", MENKHODUR_ACCEPTED, name.number);
        expect_answer(MENKHODUR_ACCEPTED, l->moves[i], menkhodur_san_read_standard(*b, l->moves, l->count, out, name.value));
    }
}

static void shuffle(uint16_t *list, size_t entries)
{
    for (size_t i = entries; i > 1; i--) {
        size_t at = any((unsigned)i);
        uint16_t kept = list[at];
        list[at] = list[i - 1];
        list[i - 1] = kept;
    }
}

/* One fault, or some: an entry that is another move, or once more, or gone, or the other byte. */
static size_t spoil(uint16_t *list, size_t entries, uint8_t *in_check)
{
    unsigned faults = 1 + any(15);
    if (faults & 1 && entries) list[any((unsigned)entries)] ^= (uint16_t)(1u << any(15));
    if (faults & 2 && entries && entries < ENTRIES) list[entries] = list[any((unsigned)entries)], entries++;
    if (faults & 4 && entries) list[any((unsigned)entries)] = list[entries - 1], entries--;
    if (faults & 8) *in_check ^= 1;
    return entries;
}

static void check_position(const menkhodur_board *b)
{
    static struct legal l;
    uint16_t list[MOST_LEGAL];
    size_t entries;
    uint8_t in_check = check_byte(b);
    legal_of(&l, b);
    entries = l.count;
    memcpy(list, l.moves, 2 * entries);
    shuffle(list, entries);
    check_list(b, &l, MENKHODUR_LONGEST_LIST);
    check_judged(b, &l, in_check, list, entries);
    if (entries > MENKHODUR_LONGEST_LIST) return;
    check_names(b, &l);
    entries = spoil(list, entries, &in_check);
    check_judged(b, &l, in_check, list, entries);
}

/* ---- Rows by hand: all moves of a record ---- */

static size_t read_moves(const char *texts, uint16_t *list)
{
    size_t entries = 0;
    while (*texts) {
        size_t length = strcspn(texts, " ");
        list[entries++] = move_of(texts, length);
        texts += length + (texts[length] == ' ');
    }
    return entries;
}

static void check_row(const char *fen, uint8_t in_check, const char *moves)
{
    menkhodur_board b = board_of(fen);
    uint16_t list[ENTRIES];
    size_t entries = read_moves(moves, list);
    struct legal l;
    legal_of(&l, &b);
    qsort(list, entries, sizeof *list, by_number);
    about(listing, "%s", fen);
    expect("the judge's moves", entries, l.count);
    expect("the judge's list", 0, (uint64_t)memcmp(list, l.moves, 2 * entries));
    expect("the judge's byte", in_check, side_in_check(b.pieces, b.side_to_move));
    for (size_t room = entries ? entries - 1 : 0; room <= entries + 1; room++) check_list(&b, &l, room);
    check_list(&b, &l, 0);
    check_judged(&b, &l, in_check, list, entries);
    check_judged(&b, &l, !in_check, list, entries);
    check_position(&b);
}

static void check_rows(void)
{
    /* 3.9.2: a man that is pinned, along a file, a rank and both diagonals; it may go along the line. */
    check_row("4r2k/8/8/8/8/8/4N3/4K3 w - -", 0, "e1d1 e1f1 e1d2 e1f2");
    check_row("4r2k/8/8/8/8/8/4R3/4K3 w - -", 0, "e1d1 e1f1 e1d2 e1f2 e2e3 e2e4 e2e5 e2e6 e2e7 e2e8");
    check_row("7k/8/8/8/8/8/8/K1B4r w - -", 0, "a1b1 a1a2 a1b2");
    check_row("7k/8/5b2/8/8/2N5/8/K7 w - -", 0, "a1b1 a1a2 a1b2");
    check_row("7k/8/8/8/7b/8/5Q2/4K3 w - -", 0, "e1d1 e1f1 e1d2 e1e2 f2g3 f2h4");
    /* 3.7.4: in passing; not if that uncovers a check along the rank; and where it takes the man that gives check. */
    check_row("8/8/8/3Pp3/8/8/8/K6k w - e6", 0, "a1b1 a1a2 a1b2 d5d6 d5e6");
    check_row("8/8/8/3Pp3/8/8/8/K6k w - -", 0, "a1b1 a1a2 a1b2 d5d6");
    check_row("8/8/8/K2Pp2r/8/8/8/7k w - e6", 0, "a5a4 a5b4 a5b5 a5a6 a5b6 d5d6");
    check_row("8/8/8/2k5/3Pp3/8/8/7K b - d3", 1, "e4d3 c5b4 c5c4 c5d4 c5b5 c5d5 c5b6 c5c6 c5d6");
    /* 3.9.1: by two men at once only the king may go, and not along the line that it is attacked on. */
    check_row("4r2k/8/8/8/8/3n4/5P2/4K3 w - -", 1, "e1d1 e1f1 e1d2");
    check_row("4r2k/8/8/8/4K3/8/8/8 w - -", 1, "e4d3 e4f3 e4d4 e4f4 e4d5 e4f5");
    /* 1.4.1 and 5.2.1: mate and stalemate. */
    check_row("R5k1/5ppp/8/8/8/8/8/6K1 b - -", 1, "");
    check_row("k7/2Q5/8/8/8/8/8/6K1 b - -", 0, "");
    /* 3.7.5 */
    check_row("1n6/P7/8/8/8/8/7k/K7 w - -", 0,
              "a7a8n a7a8b a7a8r a7a8q a7b8n a7b8b a7b8r a7b8q a1b1 a1a2 a1b2");
    check_row("7K/7P/8/8/8/8/p6k/1R6 b - -", 0, "a2a1n a2a1b a2a1r a2a1q a2b1n a2b1b a2b1r a2b1q h2g2 h2h3 h2g3");
    /* A pawn on the rank behind its own goes one step, one on the last none; a side without a king, and an empty one. */
    check_row("P6k/8/8/8/8/8/8/P7 w - -", 0, "a1a2");
    check_row("7k/8/8/8/8/8/8/N6r w - -", 0, "a1b3 a1c2");
    check_row("7k/8/8/8/8/8/8/8 w - -", 0, "");
    /* Two kings, one of them attacked. */
    check_row("4r2k/8/8/8/8/8/8/K3K3 w - -", 1, "e1d1 e1f1 e1d2 e1f2");
}

/* ---- Rows by hand: a move that is legal, or not ---- */

static void check_move(const char *fen, const char *coordinates, bool legal)
{
    menkhodur_board b = board_of(fen);
    uint16_t move = move_of(coordinates, strlen(coordinates)), list[MENKHODUR_LONGEST_LIST];
    struct legal l;
    menkhodur_answer written = menkhodur_legal_list(b, list, MENKHODUR_LONGEST_LIST);
    legal_of(&l, &b);
    about(listing, "%s, %s", fen, coordinates);
    expect("listed", legal, is_among(list, written.value, move));
    expect("the judge's", legal, is_among(l.moves, l.count, move));
    about(judging, "%s, %s", fen, coordinates);
    expect("not legal", !legal, menkhodur_list_judged(b, 0, &move, 1).wrong == MENKHODUR_JUDGED_NOT_LEGAL);
}

/* 3.8.2: not out of check, through it or into it; the rook may be attacked, and the square on file b. */
static void check_castling(void)
{
    check_move("4k3/8/8/8/8/8/8/R3K2R w KQ -", "e1g1", true);
    check_move("4k3/8/8/8/8/8/8/R3K2R w KQ -", "e1c1", true);
    check_move("r3k2r/8/8/8/8/8/8/4K3 b kq -", "e8g8", true);
    check_move("r3k2r/8/8/8/8/8/8/4K3 b kq -", "e8c8", true);
    check_move("4r2k/8/8/8/8/8/8/R3K2R w KQ -", "e1g1", false);
    check_move("4r2k/8/8/8/8/8/8/R3K2R w KQ -", "e1c1", false);
    check_move("5r1k/8/8/8/8/8/8/R3K2R w KQ -", "e1g1", false);
    check_move("5r1k/8/8/8/8/8/8/R3K2R w KQ -", "e1c1", true);
    check_move("6r1/7k/8/8/8/8/8/R3K2R w KQ -", "e1g1", false);
    check_move("r3k2r/8/8/8/8/8/8/3RK3 b kq -", "e8c8", false);
    check_move("4k3/8/8/8/8/8/6p1/R3K2R w KQ -", "e1g1", false);
    check_move("7r/k7/8/8/8/8/8/R3K2R w KQ -", "e1g1", true);
    check_move("r6k/8/8/8/8/8/8/R3K2R w KQ -", "e1c1", true);
    check_move("1r5k/8/8/8/8/8/8/R3K2R w KQ -", "e1c1", true);
    check_move("4k3/8/8/8/8/8/8/RN2K2R w KQ -", "e1c1", false);
    check_move("4k3/8/8/8/8/8/8/R3K2R w K -", "e1c1", false);
    check_move("4k3/8/8/8/8/8/8/N3K2R w KQ -", "e1c1", false);
    check_move("4k3/8/8/8/8/8/8/R2K3R w KQ -", "d1f1", false);
}

static void check_moves(void)
{
    check_castling();
    /* 3.7.2: over no man and onto none, and from the second rank alone. */
    check_move("4k3/8/8/8/8/8/4P3/4K3 w - -", "e2e4", true);
    check_move("4k3/8/8/8/8/4n3/4P3/4K3 w - -", "e2e4", false);
    check_move("4k3/8/8/8/4n3/8/4P3/4K3 w - -", "e2e4", false);
    check_move("4k3/8/8/8/8/4P3/8/4K3 w - -", "e3e5", false);
    check_move("4k3/8/8/8/8/8/8/P3K3 w - -", "a1a3", false);
    /* 3.7.5: it must promote, and no other man may. */
    check_move("8/P3k3/8/8/8/8/8/4K3 w - -", "a7a8", false);
    check_move("8/4k3/8/8/8/8/P7/4K3 w - -", "a2a3q", false);
    /* 1.4.1: no king is taken, and none goes beside the other. */
    check_move("4k3/3P4/8/8/8/8/8/4K3 w - -", "d7e8q", false);
    check_move("k7/8/8/8/8/8/8/R3K3 w - -", "a1a8", false);
    check_move("8/8/8/8/8/4k3/8/4K3 w - -", "e1e2", false);
    check_move("8/8/8/8/8/4k3/8/4K3 w - -", "e1d1", true);
    /* 3.7.4: the file is the record's, the pawn stands on the fifth rank, and what it takes is a pawn of the other side. */
    check_move("8/8/8/8/3Pp3/8/8/K6k b - d3", "e4d3", true);
    check_move("8/8/8/3PpP2/8/8/8/K6k w - e6", "f5e6", true);
    check_move("8/8/8/3PpP2/8/8/8/K6k w - -", "f5e6", false);
    check_move("8/8/8/3Pn3/8/8/8/K6k w - e6", "d5e6", false);
    check_move("8/8/8/3PP3/8/8/8/K6k w - e6", "d5e6", false);
    check_move("8/8/3Pp3/8/8/8/8/K6k w - e6", "d6e7", false);
}

/* ---- The known counts of leaves, as the chess programming wiki tells them ---- */

static const struct {
    const char *fen;
    unsigned depth;
    uint64_t leaves;
} usual[] = {
    { "rnbqkbnr/pppppppp/8/8/8/8/PPPPPPPP/RNBQKBNR w KQkq -", 4, 197281 },
    { "r3k2r/p1ppqpb1/bn2pnp1/3PN3/1p2P3/2N2Q1p/PPPBBPPP/R3K2R w KQkq -", 3, 97862 },
    { "8/2p5/3p4/KP5r/1R3p1k/8/4P1P1/8 w - -", 4, 43238 },
    { "r3k2r/Pppp1ppp/1b3nbN/nP6/BBP1P3/q4N2/Pp1P2PP/R2Q1RK1 w kq -", 3, 9467 },
    { "rnbq1k1r/pp1Pbppp/2p5/8/2B5/8/PPP1NnPP/RNBQK2R w KQ -", 3, 62379 },
    { "r4rk1/1pp1qppp/p1np1n2/2b1p1B1/2B1P1b1/P1NP1N2/1PP1QPPP/R4RK1 w - -", 3, 89890 },
    { "8/2p5/3p4/KP5r/1R3p1k/8/4P1P1/8 w - -", 2, 191 },
    { "r3k2r/Pppp1ppp/1b3nbN/nP6/BBP1P3/q4N2/Pp1P2PP/R2Q1RK1 w kq -", 2, 264 },
};

static uint64_t leaves(menkhodur_board b, unsigned depth)
{
    uint16_t list[MENKHODUR_LONGEST_LIST];
    menkhodur_answer written = menkhodur_legal_list(b, list, MENKHODUR_LONGEST_LIST);
    uint64_t sum = 0;
    if (depth == 1) return written.value;
    for (size_t i = 0; i < written.value; i++) sum += leaves(menkhodur_board_after(b, list[i]).board, depth - 1);
    return sum;
}

static void check_leaves(void)
{
    for (size_t i = few ? 6 : 0; i < sizeof usual / sizeof *usual; i++) {
        menkhodur_board b = board_of(usual[i].fen);
        about(listing, "%s to depth %u", usual[i].fen, usual[i].depth);
        expect("leaves", usual[i].leaves, leaves(b, usual[i].depth));
    }
}

/* ---- Games of random moves, and records that no game comes to ---- */

static void check_game(unsigned moves, unsigned every)
{
    static struct legal l;
    menkhodur_board b = initial;
    for (unsigned i = 0; i < moves; i++) {
        legal_of(&l, &b);
        if (l.count == 0) break;
        b = after_of(b, l.moves[any((unsigned)l.count)]);
        if (any(every) == 0) check_position(&b);
    }
}

/* Any men, few or many, some of them kings, rooks and pawns where they matter, with any rights and any file. */
static menkhodur_board any_record(void)
{
    static const uint8_t homes[][2] = { { 4, 6 }, { 0, 4 }, { 7, 4 }, { 60, 12 }, { 56, 10 }, { 63, 10 } };
    menkhodur_board b = empty_board;
    unsigned men = any(3) ? any(14) : any(64);
    for (unsigned i = 0; i < men; i++) b.pieces[any(64)] = (uint8_t)(any(3) ? 1 + any(12) : any(2) ? 1 : 7);
    for (unsigned i = 0; i < 6; i++)
        if (any(2)) b.pieces[homes[i][0]] = homes[i][1];
    for (unsigned which = 64; which < ALL_NUMBERS; which++) set_number(&b, which, any_number(which));
    return b;
}

/* ---- Refusals ---- */

/* A queen on each square of the edge: 24 with six squares straight ahead and five on diagonals, four in the corners with six. */
static menkhodur_board many(void)
{
    menkhodur_board b = empty_board;
    for (unsigned square = 0; square < 64; square++)
        if (square % 8 == 0 || square % 8 == 7 || square < 8 || square > 55) b.pieces[square] = MENKHODUR_WHITE_QUEEN;
    return b;
}

/* As many as a list may have, and one more: a knight in the corner is in its own men's way, and on a free square is not. */
static void check_many(void)
{
    static struct legal l;
    menkhodur_board b = many();
    legal_of(&l, &b);
    about(listing, "queens");
    expect("moves by hand", 288, l.count);
    check_position(&b);
    check_list(&b, &l, 0);
    for (unsigned square = 63; l.count > MENKHODUR_LONGEST_LIST - 3; square--) {
        b.pieces[square] = MENKHODUR_EMPTY;
        legal_of(&l, &b);
        check_position(&b);
        check_list(&b, &l, 0);
    }
}

static void check_bad(menkhodur_board b, const struct legal *l)
{
    about(checking, "a record out of range");
    expect_answer(MENKHODUR_OUT_OF_RANGE, 0, menkhodur_in_check(b));
    check_list(&b, l, MENKHODUR_LONGEST_LIST);
    check_list(&b, l, 0);
    check_judged(&b, l, 0, l->moves, l->count);
}

/* 5 for the record, 5 for the byte, 6 for the list: every set of faults is answered with the first. */
static void check_order(unsigned faults)
{
    static const uint64_t numbers[] = { MENKHODUR_OUT_OF_RANGE, MENKHODUR_OUT_OF_RANGE, MENKHODUR_BAD_LIST, MENKHODUR_BAD_LIST };
    menkhodur_board b = faults & 8 ? many() : initial;
    uint16_t list[1] = { faults & 4 ? MENKHODUR_LAST_MOVE + 1 : MENKHODUR_LAST_MOVE };
    static struct legal l;
    legal_of(&l, &b);
    if (faults & 1) b.full_moves = 0;
    expect("the first fault", first_of(faults, numbers), check_judged(&b, &l, faults & 2 ? 2 : 1, list, 1).number);
}

static void check_refusals(void)
{
    static const size_t lengths[] = { 0, 1, 254, 255, 256, 257, 300 };
    struct legal l;
    uint16_t list[ENTRIES] = { 0 };
    legal_of(&l, &initial);
    check_position(&initial);
    for (unsigned i = 0; i < BAD_BOARDS; i++) check_bad(bad_board(initial, i), &l);
    for (size_t i = 0; i < sizeof lengths / sizeof *lengths; i++) check_judged(&initial, &l, 0, list, lengths[i]);
    memcpy(list, l.moves, 2 * l.count);
    for (size_t at = l.count; at < ENTRIES; at++) list[at] = list[at % l.count];
    for (size_t i = 0; i < sizeof lengths / sizeof *lengths; i++) check_judged(&initial, &l, 0, list, lengths[i]);
    list[3] = 7;
    list[11] = 9;
    check_judged(&initial, &l, 0, list, 20);
    list[19] = UINT16_MAX;
    check_judged(&initial, &l, 0, list, 20);
    for (unsigned byte = 0; byte < 256; byte++) check_judged(&initial, &l, (uint8_t)byte, l.moves, l.count);
    for (unsigned faults = 0; faults < 16; faults++) check_order(faults);
}

void check_legal(void)
{
    check_rows();
    check_moves();
    check_many();
    check_refusals();
    check_leaves();
    for (unsigned i = 0; i < (few ? 1u : 60u); i++) check_game(200, few ? 20 : 5);
    for (unsigned i = 0; i < (few ? 40u : 3000u); i++) {
        menkhodur_board b = any_record();
        check_position(&b);
    }
}
