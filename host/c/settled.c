/* Settled records and keys: the archive beside settled_rule.h, and beside the reader and the writer of full.c. */
#include "full.h"
#include "settled_rule.h"

#include <stdio.h>
#include <string.h>

static const char board_settled[] = "menkhodur_board_settled";
static const char fen_settled[] = "menkhodur_fen_settled";

/* ---- Texts ---- */

/* A text that is owed this key, in a room of so many bytes. */
static void check_room(const void *text, size_t length, const char *key, size_t room)
{
    size_t needed = strlen(key);
    bool fits = room >= needed;
    struct part lent = lend_bytes(text, length), out = lend(room);
    about(fen_settled, "text `%.*s` into %zu bytes", (int)length, (const char *)text, room);
    expect_placed((menkhodur_placed){ fits ? MENKHODUR_ACCEPTED : MENKHODUR_OUTPUT_TOO_SHORT, needed, 0 },
                  menkhodur_fen_settled(lent.bytes, lent.length, out.bytes, room));
    expect_written("room", &out, 0, key, fits ? needed : 0);
    expect_unchanged("text", &lent);
    give_back(&lent);
    give_back(&out);
}

static void check_key(const void *text, size_t length, const char *key)
{
    size_t needed = strlen(key);
    for (size_t room = needed - 1; room <= needed + 1; room++) check_room(text, length, key, room);
}

/* 18, 19, 20 stand before 7, and nothing is written. */
static void check_no_key(const void *text, size_t length, uint64_t number, uint64_t offset)
{
    static const size_t rooms[] = { 0, MENKHODUR_SHORTEST_FEN, MENKHODUR_LONGEST_FEN };
    for (size_t i = 0; i < sizeof rooms / sizeof *rooms; i++) {
        struct part lent = lend_bytes(text, length), out = lend(rooms[i]);
        about(fen_settled, "text `%.*s` into %zu bytes", (int)length, (const char *)text, rooms[i]);
        expect_placed((menkhodur_placed){ number, 0, offset }, menkhodur_fen_settled(lent.bytes, lent.length, out.bytes, out.length));
        expect_unchanged("text", &lent);
        expect_unchanged("room", &out);
        give_back(&lent);
        give_back(&out);
    }
}

static void check_text(const void *text, size_t length)
{
    char key[SPELT];
    menkhodur_fen read = owed_of_four(text, length);
    if (read.number) {
        check_no_key(text, length, read.number, read.offset);
        return;
    }
    spell(key, settled_of(read.board), "0 1");
    check_key(text, length, key);
}

/* ---- Records ---- */

static void expect_settled(const menkhodur_board *want, menkhodur_board b)
{
    menkhodur_stepped got = menkhodur_board_settled(b);
    expect("number", MENKHODUR_ACCEPTED, got.number);
    expect_board(want, &got.board);
}

/* A record in range: settled, settled again, and the key of its text, whatever counters that ends in; and of its key. */
static void check_board(menkhodur_board b)
{
    menkhodur_board want = settled_of(b);
    char text[SPELT], key[SPELT];
    size_t length = spell(text, b, NULL);
    about(board_settled, "`%s`", text);
    expect_settled(&want, b);
    expect_settled(&want, want);
    spell(key, want, "0 1");
    check_key(text, length, key);
    check_room(key, strlen(key), key, MENKHODUR_LONGEST_FEN);
}

/* With each side to move, and each file or none. */
static void check_files(menkhodur_board b)
{
    for (unsigned i = 0; i < 2 * 9; i++) {
        b.side_to_move = (uint8_t)(i % 2);
        b.en_passant = (uint8_t)(i / 2);
        check_board(b);
    }
}

/* ---- Rows by hand ---- */

static void check_row(const char *text, const char *key)
{
    struct part lent = lend_text(text);
    menkhodur_fen read = menkhodur_fen_read(lent.bytes, lent.length);
    for (size_t room = 0; room <= strlen(key) + 2; room++) check_room(text, strlen(text), key, room);
    check_room(text, strlen(text), key, 4096);
    check_text(text, strlen(text));
    check_board(read.board);
    give_back(&lent);
}

static void check_kept(void)
{
    check_row("8/8/8/3pP3/8/8/8/8 w - d6", "8/8/8/3pP3/8/8/8/8 w - d6 0 1");
    check_row("8/8/8/2Pp4/8/8/8/8 w - d6 7 20", "8/8/8/2Pp4/8/8/8/8 w - d6 0 1");
    check_row("8/8/8/8/3pP3/8/8/8 b - e3", "8/8/8/8/3pP3/8/8/8 b - e3 0 1");
    check_row("8/8/8/8/4Pp2/8/8/8 B KQkq e4", "8/8/8/8/4Pp2/8/8/8 b KQkq e3 0 1");
    check_row("8/8/8/pP6/8/8/8/8 w - a6", "8/8/8/pP6/8/8/8/8 w - a6 0 1");
    check_row("8/8/8/6Pp/8/8/8/8 w - h6", "8/8/8/6Pp/8/8/8/8 w - h6 0 1");
    check_row("8/8/8/8/Pp6/8/8/8 b - a3", "8/8/8/8/Pp6/8/8/8 b - a3 0 1");
    check_row("8/8/8/8/6pP/8/8/8 b - h3", "8/8/8/8/6pP/8/8/8 b - h3 0 1");
    /* The pawn that moved is not looked for. */
    check_row("8/8/8/2P5/8/8/8/8 w - d6", "8/8/8/2P5/8/8/8/8 w - d6 0 1");
}

static void check_cleared(void)
{
    check_row("8/8/8/8/4P3/8/8/8 b - e3", "8/8/8/8/4P3/8/8/8 b - - 0 1");
    check_row("8/8/8/3p4/8/8/8/8 w - d6 0 9", "8/8/8/3p4/8/8/8/8 w - - 0 1");
    /* the wrong colour, a king, the wrong rank, two files away */
    check_row("8/8/8/2pp4/8/8/8/8 w - d6", "8/8/8/2pp4/8/8/8/8 w - - 0 1");
    check_row("8/8/8/2KpK3/8/8/8/8 w - d6", "8/8/8/2KpK3/8/8/8/8 w - - 0 1");
    check_row("8/8/2P1P3/3p4/2P1P3/8/8/8 w - d6", "8/8/2P1P3/3p4/2P1P3/8/8/8 w - - 0 1");
    check_row("8/8/8/3p1p2/4P3/3p1p2/8/8 b - e3", "8/8/8/3p1p2/4P3/3p1p2/8/8 b - - 0 1");
    check_row("8/8/8/1P1p1P2/8/8/8/8 w - d6", "8/8/8/1P1p1P2/8/8/8/8 w - - 0 1");
    /* no edge is crossed: from a5 neither to h4 nor to h5, from h5 neither to a6 nor to a5; and so of black's */
    check_row("8/8/8/p6P/7P/8/8/8 w - a6", "8/8/8/p6P/7P/8/8/8 w - - 0 1");
    check_row("8/8/P7/P6p/8/8/8/8 w - h6", "8/8/P7/P6p/8/8/8/8 w - - 0 1");
    check_row("8/8/8/8/P6p/7p/8/8 b - a3", "8/8/8/8/P6p/7p/8/8 b - - 0 1");
    check_row("8/8/8/p7/p6P/8/8/8 b - h3", "8/8/8/p7/p6P/8/8/8 b - - 0 1");
    /* without a file there is none beside file a */
    check_row("8/8/8/P7/p7/8/8/8 w - -", "8/8/8/P7/p7/8/8/8 w - - 0 1");
    check_row("8/8/8/P7/p7/8/8/8 b - -", "8/8/8/P7/p7/8/8/8 b - - 0 1");
}

/* The numbers and offsets are counted by hand. */
static void check_refused(void)
{
    static const struct { const char *text; uint64_t number, offset; } rows[] = {
        { "", 18, 0 }, { " ", 18, 1 }, { "8/8 w -", 18, 7 }, { "9 x y", 18, 5 }, { "8\tw\t-\t-", 18, 7 }, { "8/8/8/8/8/8/8/9 w - -", 19, 14 },
        { "x x - -", 19, 0 }, { "\xff w - e3", 19, 0 }, { "K9x w - -", 19, 1 }, { "8 ww - -", 20, 2 }, { "K8 x - e3", 20, 3 }, { "8  w - -", 20, 2 },
    };
    for (size_t i = 0; i < sizeof rows / sizeof *rows; i++) check_no_key(rows[i].text, strlen(rows[i].text), rows[i].number, rows[i].offset);
}

/* ---- Every man on every square, random records, refusals, files ---- */

static void check_one_man(void)
{
    for (unsigned i = 0; i < 64 * 12; i += few ? 7 : 1) {
        menkhodur_board b = empty_board;
        b.pieces[i % 64] = (uint8_t)(1 + i / 64);
        check_files(b);
    }
}

/* Pawns of both colours, kings and empty squares on ranks 4 and 5, and any men elsewhere. */
static void check_random(void)
{
    static const uint8_t men[] = { 0, 0, 1, 1, 7, 7, 6, 12 };
    for (unsigned i = 0; i < (few ? 500u : 50000u); i++) {
        menkhodur_board b;
        for (unsigned which = 0; which < ALL_NUMBERS; which++) set_number(&b, which, any_number(which));
        for (unsigned square = 24; square < 40; square++) b.pieces[square] = men[any(sizeof men)];
        check_board(b);
    }
}

static void check_bad_records(void)
{
    for (unsigned i = 0; i < BAD_BOARDS; i++) {
        menkhodur_board good = initial, b;
        good.en_passant = 5;
        b = bad_board(good, i);
        menkhodur_stepped got = menkhodur_board_settled(b);
        about(board_settled, "number %u out of range", i / 2);
        expect("number", MENKHODUR_OUT_OF_RANGE, got.number);
        expect_board(&b, &got.board);
    }
}

/* All texts of up to 6 bytes over a space, a byte good in both tokens, one in each of them, and one in neither. */
static void check_short_texts(void)
{
    static const char bytes[] = " bw8x";
    for (unsigned length = 0, count = 1; length <= (few ? 4u : 6u); length++, count *= 5)
        for (unsigned n = 0; n < count; n++) {
            uint8_t text[6];
            for (unsigned i = 0, left = n; i < length; i++, left /= 5) text[i] = (uint8_t)bytes[left % 5];
            check_text(text, length);
        }
}

/* Positions of games, with every file for either side. */
static void check_file(const char *path)
{
    char line[256];
    unsigned count = 0;
    FILE *f = fopen(path, "r");
    about(board_settled, "file %s", path);
    expect("can be opened", 1, f != NULL);
    while (f && fgets(line, sizeof line, f)) {
        size_t length = strcspn(line, "\n");
        if (few && count++ % 64) continue;
        check_text(line, length);
        check_files(owed_of_four((const uint8_t *)line, length).board);
    }
    if (f) fclose(f);
}

/* Rows `TEXT -> KEY`, of which the crate's `Board` was asked before. */
static void check_crate(const char *path)
{
    char row[256];
    unsigned count = 0;
    FILE *f = fopen(path, "r");
    about(fen_settled, "file %s", path);
    expect("can be opened", 1, f != NULL);
    while (f && fgets(row, sizeof row, f)) {
        char *arrow = strstr(row, " -> ");
        if (row[0] == '#' || !arrow || (few && count++ % 64)) continue;
        arrow[strcspn(arrow, "\n")] = 0;
        check_key(row, (size_t)(arrow - row), arrow + 4);
    }
    if (f) fclose(f);
}

void check_settled(const char *positions, const char *passing, const char *keys)
{
    check_kept();
    check_cleared();
    check_refused();
    check_one_man();
    check_random();
    check_bad_records();
    check_short_texts();
    check_file(positions);
    check_file(passing);
    check_crate(keys);
}
