/* FEN with its two counters (document 02, order 12): the full reader and writer beside a reader and a writer made from the papers' own words, and
 * beside the crate's reader, which reads the first four tokens alike. */
#include "full.h"

#include <stdio.h>
#include <stdlib.h>
#include <string.h>

static const char full_read[] = "menkhodur_fen_read_full";
static const char full_write[] = "menkhodur_fen_write_full";
static const char men[] = "PNBRQKpnbrqk";

enum { TOKENS = 6 };

/* ---- A reader, by the papers' words ---- */

struct token {
    const uint8_t *at;
    size_t length;
};

/* "Split at each single space; empty tokens count"; how many there are, but no more than are read. */
static size_t split(const uint8_t *text, size_t length, struct token *tokens)
{
    size_t count = 0, start = 0;
    for (size_t i = 0; i <= length && count < TOKENS; i++) {
        if (i < length && text[i] != ' ') continue;
        tokens[count++] = (struct token){ text + start, i - start };
        start = i + 1;
    }
    return count;
}

/* "Placement begins at a8", "Files and ranks step around modulo 8"; how many of its bytes are good. */
static size_t place(struct token placement, menkhodur_board *b)
{
    unsigned rank = 7, file = 0;
    for (size_t i = 0; i < placement.length; i++) {
        uint8_t byte = placement.at[i];
        if (byte == '/') rank = (rank + 7) % 8, file = 0;
        else if (is_in("12345678", byte)) file = (file + byte - '0') % 8;
        else if (is_in(men, byte)) {
            b->pieces[8 * rank + file] = (uint8_t)(1 + strchr(men, byte) - men);
            file = (file + 1) % 8;
        } else return i;
    }
    return placement.length;
}

static bool holds(struct token t, char letter)
{
    return t.length > 0 && memchr(t.at, letter, t.length) != NULL;
}

/* "one to four digits"; -1 for any other token. */
static int counter_of(struct token t)
{
    int n = 0;
    for (size_t i = 0; i < t.length; i++) {
        if (!is_in("0123456789", t.at[i])) return -1;
        if (i < 4) n = 10 * n + t.at[i] - '0';
    }
    return t.length >= 1 && t.length <= 4 ? n : -1;
}

static menkhodur_fen refused(uint64_t number, size_t offset)
{
    return (menkhodur_fen){ number, offset, no_board };
}

/* "25 after 20, .. for a fifth, then a sixth token that is missing (offset: the text's length), not one to four digits, or a move number of 0, with its
 * start" */
static menkhodur_fen with_counters(menkhodur_board b, const uint8_t *text, size_t length)
{
    struct token tokens[TOKENS];
    size_t count = split(text, length, tokens);
    int half, full;
    if (count < 5) return refused(MENKHODUR_BAD_COUNTER, length);
    half = counter_of(tokens[4]);
    if (half < 0) return refused(MENKHODUR_BAD_COUNTER, (size_t)(tokens[4].at - text));
    if (count < 6) return refused(MENKHODUR_BAD_COUNTER, length);
    full = counter_of(tokens[5]);
    if (full < 1) return refused(MENKHODUR_BAD_COUNTER, (size_t)(tokens[5].at - text));
    b.half_moves = (uint16_t)half;
    b.full_moves = (uint16_t)full;
    return (menkhodur_fen){ MENKHODUR_ACCEPTED, 0, b };
}

menkhodur_fen owed_of_four(const uint8_t *text, size_t length)
{
    struct token t[TOKENS];
    size_t count = split(text, length, t), placed;
    menkhodur_board b = empty_board;
    if (count < 4) return refused(MENKHODUR_TOO_FEW_TOKENS, length);
    placed = place(t[0], &b);
    if (placed < t[0].length) return refused(MENKHODUR_BAD_PLACEMENT, placed);
    if (t[1].length != 1 || !is_in("wWbB", *t[1].at)) return refused(MENKHODUR_BAD_SIDE, (size_t)(t[1].at - text));
    b.side_to_move = is_in("bB", *t[1].at);
    b.white_castle_rights = (uint8_t)(holds(t[2], 'K') + 2 * holds(t[2], 'Q'));
    b.black_castle_rights = (uint8_t)(holds(t[2], 'k') + 2 * holds(t[2], 'q'));
    if (t[3].length >= 2 && is_in("abcdefgh", t[3].at[0]) && is_in("12345678", t[3].at[1])) b.en_passant = (uint8_t)(t[3].at[0] - 'a' + 1);
    return (menkhodur_fen){ MENKHODUR_ACCEPTED, 0, b };
}

static menkhodur_fen owed(const uint8_t *text, size_t length)
{
    menkhodur_fen four = owed_of_four(text, length);
    return four.number ? four : with_counters(four.board, text, length);
}

/* ---- A writer, by the papers' words ---- */

static char *spell_rank(char *at, const uint8_t *squares)
{
    for (unsigned file = 0; file < 8; file++) {
        unsigned run = 0;
        while (file + run < 8 && squares[file + run] == MENKHODUR_EMPTY) run++;
        if (run) *at++ = (char)('0' + run);
        file += run;
        if (file < 8) *at++ = men[squares[file] - 1];
    }
    return at;
}

size_t spell(char text[SPELT], menkhodur_board b, const char *tail)
{
    static const char *const whites[] = { "", "K", "Q", "KQ" }, *const blacks[] = { "", "k", "q", "kq" };
    char square[] = { (char)('a' + b.en_passant - 1), b.side_to_move ? '3' : '6', 0 }, counters[12], *at = text;
    for (unsigned rank = 8; rank--; *at++ = rank ? '/' : ' ') at = spell_rank(at, b.pieces + 8 * rank);
    snprintf(counters, sizeof counters, "%u %u", b.half_moves, b.full_moves);
    sprintf(at, "%c %s%s%s %s %s", b.side_to_move ? 'b' : 'w', whites[b.white_castle_rights], blacks[b.black_castle_rights],
            b.white_castle_rights || b.black_castle_rights ? "" : "-", b.en_passant ? square : "-", tail ? tail : counters);
    return strlen(text);
}

/* ---- Calls ---- */

/* The crate's reader gives the same refusals and the same record but for the counters, which are 0 and 1; it knows no 25. */
static void check_beside(const struct part *lent, menkhodur_fen full)
{
    menkhodur_fen crate = menkhodur_fen_read(lent->bytes, lent->length);
    bool counters = full.number == MENKHODUR_ACCEPTED || full.number == MENKHODUR_BAD_COUNTER;
    about("menkhodur_fen_read", "text `%.*s`", (int)lent->length, (const char *)lent->bytes);
    expect("number", counters ? MENKHODUR_ACCEPTED : full.number, crate.number);
    expect("offset", counters ? 0 : full.offset, crate.offset);
    if (full.number == MENKHODUR_BAD_COUNTER) return;
    if (full.number == MENKHODUR_ACCEPTED) full.board.half_moves = 0, full.board.full_moves = 1;
    expect_board(&full.board, &crate.board);
}

static void check_read(const void *text, size_t length, menkhodur_fen want)
{
    struct part lent = lend_bytes(text, length);
    menkhodur_fen got = menkhodur_fen_read_full(lent.bytes, lent.length);
    about(full_read, "text `%.*s`", (int)length, (const char *)text);
    expect("number", want.number, got.number);
    expect("offset", want.offset, got.offset);
    expect_board(&want.board, &got.board);
    check_beside(&lent, got);
    expect_unchanged("text", &lent);
    give_back(&lent);
}

static void check_text(const void *text, size_t length)
{
    check_read(text, length, owed(text, length));
}

static void check_room(menkhodur_board b, const char *text, size_t room)
{
    size_t length = strlen(text);
    struct part out = lend(room);
    about(full_write, "`%s` into %zu bytes", text, room);
    expect_answer(room < length ? MENKHODUR_OUTPUT_TOO_SHORT : MENKHODUR_ACCEPTED, length, menkhodur_fen_write_full(b, out.bytes, room));
    expect_written("room", &out, 0, text, room < length ? 0 : length);
    give_back(&out);
}

/* A record in range: its text, in rooms around its length, read back to exactly the record; and its key, which does not tell the counters. */
static void check_board(menkhodur_board b)
{
    char text[SPELT], key[SPELT];
    size_t length = spell(text, b, NULL), key_length = spell(key, b, "0 1");
    struct part out = lend(key_length);
    check_room(b, text, length - 1);
    check_room(b, text, length);
    check_room(b, text, length + 1);
    check_read(text, length, (menkhodur_fen){ MENKHODUR_ACCEPTED, 0, b });
    about("menkhodur_fen_write", "`%s`", text);
    expect_answer(MENKHODUR_ACCEPTED, key_length, menkhodur_fen_write(b, out.bytes, out.length));
    expect_written("room", &out, 0, key, key_length);
    give_back(&out);
}

/* ---- Rows by hand ---- */

static menkhodur_board counted(uint16_t half_moves, uint16_t full_moves)
{
    menkhodur_board b = empty_board;
    b.half_moves = half_moves;
    b.full_moves = full_moves;
    return b;
}

static void check_accepted(void)
{
    static const struct { const char *text; uint16_t half, full; } rows[] = {
        { "8 w - - 0 1", 0, 1 }, { " w - - 0 1", 0, 1 }, { " w   5 6", 5, 6 }, { "8 W - z9 12 34", 12, 34 }, { "8 w - - 0001 0001", 1, 1 },
        { "8 w - - 0000 1", 0, 1 }, { "8 w - - 00 09", 0, 9 }, { "8 w - - 9999 9999", 9999, 9999 }, { "8 w - - 500 1", 500, 1 },
        { "8 w - - 1 2 ", 1, 2 }, { "8 w - - 1 2  ", 1, 2 }, { "8 w - - 1 2 x", 1, 2 }, { "8 w - - 1 2 00001 -1\r\n", 1, 2 },
        { "8 w - - 0256 4096", 256, 4096 },
    };
    for (size_t i = 0; i < sizeof rows / sizeof *rows; i++)
        check_read(rows[i].text, strlen(rows[i].text), (menkhodur_fen){ MENKHODUR_ACCEPTED, 0, counted(rows[i].half, rows[i].full) });
}

static void check_refused(void)
{
    static const struct { const char *text; uint64_t number; size_t offset; } rows[] = {
        { "", 18, 0 }, { "8 w -", 18, 5 }, { "8 w - ", 25, 6 }, { "   ", 20, 1 }, { "9 w - -", 19, 0 }, { "9 w - - x", 19, 0 },
        { "8/x8 x - - x 0", 19, 2 }, { "8 x - -", 20, 2 }, { "8 x - - x 0", 20, 2 }, { "8 ww - - 0 1", 20, 2 },
        /* the fifth token */
        { "8 w - -", 25, 7 }, { "8 w - - ", 25, 8 }, { "8 w - -  ", 25, 8 }, { "8 w - -  1", 25, 8 }, { "8 w - - x", 25, 8 }, { "8 w - - x 0", 25, 8 },
        { "8 w - - 00001 1", 25, 8 }, { "8 w - - 10000 1", 25, 8 }, { "8 w - - 65536 1", 25, 8 }, { "8 w - - +1 1", 25, 8 }, { "8 w - - -0 1", 25, 8 },
        { "8 w - - - 1", 25, 8 }, { "8 w - - 1\r 1", 25, 8 }, { "8 w - - 1\t1", 25, 8 }, { "8 w - - 1a 1", 25, 8 }, { "8 w - - a1 1", 25, 8 },
        { "8 w - - 0x1 1", 25, 8 }, { "8 w - - 1. 1", 25, 8 }, { "8 w - - \xd9\xa1 1", 25, 8 }, { "8/8 w KQ e3 x 1", 25, 12 },
        /* the sixth token */
        { "8 w - - 0", 25, 9 }, { "8 w - - 0 ", 25, 10 }, { "8 w - - 0  1", 25, 10 }, { "8 w - - 0 0", 25, 10 }, { "8 w - - 0 0000", 25, 10 },
        { "8 w - - 0 00001", 25, 10 }, { "8 w - - 0 10000", 25, 10 }, { "8 w - - 0 65537", 25, 10 }, { "8 w - - 0 +1", 25, 10 },
        { "8 w - - 0 -0", 25, 10 }, { "8 w - - 0 1\r", 25, 10 }, { "8 w - - 0 1\r\n", 25, 10 }, { "8 w - - 0 1\n", 25, 10 }, { "8 w - - 0 x 1", 25, 10 },
        { "8 w - - 9999 0 1", 25, 13 }, { "8/8 w KQ e3 0042 y", 25, 17 },
    };
    for (size_t i = 0; i < sizeof rows / sizeof *rows; i++) check_read(rows[i].text, strlen(rows[i].text), refused(rows[i].number, rows[i].offset));
}

/* ---- Texts by the reader above ---- */

/* Behind so much of a good text, all texts of up to `longest` of these bytes. */
static void check_short_texts(const char *front, const char *bytes, unsigned longest)
{
    const size_t before = strlen(front), base = strlen(bytes);
    uint8_t text[32];
    memcpy(text, front, before);
    for (size_t length = 0, count = 1; length <= longest; length++, count *= base)
        for (size_t n = 0; n < count; n++) {
            for (size_t i = 0, left = n; i < length; i++, left /= base) text[before + i] = (uint8_t)bytes[left % base];
            check_text(text, before + length);
        }
}

/* Every byte in each place of a good text: in place of what stands there, and put in before it. */
static void check_every_byte(void)
{
    static const char good[] = "8 w - - 12 34 x";
    enum { LENGTH = sizeof good - 1 };
    for (unsigned n = 0; n < 256 * (LENGTH + 1); n++) {
        uint8_t text[LENGTH + 1];
        unsigned at = n / 256;
        memcpy(text, good, at);
        memcpy(text + at + 1, good + at, LENGTH - at);
        text[at] = (uint8_t)n;
        check_text(text, LENGTH + 1);
        if (at == LENGTH) continue;
        memcpy(text, good, LENGTH);
        text[at] = (uint8_t)n;
        check_text(text, LENGTH);
    }
}

/* Every number as either counter, as it is and with a 0 before it; from 10,000 on both are refused. */
static void check_every_number(void)
{
    for (unsigned n = 0; n < 10100; n += few ? 89 : 1) {
        char text[40];
        check_text(text, (size_t)sprintf(text, "8 w - - %u 1", n));
        check_text(text, (size_t)sprintf(text, "8 w - - 0%u 1", n));
        check_text(text, (size_t)sprintf(text, "8 w - - 0 %u", n));
        check_text(text, (size_t)sprintf(text, "8 w - - 9999 0%u 7", n));
        if (n <= 9999) check_board(counted((uint16_t)n, 9999));
        if (n >= 1 && n <= 9999) check_board(counted(0, (uint16_t)n));
    }
}

/* Tokens of any length before the counters, between them and behind. */
static void check_long_texts(void)
{
    static const size_t lengths[] = { 1, 63, 64, 65, 255, 256, 257, 4096, 70000 };
    static const char *const forms[] = { "%s w - - 3 4", "8 w %s - 3 4", "8 w - %s 3 4", "8 w - - %s 4", "8 w - - 3 %s", "8 w - - 3 4 %s" };
    for (size_t i = 0; i < sizeof lengths / sizeof *lengths; i++) {
        char *token = malloc(lengths[i] + 1), *text = malloc(lengths[i] + 32);
        if (!token || !text) exit(2);
        memset(token, '1', lengths[i]);
        token[lengths[i]] = 0;
        for (size_t form = 0; form < sizeof forms / sizeof *forms; form++) check_text(text, (size_t)sprintf(text, forms[form], token));
        free(token);
        free(text);
    }
}

/* ---- Records ---- */

static menkhodur_board longest_board(void)
{
    menkhodur_board b = { .white_castle_rights = 3, .black_castle_rights = 3, .en_passant = 8, .half_moves = 9999, .full_moves = 9999 };
    for (unsigned i = 0; i < 64; i++) b.pieces[i] = (uint8_t)(1 + i % 12);
    return b;
}

/* Every room up to two bytes more than the text has, and a large one. */
static void check_every_room(menkhodur_board b, const char *text)
{
    for (size_t room = 0; room <= strlen(text) + 2; room++) check_room(b, text, room);
    check_room(b, text, 4096);
}

static void check_lengths(void)
{
    static const char shortest[] = "8/8/8/8/8/8/8/8 w - - 0 1";
    static const char longest[] = "brqkPNBR/PNBRQKpn/QKpnbrqk/brqkPNBR/PNBRQKpn/QKpnbrqk/brqkPNBR/PNBRQKpn w KQkq h6 9999 9999";
    menkhodur_board b = initial;
    about(full_write, "the shortest text and the longest");
    expect("shortest", MENKHODUR_SHORTEST_FEN, strlen(shortest));
    expect("longest", MENKHODUR_LONGEST_FULL_FEN, strlen(longest));
    check_every_room(empty_board, shortest);
    check_every_room(longest_board(), longest);
    b.half_moves = 42, b.full_moves = 137;
    check_every_room(b, "rnbqkbnr/pppppppp/8/8/8/8/PPPPPPPP/RNBQKBNR w KQkq - 42 137");
    for (unsigned digits = 1, n = 9; digits <= 4; digits++, n = 10 * n + 9) {
        b = longest_board();
        b.half_moves = (uint16_t)n;
        check_board(b);
        b.full_moves = (uint16_t)(n / 10 + 1);
        check_board(b);
    }
}

/* 5 stands before 7: a bad record is 5 with every room. */
static void check_bad_records(void)
{
    static const size_t rooms[] = { 0, MENKHODUR_SHORTEST_FEN - 1, MENKHODUR_LONGEST_FULL_FEN, MENKHODUR_LONGEST_FULL_FEN + 1 };
    for (unsigned i = 0; i < 4 * BAD_BOARDS; i++) {
        struct part out = lend(rooms[i % 4]);
        about(full_write, "record number %u out of range, room of %zu", i / 8, out.length);
        expect_answer(MENKHODUR_OUT_OF_RANGE, 0, menkhodur_fen_write_full(bad_board(initial, i / 4), out.bytes, out.length));
        expect_unchanged("room", &out);
        give_back(&out);
    }
}

/* A byte changed, put in or taken away, most often among the last ones; how many there are then. */
static size_t damage(char *text, size_t length)
{
    static const char bytes[] = "  0019x-w/K\r";
    size_t at = any(3) ? length - 1 - any(12) : any((unsigned)length);
    char byte = bytes[any(sizeof bytes - 1)];
    switch (any(3)) {
    case 0: memmove(text + at, text + at + 1, length - at - 1); return length - 1;
    case 1: memmove(text + at + 1, text + at, length - at); text[at] = byte; return length + 1;
    default: text[at] = byte; return length;
    }
}

/* Random records, and their texts damaged. */
static void check_random(void)
{
    for (unsigned i = 0; i < (few ? 200u : 20000u); i++) {
        menkhodur_board b;
        char text[SPELT + 1];
        size_t length;
        for (unsigned which = 0; which < ALL_NUMBERS; which++) set_number(&b, which, which < 64 && any(3) ? 0 : any_number(which));
        check_board(b);
        length = spell(text, b, NULL);
        check_text(text, damage(text, length));
    }
}

/* Positions of games, with other counters. */
static void check_file(const char *positions)
{
    char line[256];
    FILE *f = fopen(positions, "r");
    about(full_read, "file %s", positions);
    expect("can be opened", 1, f != NULL);
    while (f && fgets(line, sizeof line, f)) {
        menkhodur_fen read;
        line[strcspn(line, "\n")] = 0;
        check_text(line, strlen(line));
        read = owed((const uint8_t *)line, strlen(line));
        read.board.half_moves = (uint16_t)any_number(HALF_MOVES);
        read.board.full_moves = (uint16_t)any_number(FULL_MOVES);
        check_board(read.board);
    }
    if (f) fclose(f);
}

void check_full(const char *positions)
{
    check_accepted();
    check_refused();
    check_short_texts("8 w - -", " 019x", few ? 3 : 6);
    check_short_texts("8 w - - 7", "0 9", few ? 4 : 8);
    check_short_texts("", " bw81x", few ? 3 : 6);
    check_every_byte();
    check_every_number();
    check_long_texts();
    check_lengths();
    check_bad_records();
    check_random();
    check_file(positions);
}
