/* FEN, read and written as the crate does: the counters are 0 and 1 whatever the text says, and are written so whatever the record says. */
#include "check.h"

#include <stdio.h>
#include <string.h>

static const char fen_read[] = "menkhodur_fen_read";
static const char fen_write[] = "menkhodur_fen_write";

/* What is wrong with a text, and where; two zeros if nothing is. */
struct fault {
    uint64_t number, offset;
};

static const struct fault none = { MENKHODUR_ACCEPTED, 0 };

static menkhodur_fen read_bytes(const void *text, size_t length)
{
    struct part lent = lend_bytes(text, length);
    menkhodur_fen got = menkhodur_fen_read(lent.bytes, lent.length);
    expect_unchanged("text", &lent);
    give_back(&lent);
    return got;
}

static menkhodur_fen check_fault(const void *text, size_t length, struct fault want)
{
    menkhodur_fen got = read_bytes(text, length);
    expect("number", want.number, got.number);
    expect("offset", want.offset, got.offset);
    if (want.number) expect_board(&no_board, &got.board);
    return got;
}

static void check_reads(const char *text, const menkhodur_board *board)
{
    menkhodur_fen got;
    about(fen_read, "text `%s`", text);
    got = check_fault(text, strlen(text), none);
    expect_board(board, &got.board);
}

static void check_room(menkhodur_board b, const char *text, size_t room)
{
    size_t length = strlen(text);
    struct part out = lend(room);
    about(fen_write, "`%s` into %zu bytes", text, room);
    expect_answer(room < length ? MENKHODUR_OUTPUT_TOO_SHORT : MENKHODUR_ACCEPTED, length, menkhodur_fen_write(b, out.bytes, room));
    expect_written("room", &out, 0, text, room < length ? 0 : length);
    give_back(&out);
}

/* One byte short, exact, one byte long, and the longest. */
static void check_writes(menkhodur_board b, const char *text)
{
    size_t length = strlen(text);
    check_room(b, text, length - 1);
    check_room(b, text, length);
    check_room(b, text, length + 1);
    check_room(b, text, MENKHODUR_LONGEST_FEN);
}

static void check_every_room(menkhodur_board b, const char *text)
{
    for (size_t room = 0; room <= strlen(text) + 2; room++) check_room(b, text, room);
    check_room(b, text, 4096);
}

/* Text and board of one position: read, written, read again. */
static void check_both(const char *text, const char *key, const menkhodur_board *board)
{
    check_reads(text, board);
    check_writes(*board, key);
    check_reads(key, board);
}

static menkhodur_board plain(uint8_t side, uint8_t white, uint8_t black, uint8_t file)
{
    menkhodur_board b = empty_board;
    b.side_to_move = side;
    b.white_castle_rights = white;
    b.black_castle_rights = black;
    b.en_passant = file;
    return b;
}

/* Every side, pair of rights and file on an empty board; a `-` stands only where both sides lack all rights. */
static void check_tails(void)
{
    static const char *const whites[4] = { "", "K", "Q", "KQ" }, *const blacks[4] = { "", "k", "q", "kq" };
    for (unsigned i = 0; i < 2 * 4 * 4 * 9; i++) {
        unsigned side = i % 2, white = i / 2 % 4, black = i / 8 % 4, file = i / 32;
        menkhodur_board b = plain((uint8_t)side, (uint8_t)white, (uint8_t)black, (uint8_t)file);
        char key[96], square[3] = { (char)('a' + file - 1), side ? '3' : '6', 0 };
        snprintf(key, sizeof key, "8/8/8/8/8/8/8/8 %c %s%s%s %s 0 1", side ? 'b' : 'w', whites[white], blacks[black],
                 white + black ? "" : "-", file ? square : "-");
        check_both(key, key, &b);
    }
}

/* Document 01's rows and each clause of "FEN, read and written". */
static void check_accepted(void)
{
    static const char empty[] = "8/8/8/8/8/8/8/8 w - - 0 1", black[] = "8/8/8/8/8/8/8/8 b - - 0 1";
    menkhodur_board white_to_move = plain(0, 0, 0, 0), black_to_move = plain(1, 0, 0, 0), file_e = plain(0, 0, 0, 5), file_a = plain(0, 0, 0, 1);
    menkhodur_board rights = plain(0, 1, 1, 0), b = empty_board;
    check_both(" w - -", empty, &white_to_move);
    check_both("8/8/8/8/8/8/8/8 w - e4", "8/8/8/8/8/8/8/8 w - e6 0 1", &file_e);
    check_both("8/8/8/8/8/8/8/8 b - z9", black, &black_to_move);
    check_both(" W - - 7 9 and more", empty, &white_to_move);
    check_both(" w - - 9999 9999", empty, &white_to_move);
    check_both(" w - - 10000 0", empty, &white_to_move);
    check_both(" w - - x", empty, &white_to_move);
    check_both(" w - -  1\r", empty, &white_to_move);
    check_both(" B - ", black, &black_to_move);
    check_both(" w  ", empty, &white_to_move);
    check_both(" w - a1xx", "8/8/8/8/8/8/8/8 w - a6 0 1", &file_a);
    check_both(" w - a", empty, &white_to_move);
    check_both(" w kxK -", "8/8/8/8/8/8/8/8 w Kk - 0 1", &rights);
    check_both("//////// w - -", empty, &white_to_move);
    b.pieces[56] = 2;
    for (unsigned i = 57; i < 64; i++) b.pieces[i] = 1;
    check_both("PPPPPPPPN w - -", "NPPPPPPP/8/8/8/8/8/8/8 w - - 0 1", &b);
    check_both("////////NPPPPPPP w - -", "NPPPPPPP/8/8/8/8/8/8/8 w - - 0 1", &b);
    check_both("rnbqkbnr/pppppppp/8/8/8/8/PPPPPPPP/RNBQKBNR w KQkq - 0 1", "rnbqkbnr/pppppppp/8/8/8/8/PPPPPPPP/RNBQKBNR w KQkq - 0 1",
               &initial);
}

/* ---- Refused texts: document 02, order 2 ---- */

/* Document 01's rows and others, with the numbers and offsets counted by hand. */
static void check_refused(void)
{
    static const struct { const char *text; struct fault want; } rows[] = {
        { "", { 18, 0 } }, { " ", { 18, 1 } }, { "  ", { 18, 2 } }, { "w", { 18, 1 } }, { "8/8 w -", { 18, 7 } }, { "\xff", { 18, 1 } },
        { "9 x y", { 18, 5 } }, { "8\tw\t-\t-", { 18, 7 } }, { "8/8/8/8/8/8/8/9 w - -", { 19, 14 } },
        { "8/8/8/8/8/8/8/0 w - -", { 19, 14 } }, { "x w - -", { 19, 0 } }, { "\t w - -", { 19, 0 } }, { "\xff w - -", { 19, 0 } },
        { "e3 w - -", { 19, 0 } }, { "- w - -", { 19, 0 } }, { "9x w - -", { 19, 0 } }, { "K9x w - -", { 19, 1 } },
        { "x x - -", { 19, 0 } }, { "/x  ", { 18, 4 } }, { "/x   ", { 19, 1 } }, { "   ", { 20, 1 } }, { "  w - -", { 20, 1 } },
        { "8/8/8/8/8/8/8/8  w - -", { 20, 16 } }, { "8/8/8/8/8/8/8/8 ww - -", { 20, 16 } }, { "8/8/8/8/8/8/8/8 x - -", { 20, 16 } },
        { "8/8/8/8/8/8/8/8 w\r - -", { 20, 16 } }, { "8 - w -", { 20, 2 } }, { "K8 \xff - -", { 20, 3 } },
    };
    for (size_t i = 0; i < sizeof rows / sizeof *rows; i++) {
        about(fen_read, "text `%s`", rows[i].text);
        check_fault(rows[i].text, strlen(rows[i].text), rows[i].want);
    }
}

/* "too few tokens (the text's length), a bad placement byte (its place), a bad side token (its start)", "tested in that order". */
static struct fault fault_of(const uint8_t *text, size_t length)
{
    size_t starts[4] = { 0 }, tokens = 1;
    for (size_t i = 0; i < length && tokens < 4; i++)
        if (text[i] == ' ') starts[tokens++] = i + 1;
    if (tokens < 4) return (struct fault){ MENKHODUR_TOO_FEW_TOKENS, length };
    for (size_t i = 0; i < starts[1] - 1; i++)
        if (!is_in("/12345678PNBRQKpnbrqk", text[i])) return (struct fault){ MENKHODUR_BAD_PLACEMENT, i };
    if (starts[2] != starts[1] + 2 || !is_in("wWbB", text[starts[1]])) return (struct fault){ MENKHODUR_BAD_SIDE, starts[1] };
    return none;
}

/* All texts of up to 7 bytes over a space, a byte good in both tokens, one in each of them, and one in neither. */
static void check_short_texts(void)
{
    static const char bytes[] = " bw8x";
    for (unsigned length = 0, count = 1; length <= 7; length++, count *= 5)
        for (unsigned n = 0; n < count; n++) {
            uint8_t text[7];
            for (unsigned i = 0, left = n; i < length; i++, left /= 5) text[i] = (uint8_t)bytes[left % 5];
            about(fen_read, "text `%.*s`", (int)length, (const char *)text);
            check_fault(text, length, fault_of(text, length));
        }
}

/* Placements of up to 300 bytes: a bad byte at each place, another at the end and a bad side behind; the bad side alone; three tokens. */
static void check_places(void)
{
    uint8_t text[306];
    for (size_t n = 0; n < 300; n++) {
        memset(text, 'p', 300);
        text[n] = 'x';
        text[299] = 0xFF;
        memcpy(text + 300, " x - -", 6);
        about(fen_read, "first bad byte at %zu of 300", n);
        check_fault(text, 306, (struct fault){ MENKHODUR_BAD_PLACEMENT, n });
        memset(text, 'p', n);
        memcpy(text + n, " x - -", 6);
        about(fen_read, "bad side behind %zu bytes", n);
        check_fault(text, n + 6, (struct fault){ MENKHODUR_BAD_SIDE, n + 1 });
        about(fen_read, "three tokens, the first of %zu bytes", n);
        check_fault(text, n + 4, (struct fault){ MENKHODUR_TOO_FEW_TOKENS, n + 4 });
    }
}

/* Every byte as the whole placement. A space there leaves the placement empty, and the side token too. */
static void check_placement_byte(unsigned byte)
{
    static const char pieces[] = "PNBRQKpnbrqk";
    uint8_t text[] = { (uint8_t)byte, ' ', 'w', ' ', '-', ' ', '-' };
    const char *letter = byte ? strchr(pieces, (int)byte) : NULL;
    bool places = letter || byte == '/' || (byte >= '1' && byte <= '8');
    struct fault bad = { byte == ' ' ? MENKHODUR_BAD_SIDE : MENKHODUR_BAD_PLACEMENT, byte == ' ' };
    menkhodur_board want = places ? empty_board : no_board;
    menkhodur_fen got;
    if (letter) want.pieces[56] = (uint8_t)(1 + letter - pieces);
    about(fen_read, "placement byte %u", byte);
    got = check_fault(text, sizeof text, places ? none : bad);
    expect_board(&want, &got.board);
}

static void check_side_byte(unsigned byte)
{
    uint8_t text[] = { ' ', (uint8_t)byte, ' ', '-', ' ', '-' };
    struct fault bad = { MENKHODUR_BAD_SIDE, 1 };
    bool side = is_in("wWbB", (uint8_t)byte);
    menkhodur_board want = side ? empty_board : no_board;
    menkhodur_fen got;
    want.side_to_move = byte == 'b' || byte == 'B';
    about(fen_read, "side byte %u", byte);
    got = check_fault(text, sizeof text, side ? none : bad);
    expect_board(&want, &got.board);
}

/* ---- Lengths, and records that are refused ---- */

static menkhodur_board full_board(void)
{
    menkhodur_board b = plain(0, 3, 3, 8);
    for (unsigned i = 0; i < 64; i++) b.pieces[i] = (uint8_t)(1 + i % 12);
    return b;
}

static void check_lengths(void)
{
    check_every_room(plain(0, 0, 0, 0), "8/8/8/8/8/8/8/8 w - - 0 1");
    check_every_room(initial, "rnbqkbnr/pppppppp/8/8/8/8/PPPPPPPP/RNBQKBNR w KQkq - 0 1");
    check_every_room(full_board(), "brqkPNBR/PNBRQKpn/QKpnbrqk/brqkPNBR/PNBRQKpn/QKpnbrqk/brqkPNBR/PNBRQKpn w KQkq h6 0 1");
}

/* 5 stands before 7: a bad record is 5 with every room. */
static void check_bad_records(void)
{
    static const size_t rooms[] = { 0, MENKHODUR_SHORTEST_FEN - 1, MENKHODUR_LONGEST_FEN, MENKHODUR_LONGEST_FEN + 1 };
    for (unsigned i = 0; i < BAD_BOARDS * 4; i++) {
        struct part out = lend(rooms[i % 4]);
        about(fen_write, "record number %u out of range, room of %zu", i / 8, out.length);
        expect_answer(MENKHODUR_OUT_OF_RANGE, 0, menkhodur_fen_write(bad_board(initial, i / 4), out.bytes, out.length));
        expect_unchanged("room", &out);
        give_back(&out);
    }
}

/* A record's key does not tell its counters. */
static void check_counters_unsaid(void)
{
    static const uint16_t counts[] = { 1, 9, 10, 99, 100, 999, 1000, 9999 };
    enum { COUNTS = sizeof counts / sizeof *counts };
    for (unsigned i = 0; i < COUNTS * COUNTS; i++) {
        menkhodur_board b = initial;
        b.half_moves = counts[i / COUNTS];
        b.full_moves = counts[i % COUNTS];
        check_writes(b, "rnbqkbnr/pppppppp/8/8/8/8/PPPPPPPP/RNBQKBNR w KQkq - 0 1");
    }
}

/* The file's en passant squares are the crate's (docs/DIFFERENCES.md); a key has the standard's rank. */
static void to_key(char *line)
{
    char *side = strchr(line, ' '), *rights = side ? strchr(side + 1, ' ') : NULL, *square = rights ? strchr(rights + 1, ' ') : NULL;
    if (square && square[1] != '-') square[2] = side[1] == 'w' ? '6' : '3';
}

/* Positions of games: read and written back. */
static void check_file(const char *positions)
{
    char line[256];
    FILE *f = fopen(positions, "r");
    about(fen_read, "file %s", positions);
    expect("can be opened", 1, f != NULL);
    while (f && fgets(line, sizeof line, f)) {
        menkhodur_fen got;
        line[strcspn(line, "\n")] = 0;
        about(fen_read, "text `%s`", line);
        got = check_fault(line, strlen(line), none);
        to_key(line);
        check_writes(got.board, line);
    }
    if (f) fclose(f);
}

void check_fen(const char *positions)
{
    check_accepted();
    check_refused();
    check_short_texts();
    check_places();
    for (unsigned byte = 0; byte < 256; byte++) check_placement_byte(byte), check_side_byte(byte);
    check_tails();
    check_lengths();
    check_bad_records();
    check_counters_unsaid();
    check_file(positions);
}
