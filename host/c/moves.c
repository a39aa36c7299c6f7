/* Coordinate and SAN texts, and the namer. */
#include "check.h"

#include <stdio.h>
#include <string.h>

static const char move_read[] = "menkhodur_move_read";
static const char move_write[] = "menkhodur_move_write";
static const char san_read[] = "menkhodur_san_read";
static const char san_name[] = "menkhodur_san_name";

static menkhodur_placed read_as(uint64_t move)
{
    return (menkhodur_placed){ MENKHODUR_ACCEPTED, move, 0 };
}

static menkhodur_placed refused(uint64_t number, uint64_t offset)
{
    return (menkhodur_placed){ number, 0, offset };
}

static void check_bytes(const void *text, size_t length, menkhodur_placed want)
{
    struct part lent = lend_bytes(text, length);
    about(move_read, "text `%.*s`", (int)length, (const char *)text);
    expect_placed(want, menkhodur_move_read(lent.bytes, lent.length));
    expect_unchanged("text", &lent);
    give_back(&lent);
}

static void check_coordinate(const char *text, menkhodur_placed want)
{
    check_bytes(text, strlen(text), want);
}

/* Every cut of a text, so that each pair is once not there; document 01's rows. The offsets are counted by hand. */
static void check_coordinate_rows(void)
{
    static const struct { const char *text; uint64_t number, offset; } rows[] = {
        { "", 3, 0 }, { "e", 3, 1 }, { "z", 3, 1 }, { "2", 3, 1 }, { "e2", 3, 2 }, { "e2e", 3, 3 }, { "e2z", 3, 3 }, { "z9", 2, 0 },
        { "z2", 2, 0 }, { "e9", 2, 1 }, { "z2e", 2, 0 }, { "z9e", 2, 0 }, { "e9e", 2, 1 }, { "z9e4", 2, 0 }, { "E2E4", 2, 0 },
        { "2ee4", 2, 0 }, { "e0e4", 2, 1 }, { "eee4", 2, 1 }, { "e2z9", 2, 2 }, { "e2i4", 2, 2 }, { "e24e", 2, 2 }, { "e2e9", 2, 3 },
        { "z9z9", 2, 0 }, { "e9z9", 2, 1 }, { "e2z9k", 2, 2 }, { "e2e9k", 2, 3 }, { "z9e4k", 2, 0 }, { "e2e4k", 3, 4 }, { "e2e4 ", 3, 4 },
        { "\xff\xff", 2, 0 }, { "h\xc3\xa9", 2, 1 }, { "e2e9 and a tail", 2, 3 }, { "e2\xc3\xa9 and a tail", 2, 2 },
    };
    for (size_t i = 0; i < sizeof rows / sizeof *rows; i++) check_coordinate(rows[i].text, refused(rows[i].number, rows[i].offset));
    check_coordinate("e2e4", read_as(1804));
    check_coordinate("e2e4q", read_as(22284));
    check_coordinate("e2e4qx", read_as(1804));
    check_coordinate("e2e4kxxxxxxxxxxxxxxxxxxxxx", read_as(1804));
}

/* Document 02, order 3: "the faulty byte's, or the text's length where a pair is not there", the file byte's if both of a pair are faulty.
 * Numbers and moves are document 01's. */
static menkhodur_placed owed(const uint8_t *text, size_t length)
{
    static const char promotions[] = "nbrq";
    uint64_t move = 0;
    for (size_t pair = 0; pair < 4; pair += 2) {
        if (length < pair + 2) return refused(MENKHODUR_INVALID_UCI_MOVE, length);
        if (!is_in("abcdefgh", text[pair])) return refused(MENKHODUR_INVALID_SQUARE, pair);
        if (!is_in("12345678", text[pair + 1])) return refused(MENKHODUR_INVALID_SQUARE, pair + 1);
        move += (pair ? 64 : 1) * (uint64_t)(8 * (text[pair + 1] - '1') + text[pair] - 'a');
    }
    if (length != 5) return read_as(move);
    if (!is_in(promotions, text[4])) return refused(MENKHODUR_INVALID_UCI_MOVE, 4);
    return read_as(move + 4096 * (uint64_t)(2 + strchr(promotions, text[4]) - promotions));
}

/* All texts of up to 6 bytes over a file that promotes too, the last file and rank, a byte past each, and a promotion that is no file. */
static void check_short_texts(void)
{
    static const char bytes[] = "bh8i9q";
    for (unsigned length = 0, count = 1; length <= 6; length++, count *= 6)
        for (unsigned n = 0; n < count; n++) {
            uint8_t text[6];
            for (unsigned i = 0, left = n; i < length; i++, left /= 6) text[i] = (uint8_t)bytes[left % 6];
            check_bytes(text, length, owed(text, length));
        }
}

/* Every byte in each place of a text that is good without it. */
static void check_every_byte(void)
{
    for (unsigned n = 0; n < 5 * 256; n++) {
        uint8_t text[5] = { 'e', '2', 'e', '4', 'q' };
        text[n / 256] = (uint8_t)(n % 256);
        check_bytes(text, 5, owed(text, 5));
    }
}

static size_t coordinate_text(uint64_t move, char *text)
{
    unsigned from = move % 64, to = move / 64 % 64, promotion = (unsigned)(move / 4096);
    snprintf(text, 8, "%c%u%c%u%c", 'a' + (int)(from % 8), 1 + from / 8, 'a' + (int)(to % 8), 1 + to / 8, "\0pnbrqk"[promotion]);
    return strlen(text);
}

static void check_written(uint64_t move, size_t room)
{
    char text[8];
    size_t length = coordinate_text(move, text);
    struct part out = lend(room);
    about(move_write, "`%s` into %zu bytes", text, room);
    expect_answer(room < length ? MENKHODUR_OUTPUT_TOO_SHORT : MENKHODUR_ACCEPTED, length, menkhodur_move_write(move, out.bytes, room));
    expect_written("room", &out, 0, text, room < length ? 0 : length);
    give_back(&out);
}

/* Promotions to pawn and king are written and not read. */
static void check_read_back(uint64_t move)
{
    char text[8];
    unsigned promotion = (unsigned)(move / 4096);
    bool read = promotion != 1 && promotion != 6;
    coordinate_text(move, text);
    check_coordinate(text, read ? read_as(move) : refused(MENKHODUR_INVALID_UCI_MOVE, 4));
}

static void check_every_move(void)
{
    for (uint64_t move = 0; move <= MENKHODUR_LAST_MOVE; move++) {
        size_t length = move < 4096 ? MENKHODUR_SHORTEST_COORDINATE : MENKHODUR_LONGEST_COORDINATE;
        check_written(move, length - 1);
        check_written(move, length);
        check_written(move, length + 1);
        check_read_back(move);
    }
    for (size_t room = 0; room < 9; room++) check_written(1804, room), check_written(MENKHODUR_LAST_MOVE, room);
}

/* 6 stands before 7: a move over 28,671 is 6 with every room. */
static void check_no_move(uint64_t move)
{
    for (size_t room = 0; room < 7; room++) {
        struct part out = lend(room);
        about(move_write, "move %llu into %zu bytes", (unsigned long long)move, room);
        expect_answer(MENKHODUR_BAD_LIST, 0, menkhodur_move_write(move, out.bytes, room));
        expect_unchanged("room", &out);
        give_back(&out);
    }
}

void check_coordinates(void)
{
    check_coordinate_rows();
    check_short_texts();
    check_every_byte();
    check_every_move();
    for (uint64_t move = MENKHODUR_LAST_MOVE + 1; move < 65536; move += 7) check_no_move(move);
    for (unsigned i = 0; i < WIDE; i++) check_no_move(wide[i]), check_no_move(wide_over(i, 1804));
}

/* ---- SAN ---- */

enum { B1 = 1, E1 = 4, E2 = 12, C3 = 18, E4 = 28, E5 = 36, E7 = 52, E8 = 60 };
enum { PAWN = 1, KNIGHT = 2, ROOK = 4, KING = 6, BLACK_KING = 12 };

/* A record and a list, as document 01's rows give them. */
struct scene {
    menkhodur_board board;
    uint16_t list[4];
    size_t entries;
};

static void check_reads(const struct scene *s, const char *text, uint64_t number, uint64_t move)
{
    struct part list = lend_bytes(s->list, s->entries * 2), lent = lend_text(text);
    about(san_read, "text `%s`, %zu entries, the first %u", text, s->entries, s->list[0]);
    expect_answer(number, move, menkhodur_san_read(s->board, (const uint16_t *)(const void *)list.bytes, s->entries, lent.bytes, lent.length));
    expect_unchanged("list", &list);
    expect_unchanged("text", &lent);
    give_back(&list);
    give_back(&lent);
}

/* `text` is what must be written, "" where the call is refused with `number`. */
static void check_names_into(const struct scene *s, uint64_t move, uint64_t number, const char *text, size_t room)
{
    size_t length = strlen(text);
    bool written = number == MENKHODUR_ACCEPTED && length <= room;
    struct part list = lend_bytes(s->list, s->entries * 2), out = lend(room);
    about(san_name, "move %llu, `%s` into %zu bytes", (unsigned long long)move, text, room);
    expect_answer(number ? number : written ? MENKHODUR_ACCEPTED : MENKHODUR_OUTPUT_TOO_SHORT, length,
                  menkhodur_san_name(s->board, (const uint16_t *)(const void *)list.bytes, s->entries, move, out.bytes, room));
    expect_written("room", &out, 0, text, written ? length : 0);
    expect_unchanged("list", &list);
    give_back(&list);
    give_back(&out);
}

/* A name is read as exactly its move. */
static void check_names(const struct scene *s, uint64_t move, const char *text)
{
    for (size_t room = 0; room <= strlen(text) + 2; room++) check_names_into(s, move, MENKHODUR_ACCEPTED, text, room);
    check_reads(s, text, MENKHODUR_ACCEPTED, move);
}

static void check_no_name(const struct scene *s, uint64_t move, uint64_t number)
{
    for (size_t room = 0; room <= MENKHODUR_LONGEST_NAME + 1; room++) check_names_into(s, move, number, "", room);
}

static struct scene knight_scene(void)
{
    return (struct scene){ board_with(0, 1, (uint8_t[]){ B1 }, (uint8_t[]){ KNIGHT }), { 1153 }, 1 };
}

static void check_knights(void)
{
    struct scene one = knight_scene(), taken = one, twice = one;
    struct scene two = { board_with(0, 2, (uint8_t[]){ B1, E2 }, (uint8_t[]){ KNIGHT, KNIGHT }), { 1153, 1164 }, 2 };
    check_reads(&one, "Nc3+?!", MENKHODUR_ACCEPTED, 1153);
    check_reads(&one, "Nc3x", MENKHODUR_INVALID_SAN_MOVE, 0);
    check_reads(&one, "Nb1c3", MENKHODUR_ACCEPTED, 1153);
    check_names(&one, 1153, "Nc3");
    check_reads(&two, "Nc3", MENKHODUR_INVALID_SAN_MOVE, 0);
    check_names(&two, 1153, "Nbc3");
    check_names(&two, 1164, "Nec3");
    taken.board.pieces[C3] = 7;
    check_reads(&taken, "Nc3x", MENKHODUR_ACCEPTED, 1153);
    check_reads(&taken, "Nc3", MENKHODUR_INVALID_SAN_MOVE, 0);
    check_names(&taken, 1153, "Nxc3");
    twice.list[1] = 1153, twice.entries = 2;
    check_reads(&twice, "Nc3", MENKHODUR_INVALID_SAN_MOVE, 0);
    check_no_name(&twice, 1153, MENKHODUR_NO_NAME);
}

static void check_castling(void)
{
    struct scene rook = { board_with(0, 1, (uint8_t[]){ E1 }, (uint8_t[]){ ROOK }), { 388, 388 }, 1 };
    struct scene king = { board_with(0, 1, (uint8_t[]){ E1 }, (uint8_t[]){ KING }), { 388, 132 }, 2 };
    struct scene black = { board_with(1, 1, (uint8_t[]){ E8 }, (uint8_t[]){ BLACK_KING }), { 4028, 3772 }, 2 };
    check_reads(&rook, "O-O", MENKHODUR_ACCEPTED, 388);
    check_reads(&rook, "O-O+", MENKHODUR_INVALID_SAN_MOVE, 0);
    check_reads(&rook, "O-O-O", MENKHODUR_INVALID_SAN_MOVE, 0);
    rook.entries = 2;
    check_names(&rook, 388, "O-O");
    check_names(&king, 388, "O-O");
    check_names(&king, 132, "O-O-O");
    check_reads(&king, "Kg1", MENKHODUR_ACCEPTED, 388);
    check_names(&black, 4028, "O-O");
    check_names(&black, 3772, "O-O-O");
}

/* The shortest and the longest name, and a move that no text names. */
static void check_pawns(void)
{
    struct scene passing = { board_with(0, 1, (uint8_t[]){ E5 }, (uint8_t[]){ PAWN }), { 2788 }, 1 };
    struct scene longest = { board_with(0, 2, (uint8_t[]){ E5, E4 }, (uint8_t[]){ PAWN, PAWN }), { 23268, 23260 }, 2 };
    struct scene shortest = { initial, { 1804 }, 1 };
    struct scene last = { board_with(0, 1, (uint8_t[]){ E7 }, (uint8_t[]){ PAWN }), { 24372, 3892, 28468 }, 1 };
    check_reads(&passing, "exd6", MENKHODUR_INVALID_SAN_MOVE, 0);
    check_reads(&passing, "d6", MENKHODUR_ACCEPTED, 2788);
    check_names(&passing, 2788, "exd6 e.p.");
    check_names(&longest, 23268, "e5xd6Q e.p.");
    check_names(&longest, 23260, "e4xd6Q e.p.");
    check_names(&shortest, 1804, "e4");
    check_reads(&last, "e8=Q", MENKHODUR_INVALID_SAN_MOVE, 0);
    check_names(&last, 24372, "e8Q");
    last.entries = 3;
    check_names(&last, 3892, "e8");
    check_no_name(&last, 28468, MENKHODUR_NO_NAME);
}

static void check_no_san(void)
{
    static const char *const texts[] = {
        "", "N", "Nc", "Nx", "c", "Nd3", "Bc3", "Nc3Q", "c3", "xc3", "x", "O", "O-", "O-O", "0-0", "N3", "Kc3", "nc3", "\xff",
    };
    struct scene s = knight_scene();
    for (size_t i = 0; i < sizeof texts / sizeof *texts; i++) check_reads(&s, texts[i], MENKHODUR_INVALID_SAN_MOVE, 0);
    s.entries = 0;
    check_reads(&s, "Nc3", MENKHODUR_INVALID_SAN_MOVE, 0);
}

static void check_unlisted(void)
{
    struct scene s = knight_scene(), none = s;
    none.entries = 0;
    check_no_name(&none, 1153, MENKHODUR_NOT_LISTED);
    check_no_name(&s, 1152, MENKHODUR_NOT_LISTED);
    check_no_name(&s, MENKHODUR_LAST_MOVE + 1, MENKHODUR_NOT_LISTED);
    for (unsigned i = 0; i < WIDE; i++) check_no_name(&s, wide[i], MENKHODUR_NOT_LISTED), check_no_name(&s, wide_over(i, 1153), MENKHODUR_NOT_LISTED);
}

enum { BAD_BOARD = 1, BAD_ENTRY = 2, BAD_TEXT = 4, UNLISTED = 4, UNNAMED = 8, NO_ROOM = 16 };

/* Reader 5, 6, 4 and namer 5, 6, 11, 8, 7: every set of faults is answered with the first. */
static void check_san_order(unsigned faults)
{
    struct scene s = knight_scene();
    uint64_t before = faults & BAD_BOARD ? MENKHODUR_OUT_OF_RANGE : faults & BAD_ENTRY ? MENKHODUR_BAD_LIST : MENKHODUR_ACCEPTED;
    uint64_t naming = before ? before : faults & UNLISTED ? MENKHODUR_NOT_LISTED : faults & UNNAMED ? MENKHODUR_NO_NAME : MENKHODUR_ACCEPTED;
    if (faults & BAD_BOARD) s.board.en_passant = 9;
    if (faults & BAD_ENTRY) s.list[s.entries++] = MENKHODUR_LAST_MOVE + 1;
    check_reads(&s, faults & BAD_TEXT ? "Nc4" : "Nc3", before ? before : faults & BAD_TEXT ? MENKHODUR_INVALID_SAN_MOVE : MENKHODUR_ACCEPTED,
                before || faults & BAD_TEXT ? 0 : 1153);
    if (faults & UNNAMED) s.list[s.entries++] = 1153;
    check_names_into(&s, faults & UNLISTED ? 70000 : 1153, naming, naming ? "" : "Nc3", faults & NO_ROOM ? 2 : 3);
}

void check_san(void)
{
    check_knights();
    check_castling();
    check_pawns();
    check_no_san();
    check_unlisted();
    check_ranges(&(struct form){ san_read, san_name, menkhodur_san_read, menkhodur_san_name });
    for (unsigned faults = 0; faults < 32; faults++) check_san_order(faults);
}
