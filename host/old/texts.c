/* Squares, rights and steps; FEN texts and pages; move texts of all kinds. */
#include "questions.h"

enum { LONGEST = 256 };

/* ---- Numbers ---- */

menkhodur_board any_board(void)
{
    static const uint8_t men[] = { 0, 0, 0, 0, 0, 0, 1, 1, 7, 7, 6, 12, 4, 10, 2, 8 }, limits[4] = { 1, 3, 3, 8 };
    uint8_t numbers[RECORD];
    for (unsigned i = 0; i < 64; i++) numbers[i] = any(4) ? men[any(sizeof men)] : (uint8_t)any(13);
    for (unsigned i = 0; i < 4; i++) numbers[64 + i] = (uint8_t)any(limits[i] + 1u);
    if (any(16) == 0) set_any(numbers, RECORD, 256);
    return board_of(numbers);
}

uint16_t any_move(void)
{
    static const int steps[] = { 2, -2, 16, -16, 7, 9, -7, -9, 1, -1, 8, -8 };
    unsigned source = any(64), near = (source + 128u + (unsigned)steps[any(12)]) % 64;
    unsigned destination = any(4) ? near : any(64), promotion = any(3) ? 0 : any(7);
    return MENKHODUR_MOVE(source, destination, promotion);
}

static void ask_pair(uint8_t a, uint8_t b)
{
    const menkhodur_answer answers[] = { menkhodur_make_square(a, b), menkhodur_rights_add(a, b), menkhodur_rights_remove(a, b),
                                         menkhodur_square_rights(a, b) };
    for (unsigned i = 0; i < 4; i++) add_answer(answers[i]);
    answered(answers[0].number, "%u %u", a, b);
}

static void ask_steps(void)
{
    menkhodur_board b = any_board();
    uint8_t first = (uint8_t)(any(2) ? any(66) : any(256)), second = (uint8_t)(any(2) ? any(14) : any(256));
    const menkhodur_stepped steps[] = { menkhodur_piece(b, first, second), menkhodur_clear_square(b, first), menkhodur_side_to_move(b, first % 4),
                                        menkhodur_castle_rights(b, first % 3, second % 5), menkhodur_en_passant(b, second) };
    for (unsigned i = 0; i < 5; i++) {
        add(steps[i].number);
        add_board(steps[i].board);
    }
    answered(steps[0].number, "%u %u", first, second);
}

void ask_small_functions(void)
{
    begin("numbers");
    for (unsigned a = 0; a < 256; a += a < 67 ? 1 : 47)
        for (unsigned b = 0; b < 256; b += b < 67 ? 1 : 47) ask_pair((uint8_t)a, (uint8_t)b);
    begin("steps");
    for (unsigned i = 0; i < 8192; i++) ask_steps();
}

/* ---- FEN texts ---- */

/* Into a room that fits, and into one that is a byte short; what is left in it. */
static void add_written(menkhodur_board b)
{
    uint8_t room[LONGEST];
    menkhodur_answer a;
    memset(room, FILL, sizeof room);
    a = menkhodur_fen_write(b, room, 85);
    add_answer(a);
    add_bytes(room, sizeof room);
    memset(room, FILL, sizeof room);
    add_answer(menkhodur_fen_write(b, room, a.value ? a.value - 1 : 0));
    add_bytes(room, sizeof room);
}

static void ask_fen(const char *text, size_t length)
{
    menkhodur_fen fen = menkhodur_fen_read((const uint8_t *)text, length);
    add(fen.offset);
    add_board(fen.board);
    if (fen.number == 0) add_written(fen.board);
    answered(fen.number, "`%.*s`", (int)length, text);
}

/* All texts of up to so many of these bytes. */
static void ask_short(const char *bytes, unsigned longest, void ask(const char *, size_t))
{
    const unsigned base = (unsigned)strlen(bytes);
    for (unsigned length = 0, count = 1; length <= longest; length++, count *= base)
        for (unsigned n = 0; n < count; n++) {
            char text[8];
            for (unsigned i = 0, left = n; i < length; i++, left /= base) text[i] = bytes[left % base];
            ask(text, length);
        }
}

/* Six fields, in most of which something may be wrong, and a byte of which may be another; its length. */
static size_t any_fen(char *text)
{
    static const char *const rights[] = { "KQkq", "-", "Kq", "", "kQxK" }, *const squares[] = { "-", "e3", "a6", "h4", "z9", "", "b" };
    static const char *const counters[] = { " 0 1", " 7 99", " 9999 9999", " 10000 0", " x", "", " ", "  1", " 0 1\r", " 3 4 more" };
    char *at = text, side = any_of("wwwbbbWBx"), byte = any_of(" /9xk8w\n");
    const char *third = rights[any(5)], *fourth = squares[any(7)], *rest = counters[any(10)];
    for (unsigned n = any(4) ? 8 : any(10); n; n--) {
        for (unsigned file = any(9); file; file--) *at++ = any_of("PNBRQKpnbrqk1234");
        *at++ = n > 1 ? '/' : '8';
    }
    at += sprintf(at, " %c %s %s%s", side, third, fourth, rest);
    if (any(3) == 0) text[any((unsigned)(at - text))] = byte;
    return (size_t)(at - text);
}

static void ask_bad_record(unsigned i)
{
    menkhodur_board b = any_board();
    ((uint8_t *)&b)[i / 2] = i % 2 ? 255 : 13;
    add_written(b);
    answered(menkhodur_fen_write(b, NULL, 0).number, "number %u", i / 2);
}

/* A page of such lines, in rooms that fit, or of which one is short by a little. */
static void ask_page(void)
{
    static uint8_t records[RECORD * 16];
    static uint64_t numbers[2 * 16];
    char text[9 * LONGEST];
    size_t length = 0, lines, bytes, told;
    menkhodur_answer a;
    for (unsigned n = any(9); n; n--) {
        length += any_fen(text + length);
        text[length++] = '\n';
    }
    if (length && any(2)) length--;
    lines = menkhodur_fen_page((const uint8_t *)text, length, NULL, 0, NULL, 0).value;
    if (lines > 16) lines = 16;
    bytes = RECORD * lines - (lines && any(8) == 0);
    told = 2 * lines - (lines && any(8) == 0);
    memset(records, FILL, sizeof records);
    memset(numbers, FILL, sizeof numbers);
    a = menkhodur_fen_page((const uint8_t *)text, length, records, bytes, numbers, told);
    add(a.value);
    add_bytes(records, sizeof records);
    for (size_t i = 0; i < told; i++) add(numbers[i]);
    answered(a.number, "`%.*s`", (int)length, text);
}

void ask_texts(void)
{
    char text[LONGEST];
    begin("fen");
    ask_short(" bw8x", 6, ask_fen);
    for (unsigned i = 0; i < 16384; i++) ask_fen(text, any_fen(text));
    begin("fen-of-bad-records");
    for (unsigned i = 0; i < 2 * RECORD; i++) ask_bad_record(i);
    begin("page");
    for (unsigned i = 0; i < 4096; i++) ask_page();
}

/* ---- Move texts ---- */

static void ask_coordinates(const char *text, size_t length)
{
    menkhodur_placed p = menkhodur_move_read((const uint8_t *)text, length);
    add(p.value);
    add(p.offset);
    answered(p.number, "`%.*s`", (int)length, text);
}

static void ask_written(uint64_t move, size_t room)
{
    uint8_t out[8];
    menkhodur_answer a;
    memset(out, FILL, sizeof out);
    a = menkhodur_move_write(move, out, room);
    add(a.value);
    add_bytes(out, sizeof out);
    answered(a.number, "%llu into %zu", (unsigned long long)move, room);
}

/* A form of SAN. */
struct form {
    menkhodur_answer (*read)(menkhodur_board, const uint16_t *, size_t, const uint8_t *, size_t);
    menkhodur_answer (*name)(menkhodur_board, const uint16_t *, size_t, uint64_t, uint8_t *, size_t);
};

static void ask_text(const struct form *form, menkhodur_board b, const uint16_t *list, size_t entries, const char *text, size_t length)
{
    menkhodur_answer a = form->read(b, list, entries, (const uint8_t *)text, length);
    add(a.value);
    answered(a.number, "`%.*s`, %zu entries", (int)length, text, entries);
}

/* A byte of a text changed, put in or taken away. */
static size_t changed(char *text, size_t length)
{
    size_t at = any((unsigned)length + 1);
    char byte = any_of("NKRQbcdeg13568xO-+#= ");
    if (any(3) == 0 && at < length) {
        memmove(text + at, text + at + 1, length - at - 1);
        return length - 1;
    }
    if (at < length && any(2)) {
        text[at] = byte;
        return length;
    }
    memmove(text + at + 1, text + at, length - at);
    text[at] = byte;
    return length + 1;
}

/* The name of each entry, read again as it is and changed. */
static void ask_scene(const struct form *form)
{
    menkhodur_board b = any_board();
    uint16_t list[8];
    size_t entries = 1 + any(8);
    for (size_t i = 0; i < entries; i++) list[i] = i && any(3) == 0 ? list[i - 1] : any_move();
    if (any(2)) list[0] = b.side_to_move ? MENKHODUR_MOVE(60, any(2) ? 62 : 58, 0) : MENKHODUR_MOVE(4, any(2) ? 6 : 2, 0);
    if (any(32) == 0) list[entries - 1] = (uint16_t)(MENKHODUR_LAST_MOVE + any(3));
    for (size_t i = 0; i < entries; i++) {
        char name[32] = "O-O";
        uint64_t move = any(16) ? list[i] : any_move();
        menkhodur_answer a;
        memset(name + 3, FILL, sizeof name - 3);
        a = form->name(b, list, entries, move, (uint8_t *)name, any(8) ? 11 : any(11));
        add(a.value);
        add_bytes(name, sizeof name);
        answered(a.number, "name of %llu", (unsigned long long)move);
        if (a.number || a.value > 11) continue;
        ask_text(form, b, list, entries, name, a.value);
        ask_text(form, b, list, entries, name, changed(name, a.value));
    }
    ask_text(form, b, list, entries, "O-O", 3);
    ask_text(form, b, list, entries, "O-O-O+", 5 + any(2));
}

static void ask_after(void)
{
    menkhodur_board b = any_board();
    uint64_t move = any(16) ? any_move() : any(70000);
    menkhodur_stepped s = menkhodur_board_after(b, move);
    add_board(s.board);
    answered(s.number, "%llu", (unsigned long long)move);
}

/* Tokens of PGN move text in any order, checked, and walked from a place. */
static void ask_pgn(void)
{
    static const char *const tokens[] = { "e4", "Nbxd2+", "O-O-O", "e8=Q#", "12.", "1...", "1", "10-1", "(", "(", ")", ")", "{a (b}", "{", "}",
                                          "; rest (\n", "$14", "$", "1-0", "0-1", "1/2-1/2", "*", "%", "\r\n", "\t", "x", "(((((((" };
    char text[LONGEST];
    size_t length = 0;
    menkhodur_pgn_count count;
    uint64_t offset = 0, level = 0;
    for (unsigned n = any(14); n; n--) {
        const char *token = tokens[any(sizeof tokens / sizeof *tokens)];
        length += (size_t)sprintf(text + length, "%s%s", token, any(3) ? " " : "");
    }
    if (any(4) == 0) offset = any((unsigned)length + 2), level = any(10);
    count = menkhodur_pgn_check((const uint8_t *)text, length);
    add(count.offset);
    add(count.moves);
    for (unsigned i = 0; i < 20; i++) {
        menkhodur_pgn_move m = menkhodur_pgn_next((const uint8_t *)text, length, offset, level);
        const uint64_t all[] = { m.number, m.offset, m.found, m.start, m.length, m.level };
        for (unsigned k = 0; k < 6; k++) add(all[k]);
        if (!m.found) break;
        offset = m.start + m.length;
        level = m.level;
    }
    answered(count.number, "`%.*s`", (int)length, text);
}

void ask_moves(void)
{
    static const struct form own = { menkhodur_san_read, menkhodur_san_name };
    static const struct form standard = { menkhodur_san_read_standard, menkhodur_san_name_standard };
    begin("coordinates");
    ask_short("bh8i9q", 5, ask_coordinates);
    for (unsigned i = 0; i < 8192; i++) ask_written(7 * i % 28700, 3 + any(4));
    ask_written(UINT64_C(1) << 32, 5);
    begin("san");
    for (unsigned i = 0; i < 2048; i++) ask_scene(&own);
    begin("san-standard");
    for (unsigned i = 0; i < 2048; i++) ask_scene(&standard);
    begin("after");
    for (unsigned i = 0; i < 16384; i++) ask_after();
    begin("pgn");
    for (unsigned i = 0; i < 8192; i++) ask_pgn();
}
