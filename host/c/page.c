/* A page of FENs: order 7 of document 02. Lines are found by a splitter of the tests' own; what each of them is owed, the single reader says, and for the
 * pages of a file the crate chess 3.2.0, which was asked before. */
#include "page.h"

#include <stdio.h>
#include <stdlib.h>
#include <string.h>

static const char page[] = "menkhodur_fen_page";

struct line {
    const uint8_t *at;
    size_t length;
};

static struct line lines[MOST_LINES];
uint8_t records_owed[RECORD * MOST_LINES];
uint64_t numbers_owed[TOLD * MOST_LINES];

/* ---- What is owed ---- */

/* "lines ended by a newline byte", "An unended last line counts if it has a byte in it." */
size_t split(const uint8_t *text, size_t length)
{
    size_t count = 0, start = 0;
    for (size_t i = 0; i < length; i++) {
        if (text[i] != '\n') continue;
        lines[count++] = (struct line){ text + start, i - start };
        start = i + 1;
    }
    if (start < length) lines[count++] = (struct line){ text + start, length - start };
    return count;
}

void owe(size_t count)
{
    for (size_t i = 0; i < count; i++) {
        menkhodur_fen fen = menkhodur_fen_read(lines[i].at, lines[i].length);
        memcpy(records_owed + RECORD * i, &fen.board, RECORD);
        numbers_owed[TOLD * i] = fen.number;
        numbers_owed[TOLD * i + 1] = fen.offset;
    }
}

/* ---- A call ---- */

/* Rooms of so many bytes and so many numbers, and the text, all lent with guards. What so many lines are owed is at hand. */
static void check_owed(const void *text, size_t length, size_t count, size_t bytes, size_t told)
{
    struct part lent = lend_bytes(text, length), records = lend(bytes), numbers = lend(8 * told);
    bool fits = bytes >= RECORD * count && told >= TOLD * count;
    expect_answer(fits ? MENKHODUR_ACCEPTED : MENKHODUR_OUTPUT_TOO_SHORT, count,
                  menkhodur_fen_page(lent.bytes, length, records.bytes, bytes, (uint64_t *)(void *)numbers.bytes, told));
    expect_unchanged("text", &lent);
    expect_written("records", &records, 0, records_owed, fits ? RECORD * count : 0);
    expect_written("numbers", &numbers, 0, numbers_owed, fits ? 8 * TOLD * count : 0);
    give_back(&lent);
    give_back(&records);
    give_back(&numbers);
}

static void check_call(const void *text, size_t length, size_t bytes, size_t told)
{
    size_t count = split(text, length);
    owe(count);
    check_owed(text, length, count, bytes, told);
}

/* Both rooms exact, each of them longer, each of them one short, and none. */
static void check_page_of(const void *text, size_t length)
{
    size_t count = split(text, length), bytes = RECORD * count, told = TOLD * count;
    check_call(text, length, bytes, told);
    check_call(text, length, bytes + 1, told + 1);
    check_call(text, length, bytes + RECORD, told);
    check_call(text, length, bytes, told + TOLD);
    check_call(text, length, 0, 0);
    if (!count) return;
    check_call(text, length, bytes - 1, told);
    check_call(text, length, bytes, told - 1);
    check_call(text, length, bytes + RECORD, told - TOLD);
    check_call(text, length, bytes - RECORD, told + TOLD);
}

/* ---- Pages told by hand ---- */

static void check_row(const char *text, size_t count, const uint64_t *told)
{
    struct part lent = lend_text(text), records = lend(RECORD * count), numbers = lend(8 * TOLD * count);
    about(page, "text `%s`", text);
    expect_answer(MENKHODUR_ACCEPTED, count, menkhodur_fen_page(lent.bytes, lent.length, records.bytes, records.length,
                                                                (uint64_t *)(void *)numbers.bytes, TOLD * count));
    expect_written("numbers", &numbers, 0, told, numbers.length);
    give_back(&lent);
    give_back(&records);
    give_back(&numbers);
    check_page_of(text, strlen(text));
}

static void check_rows(void)
{
    check_row("", 0, NULL);
    check_row("\n", 1, (uint64_t[]){ 18, 0 });
    check_row("8", 1, (uint64_t[]){ 18, 1 });
    check_row("8\n", 1, (uint64_t[]){ 18, 1 });
    check_row("\n\n\n", 3, (uint64_t[]){ 18, 0, 18, 0, 18, 0 });
    check_row("8\n\n8", 3, (uint64_t[]){ 18, 1, 18, 0, 18, 1 });
    check_row(" w - -", 1, (uint64_t[]){ 0, 0 });
    check_row("8/8 w -\nK b - e3", 2, (uint64_t[]){ 18, 7, 0, 0 });
    check_row("8/8 w -\n8/9 w - -\n", 2, (uint64_t[]){ 18, 7, 19, 2 });
    check_row(" w - -\r\n8 w\r - -\r\n\r\n", 3, (uint64_t[]){ 0, 0, 20, 2, 18, 1 });
    check_row("8 x - -\n8 w - -\n9 w - -", 3, (uint64_t[]){ 20, 2, 0, 0, 19, 0 });
    check_row("8 w - - x\n8 w - - 10000 0\n8 w - - 7 99\n", 3, (uint64_t[]){ 0, 0, 0, 0, 0, 0 });
}

/* The bytes of two records, the first of a refused line, and what lies behind them. A record has no counters here. */
static void check_bytes(void)
{
    struct part text = lend_text("8/8 w -\nK b - e3 258 772"), records = lend(137), numbers = lend(8 * 5);
    uint8_t want[136] = { 0 };
    want[68 + 56] = MENKHODUR_WHITE_KING;
    want[68 + 64] = MENKHODUR_BLACK;
    want[68 + 67] = 5;
    about(page, "two records");
    expect_answer(MENKHODUR_ACCEPTED, 2, menkhodur_fen_page(text.bytes, text.length, records.bytes, 137, (uint64_t *)(void *)numbers.bytes, 5));
    expect_written("records", &records, 0, want, sizeof want);
    expect_written("numbers", &numbers, 0, (uint64_t[]){ 18, 7, 0, 0 }, 8 * 4);
    give_back(&text);
    give_back(&records);
    give_back(&numbers);
}

/* ---- Many texts and rooms ---- */

/* All texts of up to 6 bytes over a newline, a space, and bytes good in one token or in none. */
static void check_short_texts(void)
{
    static const char bytes[] = "\n w8x";
    for (unsigned length = 0, count = 1; length <= 6; length++, count *= 5)
        for (unsigned n = 0; n < count; n++) {
            uint8_t text[6];
            for (unsigned i = 0, left = n; i < length; i++, left /= 5) text[i] = (uint8_t)bytes[left % 5];
            about(page, "text `%.*s`", (int)length, (const char *)text);
            check_call(text, length, RECORD * split(text, length), TOLD * split(text, length));
        }
}

/* No byte but the newline ends a line. */
static void check_every_byte(void)
{
    for (unsigned byte = 0; byte < 256; byte++) {
        uint8_t b = (uint8_t)byte, text[] = { b, ' ', 'w', ' ', ' ', '\n', ' ', b, ' ', ' ', '\n', '\n', b };
        about(page, "byte %u", byte);
        expect("lines", byte == '\n' ? 6 : 4, menkhodur_fen_page(text, sizeof text, NULL, 0, NULL, 0).value);
        check_page_of(text, sizeof text);
    }
}

/* Every pair of rooms up to a line more than three lines need. */
static void check_rooms(void)
{
    static const char text[] = "K w - -\n9 w - -\nk b - h6";
    for (size_t bytes = 0; bytes <= RECORD * 4; bytes++)
        for (size_t told = 0; told <= TOLD * 4; told++) {
            about(page, "rooms of %zu bytes and %zu numbers", bytes, told);
            check_call(text, strlen(text), bytes, told);
        }
}

/* Lines of any length, between two of a good FEN. */
static void check_long_lines(void)
{
    static const size_t lengths[] = { 15, 16, 17, 31, 32, 33, 63, 64, 65, 127, 128, 255, 256, 257, 4095, 4096, 70000 };
    static const char good[] = "8/8/8/8/8/8/8/8 w - - 0 1\n";
    for (size_t i = 0; i < sizeof lengths / sizeof *lengths; i++) {
        size_t front = strlen(good), length = 2 * front + lengths[i];
        uint8_t *text = malloc(length);
        if (!text) exit(2);
        memcpy(text, good, front);
        memset(text + front, 'p', lengths[i]);
        text[front + lengths[i] - 1] = '\n';
        memcpy(text + front + lengths[i], good, front);
        about(page, "a line of %zu bytes", lengths[i] - 1);
        check_page_of(text, length);
        check_page_of(text, length - 1);
        check_page_of(text + front, lengths[i]);
        check_page_of(text + front, lengths[i] - 1);
        free(text);
    }
}

/* ---- Random pages ---- */

/* A line of a FEN, with counters or ` 0 1`, good in one of two; a damage may be a newline or the loss of the one at the end. */
size_t any_line(uint8_t *text)
{
    static const char damages[] = "\n\n  x9/w\rK\xff";
    menkhodur_board b;
    size_t length;
    for (unsigned i = 0; i < ALL_NUMBERS; i++) set_number(&b, i, i < 64 && any(3) ? 0 : any_number(i));
    length = (any(2) ? menkhodur_fen_write : menkhodur_fen_write_full)(b, text, MENKHODUR_LONGEST_FULL_FEN).value;
    text[length++] = '\n';
    for (unsigned damage = any(2) * any(4); damage; damage--) {
        uint8_t byte = (uint8_t)damages[any(sizeof damages)];
        if (any(3)) text[any((unsigned)length)] = byte;
        else length = any((unsigned)length) + 1;
    }
    return length;
}

static size_t any_page(uint8_t *text)
{
    size_t length = 0;
    for (unsigned n = any(9); n; n--) length += any_line(text + length);
    return length - (length && any(2));
}

static void check_random(void)
{
    uint8_t text[9 * LONGEST_LINE];
    for (unsigned i = 0; i < (few ? 300 : 3000); i++) {
        size_t length = any_page(text);
        about(page, "random page %u, `%.*s`", i, (int)length, (const char *)text);
        check_page_of(text, length);
    }
}

/* Two pages, the second into the rooms behind what the first filled, leave what the page of both joined does. */
static void check_joined(void)
{
    uint8_t text[18 * LONGEST_LINE + 1];
    for (unsigned i = 0; i < (few ? 100 : 1000); i++) {
        size_t front = any_page(text), length, first, count;
        struct part records, numbers;
        uint64_t *told;
        text[front++] = '\n';
        length = front + any_page(text + front);
        first = split(text, front);
        count = split(text, length);
        owe(count);
        records = lend(RECORD * count);
        numbers = lend(8 * TOLD * count);
        told = (uint64_t *)(void *)numbers.bytes;
        about(page, "joined pages %u", i);
        expect_answer(MENKHODUR_ACCEPTED, first, menkhodur_fen_page(text, front, records.bytes, RECORD * count, told, TOLD * count));
        expect_answer(MENKHODUR_ACCEPTED, count - first,
                      menkhodur_fen_page(text + front, length - front, records.bytes + RECORD * first, RECORD * (count - first),
                                         told + TOLD * first, TOLD * (count - first)));
        expect_written("records", &records, 0, records_owed, RECORD * count);
        expect_written("numbers", &numbers, 0, numbers_owed, 8 * TOLD * count);
        give_back(&records);
        give_back(&numbers);
    }
}

size_t read_file(const char *function, const char *path, uint8_t *text, size_t room)
{
    FILE *f = fopen(path, "rb");
    size_t length = f ? fread(text, 1, room, f) : 0;
    about(function, "file %s", path);
    expect("can be read", 1, length > 0 && length < room);
    if (f) fclose(f);
    return length;
}

/* Positions of games: the file as one page, whole and without its last byte. */
static void check_file(const char *positions)
{
    static uint8_t text[128 * MOST_LINES];
    size_t length = read_file(page, positions, text, sizeof text);
    if (!length) return;
    expect("lines fit", 1, menkhodur_fen_page(text, length, NULL, 0, NULL, 0).value <= MOST_LINES);
    check_page_of(text, length);
    check_page_of(text, length - 1);
}

/* ---- Pages of which the crate was asked before ---- */

/* A hexadecimal digit's number; 16 for any other byte. */
static unsigned digit(char byte)
{
    static const char digits[] = "0123456789abcdef";
    const char *at = byte ? strchr(digits, byte) : NULL;
    return at ? (unsigned)(at - digits) : 16;
}

/* Undoes the escapes of what stands between two quotation marks; how many bytes that is. */
static size_t unescape(uint8_t *to, const char *from, const char *end)
{
    uint8_t *start = to;
    for (; from < end; from++) {
        if (*from != '\\') *to++ = (uint8_t)*from;
        else if (*++from != 'x') *to++ = (uint8_t)(*from == 'n' ? '\n' : *from == 'r' ? '\r' : *from);
        else {
            *to++ = (uint8_t)(16 * digit(from[1]) + digit(from[2]));
            from += 2;
        }
    }
    return (size_t)(to - start);
}

/* A row `NUMBER OFFSET RECORD "TEXT"`: owes line i its numbers and record, and puts its text; how many bytes that is. */
static size_t take_row(char *row, size_t i, uint8_t *text)
{
    uint8_t *record = records_owed + RECORD * i;
    char *at = row, *quote = strchr(row, '"'), *last = strrchr(row, '"');
    size_t n = 0;
    expect("quotation marks", 1, quote && quote < last);
    if (quote >= last) return 0;
    for (unsigned k = 0; k < TOLD; k++) numbers_owed[TOLD * i + k] = strtoull(at, &at, 10);
    memset(record, 0, RECORD);
    for (; at < quote; at++)
        if (digit(*at) < 16 && n < RECORD) record[n++] = (uint8_t)digit(*at);
    expect("numbers of a record", numbers_owed[TOLD * i] ? 0 : RECORD, n);
    return unescape(text, quote + 1, last);
}

/* In rooms that fit or are longer, and in rooms a line, a byte or a number short. */
static void check_told(const uint8_t *text, size_t length, size_t count)
{
    size_t bytes = RECORD * count, told = TOLD * count;
    check_owed(text, length, count, bytes, told);
    check_owed(text, length, count, bytes + RECORD, told + TOLD);
    if (!count) return;
    check_owed(text, length, count, bytes - RECORD, told);
    check_owed(text, length, count, bytes, told - TOLD);
    check_owed(text, length, count, bytes - 1, told);
    check_owed(text, length, count, bytes, told - 1);
}

/* The file tells its form. */
void each_page(const char *function, const char *pages, void check(const uint8_t *text, size_t length, size_t count))
{
    static char row[8192];
    static uint8_t text[64 * MOST_LINES];
    unsigned owed = 0, seen = 0;
    FILE *f = fopen(pages, "rb");
    about(function, "file %s", pages);
    expect("can be read", 1, f != NULL);
    while (f && fgets(row, sizeof row, f)) {
        size_t count, length = 0;
        if (sscanf(row, "pages %u", &owed) == 1) continue;
        if (sscanf(row, "page %zu", &count) != 1 && sscanf(row, "joined %zu", &count) != 1) continue;
        if (count > MOST_LINES) break;
        about(function, "%s, page %u", pages, ++seen);
        for (size_t i = 0; i < count && fgets(row, sizeof row, f); i++) length += take_row(row, i, text + length);
        check(text, length, count);
    }
    expect("pages", owed, seen);
    expect("any page", 1, seen > 0);
    if (f) fclose(f);
}

void check_page(const char *positions, const char *pages)
{
    check_rows();
    check_bytes();
    check_short_texts();
    check_every_byte();
    check_rooms();
    check_long_lines();
    check_random();
    check_joined();
    check_file(positions);
    each_page(page, pages, check_told);
}
