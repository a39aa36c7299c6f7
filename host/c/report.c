/* The evening report over a page of FENs: order 14 of document 02. The lines are cut by the tests' own splitter and read one by one; for the pages of a
 * file the crate chess 3.2.0 says what they are. Over that, men are counted square by square, and each accepted line is compared with all before it. */
#include "page.h"

#include <stdio.h>
#include <stdlib.h>
#include <string.h>

enum { LINES = MENKHODUR_REPORT_LINES, KINDS = MENKHODUR_KINDS };

static const char reporting[] = "menkhodur_fen_report", men_in_order[] = "PNBRQKpnbrqk";

/* ---- What is owed ---- */

static bool is_taken(size_t i)
{
    return numbers_owed[TOLD * i] == MENKHODUR_ACCEPTED;
}

static bool is_repeat(size_t i)
{
    for (size_t j = 0; j < i; j++)
        if (is_taken(j) && memcmp(records_owed + RECORD * j, records_owed + RECORD * i, RECORD) == 0) return true;
    return false;
}

static void add_men(menkhodur_report *r, const uint8_t *squares)
{
    for (unsigned square = 0; square < 64; square++)
        if (squares[square] != MENKHODUR_EMPTY) r->men[squares[square] - 1]++;
}

static menkhodur_report figures_of(size_t count)
{
    menkhodur_report r = { .lines = count };
    for (size_t i = 0; i < count; i++) {
        if (!is_taken(i)) {
            r.refused++;
            continue;
        }
        r.accepted++;
        r.repeated += is_repeat(i);
        add_men(&r, records_owed + RECORD * i);
    }
    return r;
}

/* "At most 4,096 lines. Refusals: 13 for more lines, then 7"; of those nothing else is told, but for the lines with 7. */
static menkhodur_report judged(menkhodur_report figures, size_t bytes, size_t told)
{
    if (figures.lines > LINES) return (menkhodur_report){ .number = MENKHODUR_LOG_FULL };
    if (bytes >= RECORD * figures.lines && told >= TOLD * figures.lines) return figures;
    return (menkhodur_report){ .number = MENKHODUR_OUTPUT_TOO_SHORT, .lines = figures.lines };
}

static void expect_report(menkhodur_report want, menkhodur_report got)
{
    expect("number", want.number, got.number);
    expect("lines", want.lines, got.lines);
    expect("accepted", want.accepted, got.accepted);
    expect("refused", want.refused, got.refused);
    for (unsigned kind = 0; kind < KINDS; kind++) expect((char[]){ men_in_order[kind], 0 }, want.men[kind], got.men[kind]);
    expect("repeated", want.repeated, got.repeated);
}

/* ---- A call ---- */

/* Rooms of so many bytes and so many numbers, and the text, all lent with guards. What the lines are owed is at hand. */
static void check_call(const void *text, size_t length, menkhodur_report figures, size_t bytes, size_t told)
{
    struct part lent = lend_bytes(text, length), records = lend(bytes), numbers = lend(8 * told);
    menkhodur_report want = judged(figures, bytes, told);
    size_t filled = want.number ? 0 : figures.lines;
    expect_report(want, menkhodur_fen_report(lent.bytes, length, records.bytes, bytes, (uint64_t *)(void *)numbers.bytes, told));
    expect_unchanged("text", &lent);
    expect_written("records", &records, 0, records_owed, RECORD * filled);
    expect_written("numbers", &numbers, 0, numbers_owed, 8 * TOLD * filled);
    give_back(&lent);
    give_back(&records);
    give_back(&numbers);
}

static menkhodur_report figures_of_text(const void *text, size_t length)
{
    size_t count = split(text, length);
    owe(count);
    return figures_of(count);
}

/* In rooms that fit. */
static void check_exact(const void *text, size_t length)
{
    menkhodur_report figures = figures_of_text(text, length);
    check_call(text, length, figures, RECORD * figures.lines, TOLD * figures.lines);
}

/* Both rooms exact, each of them longer, each of them one or a line short, and none. */
static void check_owed(const uint8_t *text, size_t length, size_t count)
{
    menkhodur_report figures = figures_of(count);
    size_t bytes = RECORD * count, told = TOLD * count;
    check_call(text, length, figures, bytes, told);
    check_call(text, length, figures, bytes + 1, told + 1);
    check_call(text, length, figures, bytes + RECORD, told);
    check_call(text, length, figures, bytes, told + TOLD);
    check_call(text, length, figures, 0, 0);
    if (!count) return;
    check_call(text, length, figures, bytes - 1, told);
    check_call(text, length, figures, bytes, told - 1);
    check_call(text, length, figures, bytes + RECORD, told - TOLD);
    check_call(text, length, figures, bytes - RECORD, told + TOLD);
}

static void check_page_of(const void *text, size_t length)
{
    size_t count = split(text, length);
    owe(count);
    check_owed(text, length, count);
}

/* ---- Reports told by hand ---- */

/* `men` are all that stand on the accepted lines, by their letters. */
static void check_row(const char *text, uint64_t accepted, uint64_t refused, const char *men, uint64_t repeated)
{
    uint8_t records[4 * RECORD];
    uint64_t numbers[4 * TOLD];
    menkhodur_report want = { .lines = accepted + refused, .accepted = accepted, .refused = refused, .repeated = repeated };
    for (const char *man = men; *man; man++) want.men[strchr(men_in_order, *man) - men_in_order]++;
    about(reporting, "text `%s`", text);
    expect_report(want, menkhodur_fen_report((const uint8_t *)text, strlen(text), records, sizeof records, numbers, 4 * TOLD));
    check_page_of(text, strlen(text));
}

static void check_rows(void)
{
    check_row("", 0, 0, "", 0);
    check_row("\n", 0, 1, "", 0);
    check_row("PNBRQK/pnbrqk w - -", 1, 0, "PNBRQKpnbrqk", 0);
    check_row("PP/P w - -", 1, 0, "PPP", 0);
    check_row("kk w - -\n", 1, 0, "kk", 0);
    check_row("PN w - -\nP b - -", 2, 0, "PPN", 0);
    check_row("PN x - -\nP b - -", 1, 1, "P", 0);
    check_row("K w - -\nK w - -\nK w - -\n", 3, 0, "KKK", 2);
    check_row("K w - - 0 1\nK W - e9 5 9\n", 2, 0, "KK", 1);
    check_row(" w - -\n b - -\n w - -\n", 3, 0, "", 1);
    check_row(" w - -\n b - -\n w K -\n w k -\n", 4, 0, "", 0);
    check_row(" w KQ -\n w QK - 7 9\n w - a6\n w - a3", 4, 0, "", 2);
    check_row("x\n w - -\n", 1, 1, "", 0);
    check_row(" w - -\nx\n", 1, 1, "", 0);
    check_row("x\n w - -\nx\n w - - 5 9\n", 2, 2, "", 1);
    check_row("x\nx\n", 0, 2, "", 0);
    check_row(" w - -\r\n w - -\n", 2, 0, "", 1);
}

/* ---- Many texts and rooms ---- */

/* All texts of up to 6 bytes over a newline, a space, and bytes good in one token or in none. */
static void check_short_texts(void)
{
    static const char bytes[] = "\n w8x";
    for (unsigned length = 0, count = 1; length <= 6; length++, count *= 5)
        for (unsigned n = 0; n < count; n++) {
            uint8_t text[6];
            for (unsigned i = 0, left = n; i < length; i++, left /= 5) text[i] = (uint8_t)bytes[left % 5];
            about(reporting, "text `%.*s`", (int)length, (const char *)text);
            check_exact(text, length);
        }
}

/* All pages of up to 5 lines of seven: five of four records, one of them spelt in two ways, and two that are refused. */
static void check_short_pages(void)
{
    static const char *const lines[] = { " w - -\n", "K w - -\n", "K W - e9 5 9\n", "K b - -\n", "P w - -\n", "9 w - -\n", "\n" };
    for (unsigned most = 0, count = 1; most <= 5; most++, count *= 7)
        for (unsigned n = 0; n < count; n++) {
            char text[5 * 16] = "";
            for (unsigned i = 0, left = n; i < most; i++, left /= 7) strcat(text, lines[left % 7]);
            about(reporting, "page %u of %u lines", n, most);
            check_exact(text, strlen(text));
        }
}

/* Every pair of rooms up to a line more than three lines need. */
static void check_rooms(void)
{
    static const char text[] = "K w - -\n9 w - -\nK w - - 7 9";
    menkhodur_report figures = figures_of_text(text, strlen(text));
    for (size_t bytes = 0; bytes <= RECORD * 4; bytes++)
        for (size_t told = 0; told <= TOLD * 4; told++) {
            about(reporting, "rooms of %zu bytes and %zu numbers", bytes, told);
            check_call(text, strlen(text), figures, bytes, told);
        }
}

/* ---- As many lines as there may be ---- */

/* A board with a man of line i's own on each of some squares, so that no two of them are equal. */
static menkhodur_board board_of_line(unsigned i)
{
    menkhodur_board b = { .full_moves = 1 };
    for (unsigned square = 0; square < 64; square += 9, i /= 13) b.pieces[square] = (uint8_t)(i % 13);
    return b;
}

static size_t put_board(uint8_t *text, menkhodur_board b)
{
    size_t length = menkhodur_fen_write_full(b, text, MENKHODUR_LONGEST_FULL_FEN).value;
    text[length] = '\n';
    return length + 1;
}

/* More lines than a report takes: nothing is told of them, in rooms that would fit and in none. */
static void check_too_long(const uint8_t *text, size_t length)
{
    menkhodur_report more = { .lines = LINES + 1 };
    check_call(text, length, more, RECORD * (LINES + 1), TOLD * (LINES + 1));
    check_call(text, length, more, RECORD * LINES, TOLD * LINES);
    check_call(text, length, more, 0, 0);
}

/* A text of exactly as many lines as there may be, each ended: as it is, without its last byte, and with a byte or a line more. */
static void check_most(const char *what, uint8_t *text, size_t length)
{
    about(reporting, "%d lines, %s", LINES, what);
    check_page_of(text, length);
    expect("lines", LINES, menkhodur_fen_report(text, length, NULL, 0, NULL, 0).lines);
    if (text[length - 2] != '\n') check_exact(text, length - 1);
    memcpy(text + length, "x\n", 2);
    check_too_long(text, length + 1);
    check_too_long(text, length + 2);
    text[length] = '\n';
    check_too_long(text, length + 1);
}

/* Lines of boards, of which so many are different, over and over. */
static void check_boards(const char *what, unsigned different)
{
    static uint8_t text[LINES * LONGEST_LINE + 2];
    size_t length = 0;
    for (unsigned i = 0; i < LINES; i++) length += put_board(text + length, board_of_line(i % different));
    check_most(what, text, length);
}

static void check_limits(void)
{
    static uint8_t newlines[70000];
    memset(newlines, '\n', sizeof newlines);
    about(reporting, "%zu newlines", sizeof newlines);
    check_too_long(newlines, sizeof newlines);
    check_most("all empty", newlines, LINES);
    check_boards("all different", LINES);
    check_boards("all equal", 1);
    check_boards("each twice", LINES / 2);
}

/* ---- Random pages ---- */

/* A board's line, with any counters, in either spelling of its side. */
static size_t any_spelling(uint8_t *text, menkhodur_board b)
{
    size_t length;
    for (unsigned which = HALF_MOVES; which <= FULL_MOVES; which++) set_number(&b, which, any_number(which));
    length = put_board(text, b);
    if (any(2)) *((uint8_t *)memchr(text, ' ', length) + 1) -= 'a' - 'A';
    return length;
}

/* A few boards that differ in one number or not at all. */
enum { BOARDS = 4 };
static void any_boards(menkhodur_board *boards)
{
    for (unsigned i = 0; i < ALL_NUMBERS; i++) set_number(&boards[0], i, i < 64 && any(3) ? 0 : any_number(i));
    for (unsigned i = 1; i < BOARDS; i++) {
        unsigned which = any(2) ? any(64) : 64 + any(4);
        boards[i] = boards[i - 1];
        set_number(&boards[i], which, any_number(which));
    }
}

/* Lines of such boards, and others, good or not. */
static size_t any_repeating_page(uint8_t *text)
{
    menkhodur_board boards[BOARDS];
    size_t length = 0;
    any_boards(boards);
    for (unsigned n = any(16); n; n--) length += any(4) ? any_spelling(text + length, boards[any(BOARDS)]) : any_line(text + length);
    return length - (length && any(2));
}

static void check_random(void)
{
    uint8_t text[16 * LONGEST_LINE];
    for (unsigned i = 0; i < (few ? 300 : 3000); i++) {
        size_t length = any_repeating_page(text);
        about(reporting, "random page %u, `%.*s`", i, (int)length, (const char *)text);
        check_page_of(text, length);
    }
}

/* Positions of games: the file as one page, and the file behind itself, so that each line is a repeat. */
static void check_file(const char *positions)
{
    static uint8_t text[128 * MOST_LINES];
    size_t length = read_file(reporting, positions, text, sizeof text / 2), lines;
    if (!length) return;
    lines = split(text, length);
    expect("lines fit", 1, 2 * lines <= LINES);
    check_page_of(text, length);
    check_exact(text, length - 1);
    memcpy(text + length, text, length);
    check_exact(text, 2 * length);
    expect("repeats at least", 1, figures_of(2 * lines).repeated >= lines);
}

void check_report(const char *positions, const char *pages)
{
    check_rows();
    check_short_texts();
    check_short_pages();
    check_rooms();
    check_limits();
    check_random();
    check_file(positions);
    each_page(reporting, pages, check_owed);
}
