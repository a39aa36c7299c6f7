/* What every form of SAN answers alike: a knight on b1 that may go to c3, with lists and records in range and out of it. */
#include "check.h"

enum { B1 = 1, KNIGHT = 2, TO_C3 = 1153, ENTRIES = 300 };

static const uint16_t *list_of(const struct part *p)
{
    return (const uint16_t *)(const void *)p->bytes;
}

static menkhodur_board knight(void)
{
    return board_with(0, 1, (const uint8_t[]){ B1 }, (const uint8_t[]){ KNIGHT });
}

/* Both functions over a list; the text is read as the move and written as its name, or both are refused with the number. */
static void check_both(const struct form *form, menkhodur_board board, const struct part *list, const char *text, size_t room, uint64_t number)
{
    struct part lent = lend_text(text), out = lend(room);
    size_t entries = list->length / 2;
    about(form->reading, "text `%s`, %zu entries, the first %u", text, entries, list_of(list)[0]);
    expect_answer(number, number ? 0 : TO_C3, form->read(board, list_of(list), entries, lent.bytes, lent.length));
    expect_unchanged("list", list);
    expect_unchanged("text", &lent);
    about(form->naming, "%zu entries, the first %u, room for %zu", entries, list_of(list)[0], room);
    expect_answer(number, number ? 0 : 3, form->name(board, list_of(list), entries, TO_C3, out.bytes, room));
    expect_written("room", &out, 0, "Nc3", number ? 0 : 3);
    expect_unchanged("list", list);
    give_back(&lent);
    give_back(&out);
}

/* A list of `entries`, all `other` but one, which is the move. */
static void check_list(const struct form *form, size_t entries, uint16_t other, bool good)
{
    uint16_t moves[ENTRIES];
    struct part list;
    for (size_t i = 0; i < entries; i++) moves[i] = other;
    moves[entries / 2] = TO_C3;
    list = lend_bytes(moves, entries * 2);
    check_both(form, knight(), &list, "Nc3", 3, good ? MENKHODUR_ACCEPTED : MENKHODUR_BAD_LIST);
    give_back(&list);
}

/* Every record number out of range, with text, list and room that would be refused too, and without. */
static void check_bad_record(const struct form *form, unsigned i)
{
    uint16_t move = i % 4 > 1 ? 65535 : TO_C3;
    struct part list = lend_bytes(&move, sizeof move);
    check_both(form, bad_board(knight(), i / 4), &list, i % 4 ? "Nc3" : "", i % 4 ? 3 : 0, MENKHODUR_OUT_OF_RANGE);
    give_back(&list);
}

/* Counters in range have no say in what a text names, or in what a move is called. */
static void check_counters_of(const struct form *form, uint16_t half_moves, uint16_t full_moves)
{
    const uint16_t move = TO_C3;
    struct part list = lend_bytes(&move, sizeof move);
    menkhodur_board board = knight();
    board.half_moves = half_moves;
    board.full_moves = full_moves;
    check_both(form, board, &list, "Nc3", 3, MENKHODUR_ACCEPTED);
    give_back(&list);
}

void check_ranges(const struct form *form)
{
    check_list(form, 2, MENKHODUR_LAST_MOVE, true);
    check_list(form, 2, MENKHODUR_LAST_MOVE + 1, false);
    check_list(form, 2, 65535, false);
    check_list(form, 254, 0, true);
    check_list(form, 255, MENKHODUR_LAST_MOVE, true);
    check_list(form, 256, 0, false);
    check_list(form, 257, 0, false);
    check_list(form, 257, 65535, false);
    for (unsigned i = 0; i < BAD_BOARDS * 4; i++) check_bad_record(form, i);
    check_counters_of(form, 9999, 1);
    check_counters_of(form, 0, 9999);
    check_counters_of(form, 257, 258);
}
