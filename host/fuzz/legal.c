/* The legal moves of the register's board, whether its side to move is in check, and the list register judged: by a second reading of the Laws. */
#include "../c/legal_rule.h"
#include "fuzz.h"

static struct lent moves_part;

void legal_begin(void)
{
    if (!moves_part.low) lent_make(&moves_part, 2 * MOST_TEXT);
}

/* Of a board that is out of range there are none. */
static const struct legal *legal_here(const struct input *in)
{
    static struct legal l;
    l.count = 0;
    if (board_good(&in->board)) legal_of(&l, &in->board);
    return &l;
}

static bool check_here(const struct input *in)
{
    return board_good(&in->board) && side_in_check(in->board.pieces, in->board.side_to_move);
}

/* ---- The calls ---- */

void call_in_check(struct input *in)
{
    menkhodur_answer want = { board_good(&in->board) ? MENKHODUR_ACCEPTED : MENKHODUR_OUT_OF_RANGE, check_here(in) };
    about("in_check");
    for (unsigned turn = 0; turn < 2; turn++) expect_answer(want, CALL(turn, menkhodur_in_check, in->board));
}

static menkhodur_answer model_list(const struct input *in, const struct legal *l, size_t room)
{
    if (!board_good(&in->board)) return (menkhodur_answer){ MENKHODUR_OUT_OF_RANGE, 0 };
    if (l->count > MENKHODUR_LONGEST_LIST) return (menkhodur_answer){ MENKHODUR_BAD_LIST, 0 };
    return (menkhodur_answer){ room < l->count ? MENKHODUR_OUTPUT_TOO_SHORT : MENKHODUR_ACCEPTED, l->count };
}

static void expect_list(struct input *in, const struct legal *l, size_t room)
{
    menkhodur_answer want = model_list(in, l, room);
    about("legal_list");
    for (unsigned turn = 0; turn < 2; turn++) {
        lend(&moves_part, 2 * room, turn, turn);
        expect_answer(want, CALL(turn, menkhodur_legal_list, in->board, room ? (uint16_t *)(void *)moves_part.bytes : NULL, room));
        if (want.number == MENKHODUR_ACCEPTED) lent_expect(&moves_part, 0, l->moves, 2 * l->count);
        lent_same("room", &moves_part);
    }
}

/* In the room that the input asks for, in one that fits and in one that is too short. */
void call_legal_list(struct input *in)
{
    const struct legal *l = legal_here(in);
    expect_list(in, l, room_near(in, l->count < MOST_TEXT - 16 ? l->count : 0));
    if (l->count == 0 || l->count > MENKHODUR_LONGEST_LIST) return;
    expect_list(in, l, l->count - 1);
    expect_list(in, l, l->count);
}

static menkhodur_judged model_judged(const struct input *in, const struct legal *l, uint8_t in_check)
{
    if (!board_good(&in->board) || in_check > 1) return (menkhodur_judged){ .number = MENKHODUR_OUT_OF_RANGE };
    if (!list_good(in->list, in->entries) || l->count > MENKHODUR_LONGEST_LIST) return (menkhodur_judged){ .number = MENKHODUR_BAD_LIST };
    return judgement_of(l, check_here(in), in_check, in->list, in->entries);
}

/* With the byte that is owed, the other one, or any. */
void call_list_judged(struct input *in)
{
    uint8_t form = take(in), in_check = form < 64 ? check_here(in) : form < 128 ? !check_here(in) : form - 128;
    menkhodur_judged want = model_judged(in, legal_here(in), in_check), got;
    about("list_judged");
    for (unsigned turn = 0; turn < 2; turn++) {
        const uint16_t *list = lend_list(in, turn);
        got = CALL(turn, menkhodur_list_judged, in->board, in_check, in->entries ? list : NULL, in->entries);
        expect("number", want.number, got.number);
        expect_bytes("answer", &want, &got, sizeof want);
        list_same();
    }
}

/* The list register becomes the legal moves, begun at any of them; as many as it has room for. */
void legal_to_list(struct input *in)
{
    const struct legal *l = legal_here(in);
    size_t first = take(in);
    in->entries = l->count < MOST_ENTRIES ? l->count : MOST_ENTRIES;
    for (size_t i = 0; i < in->entries; i++) in->list[i] = l->moves[(first + i) % l->count];
}
