/* What a call only reads may be the same memory: a list and a text, the two parts of a query, two rolls. */
#include "game.h"

#include <string.h>

enum { B1C3 = 1 + 64 * 18, B1A3 = 1 + 64 * 16, A1 = 0, B1 = 1, C1 = 2, D1 = 3 };

/* The entries are moves, and the bytes of the first two begin with a text: 'N' and 'c', '3' and 0. */
static void check_text_in_list(void)
{
    static const uint16_t moves[3] = { 'N' + 256 * 'c', '3', B1C3 };
    struct part list = lend_bytes(moves, sizeof moves);
    menkhodur_board knight = board_with(MENKHODUR_WHITE, 1, (uint8_t[]){ B1 }, (uint8_t[]){ MENKHODUR_WHITE_KNIGHT });
    about("menkhodur_san_read", "a text that lies in the list");
    expect_answer(MENKHODUR_ACCEPTED, B1C3, menkhodur_san_read(knight, (const uint16_t *)(const void *)list.bytes, 3, list.bytes, 3));
    expect_answer(MENKHODUR_INVALID_SAN_MOVE, 0, menkhodur_san_read(knight, (const uint16_t *)(const void *)list.bytes, 2, list.bytes, 3));
    about("menkhodur_san_read_standard", "a text that lies in the list");
    expect_answer(MENKHODUR_ACCEPTED, B1C3, menkhodur_san_read_standard(knight, (const uint16_t *)(const void *)list.bytes, 3, list.bytes, 3));
    expect_answer(MENKHODUR_INVALID_SAN_MOVE, 0, menkhodur_san_read_standard(knight, (const uint16_t *)(const void *)list.bytes, 2, list.bytes, 3));
    expect_unchanged("list", &list);
    give_back(&list);
}

/* The same for a text that is played, and for the text of a game. */
static void check_game_in_list(void)
{
    static const uint16_t moves[3] = { 'N' + 256 * 'c', '3', B1C3 };
    static const char key[] = "8/8/8/8/8/2N5/8/8 b - - 0 1";
    struct part list = lend_bytes(moves, sizeof moves), out = lend(sizeof key - 1);
    const uint16_t *entries = (const uint16_t *)(const void *)list.bytes;
    menkhodur_board knight = board_with(MENKHODUR_WHITE, 1, (uint8_t[]){ B1 }, (uint8_t[]){ MENKHODUR_WHITE_KNIGHT });
    about("menkhodur_play", "a text that lies in the list");
    expect("number", MENKHODUR_INVALID_SAN_MOVE, menkhodur_play(list.bytes, 3, knight, entries, 2, out.bytes, out.length).number);
    expect_unchanged("room", &out);
    expect("move", B1C3, menkhodur_play(list.bytes, 3, knight, entries, 3, out.bytes, out.length).move);
    expect_written("room", &out, 0, key, out.length);
    give_back(&out);
    out = lend(sizeof key - 1);
    about("menkhodur_game_step", "a text that lies in the list");
    expect("number", MENKHODUR_UNKNOWN_TOKEN, menkhodur_game_step(list.bytes, 4, 3, knight, entries, 3, out.bytes, out.length).number);
    expect_unchanged("room", &out);
    expect("move", B1C3, menkhodur_game_step(list.bytes, 4, 0, knight, entries, 3, out.bytes, out.length).move);
    expect_written("room", &out, 0, key, out.length);
    expect_unchanged("list", &list);
    give_back(&out);
    give_back(&list);
}

/* One memory is both parts: the first four squares of the start are also the first action. */
static struct game one_part(const uint8_t *first_action, uint16_t move)
{
    struct game g = lend_game(0, MENKHODUR_POSITIONS_LENGTH);
    struct position p = { empty_board, 0, { move }, 1 };
    for (unsigned square = A1; square <= D1; square++) p.board.pieces[square] = first_action[square];
    put_start(&g, &p);
    give_back(&g.actions);
    g.actions = g.positions;
    return g;
}

static void check_one_part(const uint8_t *first_action, uint64_t result)
{
    struct game g = one_part(first_action, B1C3);
    g.action_count = 1;
    ask(&g, RESULT, MENKHODUR_ACCEPTED, result);
    ask(&g, CAN_DECLARE, MENKHODUR_ACCEPTED, 0);
    ask(&g, CAN_CLAIM, MENKHODUR_ACCEPTED, 0);
    ask_ruling(&g, (menkhodur_ruling){ 0 });
    give_back(&g.positions);
}

/* The action is a move of the start's list, and the position after it follows. */
static void check_one_part_with_move(void)
{
    struct game g = one_part((uint8_t[]){ MENKHODUR_MAKE_MOVE, 0, B1A3 % 256, B1A3 / 256 }, B1A3);
    struct position next = { empty_board, 0, { B1C3 }, 1 };
    /* No man stands on b1 or a3: the others stay where they are, and the clock goes on. */
    memcpy(next.board.pieces, g.positions.bytes, sizeof next.board.pieces);
    next.board.side_to_move = MENKHODUR_BLACK;
    next.board.half_moves = 1;
    append(&g, (struct request){ MAKE_MOVE, B1A3, 0, &next });
    ask(&g, RESULT, MENKHODUR_ACCEPTED, MENKHODUR_GOES_ON);
    ask(&g, CAN_DECLARE, MENKHODUR_ACCEPTED, 0);
    ask(&g, CAN_CLAIM, MENKHODUR_ACCEPTED, 0);
    ask_ruling(&g, (menkhodur_ruling){ .count = 1, .laws_count = 1 });
    give_back(&g.positions);
}

/* One roll in another. From the first byte on: zeros, the counters 0 and 1, one offer. From the second on: zeros, 1 and 1, four offers. */
static void check_rolls_that_overlap(void)
{
    enum { FIRST = KEY_NUMBERS + 4, SECOND = KEY_NUMBERS + 7 };
    static const uint8_t bytes[SECOND + 1] = { [KEY_NUMBERS] = 0, 1, 1, 4, 4, 4, 4, 4 };
    static const char differences[] = "half 0 1\naction 1 0 4\n";
    struct part rolls = lend_bytes(bytes, sizeof bytes), out = lend(sizeof differences - 1);
    about("menkhodur_roll_differences", "rolls in one memory");
    expect_answer(MENKHODUR_ACCEPTED, 0, menkhodur_roll_differences(rolls.bytes, FIRST, rolls.bytes, FIRST, out.bytes, out.length));
    expect_answer(MENKHODUR_BAD_ROLL, 0, menkhodur_roll_differences(rolls.bytes, FIRST, rolls.bytes, FIRST + 1, out.bytes, out.length));
    expect_unchanged("room", &out);
    expect_answer(MENKHODUR_ACCEPTED, out.length, menkhodur_roll_differences(rolls.bytes, FIRST, rolls.bytes + 1, SECOND, out.bytes, out.length));
    expect_written("room", &out, 0, differences, out.length);
    expect_unchanged("rolls", &rolls);
    give_back(&rolls);
    give_back(&out);
}

void check_overlaps(void)
{
    check_rolls_that_overlap();
    check_text_in_list();
    check_game_in_list();
    check_one_part((uint8_t[]){ MENKHODUR_OFFER_DRAW, MENKHODUR_BLACK, 0, 0 }, MENKHODUR_GOES_ON);
    check_one_part((uint8_t[]){ MENKHODUR_RESIGN, MENKHODUR_BLACK, 0, 0 }, MENKHODUR_BLACK_RESIGNS);
    check_one_part_with_move();
}
