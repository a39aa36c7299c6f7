/* NULL with length 0, for each parameter that is a pointer and a length: an empty text, list, part, roll or room. */
#include "game.h"

#include <string.h>

static const uint16_t one_move[1] = { 1153 };

static menkhodur_board knight(void)
{
    return board_with(0, 1, (uint8_t[]){ 1 }, (uint8_t[]){ 2 });
}

static void check_texts(void)
{
    menkhodur_fen fen = menkhodur_fen_read(NULL, 0), full = menkhodur_fen_read_full(NULL, 0);
    about("menkhodur_fen_read", "NULL text");
    expect("number", MENKHODUR_TOO_FEW_TOKENS, fen.number);
    expect("offset", 0, fen.offset);
    expect_board(&no_board, &fen.board);
    about("menkhodur_fen_read_full", "NULL text");
    expect("number", MENKHODUR_TOO_FEW_TOKENS, full.number);
    expect("offset", 0, full.offset);
    expect_board(&no_board, &full.board);
    about("menkhodur_fen_settled", "NULL text");
    expect_placed((menkhodur_placed){ MENKHODUR_TOO_FEW_TOKENS, 0, 0 }, menkhodur_fen_settled(NULL, 0, NULL, 0));
    about("menkhodur_move_read", "NULL text");
    expect_placed((menkhodur_placed){ MENKHODUR_INVALID_UCI_MOVE, 0, 0 }, menkhodur_move_read(NULL, 0));
    about("menkhodur_san_read", "NULL text");
    expect_answer(MENKHODUR_INVALID_SAN_MOVE, 0, menkhodur_san_read(knight(), one_move, 1, NULL, 0));
    about("menkhodur_san_read_standard", "NULL text");
    expect_answer(MENKHODUR_INVALID_SAN_MOVE, 0, menkhodur_san_read_standard(knight(), one_move, 1, NULL, 0));
}

static void check_lists(void)
{
    struct part out = lend(MENKHODUR_LONGEST_NAME), text = lend_text("Nc3");
    about("menkhodur_san_read", "NULL list");
    expect_answer(MENKHODUR_INVALID_SAN_MOVE, 0, menkhodur_san_read(knight(), NULL, 0, text.bytes, text.length));
    expect_answer(MENKHODUR_INVALID_SAN_MOVE, 0, menkhodur_san_read(knight(), NULL, 0, NULL, 0));
    expect_unchanged("text", &text);
    about("menkhodur_san_name", "NULL list");
    expect_answer(MENKHODUR_NOT_LISTED, 0, menkhodur_san_name(knight(), NULL, 0, 1153, out.bytes, out.length));
    expect_answer(MENKHODUR_NOT_LISTED, 0, menkhodur_san_name(knight(), NULL, 0, 1153, NULL, 0));
    expect_unchanged("room", &out);
    give_back(&out);
    give_back(&text);
}

static void check_lists_of_standard(void)
{
    struct part out = lend(MENKHODUR_LONGEST_STANDARD_NAME), text = lend_text("Nc3");
    about("menkhodur_san_read_standard", "NULL list");
    expect_answer(MENKHODUR_INVALID_SAN_MOVE, 0, menkhodur_san_read_standard(knight(), NULL, 0, text.bytes, text.length));
    expect_answer(MENKHODUR_INVALID_SAN_MOVE, 0, menkhodur_san_read_standard(knight(), NULL, 0, NULL, 0));
    expect_unchanged("text", &text);
    about("menkhodur_san_name_standard", "NULL list");
    expect_answer(MENKHODUR_NOT_LISTED, 0, menkhodur_san_name_standard(knight(), NULL, 0, 1153, out.bytes, out.length));
    expect_answer(MENKHODUR_NOT_LISTED, 0, menkhodur_san_name_standard(knight(), NULL, 0, 1153, NULL, 0));
    expect_unchanged("room", &out);
    give_back(&out);
    give_back(&text);
}

/* The text of a page and both its rooms. */
static void check_pages(void)
{
    struct part text = lend_text("K w - -\n"), records = lend(MENKHODUR_PAGE_RECORD), numbers = lend(16);
    uint64_t *told = (uint64_t *)(void *)numbers.bytes;
    about("menkhodur_fen_page", "NULL text");
    expect_answer(MENKHODUR_ACCEPTED, 0, menkhodur_fen_page(NULL, 0, records.bytes, records.length, told, 2));
    expect_answer(MENKHODUR_ACCEPTED, 0, menkhodur_fen_page(NULL, 0, NULL, 0, NULL, 0));
    about("menkhodur_fen_page", "NULL rooms");
    expect_answer(MENKHODUR_OUTPUT_TOO_SHORT, 1, menkhodur_fen_page(text.bytes, text.length, NULL, 0, told, 2));
    expect_answer(MENKHODUR_OUTPUT_TOO_SHORT, 1, menkhodur_fen_page(text.bytes, text.length, records.bytes, records.length, NULL, 0));
    expect_answer(MENKHODUR_OUTPUT_TOO_SHORT, 1, menkhodur_fen_page(text.bytes, text.length, NULL, 0, NULL, 0));
    expect_unchanged("text", &text);
    expect_unchanged("records", &records);
    expect_unchanged("numbers", &numbers);
    give_back(&text);
    give_back(&records);
    give_back(&numbers);
}

/* Of an empty text all figures are 0; with 7 only the lines are told. */
static void expect_nothing(uint64_t number, uint64_t lines, menkhodur_report got)
{
    const menkhodur_report want = { .number = number, .lines = lines };
    expect("number", number, got.number);
    expect("lines", lines, got.lines);
    expect("the same in all figures", 0, (uint64_t)(memcmp(&want, &got, sizeof want) != 0));
}

static void check_reports(void)
{
    struct part text = lend_text("K w - -\n"), records = lend(MENKHODUR_PAGE_RECORD), numbers = lend(16);
    uint64_t *told = (uint64_t *)(void *)numbers.bytes;
    about("menkhodur_fen_report", "NULL text");
    expect_nothing(MENKHODUR_ACCEPTED, 0, menkhodur_fen_report(NULL, 0, records.bytes, records.length, told, 2));
    expect_nothing(MENKHODUR_ACCEPTED, 0, menkhodur_fen_report(NULL, 0, NULL, 0, NULL, 0));
    about("menkhodur_fen_report", "NULL rooms");
    expect_nothing(MENKHODUR_OUTPUT_TOO_SHORT, 1, menkhodur_fen_report(text.bytes, text.length, NULL, 0, told, 2));
    expect_nothing(MENKHODUR_OUTPUT_TOO_SHORT, 1, menkhodur_fen_report(text.bytes, text.length, records.bytes, records.length, NULL, 0));
    expect_nothing(MENKHODUR_OUTPUT_TOO_SHORT, 1, menkhodur_fen_report(text.bytes, text.length, NULL, 0, NULL, 0));
    expect_unchanged("text", &text);
    expect_unchanged("records", &records);
    expect_unchanged("numbers", &numbers);
    give_back(&text);
    give_back(&records);
    give_back(&numbers);
}

/* The text of a settled key, and its room. */
static void check_settled_of_null(void)
{
    struct part text = lend_text("8/8/8/8/4P3/8/8/8 b - e3"), out = lend(MENKHODUR_LONGEST_FEN);
    about("menkhodur_fen_settled", "NULL text, and a room");
    expect_placed((menkhodur_placed){ MENKHODUR_TOO_FEW_TOKENS, 0, 0 }, menkhodur_fen_settled(NULL, 0, out.bytes, out.length));
    about("menkhodur_fen_settled", "NULL room");
    expect_placed((menkhodur_placed){ MENKHODUR_OUTPUT_TOO_SHORT, 27, 0 }, menkhodur_fen_settled(text.bytes, text.length, NULL, 0));
    expect_placed((menkhodur_placed){ MENKHODUR_TOO_FEW_TOKENS, 0, 3 }, menkhodur_fen_settled(text.bytes, 3, NULL, 0));
    expect_unchanged("text", &text);
    expect_unchanged("room", &out);
    give_back(&text);
    give_back(&out);
}

static void check_rooms(void)
{
    about("menkhodur_fen_write", "NULL room");
    expect_answer(MENKHODUR_OUTPUT_TOO_SHORT, 25, menkhodur_fen_write(empty_board, NULL, 0));
    about("menkhodur_fen_write_full", "NULL room");
    expect_answer(MENKHODUR_OUTPUT_TOO_SHORT, 25, menkhodur_fen_write_full(empty_board, NULL, 0));
    about("menkhodur_move_write", "NULL room");
    expect_answer(MENKHODUR_OUTPUT_TOO_SHORT, 4, menkhodur_move_write(1804, NULL, 0));
    about("menkhodur_san_name", "NULL room");
    expect_answer(MENKHODUR_OUTPUT_TOO_SHORT, 3, menkhodur_san_name(knight(), one_move, 1, 1153, NULL, 0));
    about("menkhodur_san_name_standard", "NULL room");
    expect_answer(MENKHODUR_OUTPUT_TOO_SHORT, 3, menkhodur_san_name_standard(knight(), one_move, 1, 1153, NULL, 0));
}

/* No text is well formed, has no move, and ends where it begins. */
static void check_move_text_of_null(void)
{
    about("menkhodur_pgn_check", "NULL text");
    menkhodur_pgn_count count = menkhodur_pgn_check(NULL, 0);
    expect("number", MENKHODUR_ACCEPTED, count.number);
    expect("moves", 0, count.moves);
    about("menkhodur_pgn_next", "NULL text");
    expect("number", MENKHODUR_ACCEPTED, menkhodur_pgn_next(NULL, 0, 0, 0).number);
    expect("found", 0, menkhodur_pgn_next(NULL, 0, 0, 0).found);
    expect("number", MENKHODUR_LEFT_OPEN, menkhodur_pgn_next(NULL, 0, 0, 1).number);
    expect("number", MENKHODUR_UNKNOWN_TOKEN, menkhodur_pgn_next(NULL, 0, 1, 0).number);
}

static void expect_step(uint64_t number, uint64_t found, uint64_t length, uint64_t key_length, const menkhodur_board *board, menkhodur_step got)
{
    expect("number", number, got.number);
    expect("found", found, got.found);
    expect("length", length, got.length);
    expect("length of the key", key_length, got.key_length);
    expect_board(board, &got.board);
}

/* A game's text, the list and the room. */
static void check_steps_of_null(void)
{
    struct part text = lend_text("Nc3"), out = lend(MENKHODUR_LONGEST_FEN);
    const menkhodur_board b = knight();
    about("menkhodur_game_step", "NULL text, NULL list, NULL room");
    expect_step(MENKHODUR_ACCEPTED, 0, 0, 0, &b, menkhodur_game_step(NULL, 0, 0, b, one_move, 1, out.bytes, out.length));
    expect_step(MENKHODUR_ACCEPTED, 0, 0, 0, &b, menkhodur_game_step(NULL, 0, 0, b, NULL, 0, NULL, 0));
    expect_step(MENKHODUR_UNKNOWN_TOKEN, 0, 0, 0, &b, menkhodur_game_step(NULL, 0, 1, b, NULL, 0, NULL, 0));
    expect_step(MENKHODUR_INVALID_SAN_MOVE, 1, 3, 0, &b, menkhodur_game_step(text.bytes, text.length, 0, b, NULL, 0, out.bytes, out.length));
    expect_step(MENKHODUR_OUTPUT_TOO_SHORT, 1, 3, 27, &b, menkhodur_game_step(text.bytes, text.length, 0, b, one_move, 1, NULL, 0));
    about("menkhodur_play", "NULL text, NULL list, NULL room");
    expect_step(MENKHODUR_INVALID_SAN_MOVE, 1, 0, 0, &b, menkhodur_play(NULL, 0, b, one_move, 1, out.bytes, out.length));
    expect_step(MENKHODUR_INVALID_SAN_MOVE, 1, 0, 0, &b, menkhodur_play(NULL, 0, b, NULL, 0, NULL, 0));
    expect_step(MENKHODUR_INVALID_SAN_MOVE, 1, 3, 0, &b, menkhodur_play(text.bytes, text.length, b, NULL, 0, out.bytes, out.length));
    expect_step(MENKHODUR_OUTPUT_TOO_SHORT, 1, 3, 27, &b, menkhodur_play(text.bytes, text.length, b, one_move, 1, NULL, 0));
    expect_unchanged("text", &text);
    expect_unchanged("room", &out);
    give_back(&text);
    give_back(&out);
}

/* The room of the legal moves, and the list that is judged. A knight on b1 alone goes to d2, a3 and c3. */
static void check_legal_of_null(void)
{
    const menkhodur_board b = knight();
    menkhodur_judged j = menkhodur_list_judged(b, 0, NULL, 0);
    about("menkhodur_legal_list", "NULL room");
    expect_answer(MENKHODUR_OUTPUT_TOO_SHORT, 3, menkhodur_legal_list(b, NULL, 0));
    expect_answer(MENKHODUR_ACCEPTED, 0, menkhodur_legal_list(empty_board, NULL, 0));
    about("menkhodur_list_judged", "NULL list");
    expect("number", MENKHODUR_ACCEPTED, j.number);
    expect("entries", 3, j.entries);
    expect("wrong", MENKHODUR_JUDGED_MISSING, j.wrong);
    expect("move", MENKHODUR_MOVE(1, 11, 0), j.move);
    expect("wrong", MENKHODUR_JUDGED_RIGHT, menkhodur_list_judged(empty_board, 0, NULL, 0).wrong);
    expect("wrong", MENKHODUR_JUDGED_IN_CHECK, menkhodur_list_judged(empty_board, 1, NULL, 0).wrong);
}

static void expect_no_roll(uint64_t number, menkhodur_roll got)
{
    expect("number", number, got.number);
    expect("actions counted", 0, got.actions);
    expect_board(&no_board, &got.board);
}

/* A roll, the part that its actions go to or come from, and the room for it. */
static void check_rolls_of_null(void)
{
    struct part actions = lend(MENKHODUR_ACTIONS_LENGTH), out = lend(MENKHODUR_LONGEST_ROLL);
    about("menkhodur_roll_read", "NULL roll, NULL part");
    expect_no_roll(MENKHODUR_BAD_ROLL, menkhodur_roll_read(NULL, 0, actions.bytes, actions.length));
    expect_no_roll(MENKHODUR_PART_TOO_SHORT, menkhodur_roll_read(NULL, 0, NULL, 0));
    about("menkhodur_roll_read_old", "NULL roll, NULL part");
    expect_no_roll(MENKHODUR_BAD_ROLL, menkhodur_roll_read_old(NULL, 0, actions.bytes, actions.length));
    expect_no_roll(MENKHODUR_PART_TOO_SHORT, menkhodur_roll_read_old(NULL, 0, NULL, 0));
    about("menkhodur_roll_write", "NULL part, NULL room");
    expect_answer(MENKHODUR_PART_TOO_SHORT, 0, menkhodur_roll_write(initial, NULL, 0, 0, out.bytes, out.length));
    expect_answer(MENKHODUR_PART_TOO_SHORT, 0, menkhodur_roll_write(initial, NULL, 0, 0, NULL, 0));
    expect_answer(MENKHODUR_OUTPUT_TOO_SHORT, 71, menkhodur_roll_write(initial, actions.bytes, actions.length, 0, NULL, 0));
    expect_unchanged("actions", &actions);
    expect_unchanged("room", &out);
    give_back(&actions);
    give_back(&out);
}

/* Either roll, and the room for what differs: equal rolls need none. */
static void check_differences_of_null(void)
{
    static const uint8_t plain[71] = { [FULL_MOVES] = 1 }, pawn[71] = { MENKHODUR_WHITE_PAWN, [FULL_MOVES] = 1 };
    struct part out = lend(MENKHODUR_MAX_DIFFERENCES);
    about("menkhodur_roll_differences", "NULL rolls, NULL room");
    expect_answer(MENKHODUR_BAD_ROLL, 0, menkhodur_roll_differences(NULL, 0, NULL, 0, out.bytes, out.length));
    expect_answer(MENKHODUR_BAD_ROLL, 0, menkhodur_roll_differences(plain, sizeof plain, NULL, 0, out.bytes, out.length));
    expect_answer(MENKHODUR_BAD_ROLL, 0, menkhodur_roll_differences(NULL, 0, plain, sizeof plain, NULL, 0));
    expect_answer(MENKHODUR_ACCEPTED, 0, menkhodur_roll_differences(plain, sizeof plain, plain, sizeof plain, NULL, 0));
    expect_answer(MENKHODUR_OUTPUT_TOO_SHORT, 6, menkhodur_roll_differences(pawn, sizeof pawn, plain, sizeof plain, NULL, 0));
    expect_unchanged("room", &out);
    give_back(&out);
}

/* An empty list is a list: the game that starts with it, or comes to it, has ended. */
static void check_empty_lists(void)
{
    struct game g = lend_game(MENKHODUR_ACTIONS_LENGTH, MENKHODUR_POSITIONS_LENGTH);
    struct position p = round_position(0, false), none = p, last = round_position(1, false);
    none.entries = last.entries = 0;
    last.in_check = 1;
    empty_list_is_null = true;
    start(&g, &none, MENKHODUR_ACCEPTED);
    ask(&g, RESULT, MENKHODUR_ACCEPTED, MENKHODUR_STALEMATE);
    start(&g, &p, MENKHODUR_ACCEPTED);
    play(&g, (struct request){ MAKE_MOVE, round_move(0), 0, &last }, MENKHODUR_ACCEPTED);
    ask(&g, RESULT, MENKHODUR_ACCEPTED, MENKHODUR_WHITE_CHECKMATES);
    empty_list_is_null = false;
    give_back_game(&g);
}

/* Either part as NULL, and both. */
static void check_part(bool actions, bool positions)
{
    struct game g = lend_game(actions ? 0 : MENKHODUR_ACTIONS_LENGTH, positions ? 0 : MENKHODUR_POSITIONS_LENGTH);
    struct position p = round_position(0, false);
    if (actions) g.actions.bytes = NULL;
    if (positions) g.positions.bytes = NULL;
    else put_start(&g, &p);
    start(&g, &p, MENKHODUR_PART_TOO_SHORT);
    for (enum call c = 0; c < CALLS; c++) refuse(&g, c, MENKHODUR_PART_TOO_SHORT);
    give_back_game(&g);
}

void check_nulls(void)
{
    check_texts();
    check_lists();
    check_lists_of_standard();
    check_pages();
    check_reports();
    check_settled_of_null();
    check_rooms();
    check_rolls_of_null();
    check_differences_of_null();
    check_move_text_of_null();
    check_steps_of_null();
    check_legal_of_null();
    check_empty_lists();
    check_part(true, false);
    check_part(false, true);
    check_part(true, true);
}
