/* The version, the macros, and the header's constants: what is put in under a name stands in the text, or at the place of the log, that
 * document 01 gives it. */
#include "game.h"

#include <string.h>

static void check_version(void)
{
    about("menkhodur_version", "header and archive");
    expect("version", MENKHODUR_VERSION, menkhodur_version());
}

/* ---- Moves ---- */

static void check_move(uint64_t number, uint8_t source, uint8_t destination, uint8_t promotion)
{
    about("MENKHODUR_MOVE", "source %u, destination %u, promotion %u", source, destination, promotion);
    expect("move", number, MENKHODUR_MOVE(source, destination, promotion));
    expect("source", source, MENKHODUR_MOVE_SOURCE(number));
    expect("destination", destination, MENKHODUR_MOVE_DESTINATION(number));
    expect("promotion", promotion, MENKHODUR_MOVE_PROMOTION(number));
}

static void check_every_move(void)
{
    for (unsigned n = 0; n <= MENKHODUR_LAST_MOVE; n++) check_move(n, (uint8_t)(n & 63), (uint8_t)(n >> 6 & 63), (uint8_t)(n >> 12));
}

static void check_evaluation(void)
{
    unsigned source = 12, destination = 28, promotion = MENKHODUR_PROMOTE_QUEEN, move = 22284;
    about("MENKHODUR_MOVE", "each argument evaluated once");
    expect("move", 22284, MENKHODUR_MOVE(source++, destination++, promotion++));
    expect("source", 12, MENKHODUR_MOVE_SOURCE(move++));
    expect("destination", 28, MENKHODUR_MOVE_DESTINATION(move--));
    expect("promotion", 5, MENKHODUR_MOVE_PROMOTION(move++));
    expect("source after", 13, source);
    expect("destination after", 29, destination);
    expect("promotion after", 6, promotion);
    expect("move after", 22285, move);
}

static void check_promotion(uint8_t promotion, const char *text)
{
    struct part out = lend(MENKHODUR_LONGEST_COORDINATE);
    about("menkhodur_move_write", "promotion %u", promotion);
    expect_answer(MENKHODUR_ACCEPTED, strlen(text), menkhodur_move_write(MENKHODUR_MOVE(52, 60, promotion), out.bytes, out.length));
    expect_written("room", &out, 0, text, strlen(text));
    give_back(&out);
}

static void check_promotions(void)
{
    check_promotion(MENKHODUR_PROMOTE_NONE, "e7e8");
    check_promotion(MENKHODUR_PROMOTE_PAWN, "e7e8p");
    check_promotion(MENKHODUR_PROMOTE_KNIGHT, "e7e8n");
    check_promotion(MENKHODUR_PROMOTE_BISHOP, "e7e8b");
    check_promotion(MENKHODUR_PROMOTE_ROOK, "e7e8r");
    check_promotion(MENKHODUR_PROMOTE_QUEEN, "e7e8q");
    check_promotion(MENKHODUR_PROMOTE_KING, "e7e8k");
}

/* ---- Men, colours, rights ---- */

static void check_key(menkhodur_stepped step, const char *key)
{
    struct part out = lend(MENKHODUR_LONGEST_FEN);
    about("menkhodur_fen_write", "%s", key);
    expect("step", MENKHODUR_ACCEPTED, step.number);
    expect_answer(MENKHODUR_ACCEPTED, strlen(key), menkhodur_fen_write(step.board, out.bytes, out.length));
    expect_written("room", &out, 0, key, strlen(key));
    give_back(&out);
}

static void check_men(void)
{
    static const uint8_t men[] = {
        MENKHODUR_WHITE_PAWN, MENKHODUR_WHITE_KNIGHT, MENKHODUR_WHITE_BISHOP, MENKHODUR_WHITE_ROOK, MENKHODUR_WHITE_QUEEN, MENKHODUR_WHITE_KING,
        MENKHODUR_BLACK_PAWN, MENKHODUR_BLACK_KNIGHT, MENKHODUR_BLACK_BISHOP, MENKHODUR_BLACK_ROOK, MENKHODUR_BLACK_QUEEN, MENKHODUR_BLACK_KING,
    };
    char key[] = "8/8/8/8/8/8/8/.7 w - - 0 1";
    for (size_t i = 0; i < sizeof men; i++) {
        key[14] = "PNBRQKpnbrqk"[i];
        check_key(menkhodur_piece(empty_board, 0, men[i]), key);
        expect("empty", MENKHODUR_EMPTY, menkhodur_clear_square(menkhodur_piece(empty_board, 0, men[i]).board, 0).board.pieces[0]);
    }
}

static void check_colours_and_rights(void)
{
    check_key(menkhodur_side_to_move(empty_board, MENKHODUR_WHITE), "8/8/8/8/8/8/8/8 w - - 0 1");
    check_key(menkhodur_side_to_move(empty_board, MENKHODUR_BLACK), "8/8/8/8/8/8/8/8 b - - 0 1");
    check_key(menkhodur_castle_rights(empty_board, MENKHODUR_WHITE, MENKHODUR_NO_RIGHTS), "8/8/8/8/8/8/8/8 w - - 0 1");
    check_key(menkhodur_castle_rights(empty_board, MENKHODUR_WHITE, MENKHODUR_KING_SIDE), "8/8/8/8/8/8/8/8 w K - 0 1");
    check_key(menkhodur_castle_rights(empty_board, MENKHODUR_WHITE, MENKHODUR_BOTH_SIDES), "8/8/8/8/8/8/8/8 w KQ - 0 1");
    check_key(menkhodur_castle_rights(empty_board, MENKHODUR_BLACK, MENKHODUR_QUEEN_SIDE), "8/8/8/8/8/8/8/8 w q - 0 1");
    check_key(menkhodur_castle_rights(empty_board, MENKHODUR_BLACK, MENKHODUR_BOTH_SIDES), "8/8/8/8/8/8/8/8 w kq - 0 1");
}

/* ---- Bytes of a log that calls have made ---- */

/* A move or a counter. */
static uint64_t number_in(const uint8_t *bytes)
{
    return bytes[0] + 256u * bytes[1];
}

static void expect_action(const struct game *g, uint64_t i, uint64_t kind, uint64_t colour, uint64_t move)
{
    const uint8_t *action = g->actions.bytes + MENKHODUR_ACTION_SIZE * i;
    about("places of an action", "action %llu", (unsigned long long)i);
    expect("kind", kind, action[MENKHODUR_ACTION_KIND]);
    expect("colour", colour, action[MENKHODUR_ACTION_COLOUR]);
    expect("move", move, number_in(action + MENKHODUR_ACTION_MOVE));
}

static void expect_position(const struct game *g, uint64_t k, const struct position *p)
{
    const uint8_t *position = g->positions.bytes + MENKHODUR_POSITION_SIZE * k;
    menkhodur_board board;
    about("places of a position", "position %llu", (unsigned long long)k);
    memcpy(&board, position + MENKHODUR_POSITION_RECORD, KEY_NUMBERS);
    board.half_moves = (uint16_t)number_in(position + MENKHODUR_POSITION_HALF_MOVES);
    board.full_moves = (uint16_t)number_in(position + MENKHODUR_POSITION_FULL_MOVES);
    expect_board(&p->board, &board);
    expect("in check", p->in_check, position[MENKHODUR_POSITION_IN_CHECK]);
    expect("entries", p->entries, position[MENKHODUR_POSITION_ENTRIES]);
    for (size_t i = 0; i < MENKHODUR_LONGEST_LIST; i++)
        expect("move", i < p->entries ? p->list[i] : 0, number_in(position + MENKHODUR_POSITION_MOVES + 2 * i));
}

static void check_log_of(struct request last, uint64_t kind, uint8_t colour)
{
    struct game g = lend_game(MENKHODUR_ACTIONS_LENGTH, MENKHODUR_POSITIONS_LENGTH);
    struct position p = round_position(0, false);
    p.in_check = 1;
    p.list[2] = MENKHODUR_LAST_MOVE;
    p.entries = 3;
    start(&g, &p, MENKHODUR_ACCEPTED);
    play_round(&g, 12, false);
    play(&g, (struct request){ OFFER_DRAW, 0, MENKHODUR_BLACK, NULL }, MENKHODUR_ACCEPTED);
    play(&g, last, MENKHODUR_ACCEPTED);
    expect_position(&g, 0, &p);
    for (uint64_t k = 0; k < 12; k++) {
        struct position next = round_position(k + 1, false);
        expect_action(&g, k, MENKHODUR_MAKE_MOVE, 0, round_move(k));
        expect_position(&g, k + 1, &next);
    }
    expect_action(&g, 12, MENKHODUR_OFFER_DRAW, MENKHODUR_BLACK, 0);
    expect_action(&g, 13, kind, colour, 0);
    give_back_game(&g);
}

/* The numbers of documents 01 and 02, and how they come about. */
static void check_lengths(void)
{
    about("lengths of the parts", "by their items");
    expect("record of a line", 68, MENKHODUR_PAGE_RECORD);
    expect("counters", 68, MENKHODUR_POSITION_HALF_MOVES);
    expect("counters", 70, MENKHODUR_POSITION_FULL_MOVES);
    expect("in-check byte", 72, MENKHODUR_POSITION_IN_CHECK);
    expect("list", 73, MENKHODUR_POSITION_ENTRIES);
    expect("moves", 74, MENKHODUR_POSITION_MOVES);
    expect("position", 584, MENKHODUR_POSITION_SIZE);
    expect("position", MENKHODUR_POSITION_SIZE, MENKHODUR_POSITION_MOVES + 2 * MENKHODUR_LONGEST_LIST);
    expect("actions", MENKHODUR_ACTIONS_LENGTH, MENKHODUR_ACTION_SIZE * MENKHODUR_MAX_ACTIONS);
    expect("positions", 2392648, MENKHODUR_POSITIONS_LENGTH);
    expect("positions", MENKHODUR_POSITIONS_LENGTH, MENKHODUR_POSITION_SIZE * (MENKHODUR_MAX_MOVES + 1));
    expect("board", 72, sizeof(menkhodur_board));
    expect("counters", KEY_NUMBERS, offsetof(menkhodur_board, half_moves));
    expect("greatest counter", 9999, MENKHODUR_LAST_COUNT);
    expect("full FEN", MENKHODUR_LONGEST_FULL_FEN, MENKHODUR_LONGEST_FEN + strlen("9999 9999") - strlen("0 1"));
    expect("roll", 20554, MENKHODUR_LONGEST_ROLL);
    expect("roll", MENKHODUR_LONGEST_ROLL, KEY_NUMBERS + 2 * 2 + 2 + 4 * MENKHODUR_MAX_MOVES + (MENKHODUR_MAX_ACTIONS - MENKHODUR_MAX_MOVES));
    expect("differences", 658, MENKHODUR_MAX_DIFFERENCES);
    expect("lines of a report", 4096, MENKHODUR_REPORT_LINES);
    expect("kinds of men", MENKHODUR_BLACK_KING, MENKHODUR_KINDS);
    expect("men of a report", 8 * MENKHODUR_KINDS, offsetof(menkhodur_report, repeated) - offsetof(menkhodur_report, men));
    expect("report", 136, sizeof(menkhodur_report));
    expect("next move", 64, sizeof(menkhodur_pgn_move));
    expect("brackets before it", 48, offsetof(menkhodur_pgn_move, closed));
    expect("step", 128, sizeof(menkhodur_step));
    expect("its board", 56, offsetof(menkhodur_step, board));
    expect("judgement", 40, sizeof(menkhodur_judged));
    expect("its move", 32, offsetof(menkhodur_judged, move));
    expect("what is wrong", 24, offsetof(menkhodur_judged, wrong));
}

/* What may be wrong with a list, in the order in which it is asked for. */
static void check_judgements(void)
{
    about("judgements", "in their order");
    expect("right", 0, MENKHODUR_JUDGED_RIGHT);
    expect("not legal", 1, MENKHODUR_JUDGED_NOT_LEGAL);
    expect("twice", 2, MENKHODUR_JUDGED_TWICE);
    expect("missing", 3, MENKHODUR_JUDGED_MISSING);
    expect("in check", 4, MENKHODUR_JUDGED_IN_CHECK);
}

void check_layout(void)
{
    check_version();
    check_every_move();
    check_evaluation();
    check_promotions();
    check_men();
    check_colours_and_rights();
    check_lengths();
    check_judgements();
    check_log_of((struct request){ OFFER_DRAW, 0, MENKHODUR_WHITE, NULL }, MENKHODUR_OFFER_DRAW, MENKHODUR_WHITE);
    check_log_of((struct request){ ACCEPT_DRAW, 0, 0, NULL }, MENKHODUR_ACCEPT_DRAW, 0);
    check_log_of((struct request){ DECLARE_DRAW, 0, 0, NULL }, MENKHODUR_DECLARE_DRAW, 0);
    check_log_of((struct request){ RESIGN, 0, MENKHODUR_BLACK, NULL }, MENKHODUR_RESIGN, MENKHODUR_BLACK);
}
