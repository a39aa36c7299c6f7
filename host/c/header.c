/* The header by itself. host/c/run compiles this file as each standard of C from C99 on and of C++ from C++11 on, with conversions
 * warned of: the header may be included twice, its macros are constants where their arguments are, and take a number of any type. */
#include "../menkhodur.h"
#include "../menkhodur.h"

#if MENKHODUR_VERSION < 1
#error "the preprocessor does not know the version"
#endif

/* The corners of the board and e4 by document 01's numbers: where one is another, the array's length is negative. */
enum { A1 = MENKHODUR_SQUARE('a', 1), H1 = MENKHODUR_SQUARE('h', 1), A8 = MENKHODUR_SQUARE('a', 8), H8 = MENKHODUR_SQUARE('h', 8) };
typedef char corners_are_squares[A1 == 0 && H1 == 7 && A8 == 56 && H8 == 63 && MENKHODUR_SQUARE('e', 4) == 28 ? 1 : -1];
typedef char a_square_is_a_byte[sizeof MENKHODUR_SQUARE('e', 4) == 1 ? 1 : -1];

enum { E2E4 = MENKHODUR_MOVE(MENKHODUR_SQUARE('e', 2), MENKHODUR_SQUARE('e', 4), MENKHODUR_PROMOTE_NONE) };
typedef char moves_are_of_squares[E2E4 == 12 + 64 * 28 ? 1 : -1];

uint16_t moves[2] = { E2E4, MENKHODUR_MOVE(52, 60, MENKHODUR_PROMOTE_QUEEN) };

int part_of(uint64_t move)
{
    switch (move) {
    case MENKHODUR_MOVE(12, 28, 0): return MENKHODUR_MOVE_SOURCE(E2E4);
    case MENKHODUR_LAST_MOVE: return MENKHODUR_MOVE_PROMOTION(move);
    default: return MENKHODUR_MOVE_DESTINATION(move);
    }
}

uint8_t square(char file, uint64_t rank)
{
    static const uint8_t center[4] = {
        MENKHODUR_SQUARE('d', 4), MENKHODUR_SQUARE('e', 4), MENKHODUR_SQUARE('d', 5), MENKHODUR_SQUARE('e', 5)
    };
    switch (rank) {
    case MENKHODUR_SQUARE('b', 1): return center[rank];
    default: return MENKHODUR_SQUARE(file, rank);
    }
}

uint16_t packed(uint8_t source, int destination, uint64_t promotion)
{
    uint16_t move = MENKHODUR_MOVE(source, destination, promotion);
    uint8_t from = MENKHODUR_MOVE_SOURCE(move), to = MENKHODUR_MOVE_DESTINATION(move), becomes = MENKHODUR_MOVE_PROMOTION(move);
    return MENKHODUR_MOVE(from, to, becomes);
}

size_t place(size_t position, size_t entry)
{
    return MENKHODUR_POSITION_SIZE * position + MENKHODUR_POSITION_MOVES + 2 * entry;
}

int by_laws_alone(menkhodur_ruling r)
{
    return r.claim == MENKHODUR_CLAIM_NONE && r.laws_claim == MENKHODUR_CLAIM_BY_COUNT && r.laws_count >= MENKHODUR_CLAIM_COUNT;
}

menkhodur_board with_men(menkhodur_board b)
{
    b.pieces[4] = MENKHODUR_WHITE_KING;
    b.side_to_move = MENKHODUR_BLACK;
    b.black_castle_rights = MENKHODUR_BOTH_SIDES;
    b.half_moves = MENKHODUR_LAST_COUNT;
    b.full_moves = 1;
    return b;
}

/* The rooms of the longest page that is reported on, and how many men were counted. */
uint8_t records[MENKHODUR_PAGE_RECORD * MENKHODUR_REPORT_LINES];
uint64_t numbers[MENKHODUR_PAGE_NUMBERS * MENKHODUR_REPORT_LINES];

uint64_t kings(const uint8_t *text, size_t length)
{
    menkhodur_report r = menkhodur_fen_report(text, length, records, sizeof records, numbers, MENKHODUR_PAGE_NUMBERS * MENKHODUR_REPORT_LINES);
    return r.number == MENKHODUR_ACCEPTED ? r.men[MENKHODUR_WHITE_KING - 1] + r.men[MENKHODUR_KINDS - 1] : 0;
}

/* The first move of a game's text, or of a variation behind it, as it was played: `move` is a field's name here, and a macro's parameter above. */
uint16_t last_played(const uint8_t *text, size_t length, menkhodur_board b, const uint16_t *list, size_t entries)
{
    uint8_t key[MENKHODUR_LONGEST_FEN];
    menkhodur_step s = menkhodur_game_step(text, length, 0, b, list, entries, key, sizeof key);
    menkhodur_pgn_move m = menkhodur_pgn_next(text, length, s.start + s.length, 0);
    if (m.opened > m.closed) s = menkhodur_play(text + m.start, m.length, b, list, entries, key, sizeof key);
    return MENKHODUR_MOVE(MENKHODUR_MOVE_SOURCE(s.move), MENKHODUR_MOVE_DESTINATION(s.move), MENKHODUR_MOVE_PROMOTION(s.move));
}

/* A side that is mated, and a list that is right: `move` is a field's name again. */
uint64_t mated(menkhodur_board b)
{
    uint16_t list[MENKHODUR_LONGEST_LIST];
    menkhodur_answer written = menkhodur_legal_list(b, list, MENKHODUR_LONGEST_LIST);
    menkhodur_judged j = menkhodur_list_judged(b, 0, list, written.value);
    return j.wrong == MENKHODUR_JUDGED_IN_CHECK && j.move == 0 && written.value == 0 ? menkhodur_in_check(b).value : 0;
}
