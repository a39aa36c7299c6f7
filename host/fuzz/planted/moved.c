/* Faults in how a struct is moved between C and a function of the archive, for host/c/planted, which builds this file with FAULT set and puts it before the
 * archive's own function, which it renames. On aarch64, where they are tried, a board is lent as a pointer to a copy, in the register or on the stack that is
 * its place among the arguments, and an answer of more than two words is written to where one register more points, x8. */
#include "../../menkhodur.h"

#include <string.h>

#if FAULT == 1 /* fen_write: two words of a board change places */
menkhodur_answer real_fen_write(menkhodur_board b, uint8_t *out, size_t room);
menkhodur_answer menkhodur_fen_write(menkhodur_board b, uint8_t *out, size_t room)
{
    uint64_t words[2];
    memcpy(words, &b, sizeof words);
    memcpy((uint8_t *)&b, &words[1], sizeof words[1]);
    memcpy((uint8_t *)&b + sizeof words[1], &words[0], sizeof words[0]);
    return real_fen_write(b, out, room);
}
#elif FAULT == 2 /* fen_write_full: the last word of a board is missing */
menkhodur_answer real_fen_write_full(menkhodur_board b, uint8_t *out, size_t room);
menkhodur_answer menkhodur_fen_write_full(menkhodur_board b, uint8_t *out, size_t room)
{
    memset((uint8_t *)&b + 8 * sizeof(uint64_t), 0, sizeof(uint64_t));
    return real_fen_write_full(b, out, room);
}
#elif FAULT == 3 /* clear_square: one register too few is filled */
menkhodur_stepped real_clear_square(uint8_t square);
menkhodur_stepped menkhodur_clear_square(menkhodur_board b, uint8_t square)
{
    (void)b;
    return real_clear_square(square);
}
#elif FAULT == 4 /* game_make_move: an argument comes before a board */
menkhodur_counts real_game_make_move(uint8_t *actions, size_t actions_length, uint8_t *positions, size_t positions_length, uint64_t action_count,
    uint64_t move_count, uint64_t move, uint8_t in_check, menkhodur_board next, const uint16_t *list, size_t entries);
menkhodur_counts menkhodur_game_make_move(uint8_t *actions, size_t actions_length, uint8_t *positions, size_t positions_length, uint64_t action_count,
    uint64_t move_count, uint64_t move, menkhodur_board next, uint8_t in_check, const uint16_t *list, size_t entries)
{
    return real_game_make_move(actions, actions_length, positions, positions_length, action_count, move_count, move, in_check, next, list, entries);
}
#elif FAULT == 5 /* piece: the place of an answer comes as the first argument */
void real_piece(menkhodur_stepped *given, menkhodur_board b, uint8_t square, uint8_t code);
menkhodur_stepped menkhodur_piece(menkhodur_board b, uint8_t square, uint8_t code)
{
    menkhodur_stepped given;
    real_piece(&given, b, square, code);
    return given;
}
#else
#error "no such FAULT"
#endif
