/* The 70 numbers of a board record by their place, and the least and the greatest that each may be: document 01, "Numbers of the record, the
 * move and the log", and for the counters, which are the last two, document 02, order 12. For the checks here and for the fuzzer's harness. */
#ifndef RECORD_H
#define RECORD_H

#include "../menkhodur.h"

/* The numbers that a key names come first, a byte each. */
enum { KEY_NUMBERS = MENKHODUR_PAGE_RECORD, HALF_MOVES = KEY_NUMBERS, FULL_MOVES, ALL_NUMBERS };

/* One of the numbers that a key names. */
static inline uint8_t *number_of(menkhodur_board *b, unsigned which)
{
    uint8_t *behind[4] = { &b->side_to_move, &b->white_castle_rights, &b->black_castle_rights, &b->en_passant };
    return which < 64 ? &b->pieces[which] : behind[which - 64];
}

static inline unsigned get_number(menkhodur_board b, unsigned which)
{
    if (which < KEY_NUMBERS) return *number_of(&b, which);
    return which == HALF_MOVES ? b.half_moves : b.full_moves;
}

static inline void set_number(menkhodur_board *b, unsigned which, unsigned number)
{
    if (which < KEY_NUMBERS) *number_of(b, which) = (uint8_t)number;
    else if (which == HALF_MOVES) b->half_moves = (uint16_t)number;
    else b->full_moves = (uint16_t)number;
}

static inline unsigned least_of(unsigned which)
{
    return which == FULL_MOVES;
}

static inline unsigned limit_of(unsigned which)
{
    static const unsigned behind[6] = { 1, 3, 3, 8, 9999, 9999 };
    return which < 64 ? 12 : behind[which - 64];
}

/* The greatest that its type holds. */
static inline unsigned largest_of(unsigned which)
{
    return which < KEY_NUMBERS ? 255 : 65535;
}

#endif
