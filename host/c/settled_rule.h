/* The settled record, written from the words of the header and not from the archive: what `menkhodur_board_settled` owes for a record in range. For
 * the checks here and for the fuzzer's harness. */
#ifndef SETTLED_RULE_H
#define SETTLED_RULE_H

#include "../menkhodur.h"

#include <stdbool.h>

/* "a pawn of the side to move stands beside the pawn that moved, on rank 5 with white to move and on rank 4 with black" */
static inline bool stands_beside(const menkhodur_board *b, int square)
{
    bool white = b->side_to_move == MENKHODUR_WHITE;
    int rank = square / 8 + 1, file = square % 8 + 1, apart = file - b->en_passant;
    if (b->pieces[square] != (white ? MENKHODUR_WHITE_PAWN : MENKHODUR_BLACK_PAWN)) return false;
    return rank == (white ? 5 : 4) && (apart == 1 || apart == -1);
}

/* "its en passant file is cleared unless"; where there is none, it stays none, though a pawn on file a is one file from 0. */
static inline menkhodur_board settled_of(menkhodur_board b)
{
    bool kept = false;
    for (int square = 0; square < 64; square++) kept = kept || stands_beside(&b, square);
    if (!kept) b.en_passant = 0;
    return b;
}

#endif
