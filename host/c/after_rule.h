/* The board after a move, written from document 02, orders 9 and 12, and not from the archive: what `menkhodur_board_after` owes for a record
 * and a move in range, and what a logged move must come with. For the checks here and for the fuzzer's harness. */
#ifndef AFTER_RULE_H
#define AFTER_RULE_H

#include "../menkhodur.h"

#include <stdbool.h>

static inline bool is_pawn(uint8_t man)
{
    return man == MENKHODUR_WHITE_PAWN || man == MENKHODUR_BLACK_PAWN;
}

static inline bool is_king(uint8_t man)
{
    return man == MENKHODUR_WHITE_KING || man == MENKHODUR_BLACK_KING;
}

/* "a king going two files along its rank, and what stood in that side's corner of the rank goes to the square passed over" */
static inline void castle(menkhodur_board *b, int source, int destination)
{
    int corner = destination > source ? source / 8 * 8 + 7 : source / 8 * 8;
    uint8_t stood = b->pieces[corner];
    if (destination / 8 != source / 8 || (destination - source != 2 && source - destination != 2)) return;
    b->pieces[corner] = MENKHODUR_EMPTY;
    b->pieces[(source + destination) / 2] = stood;
}

/* "a pawn changing files to an empty square, and clears the square on its old rank and new file" */
static inline void take_in_passing(menkhodur_board *b, int source, int destination)
{
    if (source % 8 == destination % 8 || b->pieces[destination] != MENKHODUR_EMPTY) return;
    b->pieces[source / 8 * 8 + destination % 8] = MENKHODUR_EMPTY;
}

/* "set only when a double pawn step (two ranks on one file) arrives beside an enemy pawn" */
static inline uint8_t file_after(const menkhodur_board *before, int source, int destination)
{
    uint8_t man = before->pieces[source], enemy = man == MENKHODUR_WHITE_PAWN ? MENKHODUR_BLACK_PAWN : MENKHODUR_WHITE_PAWN;
    bool left = destination % 8 > 0 && before->pieces[destination - 1] == enemy;
    bool right = destination % 8 < 7 && before->pieces[destination + 1] == enemy;
    if (!is_pawn(man) || (destination - source != 16 && source - destination != 16)) return 0;
    return left || right ? (uint8_t)(destination % 8 + 1) : 0;
}

static inline uint8_t rights_kept(uint8_t rights, uint8_t back_rank, int square)
{
    if (square == back_rank) return rights & MENKHODUR_KING_SIDE;
    if (square == back_rank + 4) return MENKHODUR_NO_RIGHTS;
    return square == back_rank + 7 ? rights & MENKHODUR_QUEEN_SIDE : rights;
}

static inline uint8_t set_down(uint8_t man, uint64_t promotion)
{
    if (man == MENKHODUR_EMPTY || promotion == MENKHODUR_PROMOTE_NONE) return man;
    return (uint8_t)(man < MENKHODUR_BLACK_PAWN ? promotion : promotion + 6);
}

/* "stops at 9,999" */
static inline uint16_t one_more(uint16_t count)
{
    return count < 9999 ? (uint16_t)(count + 1) : count;
}

/* "by the PGN rule": half-moves since the last pawn advance or capture. For any move, as document 01 counts: "a move with a pawn on its source, or
 * onto an occupied square" begins again, on the board before it; so a man that is overwritten in castling, or lost rights, do not. */
static inline uint16_t half_moves_after(const menkhodur_board *before, int source, int destination)
{
    bool restarts = is_pawn(before->pieces[source]) || before->pieces[destination] != MENKHODUR_EMPTY;
    return restarts ? 0 : one_more(before->half_moves);
}

/* "by the PGN rule": one more after each move by black, which is the side to move of the record, whoever moves. */
static inline uint16_t full_moves_after(const menkhodur_board *before)
{
    return before->side_to_move == MENKHODUR_BLACK ? one_more(before->full_moves) : before->full_moves;
}

static inline menkhodur_board after_of(menkhodur_board before, uint64_t move)
{
    int source = (int)(move % 64), destination = (int)(move / 64 % 64);
    uint8_t man = before.pieces[source];
    menkhodur_board b = before;
    if (is_king(man)) castle(&b, source, destination);
    if (is_pawn(man)) take_in_passing(&b, source, destination);
    b.pieces[source] = MENKHODUR_EMPTY;
    b.pieces[destination] = set_down(man, move / 4096);
    b.side_to_move = before.side_to_move == MENKHODUR_WHITE ? MENKHODUR_BLACK : MENKHODUR_WHITE;
    b.white_castle_rights = rights_kept(rights_kept(before.white_castle_rights, 0, source), 0, destination);
    b.black_castle_rights = rights_kept(rights_kept(before.black_castle_rights, 56, source), 56, destination);
    b.en_passant = file_after(&before, source, destination);
    b.half_moves = half_moves_after(&before, source, destination);
    b.full_moves = full_moves_after(&before);
    return b;
}

#endif
