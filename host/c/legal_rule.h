/* The legal moves of a record, written from articles 3.1 to 3.10 of the FIDE Laws of Chess, and not from the archive: a man goes along lines from where it
 * stands, and who attacks a square is found by looking along lines from there. The board after a move is that of after_rule.h. For the checks here and for
 * the fuzzer's harness. */
#ifndef LEGAL_RULE_H
#define LEGAL_RULE_H

#include "after_rule.h"

#include <stdlib.h>

/* The kinds of men, of either colour; 64 queens have not as many moves as this. */
enum { PAWN = 1, KNIGHT, BISHOP, ROOK, QUEEN, KING, MOST_LEGAL = 64 * 28 };

struct legal {
    uint16_t moves[MOST_LEGAL];
    size_t count;
};

/* Files and ranks of a step: along ranks and files first, then along diagonals; and a knight's. */
static const int lines[8][2] = { { 0, 1 }, { 1, 0 }, { 0, -1 }, { -1, 0 }, { 1, 1 }, { 1, -1 }, { -1, -1 }, { -1, 1 } };
static const int jumps[8][2] = { { 1, 2 }, { 2, 1 }, { 2, -1 }, { 1, -2 }, { -1, -2 }, { -2, -1 }, { -2, 1 }, { -1, 2 } };

static inline int kind_of(uint8_t man) { return man == MENKHODUR_EMPTY ? 0 : (man - 1) % 6 + 1; }
static inline int colour_of(uint8_t man) { return man == MENKHODUR_EMPTY ? -1 : man >= MENKHODUR_BLACK_PAWN; }

/* The square so many steps from another, or -1 off the board. */
static inline int stepped(int from, const int step[2], int steps)
{
    int file = from % 8 + steps * step[0], rank = from / 8 + steps * step[1];
    return file < 0 || file > 7 || rank < 0 || rank > 7 ? -1 : 8 * rank + file;
}

/* ---- 3.9.1: who attacks a square ---- */

/* 3.2 to 3.4, 3.7.3, 3.8.1: whether the first man on a line, so many steps away, attacks along it to where the line comes from. */
static inline bool reaches_back(uint8_t man, int line, int steps)
{
    int towards = colour_of(man) == MENKHODUR_WHITE ? -1 : 1;
    bool diagonal = line >= 4;
    switch (kind_of(man)) {
    case QUEEN: return true;
    case ROOK: return !diagonal;
    case BISHOP: return diagonal;
    case KING: return steps == 1;
    case PAWN: return steps == 1 && diagonal && lines[line][1] == towards;
    default: return false;
    }
}

/* 3.5: no man goes over another. */
static inline bool attacked_along(const uint8_t *men, int colour, int square, int line)
{
    for (int steps = 1, at; (at = stepped(square, lines[line], steps)) >= 0; steps++) {
        if (men[at] == MENKHODUR_EMPTY) continue;
        return colour_of(men[at]) == colour && reaches_back(men[at], line, steps);
    }
    return false;
}

/* 3.6: a knight attacks from where a knight here could go. */
static inline bool attacked_by(const uint8_t *men, int colour, int square)
{
    for (int i = 0; i < 8; i++) {
        int from = stepped(square, jumps[i], 1);
        if (from >= 0 && colour_of(men[from]) == colour && kind_of(men[from]) == KNIGHT) return true;
        if (attacked_along(men, colour, square, i)) return true;
    }
    return false;
}

/* 3.9.1: with several kings, if any is attacked; without one, never. */
static inline bool side_in_check(const uint8_t *men, int colour)
{
    for (int square = 0; square < 64; square++)
        if (colour_of(men[square]) == colour && kind_of(men[square]) == KING && attacked_by(men, !colour, square)) return true;
    return false;
}

/* ---- 3.1 to 3.8: how the men go ---- */

/* 3.9.2: no move leaves a king of its own side attacked. */
static inline void add_move(struct legal *l, const menkhodur_board *b, int source, int destination, int promotion)
{
    uint16_t move = MENKHODUR_MOVE(source, destination, promotion);
    menkhodur_board after = after_of(*b, move);
    if (!side_in_check(after.pieces, b->side_to_move)) l->moves[l->count++] = move;
}

/* 3.1.1: to an empty square or one with a man of the other side, and never onto a king. Whether the line goes on behind it. */
static inline bool go(struct legal *l, const menkhodur_board *b, int source, int destination)
{
    uint8_t there = destination < 0 ? MENKHODUR_EMPTY : b->pieces[destination];
    if (destination < 0) return false;
    if (colour_of(there) != b->side_to_move && kind_of(there) != KING) add_move(l, b, source, destination, 0);
    return there == MENKHODUR_EMPTY;
}

static inline void go_along(struct legal *l, const menkhodur_board *b, int source, int line, int most)
{
    for (int steps = 1; steps <= most && go(l, b, source, stepped(source, lines[line], steps)); steps++) continue;
}

static inline void go_lines(struct legal *l, const menkhodur_board *b, int source, int first, int last)
{
    int most = kind_of(b->pieces[source]) == KING ? 1 : 7;
    for (int line = first; line <= last; line++) go_along(l, b, source, line, most);
}

static inline void jump(struct legal *l, const menkhodur_board *b, int source)
{
    for (int i = 0; i < 8; i++) go(l, b, source, stepped(source, jumps[i], 1));
}

/* 3.7.5: on the last rank a pawn becomes a knight, a bishop, a rook or a queen. */
static inline void arrive(struct legal *l, const menkhodur_board *b, int source, int destination)
{
    int last = b->side_to_move == MENKHODUR_WHITE ? 7 : 0;
    if (destination / 8 != last) {
        add_move(l, b, source, destination, 0);
        return;
    }
    for (int promotion = KNIGHT; promotion <= QUEEN; promotion++) add_move(l, b, source, destination, promotion);
}

/* 3.7.4: the record's file, the other side's pawn beside, on the fifth rank as the mover counts, and nothing behind it. */
static inline bool passes(const menkhodur_board *b, int source, int destination)
{
    bool white = b->side_to_move == MENKHODUR_WHITE;
    uint8_t beside = b->pieces[8 * (source / 8) + destination % 8];
    if (b->en_passant != destination % 8 + 1 || source / 8 != (white ? 4 : 3)) return false;
    return b->pieces[destination] == MENKHODUR_EMPTY && beside == (white ? MENKHODUR_BLACK_PAWN : MENKHODUR_WHITE_PAWN);
}

/* 3.7.3 and 3.7.4 */
static inline void capture(struct legal *l, const menkhodur_board *b, int source, int destination)
{
    uint8_t there = destination < 0 ? MENKHODUR_EMPTY : b->pieces[destination];
    if (destination < 0) return;
    if (colour_of(there) == !b->side_to_move ? kind_of(there) != KING : passes(b, source, destination)) arrive(l, b, source, destination);
}

/* 3.7.1 and 3.7.2: a step, and from the second rank two. */
static inline void march(struct legal *l, const menkhodur_board *b, int source)
{
    const int up[2] = { 0, b->side_to_move == MENKHODUR_WHITE ? 1 : -1 }, second = b->side_to_move == MENKHODUR_WHITE ? 1 : 6;
    const int left[2] = { -1, up[1] }, right[2] = { 1, up[1] };
    int one = stepped(source, up, 1), two = stepped(source, up, 2);
    capture(l, b, source, stepped(source, left, 1));
    capture(l, b, source, stepped(source, right, 1));
    if (one < 0 || b->pieces[one] != MENKHODUR_EMPTY) return;
    arrive(l, b, source, one);
    if (source / 8 == second && b->pieces[two] == MENKHODUR_EMPTY) arrive(l, b, source, two);
}

/* 3.8.2: nothing stands between king and rook, and no square that the king leaves, crosses or comes to is attacked. */
static inline bool way_is_free(const menkhodur_board *b, int source, int corner)
{
    int step = corner > source ? 1 : -1;
    for (int at = source + step; at != corner; at += step)
        if (b->pieces[at] != MENKHODUR_EMPTY) return false;
    for (int i = 0; i < 3; i++)
        if (attacked_by(b->pieces, !b->side_to_move, source + i * step)) return false;
    return true;
}

static inline void castle_to(struct legal *l, const menkhodur_board *b, int source, int corner, int right)
{
    uint8_t rights = b->side_to_move == MENKHODUR_WHITE ? b->white_castle_rights : b->black_castle_rights;
    uint8_t rook = b->side_to_move == MENKHODUR_WHITE ? MENKHODUR_WHITE_ROOK : MENKHODUR_BLACK_ROOK;
    if (!(rights & right) || b->pieces[corner] != rook || !way_is_free(b, source, corner)) return;
    add_move(l, b, source, corner > source ? source + 2 : source - 2, 0);
}

static inline void go_by_kind(struct legal *l, const menkhodur_board *b, int source)
{
    int home = b->side_to_move == MENKHODUR_WHITE ? 4 : 60;
    switch (kind_of(b->pieces[source])) {
    case PAWN: march(l, b, source); break;
    case KNIGHT: jump(l, b, source); break;
    case BISHOP: go_lines(l, b, source, 4, 7); break;
    case ROOK: go_lines(l, b, source, 0, 3); break;
    default: go_lines(l, b, source, 0, 7);
    }
    if (kind_of(b->pieces[source]) != KING || source != home) return;
    castle_to(l, b, source, home + 3, MENKHODUR_KING_SIDE);
    castle_to(l, b, source, home - 4, MENKHODUR_QUEEN_SIDE);
}

static inline int by_number(const void *a, const void *b)
{
    return *(const uint16_t *)a - *(const uint16_t *)b;
}

/* In rising order of their numbers, for a record in range. */
static inline void legal_of(struct legal *l, const menkhodur_board *b)
{
    l->count = 0;
    for (int source = 0; source < 64; source++)
        if (colour_of(b->pieces[source]) == b->side_to_move) go_by_kind(l, b, source);
    qsort(l->moves, l->count, sizeof *l->moves, by_number);
}

/* ---- A list and an in-check byte, judged, where both are in range ---- */

static inline bool is_among(const uint16_t *list, size_t entries, uint16_t move)
{
    for (size_t i = 0; i < entries; i++)
        if (list[i] == move) return true;
    return false;
}

enum { NO_MOVE = 65536 };

/* The first entry that is not in another list. */
static inline unsigned first_outside(const uint16_t *list, size_t entries, const uint16_t *other, size_t length)
{
    for (size_t i = 0; i < entries; i++)
        if (!is_among(other, length, list[i])) return list[i];
    return NO_MOVE;
}

static inline unsigned first_again(const uint16_t *list, size_t entries)
{
    for (size_t i = 0; i < entries; i++)
        if (is_among(list + i + 1, entries - i - 1, list[i])) return list[i];
    return NO_MOVE;
}

static inline menkhodur_judged judgement_of(const struct legal *l, bool owed, uint8_t in_check, const uint16_t *list, size_t entries)
{
    menkhodur_judged j = { MENKHODUR_ACCEPTED, owed, l->count, MENKHODUR_JUDGED_RIGHT, 0 };
    unsigned found[3] = { first_outside(list, entries, l->moves, l->count), first_again(list, entries),
                          first_outside(l->moves, l->count, list, entries) };
    for (unsigned i = 0; i < 3; i++) {
        if (found[i] == NO_MOVE) continue;
        j.wrong = MENKHODUR_JUDGED_NOT_LEGAL + i;
        j.move = found[i];
        return j;
    }
    if (owed != in_check) j.wrong = MENKHODUR_JUDGED_IN_CHECK;
    return j;
}

#endif
