/* The judge of standard.c, which reads no texts but spells out those that fit, for the checks of steps through a game. */
#ifndef STANDARD_H
#define STANDARD_H

#include "check.h"

enum { REFUSED = 1 << 16 };

/* The move that a text in the standard's form names in a list of at most 255 entries, or REFUSED. */
uint64_t owed_move(menkhodur_board b, const uint16_t *list, size_t entries, const uint8_t *text, size_t length);

#endif
