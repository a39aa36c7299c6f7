/* A reader and a writer of FEN made from the papers' own words (full.c), for the checks of the full texts and of settled keys. */
#ifndef FULL_H
#define FULL_H

#include "check.h"

enum { SPELT = MENKHODUR_LONGEST_FULL_FEN + 1 };

/* What a text's first four tokens say, with the counters 0 and 1; or 18, 19, 20 and where. */
menkhodur_fen owed_of_four(const uint8_t *text, size_t length);

/* The text of a record in range, which ends in its own counters, or in `tail` if there is one; its length. */
size_t spell(char text[SPELT], menkhodur_board b, const char *tail);

#endif
