/* The walker over PGN move text of pgn.c, made from document 02's own words, for the checks of steps through a game. */
#ifndef PGN_H
#define PGN_H

#include "check.h"

/* The next move from a place, or the next one outside brackets; or that none comes, and why. */
menkhodur_pgn_move owed_next(const char *text, size_t length, uint64_t offset, uint64_t level, bool outside);

#endif
