/* Questions to an archive of version 11 or a later one, the same in each run. What is answered goes into a sum, which is told for each few thousand
 * questions. */
#ifndef QUESTIONS_H
#define QUESTIONS_H

#include "versions.h"

/* Into the answer to the question at hand. */
void add(uint64_t number);
void add_bytes(const void *bytes, size_t length);
void add_board(menkhodur_board b);
void add_answer(menkhodur_answer a);

/* The question at hand, described, was answered with this number. */
void answered(uint64_t number, const char *format, ...) __attribute__((format(printf, 2, 3)));

/* The questions that follow are of this kind. */
void begin(const char *kind);

/* A number below the bound that looks random and is the same each time; one of the bytes of a text; and a byte of so many set to one below the bound.
 * No two of them are asked for in one expression unless C says which comes first: compilers differ there, and the questions must not. */
unsigned any(unsigned below);
char any_of(const char *bytes);
void set_any(uint8_t *bytes, size_t length, unsigned below);

/* A record of few kinds of men, and a move on it that is near more often than not. */
menkhodur_board any_board(void);
uint16_t any_move(void);

void ask_small_functions(void);
void ask_texts(void);
void ask_moves(void);
void ask_logs(void);
void ask_rolls(void);

#endif
