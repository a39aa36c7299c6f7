/* What the lines of a page are owed (page.c), for the checks of the page call and of the report on a page. */
#ifndef PAGE_H
#define PAGE_H

#include "check.h"

enum { MOST_LINES = 5000, RECORD = MENKHODUR_PAGE_RECORD, TOLD = MENKHODUR_PAGE_NUMBERS };

/* The page at hand: the record of each line, and its number and offset. */
extern uint8_t records_owed[RECORD * MOST_LINES];
extern uint64_t numbers_owed[TOLD * MOST_LINES];

/* Cuts a text into its lines; how many. */
size_t split(const uint8_t *text, size_t length);
/* What the single reader says of the first lines of the text that was split last. */
void owe(size_t count);

/* A line of a FEN, good in one of two, with its newline or without; its length, at most LONGEST_LINE. */
enum { LONGEST_LINE = MENKHODUR_LONGEST_FULL_FEN + 1 };
size_t any_line(uint8_t *text);

/* Reads a file, which must have a byte, into a room that it must not fill; its length. */
size_t read_file(const char *function, const char *path, uint8_t *text, size_t room);

/* Each page of a file of which the crate was asked before, what its lines are owed being at hand. */
void each_page(const char *function, const char *pages, void check(const uint8_t *text, size_t length, size_t count));

#endif
