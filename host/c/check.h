/* What the checks share: counting and telling, and parts that are lent with guards around them. */
#ifndef CHECK_H
#define CHECK_H

#include "record.h"

#include <stdbool.h>

/* The checks that follow are of this function with this input. */
void about(const char *function, const char *input, ...) __attribute__((format(printf, 2, 3)));

void expect(const char *what, uint64_t want, uint64_t got);
void expect_answer(uint64_t number, uint64_t value, menkhodur_answer got);
void expect_placed(menkhodur_placed want, menkhodur_placed got);
void expect_ruling(menkhodur_ruling want, menkhodur_ruling got);
void expect_board(const menkhodur_board *want, const menkhodur_board *got);

/* The numbers that a function can answer, a bit for each. */
struct answers {
    const char *function;
    uint32_t numbers;
};

/* One line for each function, the sum last; whether every check passed and each function gave each of its numbers. */
bool report(const struct answers *answers, unsigned functions);

/* A part lent to a call. `want` is what the whole block must hold, guards included: a call that changes no byte leaves it so, and
 * `expect_written` first puts what the call must have written there. */
struct part {
    uint8_t *block, *want, *bytes;
    size_t length;
};

/* With `exact` set, parts have no guards and end where their memory ends, so that valgrind sees a read past them too. */
extern bool exact;

/* With `few` set, for valgrind and for a machine that is emulated, there are fewer cases, of a long part only its two ends are compared, all of it now
 * and then, and the checks end when twenty have failed. */
extern bool few;

struct part lend(size_t length);
struct part lend_bytes(const void *bytes, size_t length);
struct part lend_text(const char *text);
void give_back(struct part *p);

/* The caller's own change to a part, before a call. */
void put(struct part *p, size_t at, const void *bytes, size_t length);
void put_byte(struct part *p, size_t at, uint8_t byte);

void expect_unchanged(const char *what, const struct part *p);
void expect_written(const char *what, struct part *p, size_t at, const void *bytes, size_t length);

/* Boards. `no_board` is what comes beside a refusal, all zeros and out of range; the others have the counters 0 and 1. */
extern const menkhodur_board no_board, empty_board, initial;
menkhodur_board board_with(uint8_t side, unsigned men, const uint8_t *squares, const uint8_t *codes);
bool same_board(menkhodur_board b, menkhodur_board c);
bool board_in_range(menkhodur_board b);

/* The board with one number out of range: past its limit by one, then as far as its type goes, for each in turn; last a move number of 0. */
enum { BAD_BOARDS = 2 * ALL_NUMBERS + 1 };
menkhodur_board bad_board(menkhodur_board b, unsigned i);

/* Numbers of more than 16 bits, some with the highest bit; and such numbers whose low 16 bits are `low`, which a narrower type would
 * leave. */
enum { WIDE = 8 };
extern const uint64_t wide[WIDE];
uint64_t wide_over(unsigned i, uint64_t low);

/* Whether a byte is one of those of a text; 0 never is. */
bool is_in(const char *bytes, uint8_t byte);

/* A number below the bound that looks random and is the same each time. */
unsigned any(unsigned below);

/* Such a number of a record in range; a counter is often at either end of its range. */
unsigned any_number(unsigned which);

/* The answer number of a call with a set of faults, a bit for each: that of the lowest bit, or 0 of none. */
uint64_t first_of(unsigned faults, const uint64_t *numbers);

/* A form of SAN: its reader and its namer, with their names. */
struct form {
    const char *reading, *naming;
    menkhodur_answer (*read)(menkhodur_board, const uint16_t *, size_t, const uint8_t *, size_t);
    menkhodur_answer (*name)(menkhodur_board, const uint16_t *, size_t, uint64_t, uint8_t *, size_t);
};

/* Lists and records in range and out of it, which every form answers alike. */
void check_ranges(const struct form *form);

/* The checks, by subject. */
void check_base(void);
void check_steps(void);
void check_after(void);
void check_fen(const char *positions);
void check_full(const char *positions);
void check_page(const char *positions, const char *pages);
void check_report(const char *positions, const char *pages);
void check_settled(const char *positions, const char *passing, const char *keys);
void check_coordinates(void);
void check_san(void);
void check_standard(void);
void check_log(void);
void check_orders(void);
void check_games(void);
void check_rulings(void);
void check_counters(void);
void check_nulls(void);
void check_rolls(void);
void check_differences(void);
void check_pgn(void);
void check_played(void);
void check_legal(void);
void check_layout(void);
void check_overlaps(void);
void check_threads(void);

#endif
