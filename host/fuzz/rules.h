/* Document 01's rules of the log, with the ruling of document 02, order 5, the records of its order 9 and the counters of its order 12, over its
 * bytes, written from the papers alone. */
#ifndef RULES_H
#define RULES_H

#include "fuzz.h"

/* In the order of `Action`, whose kinds are 1 to 5; then the queries. New ones go at the end, so that seeds and corpora keep their meaning. */
enum call { MAKE_MOVE, OFFER_DRAW, ACCEPT_DRAW, DECLARE_DRAW, RESIGN, RESULT, CAN_DECLARE, CAN_CLAIM, RULING, CALLS };

struct log {
    const uint8_t *actions, *positions;
    uint64_t action_count, move_count;
};

const uint8_t *current_position(const struct log *l);
menkhodur_board board_in(const uint8_t *position);
size_t list_in(const uint8_t *position, uint16_t *list);
bool is_listed(const uint8_t *position, uint64_t move);

/* Whether a sequence of accepted calls makes the log. The questions after it are of logs that are good. */
bool log_good(const struct log *l);
bool log_over(const struct log *l);
bool log_offered(const struct log *l);
bool log_claimable(const struct log *l);
uint64_t log_result(const struct log *l);
menkhodur_ruling log_ruling(const struct log *l);

void position_bytes(const menkhodur_board *b, uint8_t in_check, const uint16_t *list, size_t entries, uint8_t *bytes);
void action_bytes(enum call call, uint64_t move, uint8_t colour, uint8_t *bytes);

#endif
