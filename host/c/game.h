/* A log with its two parts, calls on it, and what document 01 says of the bytes that a call writes. */
#ifndef GAME_H
#define GAME_H

#include "after_rule.h"
#include "check.h"

struct position {
    menkhodur_board board;
    uint8_t in_check;
    uint16_t list[MENKHODUR_LONGEST_LIST + 2];
    size_t entries;
};

struct game {
    struct part actions, positions;
    uint64_t action_count, move_count;
};

/* In the order of `Action`, whose kinds are 1 to 5; then the queries. */
enum call { MAKE_MOVE, OFFER_DRAW, ACCEPT_DRAW, DECLARE_DRAW, RESIGN, RESULT, CAN_DECLARE, CAN_CLAIM, RULING, CALLS };

struct request {
    enum call call;
    uint64_t move;
    uint8_t colour;
    const struct position *next;
};

/* What a log must hold: its positions and its actions. */
enum { RECORDED = 160 };
struct record {
    struct position at[RECORDED + 1];
    struct request done[RECORDED];
    unsigned actions, moves;
};

/* The result by document 01 (games.c), and the ruling by document 02, order 5 (rulings.c). */
uint64_t result_of(const struct record *r);
menkhodur_ruling ruling_of(const struct record *r);

/* The record with an accepted action. */
void note(struct record *r, struct request done);

extern const char *const name_of_call[CALLS];

/* Lists without an entry are lent as NULL. */
extern bool empty_list_is_null;

struct game lend_game(size_t actions_length, size_t positions_length);
void give_back_game(struct game *g);

/* The knights' round g1f3 g8f6 f3g1 f6g8: the position after k moves, with the counters of a game from the initial position, and the move played
 * there. With `fresh` no two are equal. */
struct position round_position(uint64_t k, bool fresh);
uint64_t round_move(uint64_t k);

/* The caller's own writing of a position over the one with that number, of a start, and of an accepted call, as document 01 and order 12 of
 * document 02 give their bytes. */
void put_position(struct game *g, uint64_t k, const struct position *p);
void put_start(struct game *g, const struct position *p);
void append(struct game *g, struct request r);
void append_round(struct game *g, uint64_t moves, bool fresh);
void append_offers(struct game *g, uint64_t offers, uint8_t colour);

/* The roll of a start and its actions, as document 02 gives its bytes; and the one that had no counters, before order 12. */
struct part lend_roll(menkhodur_board start, const uint8_t *actions, uint64_t count);
struct part lend_old_roll(menkhodur_board start, const uint8_t *actions, uint64_t count);

/* Calls the library and checks number, value, counts and every lent byte. An accepted action is then in the log. A ruling that is asked for
 * by its number alone must have 0 in all others. */
void start(struct game *g, const struct position *p, uint64_t number);
void play(struct game *g, struct request r, uint64_t number);
void ask(struct game *g, enum call query, uint64_t number, uint64_t value);
void ask_ruling(struct game *g, menkhodur_ruling want);
void play_round(struct game *g, uint64_t moves, bool fresh);

/* The call, made so that nothing but `number` can be wrong with it, on a log that is not to change. */
void refuse(struct game *g, enum call call, uint64_t number);

#endif
