/* For the questions that are put to archives of several versions, each compiled with that version's own header: what order 12 changed, undone. Since
 * version 12 a record has two counters, a position four bytes more, and a roll two numbers more. Here a record is its old 68 numbers, and has the
 * counters 0 and 1 where it has any; a part of positions is shown as it was before, and rolls are old rolls. */
#ifndef VERSIONS_H
#define VERSIONS_H

#include "menkhodur.h"

#include <stdbool.h>
#include <stdio.h>
#include <string.h>

#define COUNTED (MENKHODUR_VERSION >= 12)

/* The parts have the size of order 11, or of order 12; an archive of before takes longer ones. */
enum { RECORD = 68, COUNTERS = COUNTED ? 4 : 0, OLD_POSITION = 580, POSITION = OLD_POSITION + COUNTERS, POSITIONS = 4097 };
enum { ACTIONS_PART = 32768, OLD_POSITIONS_PART = OLD_POSITION * POSITIONS, POSITIONS_PART = POSITION * POSITIONS, FILL = 0xA5 };

static inline menkhodur_board board_of(const uint8_t numbers[RECORD])
{
    menkhodur_board b;
    memset(&b, 0, sizeof b);
    memcpy(&b, numbers, RECORD);
#if COUNTED
    b.full_moves = 1;
#endif
    return b;
}

/* The counters after so many moves from a start with white to move, none of them a pawn's or a capture. */
static inline menkhodur_board after_quiet_moves(menkhodur_board b, uint64_t moves)
{
#if COUNTED
    b.half_moves = (uint16_t)moves;
    b.full_moves = (uint16_t)(1 + moves / 2);
#endif
    (void)moves;
    return b;
}

static inline bool is_filled(const uint8_t *bytes, size_t length)
{
    for (size_t i = 0; i < length; i++)
        if (bytes[i] != FILL) return false;
    return true;
}

/* The first `used` positions of a part as they lay before order 12, in a part that is filled behind them as the other must be. */
static inline const uint8_t *as_before(const uint8_t *positions, size_t used)
{
    static uint8_t old[OLD_POSITIONS_PART];
    memset(old, FILL, sizeof old);
    for (size_t k = 0; k < used; k++) {
        memcpy(old + OLD_POSITION * k, positions + POSITION * k, RECORD);
        memcpy(old + OLD_POSITION * k + RECORD, positions + POSITION * k + RECORD + COUNTERS, OLD_POSITION - RECORD);
    }
    if (!is_filled(positions + POSITION * used, POSITION * (POSITIONS - used))) printf(" (written behind the used positions)");
    return old;
}

static inline menkhodur_roll read_old_roll(const uint8_t *roll, size_t length, uint8_t *actions, size_t actions_length)
{
#if COUNTED
    return menkhodur_roll_read_old(roll, length, actions, actions_length);
#else
    return menkhodur_roll_read(roll, length, actions, actions_length);
#endif
}

/* Takes the bytes of the counters 0 and 1 out of the roll that a call has written, and their number out of every length that it tells. The room is as
 * long as the lent one was without them. */
static inline menkhodur_answer write_old_roll(menkhodur_board b, const uint8_t *actions, size_t actions_length, uint64_t count, uint8_t *out, size_t room)
{
#if COUNTED
    static uint8_t whole[32768];
    menkhodur_answer a;
    memcpy(whole, out, room < RECORD ? room : RECORD);
    memset(whole + RECORD, FILL, 2);
    if (room > RECORD) memcpy(whole + RECORD + 2, out + RECORD, room - RECORD);
    a = menkhodur_roll_write(b, actions, actions_length, count, whole, room + 2);
    if (a.number == 0 && (whole[RECORD] != 0 || whole[RECORD + 1] != 1)) printf(" (no counters 0 and 1)");
    if (a.number && !is_filled(whole + RECORD, 2)) printf(" (a refused call has written)");
    memcpy(out, whole, room < RECORD ? room : RECORD);
    if (room > RECORD) memcpy(out + RECORD, whole + RECORD + 2, room - RECORD);
    if (a.number == 0 || a.number == MENKHODUR_OUTPUT_TOO_SHORT) a.value -= 2;
    return a;
#else
    return menkhodur_roll_write(b, actions, actions_length, count, out, room);
#endif
}

/* An old roll as the calls of this version read it, and its length: with the counters put in behind its record. */
static inline size_t roll_of(const uint8_t *old, size_t length, uint8_t *roll)
{
    size_t record = length < RECORD ? length : RECORD;
    memcpy(roll, old, record);
    if (!COUNTED || length < RECORD) {
        memcpy(roll + record, old + record, length - record);
        return length;
    }
    roll[RECORD] = 0;
    roll[RECORD + 1] = 1;
    memcpy(roll + RECORD + 2, old + RECORD, length - RECORD);
    return length + 2;
}

#endif
