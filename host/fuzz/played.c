/* A move text that is played, and steps through a game's text: the walk, the standard's reader, the board after a move and the key, each by its
 * second reading of the papers. */
#include "fuzz.h"

static struct lent text_part, room_part;

void played_begin(void)
{
    if (text_part.low) return;
    lent_make(&text_part, MOST_TEXT);
    lent_make(&room_part, MOST_TEXT);
}

/* ---- What must be answered ---- */

/* In a room that is never too short; and the key that is then in it. */
struct owed {
    menkhodur_step step;
    uint8_t key[FEN_ROOM];
};

static struct owed model_played(const struct input *in, uint64_t start, uint64_t length)
{
    menkhodur_answer read = model_standard(in, in->text + start, length);
    struct owed o = { .step = { read.number, read.number ? start : 0, 1, start, length, 0, 0, in->board } };
    if (read.number) return o;
    o.step.move = read.value;
    o.step.board = after_of(in->board, read.value);
    o.step.key_length = model_key(&o.step.board, o.key);
    return o;
}

static struct owed model_step(const struct input *in, uint64_t offset)
{
    menkhodur_pgn_move m = model_main(in, offset);
    if (m.found) return model_played(in, m.start, m.length);
    return (struct owed){ .step = { .number = m.number, .offset = m.offset, .board = in->board } };
}

/* The same in any room: 7 hands the record back, and tells the length alone. */
static menkhodur_step in_room(const struct input *in, const struct owed *o, size_t room)
{
    menkhodur_step s = o->step;
    if (s.number || room >= s.key_length) return s;
    return (menkhodur_step){ MENKHODUR_OUTPUT_TOO_SHORT, s.start, 1, s.start, s.length, 0, s.key_length, in->board };
}

/* ---- The calls ---- */

/* A step from an offset, or with none the whole text played alone. */
static void expect_step(struct input *in, const char *name, const struct owed *o, const uint64_t *offset, size_t room)
{
    menkhodur_step want = in_room(in, o, room), got;
    for (unsigned turn = 0; turn < 2; turn++) {
        const uint16_t *list = lend_list(in, turn);
        const uint8_t *text;
        uint8_t *out;
        lend(&text_part, in->length, in->front, turn);
        lent_put(&text_part, 0, in->text, in->length);
        lend(&room_part, room, turn, turn);
        text = in->length ? text_part.bytes : NULL;
        out = room ? room_part.bytes : NULL;
        about(name);
        if (offset) got = CALL(turn, menkhodur_game_step, text, in->length, *offset, in->board, list, in->entries, out, room);
        else got = CALL(turn, menkhodur_play, text, in->length, in->board, list, in->entries, out, room);
        expect("number", want.number, got.number);
        expect_bytes("answer", &want, &got, sizeof want);
        if (want.number == MENKHODUR_ACCEPTED) lent_expect(&room_part, 0, o->key, want.key_length);
        lent_same("room", &room_part);
        lent_same("text", &text_part);
        list_same();
    }
}

/* In the room that the input asks for, in one that fits and in one that is too short. What is played is then the board. */
static void expect_steps(struct input *in, const char *name, const struct owed *o, const uint64_t *offset)
{
    size_t length = o->step.key_length;
    expect_step(in, name, o, offset, room_near(in, length));
    if (!length) return;
    expect_step(in, name, o, offset, length - 1);
    expect_step(in, name, o, offset, length);
    in->board = o->step.board;
}

void call_play(struct input *in)
{
    struct owed o = model_played(in, 0, in->length);
    expect_steps(in, "play", &o, NULL);
}

void call_game_step(struct input *in)
{
    uint64_t offset = take_wide(in);
    struct owed o = model_step(in, offset);
    expect_steps(in, "game_step", &o, &offset);
}

/* From the start, and then from the end of each move, over one list for all of them. */
void step_through(struct input *in)
{
    uint64_t offset = 0;
    for (unsigned moves = 0; moves < MOST_TEXT; moves++) {
        struct owed o = model_step(in, offset);
        expect_step(in, "game_step from move to move", &o, &offset, MENKHODUR_LONGEST_FEN);
        if (o.step.number || !o.step.found) return;
        offset = o.step.start + o.step.length;
        in->board = o.step.board;
    }
}
