/* PGN move text (document 02, order 8): what both functions answer by a second reading of the order. */
#include "fuzz.h"

#include <string.h>

enum { DEEPEST = 8 };

static struct lent move_text;

void pgn_begin(void)
{
    if (!move_text.low) lent_make(&move_text, MOST_TEXT);
}

/* ---- What must be answered ---- */

/* One answer for all calls: a check that was let run counts the moves, a call for the next one stops at the first, or at the first outside
 * brackets. */
enum until { THE_END, A_MOVE, A_MAIN_MOVE };

struct walk {
    const uint8_t *text;
    size_t length;
    enum until until;
    unsigned from, outer; /* the level of the place, and of the outermost sequence that is walked in */
    menkhodur_pgn_move first;
    uint64_t moves, number, offset;
    bool over;
};

static bool any_of(const char *bytes, uint8_t b)
{
    return b && strchr(bytes, b);
}

static bool letter_or_digit(uint8_t b)
{
    return (b >= 'A' && b <= 'Z') || (b >= 'a' && b <= 'z') || (b >= '0' && b <= '9');
}

static size_t stop(struct walk *w, uint64_t number, size_t offset)
{
    w->number = number;
    w->offset = number ? offset : 0;
    w->over = true;
    return w->length;
}

static bool result_at(const struct walk *w, size_t at)
{
    static const char *const results[] = { "*", "1-0", "0-1", "1/2-1/2" };
    for (unsigned i = 0; i < sizeof results / sizeof *results; i++) {
        size_t n = strlen(results[i]);
        if (n <= w->length - at && memcmp(w->text + at, results[i], n) == 0) return true;
    }
    return false;
}

static size_t move_at(struct walk *w, size_t at, unsigned level)
{
    size_t end = at + 1;
    while (end < w->length && (letter_or_digit(w->text[end]) || any_of("+#=-!?", w->text[end]))) end++;
    w->moves++;
    if (w->until == A_MOVE || (w->until == A_MAIN_MOVE && level == 0)) {
        w->first = (menkhodur_pgn_move){ 0, 0, 1, at, end - at, level, w->from - w->outer, level - w->outer };
        w->over = true;
    }
    return end;
}

/* A comment, a number or `$` with its digits. */
static size_t passed(struct walk *w, size_t at)
{
    uint8_t b = w->text[at];
    size_t end = at + (b == '$');
    if (b == '{' || b == ';') {
        const uint8_t *last = memchr(w->text + at, b == '{' ? '}' : '\n', w->length - at);
        if (last) return (size_t)(last - w->text) + 1;
        return b == '{' ? stop(w, MENKHODUR_LEFT_OPEN, at) : w->length;
    }
    while (end < w->length && w->text[end] >= '0' && w->text[end] <= '9') end++;
    if (end == at + (b == '$')) return stop(w, MENKHODUR_UNKNOWN_TOKEN, at);
    while (b != '$' && end < w->length && w->text[end] == '.') end++;
    return end;
}

/* From `at` at a level to the bracket that closes it, whose place is given, or to the end. */
static size_t level_from(struct walk *w, size_t at, unsigned level, size_t opened)
{
    while (at < w->length && !w->over) {
        uint8_t b = w->text[at];
        if (any_of(" \t\r\n", b)) at++;
        else if (any_of("abcdefghNBRQKO", b)) at = move_at(w, at, level);
        else if (result_at(w, at)) at = stop(w, level ? MENKHODUR_UNKNOWN_TOKEN : MENKHODUR_ACCEPTED, at);
        else if (b == ')') return level ? at : stop(w, MENKHODUR_UNKNOWN_TOKEN, at);
        else if (b == '(') at = level == DEEPEST ? stop(w, MENKHODUR_TOO_DEEP, at) : level_from(w, at + 1, level + 1, at) + 1;
        else if (any_of("{;$0123456789", b)) at = passed(w, at);
        else at = stop(w, MENKHODUR_UNKNOWN_TOKEN, at);
    }
    if (!w->over) stop(w, level ? MENKHODUR_LEFT_OPEN : MENKHODUR_ACCEPTED, opened);
    return w->length;
}

static struct walk walk_from(const struct input *in, uint64_t offset, uint64_t level, enum until until)
{
    struct walk w = { .text = in->text, .length = in->length, .until = until };
    size_t at = (size_t)offset;
    if (level > DEEPEST) stop(&w, MENKHODUR_TOO_DEEP, at);
    else if (offset > in->length) stop(&w, MENKHODUR_UNKNOWN_TOKEN, at);
    else {
        w.from = (unsigned)level;
        for (unsigned inside = w.from + 1; inside > 0 && !w.over; inside--) {
            w.outer = inside - 1;
            at = level_from(&w, at, inside - 1, (size_t)offset) + 1;
        }
    }
    return w;
}

static menkhodur_pgn_move model_next(const struct input *in, uint64_t offset, uint64_t level, enum until until)
{
    struct walk w = walk_from(in, offset, level, until);
    menkhodur_pgn_move next = w.first;
    next.number = w.number;
    next.offset = w.offset;
    return next;
}

menkhodur_pgn_move model_main(const struct input *in, uint64_t offset)
{
    return model_next(in, offset, 0, A_MAIN_MOVE);
}

/* ---- The calls ---- */

static const uint8_t *lend_move_text(struct input *in, unsigned turn)
{
    lend(&move_text, in->length, in->front, turn);
    lent_put(&move_text, 0, in->text, in->length);
    return in->length ? move_text.bytes : NULL;
}

void call_pgn_check(struct input *in)
{
    struct walk want = walk_from(in, 0, 0, THE_END);
    for (unsigned turn = 0; turn < 2; turn++) {
        const uint8_t *text = lend_move_text(in, turn);
        about("pgn_check");
        menkhodur_pgn_count got = CALL(turn, menkhodur_pgn_check, text, in->length);
        expect("number", want.number, got.number);
        expect("offset", want.offset, got.offset);
        expect("moves", want.number ? 0 : want.moves, got.moves);
        lent_same("text", &move_text);
    }
}

static menkhodur_pgn_move next_at(struct input *in, const char *name, uint64_t offset, uint64_t level)
{
    menkhodur_pgn_move want = model_next(in, offset, level, A_MOVE), got = want;
    for (unsigned turn = 0; turn < 2; turn++) {
        const uint8_t *text = lend_move_text(in, turn);
        about(name);
        got = CALL(turn, menkhodur_pgn_next, text, in->length, offset, level);
        expect("number", want.number, got.number);
        expect_bytes("answer", &want, &got, sizeof want);
        lent_same("text", &move_text);
    }
    return got;
}

/* From any place. */
void call_pgn_next(struct input *in)
{
    uint64_t offset = take_wide(in), level = take_wide(in);
    next_at(in, "pgn_next", offset, level);
}

/* From the start, move by move: as many as the check counts. */
void walk_pgn(struct input *in)
{
    struct walk want = walk_from(in, 0, 0, THE_END);
    menkhodur_pgn_move m = { .found = 1 };
    uint64_t walked = 0;
    while (m.found && walked <= in->length) {
        m = next_at(in, "pgn_next from move to move", m.start + m.length, m.level);
        walked += m.found;
    }
    expect("moves walked", want.moves, walked);
}

/* A token, or what looks like one, in the text. */
void put_token(struct input *in)
{
    static const char *const tokens[] = { "e4 ", "Nbxd2+", "O-O-O", "12.", "1...", "(", ")", "{x}", "{", "}", ";x\n", "$14", "$",
                                          "1-0", "0-1", "1/2-1/2", "*", " ", "%", "((((((((" };
    const char *token = tokens[take(in) % (sizeof tokens / sizeof *tokens)];
    size_t at = take(in) % (in->length + 1), n = strlen(token);
    if (n > MOST_TEXT - in->length) return;
    memmove(in->text + at + n, in->text + at, in->length - at);
    memcpy(in->text + at, token, n);
    in->length += n;
}
