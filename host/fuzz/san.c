/* SAN texts: document 01's reader and namer once more, written from the paper alone, and those of the PGN standard's form by document 02's
 * order 6. */
#include "fuzz.h"

#include <string.h>

static struct lent text_part, room_part;

static const char letters[] = " PNBRQK";

void san_begin(void)
{
    if (!text_part.low) lent_make(&text_part, MOST_TEXT);
    if (!room_part.low) lent_make(&room_part, MOST_TEXT);
}

static unsigned kind_on(const menkhodur_board *b, unsigned square)
{
    unsigned man = b->pieces[square];
    return man ? (man - 1) % 6 + 1 : 0;
}

static bool listed(const struct input *in, uint64_t move)
{
    for (size_t i = 0; i < in->entries; i++)
        if (in->list[i] == move) return true;
    return false;
}

static unsigned back_rank(const menkhodur_board *b)
{
    return b->side_to_move ? 56 : 0;
}

/* The castling pair with this file of destination. */
static uint64_t pair_to(const menkhodur_board *b, unsigned file)
{
    return back_rank(b) + 4 + 64 * (back_rank(b) + file);
}

/* ---- The reader ---- */

/* What a text asks of an entry; 8 for a file or rank that it leaves open. */
struct asked {
    unsigned kind, file, rank, to, promotion;
    bool takes, mark;
};

struct text {
    const uint8_t *at;
    size_t left;
};

static unsigned next_in(struct text *t, const char *set)
{
    const char *found = t->left && t->at[0] ? strchr(set, t->at[0]) : NULL;
    if (!found) return 8;
    t->at++;
    t->left--;
    return (unsigned)(found - set);
}

static bool read_target(struct text *t, struct asked *a)
{
    struct text ahead = *t;
    unsigned file = next_in(&ahead, "abcdefgh"), rank = file < 8 ? next_in(&ahead, "12345678") : 8;
    if (rank < 8) {
        a->to = 8 * rank + file;
        *t = ahead;
        return true;
    }
    if (a->file == 8 || a->rank == 8) return false;
    a->to = 8 * a->rank + a->file;
    a->file = a->rank = 8;
    return true;
}

static bool read_source(struct text *t, struct asked *a)
{
    unsigned letter = next_in(t, "NBRQK");
    a->kind = letter == 8 ? 1 : letter + 2;
    if (!t->left) return false;
    a->file = next_in(t, "abcdefgh");
    if (!t->left) return false;
    a->rank = next_in(t, "12345678");
    a->takes = next_in(t, "x") == 0;
    return true;
}

static bool read_asked(struct text t, struct asked *a)
{
    unsigned promotion;
    if (!read_source(&t, a) || !read_target(&t, a)) return false;
    promotion = next_in(&t, "NBRQ");
    a->promotion = promotion == 8 ? 0 : promotion + 2;
    next_in(&t, "+#");
    a->mark = t.left == 5 && memcmp(t.at, " e.p.", 5) == 0;
    return true;
}

/* The standard's form: a square stands behind `x`, `=` before a promotion, and nothing behind the check mark. */
static bool read_standard(struct text t, struct asked *a)
{
    unsigned promotion = 8;
    size_t left;
    if (!read_source(&t, a)) return false;
    left = t.left;
    if (!read_target(&t, a) || (a->takes && t.left == left)) return false;
    if (next_in(&t, "=") == 0) {
        promotion = next_in(&t, "NBRQ");
        if (promotion == 8) return false;
    }
    a->promotion = promotion == 8 ? 0 : promotion + 2;
    next_in(&t, "+#");
    return t.left == 0;
}

static bool fits(const struct input *in, const struct asked *a, unsigned move)
{
    unsigned from = move % 64;
    if (kind_on(&in->board, from) != a->kind || move / 64 % 64 != a->to || move / 4096 != a->promotion) return false;
    return (a->file == 8 || a->file == from % 8) && (a->rank == 8 || a->rank == from / 8);
}

static menkhodur_answer refused(uint64_t number)
{
    return (menkhodur_answer){ number, 0 };
}

static menkhodur_answer model_castling(const struct input *in, unsigned file)
{
    uint64_t move = pair_to(&in->board, file);
    return listed(in, move) ? (menkhodur_answer){ 0, move } : refused(4);
}

/* Whether exactly one entry fits, and which. */
static bool fits_alone(const struct input *in, const struct asked *a, uint64_t *move)
{
    unsigned found = 0;
    for (size_t i = 0; i < in->entries; i++) {
        if (!fits(in, a, in->list[i])) continue;
        *move = in->list[i];
        found++;
    }
    return found == 1;
}

static menkhodur_answer model_san(const struct input *in, const uint8_t *text, size_t length)
{
    struct asked a;
    uint64_t move = 0;
    bool occupied;
    if (!board_good(&in->board)) return refused(5);
    if (!list_good(in->list, in->entries)) return refused(6);
    if (length == 3 && memcmp(text, "O-O", 3) == 0) return model_castling(in, 6);
    if (length == 5 && memcmp(text, "O-O-O", 5) == 0) return model_castling(in, 2);
    if (!read_asked((struct text){ text, length }, &a) || !fits_alone(in, &a, &move)) return refused(4);
    occupied = in->board.pieces[a.to] != 0;
    if ((!a.takes && occupied) || (a.takes && !a.mark && !occupied)) return refused(4);
    return (menkhodur_answer){ 0, move };
}

menkhodur_answer model_standard(const struct input *in, const uint8_t *text, size_t length)
{
    struct asked a;
    uint64_t move = 0;
    bool marked = length && (text[length - 1] == '+' || text[length - 1] == '#'), captures;
    size_t bare = length - marked;
    if (!board_good(&in->board)) return refused(5);
    if (!list_good(in->list, in->entries)) return refused(6);
    if ((bare == 3 && memcmp(text, "O-O", 3) == 0) || (bare == 5 && memcmp(text, "O-O-O", 5) == 0))
        return kind_on(&in->board, back_rank(&in->board) + 4) == 6 ? model_castling(in, bare == 3 ? 6 : 2) : refused(4);
    if (!read_standard((struct text){ text, length }, &a) || !fits_alone(in, &a, &move)) return refused(4);
    captures = in->board.pieces[a.to] || (a.kind == 1 && move % 8 != a.to % 8);
    if (a.takes != captures || (a.takes && a.kind == 1 && a.file == 8)) return refused(4);
    return (menkhodur_answer){ 0, move };
}

/* ---- The two forms ---- */

struct form {
    const char *read, *name, *read_back;
    __typeof__(menkhodur_san_read) *reader[2];
    __typeof__(menkhodur_san_name) *namer[2];
    menkhodur_answer (*model)(const struct input *in, const uint8_t *text, size_t length);
    size_t longest;
    bool standard;
};

static const struct form paper = {
    "san_read", "san_name", "san_read of what san_name wrote",
    { menkhodur_san_read, TWIN(menkhodur_san_read) }, { menkhodur_san_name, TWIN(menkhodur_san_name) },
    model_san, MENKHODUR_LONGEST_NAME, false,
};

static const struct form standard = {
    "san_read_standard", "san_name_standard", "san_read_standard of what san_name_standard wrote",
    { menkhodur_san_read_standard, TWIN(menkhodur_san_read_standard) }, { menkhodur_san_name_standard, TWIN(menkhodur_san_name_standard) },
    model_standard, MENKHODUR_LONGEST_STANDARD_NAME, true,
};

static menkhodur_answer judge_read(const struct form *form, struct input *in)
{
    menkhodur_answer want = form->model(in, in->text, in->length);
    for (unsigned turn = 0; turn < 2; turn++) {
        const uint16_t *list = lend_list(in, turn);
        lend(&text_part, in->length, in->front, turn);
        lent_put(&text_part, 0, in->text, in->length);
        about(form->read);
        expect_answer(want, form->reader[turn](in->board, in->entries ? list : NULL, in->entries, in->length ? text_part.bytes : NULL, in->length));
        lent_same("text", &text_part);
        list_same();
    }
    return want;
}

/* The text, and the text with one byte more: what a tail changes is seldom found by a change of the input. */
static void read_in(const struct form *form, struct input *in)
{
    static const uint8_t tails[] = "+#x?Q";
    menkhodur_answer read = judge_read(form, in);
    if (read.number == 0) in->move = read.value;
    if (in->length == MOST_TEXT) return;
    in->length++;
    for (unsigned i = 0; i < sizeof tails - 1; i++) {
        in->text[in->length - 1] = tails[i];
        judge_read(form, in);
    }
    in->length--;
}

void call_san_read(struct input *in)
{
    read_in(&paper, in);
}

void call_san_read_standard(struct input *in)
{
    read_in(&standard, in);
}

/* ---- The namer ---- */

/* A text for the move with a source part: 1 its file, 2 its rank, 3 both. */
static size_t spell(const struct form *form, const struct input *in, unsigned move, unsigned part, uint8_t *text)
{
    unsigned from = move % 64, to = move / 64 % 64, kind = kind_on(&in->board, from), promotion = move / 4096;
    bool slants = kind == 1 && from % 8 != to % 8, occupied = in->board.pieces[to] != 0;
    size_t at = 0;
    if (kind > 1) text[at++] = (uint8_t)letters[kind];
    if (part & 1) text[at++] = (uint8_t)('a' + from % 8);
    if (part & 2) text[at++] = (uint8_t)('1' + from / 8);
    if (occupied || slants) text[at++] = 'x';
    text[at++] = (uint8_t)('a' + to % 8);
    text[at++] = (uint8_t)('1' + to / 8);
    if (promotion && form->standard) text[at++] = '=';
    if (promotion) text[at++] = (uint8_t)letters[promotion];
    if (slants && !occupied && !form->standard) memcpy(text + at, " e.p.", 5), at += 5;
    return at;
}

static size_t spell_pair(const struct input *in, uint64_t move, uint8_t *text)
{
    bool king_side = move == pair_to(&in->board, 6);
    if (!king_side && move != pair_to(&in->board, 2)) return 0;
    memcpy(text, "O-O-O", 5);
    return king_side ? 3 : 5;
}

/* The length of the move's name, 0 if no text names it: the first text that the reader reads as the move. */
static size_t model_name(const struct form *form, const struct input *in, unsigned move, uint8_t *text)
{
    unsigned kind = kind_on(&in->board, move % 64);
    bool slants = kind == 1 && move % 8 != move / 64 % 8;
    if (kind == 6 && spell_pair(in, move, text)) return spell_pair(in, move, text);
    for (unsigned part = 0; kind && part < 4; part++) {
        size_t length = spell(form, in, move, part, text);
        menkhodur_answer read = form->model(in, text, length);
        bool wanted = !slants || part & 1;
        if (wanted && read.number == 0 && read.value == move) return length;
    }
    return form->standard ? 0 : spell_pair(in, move, text);
}

static menkhodur_answer model_namer(const struct form *form, const struct input *in, size_t room, uint8_t *text)
{
    size_t length;
    if (!board_good(&in->board)) return refused(5);
    if (!list_good(in->list, in->entries)) return refused(6);
    if (!listed(in, in->move)) return refused(11);
    length = model_name(form, in, (unsigned)in->move, text);
    return (menkhodur_answer){ length == 0 ? 8 : room < length ? 7 : 0, length };
}

/* The archive's own reader reads the name as exactly the move. */
static void expect_read_back(const struct form *form, struct input *in, const uint8_t *text, size_t length)
{
    const uint16_t *list = lend_list(in, 0);
    about(form->read_back);
    expect_answer((menkhodur_answer){ 0, in->move }, form->reader[0](in->board, list, in->entries, text, length));
    expect("no more and no fewer bytes than a name has", 1, length >= MENKHODUR_SHORTEST_NAME && length <= form->longest);
}

static void expect_name(const struct form *form, struct input *in, size_t room)
{
    uint8_t text[16];
    menkhodur_answer want = model_namer(form, in, room, text);
    for (unsigned turn = 0; turn < 2; turn++) {
        const uint16_t *list = lend_list(in, turn);
        menkhodur_answer got;
        lend(&room_part, room, in->front, turn);
        about(form->name);
        got = form->namer[turn](in->board, in->entries ? list : NULL, in->entries, in->move, room ? room_part.bytes : NULL, room);
        expect_answer(want, got);
        if (got.number == 0) lent_expect(&room_part, 0, text, got.value);
        lent_same("room", &room_part);
        list_same();
    }
    if (want.number == 0) expect_read_back(form, in, text, want.value);
}

static void name_in(const struct form *form, struct input *in)
{
    uint8_t text[16];
    menkhodur_answer needed = model_namer(form, in, 0, text);
    expect_name(form, in, take(in) % 32);
    if (needed.number != 7) return;
    expect_name(form, in, needed.value);
    expect_name(form, in, needed.value - 1);
}

void call_san_name(struct input *in)
{
    name_in(&paper, in);
}

void call_san_name_standard(struct input *in)
{
    name_in(&standard, in);
}

static void take_name(const struct form *form, struct input *in)
{
    uint8_t text[16];
    menkhodur_answer needed = model_namer(form, in, 0, text);
    if (needed.number != 7) return;
    memcpy(in->text, text, needed.value);
    in->length = needed.value;
}

void text_of_move(struct input *in)
{
    take_name(&paper, in);
}

void standard_text_of_move(struct input *in)
{
    take_name(&standard, in);
}
