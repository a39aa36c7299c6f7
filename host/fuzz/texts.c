/* Squares, rights, board steps and texts: what document 01 says of their answers and of the bytes lent, and document 02 of refused FENs,
 * of counters, coordinate texts, pages and reports; and of settled records and keys what the header says. */
#include "fuzz.h"

#include <stdio.h>
#include <string.h>

static struct lent text_part, room_part, records_part, numbers_part, long_text_part, long_records_part, long_numbers_part;

enum { RECORD = MENKHODUR_PAGE_RECORD, TOLD = MENKHODUR_PAGE_NUMBERS }; /* the bytes and the numbers that a line of a page has */
/* A long page: some lines more than a report takes, and as many bytes as that many FENs of 64 men have. */
enum { LINES = MENKHODUR_REPORT_LINES, MOST_LINES = LINES + 8, MOST_PAGE = 80 * MOST_LINES };

static const char letters[] = " pnbrqk";

void texts_begin(void)
{
    if (!text_part.low) lent_make(&text_part, MOST_TEXT);
    if (!room_part.low) lent_make(&room_part, MOST_TEXT);
    if (!records_part.low) lent_make(&records_part, RECORD * (MOST_TEXT + 1));
    if (!numbers_part.low) lent_make(&numbers_part, 8 * TOLD * (MOST_TEXT + 1));
    if (!long_text_part.low) lent_make(&long_text_part, MOST_PAGE);
    if (!long_records_part.low) lent_make(&long_records_part, RECORD * (MOST_LINES + 1));
    if (!long_numbers_part.low) lent_make(&long_numbers_part, 8 * TOLD * (MOST_LINES + 1));
}

static menkhodur_answer accepted_if(bool accepted, uint64_t value, uint64_t otherwise)
{
    return (menkhodur_answer){ accepted ? MENKHODUR_ACCEPTED : otherwise, accepted ? value : 0 };
}

/* ---- Squares, rights, steps ---- */

void call_version(struct input *in)
{
    (void)in;
    about("version");
    for (unsigned turn = 0; turn < 2; turn++) expect("version", MENKHODUR_VERSION, CALL(turn, menkhodur_version));
}

void call_make_square(struct input *in)
{
    uint8_t rank = take(in), file = take(in);
    about("make_square");
    for (unsigned turn = 0; turn < 2; turn++)
        expect_answer(accepted_if(rank < 8 && file < 8, 8u * rank + file, 5), CALL(turn, menkhodur_make_square, rank, file));
}

void call_rights(struct input *in)
{
    uint8_t rights = take(in), other = take(in);
    for (unsigned turn = 0; turn < 2; turn++) {
        bool good = rights < 4 && other < 4;
        about("rights_add");
        expect_answer(accepted_if(good, rights | other, 5), CALL(turn, menkhodur_rights_add, rights, other));
        about("rights_remove");
        expect_answer(accepted_if(good, rights & ~other & 3u, 5), CALL(turn, menkhodur_rights_remove, rights, other));
    }
}

void call_square_rights(struct input *in)
{
    static const uint8_t by_file[8] = { 2, 0, 0, 0, 3, 0, 0, 1 };
    uint8_t colour = take(in), square = take(in);
    uint64_t rights = square / 8 == (colour ? 7 : 0) ? by_file[square % 8] : 0;
    about("square_rights");
    for (unsigned turn = 0; turn < 2; turn++)
        expect_answer(accepted_if(colour < 2 && square < 64, rights, 5), CALL(turn, menkhodur_square_rights, colour, square));
}

/* Which number a step sets, KEY_NUMBERS if a parameter is out of range. */
static unsigned number_set(unsigned which, uint8_t first, uint8_t second)
{
    switch (which) {
    case 0: return first < 64 && second >= 1 && second <= 12 ? first : KEY_NUMBERS;
    case 1: return first < 64 ? first : KEY_NUMBERS;
    case 2: return first < 2 ? 64 : KEY_NUMBERS;
    case 3: return first < 2 && second < 4 ? 65u + first : KEY_NUMBERS;
    default: return first < 9 ? 67 : KEY_NUMBERS;
    }
}

static menkhodur_stepped board_step(unsigned turn, unsigned which, menkhodur_board b, uint8_t first, uint8_t second)
{
    static const char *const names[5] = { "piece", "clear_square", "side_to_move", "castle_rights", "en_passant" };
    about(names[which]);
    switch (which) {
    case 0: return CALL(turn, menkhodur_piece, b, first, second);
    case 1: return CALL(turn, menkhodur_clear_square, b, first);
    case 2: return CALL(turn, menkhodur_side_to_move, b, first);
    case 3: return CALL(turn, menkhodur_castle_rights, b, first, second);
    default: return CALL(turn, menkhodur_en_passant, b, first);
    }
}

void call_board_step(struct input *in)
{
    unsigned which = take(in) % 5;
    uint8_t first = take(in), second = take(in);
    unsigned at = board_good(&in->board) ? number_set(which, first, second) : KEY_NUMBERS;
    menkhodur_board want = in->board;
    if (at < KEY_NUMBERS) *number_of(&want, at) = which == 0 || which == 3 ? second : which == 1 ? 0 : first;
    for (unsigned turn = 0; turn < 2; turn++) {
        menkhodur_stepped got = board_step(turn, which, in->board, first, second);
        expect("number", at < KEY_NUMBERS ? 0 : 5, got.number);
        expect_bytes("board", &want, &got.board, sizeof want);
    }
    in->board = want;
}

/* Document 02, order 12: the clock is 0 to 9,999, the move number 1 to 9,999, and a number of any size is judged as it is. */
void call_counter_step(struct input *in)
{
    unsigned which = take(in) % 2 ? FULL_MOVES : HALF_MOVES;
    uint64_t count = take_wide(in);
    bool good = board_good(&in->board) && count >= least_of(which) && count <= limit_of(which);
    menkhodur_board want = in->board;
    if (good) set_number(&want, which, (unsigned)count);
    about(which == FULL_MOVES ? "full_moves" : "half_moves");
    for (unsigned turn = 0; turn < 2; turn++) {
        menkhodur_stepped got = which == FULL_MOVES ? CALL(turn, menkhodur_full_moves, in->board, count) : CALL(turn, menkhodur_half_moves, in->board, count);
        expect("number", good ? 0 : 5, got.number);
        expect_bytes("board", &want, &got.board, sizeof want);
    }
    in->board = want;
}

/* In range in, in range out, with a FEN that reads back; refused, the record as it was. The board is then the one that was handed out. */
void call_board_after(struct input *in)
{
    bool good = board_good(&in->board), fits = in->move <= MENKHODUR_LAST_MOVE;
    menkhodur_board want = good && fits ? after_of(in->board, in->move) : in->board;
    uint64_t number = good ? fits ? MENKHODUR_ACCEPTED : MENKHODUR_BAD_LIST : MENKHODUR_OUT_OF_RANGE;
    for (unsigned turn = 0; turn < 2; turn++) {
        menkhodur_stepped got = CALL(turn, menkhodur_board_after, in->board, in->move);
        uint8_t text[MENKHODUR_LONGEST_FULL_FEN];
        menkhodur_answer written;
        menkhodur_fen read;
        about("board_after");
        expect("number", number, got.number);
        expect_bytes("board", &want, &got.board, sizeof want);
        if (number) continue;
        written = CALL(turn, menkhodur_fen_write_full, got.board, text, sizeof text);
        about("board_after, written and read back");
        expect("number", MENKHODUR_ACCEPTED, written.number);
        read = CALL(turn, menkhodur_fen_read_full, text, written.value);
        expect_bytes("board", &want, &read.board, sizeof want);
    }
    in->board = want;
}

/* ---- Texts, lent ---- */

static void lend_text(struct input *in, unsigned turn)
{
    lend(&text_part, in->length, in->front, turn);
    lent_put(&text_part, 0, in->text, in->length);
}

size_t room_near(struct input *in, size_t length)
{
    unsigned room = take(in);
    if (room < 100) return room;
    if (room < 120) return length;
    if (room < 140) return length - (length > 0);
    return length + room % 16;
}

/* After a writer's call: the whole room is as before, but for the text of an accepted one. */
static void expect_room(menkhodur_answer got, const uint8_t *text)
{
    if (got.number == MENKHODUR_ACCEPTED) lent_expect(&room_part, 0, text, got.value);
    lent_same("room", &room_part);
}

/* ---- FEN ---- */

static int code_of(uint8_t byte)
{
    const char *at = byte ? strchr(letters + 1, byte | 0x20) : NULL;
    if (!at) return -1;
    return (int)(at - letters) + (byte & 0x20 ? 6 : 0);
}

/* Document 01's placement: files and ranks step around, and a later man stands over an earlier one. How many bytes stand before the first
 * that is none of a placement: all, if each is one. */
static size_t place(const uint8_t *text, size_t length, menkhodur_board *b)
{
    unsigned rank = 7, file = 0;
    for (size_t i = 0; i < length; i++) {
        uint8_t byte = text[i];
        bool man = byte != ' ' && code_of(byte) > 0;
        if (byte == '/') rank += 7, file = 0;
        else if (byte >= '1' && byte <= '8') file += byte - '0';
        else if (man) b->pieces[rank % 8 * 8 + file % 8] = (uint8_t)code_of(byte), file++;
        else return i;
    }
    return length;
}

enum { TOKENS = 6 }; /* that a reader looks at */

struct tokens {
    const uint8_t *at[TOKENS];
    size_t length[TOKENS];
    unsigned count;
};

static struct tokens split(const uint8_t *text, size_t length)
{
    struct tokens t = { { text }, { 0 }, 1 };
    for (size_t i = 0; i < length; i++) {
        if (text[i] != ' ') t.length[t.count - 1]++;
        else if (t.count < TOKENS) t.at[t.count++] = text + i + 1;
        else break;
    }
    return t;
}

static bool has(const struct tokens *t, char letter)
{
    return t->length[2] && memchr(t->at[2], letter, t->length[2]);
}

static menkhodur_fen refused_fen(uint64_t number, size_t offset)
{
    menkhodur_fen fen = { 0 };
    fen.number = number;
    fen.offset = offset;
    return fen;
}

/* Document 02, order 2: too few tokens with the text's length, a bad placement byte with its place, a bad side token with its start. */
static menkhodur_fen model_read(const uint8_t *text, size_t length)
{
    struct tokens t = split(text, length);
    const uint8_t *square = t.at[3];
    menkhodur_fen fen = { 0 };
    menkhodur_board *b = &fen.board;
    size_t placed = place(t.at[0], t.length[0], b);
    if (t.count < 4) return refused_fen(18, length);
    if (placed < t.length[0]) return refused_fen(19, placed);
    if (t.length[1] != 1 || !memchr("wWbB", t.at[1][0], 4)) return refused_fen(20, (size_t)(t.at[1] - text));
    b->side_to_move = (t.at[1][0] | 0x20) == 'b';
    b->white_castle_rights = (uint8_t)(has(&t, 'K') + 2 * has(&t, 'Q'));
    b->black_castle_rights = (uint8_t)(has(&t, 'k') + 2 * has(&t, 'q'));
    if (t.length[3] >= 2 && square[0] >= 'a' && square[0] <= 'h' && square[1] >= '1' && square[1] <= '8')
        b->en_passant = (uint8_t)(square[0] - 'a' + 1);
    b->full_moves = 1;
    return fen;
}

enum { NO_COUNT = -1 };

/* The number of a token of one to four digits. */
static int count_in(const struct tokens *t, unsigned which)
{
    int count = 0;
    if (t->length[which] < 1 || t->length[which] > 4) return NO_COUNT;
    for (size_t i = 0; i < t->length[which]; i++) {
        uint8_t byte = t->at[which][i];
        if (byte < '0' || byte > '9') return NO_COUNT;
        count = 10 * count + (byte - '0');
    }
    return count;
}

/* Document 02, order 12: 25 behind those, for the fifth token and then the sixth. One that is missing has the text's length, one that is not one
 * to four digits, or is a move number of 0, its start. */
static menkhodur_fen model_read_full(const uint8_t *text, size_t length)
{
    struct tokens t = split(text, length);
    menkhodur_fen fen = model_read(text, length);
    int half, full;
    if (fen.number) return fen;
    if (t.count < 5) return refused_fen(MENKHODUR_BAD_COUNTER, length);
    half = count_in(&t, 4);
    if (half == NO_COUNT) return refused_fen(MENKHODUR_BAD_COUNTER, (size_t)(t.at[4] - text));
    if (t.count < 6) return refused_fen(MENKHODUR_BAD_COUNTER, length);
    full = count_in(&t, 5);
    if (full == NO_COUNT || full == 0) return refused_fen(MENKHODUR_BAD_COUNTER, (size_t)(t.at[5] - text));
    fen.board.half_moves = (uint16_t)half;
    fen.board.full_moves = (uint16_t)full;
    return fen;
}

/* ---- The crate's pair and the full one ---- */

struct pair {
    const char *read, *write, *read_back;
    __typeof__(menkhodur_fen_read) *reader[2];
    __typeof__(menkhodur_fen_write) *writer[2];
    menkhodur_fen (*model)(const uint8_t *text, size_t length);
    size_t longest;
    bool counts; /* whether its texts tell the counters: the crate's say 0 and 1 */
};

static const struct pair crate = {
    "fen_read", "fen_write", "fen_read of what fen_write wrote",
    { menkhodur_fen_read, TWIN(menkhodur_fen_read) }, { menkhodur_fen_write, TWIN(menkhodur_fen_write) },
    model_read, MENKHODUR_LONGEST_FEN, false,
};

static const struct pair full = {
    "fen_read_full", "fen_write_full", "fen_read_full of what fen_write_full wrote",
    { menkhodur_fen_read_full, TWIN(menkhodur_fen_read_full) }, { menkhodur_fen_write_full, TWIN(menkhodur_fen_write_full) },
    model_read_full, MENKHODUR_LONGEST_FULL_FEN, true,
};

/* The record that a pair's text tells. */
static menkhodur_board told_by(const struct pair *pair, menkhodur_board b)
{
    if (!pair->counts) b.half_moves = 0, b.full_moves = 1;
    return b;
}

/* ---- FEN, written ---- */

static size_t put_rank(const uint8_t *men, uint8_t *text)
{
    size_t at = 0, empty = 0;
    for (unsigned file = 0; file < 8; file++) {
        unsigned man = men[file];
        if (!man && ++empty && file < 7) continue;
        if (empty) text[at++] = (uint8_t)('0' + empty);
        if (man) text[at++] = (uint8_t)(man > 6 ? letters[man - 6] : letters[man] - 32);
        empty = 0;
    }
    return at;
}

/* The one text of a record in range; the length. */
static size_t model_fen(const struct pair *pair, const menkhodur_board *b, uint8_t *text)
{
    static const char rights[5] = "KQkq";
    unsigned held = b->white_castle_rights | (unsigned)b->black_castle_rights << 2;
    menkhodur_board told = told_by(pair, *b);
    size_t at = 0;
    for (unsigned rank = 8; rank > 0; rank--) {
        at += put_rank(b->pieces + 8 * (rank - 1), text + at);
        text[at++] = rank > 1 ? '/' : ' ';
    }
    text[at++] = b->side_to_move ? 'b' : 'w';
    text[at++] = ' ';
    for (unsigned i = 0; i < 4; i++)
        if (held >> i & 1) text[at++] = (uint8_t)rights[i];
    if (!held) text[at++] = '-';
    text[at++] = ' ';
    text[at++] = b->en_passant ? (uint8_t)('a' + b->en_passant - 1) : '-';
    if (b->en_passant) text[at++] = b->side_to_move ? '3' : '6';
    return at + (size_t)sprintf((char *)text + at, " %u %u", told.half_moves, told.full_moves);
}

size_t model_key(const menkhodur_board *b, uint8_t *key)
{
    return model_fen(&crate, b, key);
}

static void expect_writes(const struct pair *pair, const menkhodur_board *b, size_t room)
{
    uint8_t text[FEN_ROOM];
    bool good = board_good(b);
    size_t length = good ? model_fen(pair, b, text) : 0;
    menkhodur_answer want = { !good ? 5 : room < length ? 7 : 0, length };
    for (unsigned turn = 0; turn < 2; turn++) {
        menkhodur_answer got;
        lend(&room_part, room, turn, turn);
        about(pair->write);
        got = pair->writer[turn](*b, room ? room_part.bytes : NULL, room);
        expect_answer(want, got);
        expect_room(got, text);
    }
    if (good) expect("no more and no fewer bytes than a FEN has", 1, length >= MENKHODUR_SHORTEST_FEN && length <= pair->longest);
}

/* The record's FEN reads back to the record that it tells. */
static void expect_round_trip(const struct pair *pair, const menkhodur_board *b)
{
    menkhodur_board told = told_by(pair, *b);
    menkhodur_answer length;
    menkhodur_fen again;
    lend(&room_part, pair->longest, false, 0);
    length = pair->writer[0](*b, room_part.bytes, pair->longest);
    about(pair->read_back);
    expect("number", 0, length.number);
    again = pair->reader[0](room_part.bytes, length.value);
    expect("number", 0, again.number);
    expect("offset", 0, again.offset);
    expect_bytes("board", &told, &again.board, sizeof told);
}

static void write_in(const struct pair *pair, struct input *in)
{
    uint8_t text[FEN_ROOM];
    size_t length = board_good(&in->board) ? model_fen(pair, &in->board, text) : 0;
    expect_writes(pair, &in->board, room_near(in, length));
    if (!length) return;
    expect_writes(pair, &in->board, length);
    expect_writes(pair, &in->board, length - 1);
    expect_round_trip(pair, &in->board);
}

void call_fen_write(struct input *in)
{
    write_in(&crate, in);
}

void call_fen_write_full(struct input *in)
{
    write_in(&full, in);
}

void text_of_board(struct input *in)
{
    in->length = board_good(&in->board) ? model_fen(&crate, &in->board, in->text) : 0;
}

void full_text_of_board(struct input *in)
{
    in->length = board_good(&in->board) ? model_fen(&full, &in->board, in->text) : 0;
}

/* ---- Settled records and keys ---- */

/* What is settled stays as it is; refused, the record as it was. The board is then the one that was handed out. */
void call_board_settled(struct input *in)
{
    bool good = board_good(&in->board);
    menkhodur_board want = good ? settled_of(in->board) : in->board;
    about("board_settled");
    for (unsigned turn = 0; turn < 2; turn++) {
        menkhodur_stepped got = CALL(turn, menkhodur_board_settled, in->board), again = CALL(turn, menkhodur_board_settled, got.board);
        expect("number", good ? MENKHODUR_ACCEPTED : MENKHODUR_OUT_OF_RANGE, got.number);
        expect_bytes("board", &want, &got.board, sizeof want);
        expect("number, again", got.number, again.number);
        expect_bytes("board, again", &want, &again.board, sizeof want);
    }
    in->board = want;
}

/* The key that a text is owed; its length, or 0 if the text is refused. */
static size_t model_settled(const struct input *in, uint8_t *key)
{
    menkhodur_fen read = model_read(in->text, in->length);
    menkhodur_board settled = settled_of(read.board);
    return read.number ? 0 : model_fen(&crate, &settled, key);
}

static void expect_settled(struct input *in, size_t room)
{
    uint8_t key[FEN_ROOM];
    size_t length = model_settled(in, key);
    menkhodur_fen read = model_read(in->text, in->length);
    menkhodur_placed want = { read.number ? read.number : room < length ? 7 : 0, length, read.offset };
    for (unsigned turn = 0; turn < 2; turn++) {
        menkhodur_placed got;
        lend_text(in, turn);
        lend(&room_part, room, turn, turn);
        about("fen_settled");
        got = CALL(turn, menkhodur_fen_settled, in->length ? text_part.bytes : NULL, in->length, room ? room_part.bytes : NULL, room);
        expect("number", want.number, got.number);
        expect("value", want.value, got.value);
        expect("offset", want.offset, got.offset);
        expect_room((menkhodur_answer){ got.number, got.value }, key);
        lent_same("text", &text_part);
    }
}

void call_fen_settled(struct input *in)
{
    uint8_t key[FEN_ROOM];
    size_t length = model_settled(in, key);
    expect_settled(in, room_near(in, length));
    if (!length) return;
    expect_settled(in, length);
    expect_settled(in, length - 1);
}

/* ---- FEN, read ---- */

/* What a reader accepts is then the board. */
static void read_in(const struct pair *pair, struct input *in)
{
    menkhodur_fen want = pair->model(in->text, in->length);
    for (unsigned turn = 0; turn < 2; turn++) {
        menkhodur_fen got;
        lend_text(in, turn);
        about(pair->read);
        got = pair->reader[turn](in->length ? text_part.bytes : NULL, in->length);
        expect("number", want.number, got.number);
        expect("offset", want.offset, got.offset);
        expect_bytes("board", &want.board, &got.board, sizeof want.board);
        lent_same("text", &text_part);
    }
    if (want.number) return;
    in->board = want.board;
    expect_round_trip(pair, &want.board);
}

void call_fen_read(struct input *in)
{
    read_in(&crate, in);
}

void call_fen_read_full(struct input *in)
{
    read_in(&full, in);
}

/* ---- Pages ---- */

/* Document 02, order 7: what each line of a text is owed. How many lines there are: each newline ends one, and bytes behind the last newline
 * are one more. */
static uint8_t records_owed[RECORD * MOST_LINES];
static uint64_t numbers_owed[TOLD * MOST_LINES];

static size_t model_page(const uint8_t *text, size_t length)
{
    size_t count = 0;
    for (size_t at = 0; at < length; count++) {
        const uint8_t *end = memchr(text + at, '\n', length - at);
        size_t line = end ? (size_t)(end - text) - at : length - at;
        menkhodur_fen fen = model_read(text + at, line);
        memcpy(records_owed + RECORD * count, &fen.board, RECORD);
        numbers_owed[TOLD * count] = fen.number;
        numbers_owed[TOLD * count + 1] = fen.offset;
        at += line + 1;
    }
    return count;
}

/* The room that the input asks for: what the lines need, up to a line more or less, or any of a few lines. */
static size_t take_lines(struct input *in, size_t count, size_t each)
{
    unsigned how = take(in);
    size_t needed = count * each, less = needed < each ? needed : each;
    if (how < 64) return needed;
    if (how < 128) return needed + how % (each + 1);
    if (how < 192) return needed - how % (less + 1);
    return how % (3 * each);
}

/* A text with its lines and its two rooms, and the memory that is lent for them. */
struct page {
    const uint8_t *text;
    size_t length, count, bytes, told;
    bool fits, front;
    struct lent *text_in, *records_in, *numbers_in;
};

#define LENT_PAGE(p) (p).length ? (p).text_in->bytes : NULL, (p).length, (p).bytes ? (p).records_in->bytes : NULL, (p).bytes, \
    (p).told ? (uint64_t *)(void *)(p).numbers_in->bytes : NULL, (p).told

static void take_rooms(struct input *in, struct page *p)
{
    p->count = model_page(p->text, p->length);
    p->bytes = take_lines(in, p->count, RECORD);
    p->told = take_lines(in, p->count, TOLD);
    p->fits = p->bytes >= RECORD * p->count && p->told >= TOLD * p->count;
    p->front = in->front;
}

static struct page page_of_text(struct input *in)
{
    struct page p = { .text = in->text, .length = in->length, .text_in = &text_part, .records_in = &records_part, .numbers_in = &numbers_part };
    take_rooms(in, &p);
    return p;
}

static void lend_page(const struct page *p, unsigned turn)
{
    lend(p->text_in, p->length, p->front, turn);
    lent_put(p->text_in, 0, p->text, p->length);
    lend(p->records_in, p->bytes, p->front, turn);
    lend(p->numbers_in, 8 * p->told, p->front, turn);
}

/* After a call: all is as before, but for what the lines of an accepted page are owed. */
static void expect_rooms(const struct page *p, bool accepted)
{
    lent_expect(p->records_in, 0, records_owed, accepted ? RECORD * p->count : 0);
    lent_expect(p->numbers_in, 0, numbers_owed, accepted ? 8 * TOLD * p->count : 0);
    lent_same("text", p->text_in);
    lent_same("records", p->records_in);
    lent_same("numbers", p->numbers_in);
}

void call_fen_page(struct input *in)
{
    struct page p = page_of_text(in);
    for (unsigned turn = 0; turn < 2; turn++) {
        lend_page(&p, turn);
        about("fen_page");
        expect_answer((menkhodur_answer){ p.fits ? 0 : 7, p.count }, CALL(turn, menkhodur_fen_page, LENT_PAGE(p)));
        expect_rooms(&p, p.fits);
    }
}

/* ---- Reports ---- */

/* Document 02, order 14, over what each line is owed: "how many accepted FENs repeat the record of an earlier accepted one". */
static bool is_repeat(size_t i)
{
    size_t j = 0;
    while (j < i && (numbers_owed[TOLD * j] || memcmp(records_owed + RECORD * j, records_owed + RECORD * i, RECORD) != 0)) j++;
    return j < i;
}

static void add_men(menkhodur_report *r, const uint8_t *squares)
{
    for (unsigned square = 0; square < 64; square++)
        if (squares[square]) r->men[squares[square] - 1]++;
}

static menkhodur_report model_report(const struct page *p)
{
    menkhodur_report r = { .number = MENKHODUR_OUTPUT_TOO_SHORT, .lines = p->count };
    if (p->count > LINES) return (menkhodur_report){ .number = MENKHODUR_LOG_FULL };
    if (!p->fits) return r;
    r.number = MENKHODUR_ACCEPTED;
    for (size_t i = 0; i < p->count; i++) {
        bool accepted = numbers_owed[TOLD * i] == 0;
        r.accepted += accepted;
        r.refused += !accepted;
        r.repeated += accepted && is_repeat(i);
        if (accepted) add_men(&r, records_owed + RECORD * i);
    }
    return r;
}

static void expect_report(const menkhodur_report *want, const menkhodur_report *got)
{
    expect("number", want->number, got->number);
    expect("lines", want->lines, got->lines);
    expect("accepted", want->accepted, got->accepted);
    expect("refused", want->refused, got->refused);
    for (unsigned kind = 0; kind < MENKHODUR_KINDS; kind++) expect("men of a kind", want->men[kind], got->men[kind]);
    expect("repeated", want->repeated, got->repeated);
}

static void report_on(const struct page *p)
{
    menkhodur_report want = model_report(p);
    for (unsigned turn = 0; turn < 2; turn++) {
        menkhodur_report got;
        lend_page(p, turn);
        about("fen_report");
        got = CALL(turn, menkhodur_fen_report, LENT_PAGE(*p));
        expect_report(&want, &got);
        expect_rooms(p, want.number == 0);
    }
}

void call_fen_report(struct input *in)
{
    struct page p = page_of_text(in);
    report_on(&p);
}

static size_t newlines_in(const uint8_t *text, size_t length)
{
    size_t count = 0;
    for (size_t i = 0; i < length; i++) count += text[i] == '\n';
    return count;
}

/* The text register as often as the input says and there is room for, then newlines up to about as many lines as a report takes; and last, if it is
 * not 0, a byte behind them. */
static size_t put_long_page(struct input *in, uint8_t *page)
{
    size_t lines = LINES - 2 + take(in) % 4, own = newlines_in(in->text, in->length), used = 0, length = 0;
    unsigned copies = take_pair(in), last = take(in);
    for (; copies && used + own <= lines && length + in->length + lines < MOST_PAGE; copies--, used += own, length += in->length)
        memcpy(page + length, in->text, in->length);
    memset(page + length, '\n', lines - used);
    length += lines - used;
    if (last) page[length++] = (uint8_t)last;
    return length;
}

void call_long_report(struct input *in)
{
    static uint8_t page[MOST_PAGE];
    struct page p = { .text = page, .text_in = &long_text_part, .records_in = &long_records_part, .numbers_in = &long_numbers_part };
    if (in->had_long_page) return;
    in->had_long_page = true;
    p.length = put_long_page(in, page);
    take_rooms(in, &p);
    report_on(&p);
}

/* ---- Coordinate texts ---- */

/* Which byte of a pair is no square's: 0 for the file's, also if both are, 1 for the rank's, 2 for none. */
static size_t bad_byte(const uint8_t *s)
{
    if (s[0] < 'a' || s[0] > 'h') return 0;
    return s[1] < '1' || s[1] > '8' ? 1 : 2;
}

static unsigned square_of(const uint8_t *s)
{
    return 8u * (s[1] - '1') + (s[0] - 'a');
}

static menkhodur_placed refused_move(uint64_t number, size_t offset)
{
    return (menkhodur_placed){ number, 0, offset };
}

/* Document 02, order 3: 2 with the place of the faulty byte, 3 with the text's length where a pair is not there, or with 4 for a bad fifth. */
static menkhodur_placed model_move(const uint8_t *s, size_t length)
{
    uint64_t promotion = 0;
    if (length < 2) return refused_move(3, length);
    if (bad_byte(s) < 2) return refused_move(2, bad_byte(s));
    if (length < 4) return refused_move(3, length);
    if (bad_byte(s + 2) < 2) return refused_move(2, 2 + bad_byte(s + 2));
    if (length == 5) promotion = s[4] == 'n' ? 2 : s[4] == 'b' ? 3 : s[4] == 'r' ? 4 : s[4] == 'q' ? 5 : 7;
    if (promotion == 7) return refused_move(3, 4);
    return (menkhodur_placed){ 0, square_of(s) + 64 * square_of(s + 2) + 4096 * promotion, 0 };
}

static void expect_placed(menkhodur_placed want, menkhodur_placed got)
{
    expect("number", want.number, got.number);
    expect("value", want.value, got.value);
    expect("offset", want.offset, got.offset);
}

void call_move_read(struct input *in)
{
    menkhodur_placed want = model_move(in->text, in->length);
    for (unsigned turn = 0; turn < 2; turn++) {
        lend_text(in, turn);
        about("move_read");
        expect_placed(want, CALL(turn, menkhodur_move_read, in->length ? text_part.bytes : NULL, in->length));
        lent_same("text", &text_part);
    }
    if (want.number == 0) in->move = want.value;
}

static size_t model_coordinates(uint64_t move, uint8_t *text)
{
    text[0] = (uint8_t)('a' + move % 8);
    text[1] = (uint8_t)('1' + move / 8 % 8);
    text[2] = (uint8_t)('a' + move / 64 % 8);
    text[3] = (uint8_t)('1' + move / 512 % 8);
    text[4] = (uint8_t)letters[move / 4096];
    return move / 4096 ? 5 : 4;
}

void call_move_write(struct input *in)
{
    bool good = in->move <= MENKHODUR_LAST_MOVE;
    uint8_t text[5];
    size_t length = good ? model_coordinates(in->move, text) : 0, room = room_near(in, length);
    menkhodur_answer want = { !good ? 6 : room < length ? 7 : 0, length };
    for (unsigned turn = 0; turn < 2; turn++) {
        menkhodur_answer got;
        lend(&room_part, room, in->front, turn);
        about("move_write");
        got = CALL(turn, menkhodur_move_write, in->move, room ? room_part.bytes : NULL, room);
        expect_answer(want, got);
        expect_room(got, text);
    }
    if (!good || (length == 5 && !memchr("qrnb", text[4], 4))) return;
    about("move_read of what move_write writes");
    expect_placed((menkhodur_placed){ 0, in->move, 0 }, menkhodur_move_read(text, length));
}
