/* Archives with one fault each, to see that the harness finds it: `run` builds this file with FAULT set and puts it before the archive's own
 * function, which it renames. WRAPS, GUIDED or RARE in a comment names the function for `run`; no seed shows a GUIDED fault, and a RARE one shows
 * only at values that no branch of the archive's code tells from others, so that a minute may not be enough to find it. */
#include "../../menkhodur.h"

#include <string.h>

enum { SIZE = MENKHODUR_POSITION_SIZE, HALF = MENKHODUR_POSITION_HALF_MOVES, FULL = MENKHODUR_POSITION_FULL_MOVES };

/* Positions that are equal for repetition. */
static inline int same(const uint8_t *p, const uint8_t *q)
{
    const size_t list = MENKHODUR_POSITION_ENTRIES;
    return memcmp(p, q, HALF) == 0 && memcmp(p + list, q + list, SIZE - list) == 0;
}

/* The start of a token of a FEN text, counted from 0; NULL if it is not there. */
static inline const uint8_t *token_at(const uint8_t *text, size_t length, unsigned which)
{
    const uint8_t *at = text, *end = text + length;
    for (; at && which; which--) {
        at = at < end ? memchr(at, ' ', (size_t)(end - at)) : NULL;
        if (at) at++;
    }
    return at;
}

static inline int moves_a_pawn(const menkhodur_board *b, uint64_t move)
{
    return b->pieces[move % 64] == MENKHODUR_WHITE_PAWN || b->pieces[move % 64] == MENKHODUR_BLACK_PAWN;
}

static inline uint16_t clock_one_more(const menkhodur_board *b)
{
    return (uint16_t)(b->half_moves + (b->half_moves < MENKHODUR_LAST_COUNT));
}

/* Whether a pawn of a side stands on a square; and so many squares from the pawn that moved, on the next file or the one before, of a record with a
 * file. */
static inline int pawn_on(const menkhodur_board *b, int square, int side)
{
    return b->pieces[square] == (side == MENKHODUR_WHITE ? MENKHODUR_WHITE_PAWN : MENKHODUR_BLACK_PAWN);
}

static inline int own(const menkhodur_board *b, int square)
{
    return pawn_on(b, square, b->side_to_move);
}

static inline int stands(const menkhodur_board *b, int files, int squares, int side)
{
    int file = b->en_passant - 1 + files, moved = b->side_to_move == MENKHODUR_WHITE ? 32 : 24;
    return b->en_passant >= 1 && b->en_passant <= 8 && file >= 0 && file < 8 && pawn_on(b, moved + file + squares, side);
}

/* Of a page's rooms: whether line i was accepted, and whether so many bytes of two records are equal. */
static inline int taken(const uint64_t *numbers, size_t i)
{
    return numbers[MENKHODUR_PAGE_NUMBERS * i] == 0;
}

static inline int alike(const uint8_t *records, size_t i, size_t j, size_t bytes)
{
    return memcmp(records + MENKHODUR_PAGE_RECORD * i, records + MENKHODUR_PAGE_RECORD * j, bytes) == 0;
}

/* How many accepted lines have so many bytes of an earlier one's record. */
static inline uint64_t repeats(const uint8_t *records, const uint64_t *numbers, size_t lines, size_t bytes)
{
    uint64_t repeated = 0;
    for (size_t i = 0, j; i < lines; i++) {
        for (j = 0; j < i && !(taken(numbers, i) && taken(numbers, j) && alike(records, i, j, bytes)); j++) {}
        repeated += j < i;
    }
    return repeated;
}

#if FAULT == 1 /* WRAPS fen_write: one byte behind its text is written */
menkhodur_answer real_fen_write(menkhodur_board b, uint8_t *out, size_t room);
menkhodur_answer menkhodur_fen_write(menkhodur_board b, uint8_t *out, size_t room)
{
    menkhodur_answer a = real_fen_write(b, out, room);
    if (a.number == 0 && a.value < room) out[a.value] = 0;
    return a;
}
#elif FAULT == 2 /* WRAPS san_name: a byte is written before the room is found too short */
menkhodur_answer real_san_name(menkhodur_board b, const uint16_t *list, size_t entries, uint64_t move, uint8_t *out, size_t room);
menkhodur_answer menkhodur_san_name(menkhodur_board b, const uint16_t *list, size_t entries, uint64_t move, uint8_t *out, size_t room)
{
    menkhodur_answer a = real_san_name(b, list, entries, move, out, room);
    if (a.number == 7 && room) out[0] = 'N';
    return a;
}
#elif FAULT == 3 /* WRAPS san_name: the length of a name with a mark is one too long */
menkhodur_answer real_san_name(menkhodur_board b, const uint16_t *list, size_t entries, uint64_t move, uint8_t *out, size_t room);
menkhodur_answer menkhodur_san_name(menkhodur_board b, const uint16_t *list, size_t entries, uint64_t move, uint8_t *out, size_t room)
{
    menkhodur_answer a = real_san_name(b, list, entries, move, out, room);
    if (a.number == 0 && a.value > 8) a.value++;
    return a;
}
#elif FAULT == 4 /* WRAPS game_make_move: 12 and 13 are swapped */
menkhodur_counts real_game_make_move(uint8_t *a, size_t al, uint8_t *p, size_t pl, uint64_t ac, uint64_t mc, uint64_t move,
                                     menkhodur_board next, uint8_t in_check, const uint16_t *list, size_t entries);
menkhodur_counts menkhodur_game_make_move(uint8_t *a, size_t al, uint8_t *p, size_t pl, uint64_t ac, uint64_t mc, uint64_t move,
                                          menkhodur_board next, uint8_t in_check, const uint16_t *list, size_t entries)
{
    menkhodur_counts c = real_game_make_move(a, al, p, pl, ac, mc, move, next, in_check, list, entries);
    if (c.number == 12 || c.number == 13) c.number = 25 - c.number;
    return c;
}
#elif FAULT == 5 /* WRAPS fen_read: one byte behind the text is read */
menkhodur_fen real_fen_read(const uint8_t *text, size_t length);
menkhodur_fen menkhodur_fen_read(const uint8_t *text, size_t length)
{
    menkhodur_fen f = real_fen_read(text, length);
    f.offset += length > 60 && ((const volatile uint8_t *)text)[length] == 0xFF && f.number == 99;
    return f;
}
#elif FAULT == 6 /* WRAPS game_resign: black's resignation changes a byte of the positions */
menkhodur_counts real_game_resign(uint8_t *a, size_t al, const uint8_t *p, size_t pl, uint64_t ac, uint64_t mc, uint8_t colour);
menkhodur_counts menkhodur_game_resign(uint8_t *a, size_t al, const uint8_t *p, size_t pl, uint64_t ac, uint64_t mc, uint8_t colour)
{
    menkhodur_counts c = real_game_resign(a, al, p, pl, ac, mc, colour);
    if (c.number == 0) ((uint8_t *)p)[SIZE * (mc + 1) - 1] ^= colour;
    return c;
}
#elif FAULT == 7 /* GUIDED game_result: 9 stands before 16 */
menkhodur_answer real_game_result(const uint8_t *a, size_t al, const uint8_t *p, size_t pl, uint64_t ac, uint64_t mc);
menkhodur_answer menkhodur_game_result(const uint8_t *a, size_t al, const uint8_t *p, size_t pl, uint64_t ac, uint64_t mc)
{
    menkhodur_answer r = real_game_result(a, al, p, pl, ac, mc);
    if (r.number == 16 && (ac > MENKHODUR_MAX_ACTIONS || mc > MENKHODUR_MAX_MOVES)) r.number = 9;
    return r;
}
#elif FAULT == 8 /* GUIDED game_start: a byte of a long list is lost */
menkhodur_counts real_game_start(uint8_t *a, size_t al, uint8_t *p, size_t pl, menkhodur_board b, uint8_t check, const uint16_t *list, size_t entries);
menkhodur_counts menkhodur_game_start(uint8_t *a, size_t al, uint8_t *p, size_t pl, menkhodur_board b, uint8_t check, const uint16_t *list, size_t entries)
{
    menkhodur_counts c = real_game_start(a, al, p, pl, b, check, list, entries);
    if (c.number == 0 && entries > 200) p[MENKHODUR_POSITION_MOVES + 2 * entries - 1] = 0;
    return c;
}
#elif FAULT == 9 /* WRAPS game_can_declare_draw: a claim stands at 99 moves */
menkhodur_answer real_game_can_declare_draw(const uint8_t *a, size_t al, const uint8_t *p, size_t pl, uint64_t ac, uint64_t mc);
menkhodur_answer menkhodur_game_can_declare_draw(const uint8_t *a, size_t al, const uint8_t *p, size_t pl, uint64_t ac, uint64_t mc)
{
    menkhodur_answer r = real_game_can_declare_draw(a, al, p, pl, ac, mc);
    if (r.number == 0 && mc == 99) r.value = 1;
    return r;
}
#elif FAULT == 10 /* WRAPS game_offer_draw: an offer refused with 10 is counted */
menkhodur_counts real_game_offer_draw(uint8_t *a, size_t al, const uint8_t *p, size_t pl, uint64_t ac, uint64_t mc, uint8_t colour);
menkhodur_counts menkhodur_game_offer_draw(uint8_t *a, size_t al, const uint8_t *p, size_t pl, uint64_t ac, uint64_t mc, uint8_t colour)
{
    menkhodur_counts c = real_game_offer_draw(a, al, p, pl, ac, mc, colour);
    c.actions += c.number == 10;
    return c;
}
#elif FAULT == 11 /* WRAPS move_write: a move over 65,535 is cut to 16 bits */
menkhodur_answer real_move_write(uint64_t move, uint8_t *out, size_t room);
menkhodur_answer menkhodur_move_write(uint64_t move, uint8_t *out, size_t room)
{
    return real_move_write((uint16_t)move, out, room);
}
#elif FAULT == 12 /* WRAPS san_read: O-O-O# is read as O-O-O */
menkhodur_answer real_san_read(menkhodur_board b, const uint16_t *list, size_t entries, const uint8_t *text, size_t length);
menkhodur_answer menkhodur_san_read(menkhodur_board b, const uint16_t *list, size_t entries, const uint8_t *text, size_t length)
{
    return real_san_read(b, list, entries, text, length == 6 && memcmp(text, "O-O-O#", 6) == 0 ? 5 : length);
}
#elif FAULT == 13 /* WRAPS move_read: something is kept between calls */
menkhodur_placed real_move_read(const uint8_t *text, size_t length);
menkhodur_placed menkhodur_move_read(const uint8_t *text, size_t length)
{
    static uint8_t last;
    menkhodur_placed a = real_move_read(text, length);
    if (a.number == 0 && last == 'h' && text[0] == 'b') a.value ^= 1;
    last = length ? text[0] : 0;
    return a;
}
#elif FAULT == 14 /* WRAPS game_accept_draw: the offer of the side to move stands after the other's move */
menkhodur_counts real_game_accept_draw(uint8_t *a, size_t al, const uint8_t *p, size_t pl, uint64_t ac, uint64_t mc);
menkhodur_counts menkhodur_game_accept_draw(uint8_t *a, size_t al, const uint8_t *p, size_t pl, uint64_t ac, uint64_t mc)
{
    menkhodur_counts c = real_game_accept_draw(a, al, p, pl, ac, mc);
    if (c.number == 14 && ac >= 2 && ac < MENKHODUR_MAX_ACTIONS && a[4 * ac - 8] == 2 && a[4 * ac - 4] == 1) {
        memcpy(a + 4 * ac, "\3\0\0", 4);
        c = (menkhodur_counts){ 0, ac + 1, mc };
    }
    return c;
}
#elif FAULT == 15 /* WRAPS fen_read: black's queen side right is lost in texts of more than 300 bytes */
menkhodur_fen real_fen_read(const uint8_t *text, size_t length);
menkhodur_fen menkhodur_fen_read(const uint8_t *text, size_t length)
{
    menkhodur_fen f = real_fen_read(text, length);
    if (f.number == 0 && length > 300) f.board.black_castle_rights &= 1;
    return f;
}
#elif FAULT == 16 /* RARE move_read: the one text h8a1r is read as another move */
menkhodur_placed real_move_read(const uint8_t *text, size_t length);
menkhodur_placed menkhodur_move_read(const uint8_t *text, size_t length)
{
    menkhodur_placed a = real_move_read(text, length);
    if (length == 5 && memcmp(text, "h8a1r", 5) == 0) a.value++;
    return a;
}
#elif FAULT == 17 /* WRAPS san_read: a list of exactly 255 entries is refused */
menkhodur_answer real_san_read(menkhodur_board b, const uint16_t *list, size_t entries, const uint8_t *text, size_t length);
menkhodur_answer menkhodur_san_read(menkhodur_board b, const uint16_t *list, size_t entries, const uint8_t *text, size_t length)
{
    menkhodur_answer a = real_san_read(b, list, entries, text, length);
    return entries == 255 ? (menkhodur_answer){ 6, 0 } : a;
}
#elif FAULT == 18 /* WRAPS game_declare_draw: an accepted claim after an odd number of moves names black */
menkhodur_counts real_game_declare_draw(uint8_t *a, size_t al, const uint8_t *p, size_t pl, uint64_t ac, uint64_t mc);
menkhodur_counts menkhodur_game_declare_draw(uint8_t *a, size_t al, const uint8_t *p, size_t pl, uint64_t ac, uint64_t mc)
{
    menkhodur_counts c = real_game_declare_draw(a, al, p, pl, ac, mc);
    if (c.number == 0) a[4 * ac + 1] = mc % 2;
    return c;
}
#elif FAULT == 19 /* WRAPS fen_write: file h has rank 6 with black to move too */
menkhodur_answer real_fen_write(menkhodur_board b, uint8_t *out, size_t room);
menkhodur_answer menkhodur_fen_write(menkhodur_board b, uint8_t *out, size_t room)
{
    menkhodur_answer a = real_fen_write(b, out, room);
    if (a.number == 0 && b.side_to_move && b.en_passant == 8) out[a.value - 5] = '6';
    return a;
}
#elif FAULT == 20 /* RARE game_make_move: the last entry of a list of exactly 128 is changed */
menkhodur_counts real_game_make_move(uint8_t *a, size_t al, uint8_t *p, size_t pl, uint64_t ac, uint64_t mc, uint64_t move,
                                     menkhodur_board next, uint8_t in_check, const uint16_t *list, size_t entries);
menkhodur_counts menkhodur_game_make_move(uint8_t *a, size_t al, uint8_t *p, size_t pl, uint64_t ac, uint64_t mc, uint64_t move,
                                          menkhodur_board next, uint8_t in_check, const uint16_t *list, size_t entries)
{
    menkhodur_counts c = real_game_make_move(a, al, p, pl, ac, mc, move, next, in_check, list, entries);
    if (c.number == 0 && entries == 128) p[SIZE * (mc + 1) + MENKHODUR_POSITION_MOVES + 2 * 127] ^= 1;
    return c;
}
#elif FAULT == 21 /* WRAPS fen_read: of two bad placement bytes the second is told */
menkhodur_fen real_fen_read(const uint8_t *text, size_t length);
menkhodur_fen menkhodur_fen_read(const uint8_t *text, size_t length)
{
    menkhodur_fen f = real_fen_read(text, length);
    if (f.number == 19 && text[f.offset + 1] != ' ' && !strchr("/12345678PNBRQKpnbrqk", text[f.offset + 1])) f.offset++;
    return f;
}
#elif FAULT == 22 /* WRAPS fen_read: an empty side is told before a bad placement byte */
menkhodur_fen real_fen_read(const uint8_t *text, size_t length);
menkhodur_fen menkhodur_fen_read(const uint8_t *text, size_t length)
{
    menkhodur_fen f = real_fen_read(text, length);
    const uint8_t *space = f.number == 19 ? memchr(text, ' ', length) : NULL;
    if (space && space[1] == ' ') f.number = 20, f.offset = (uint64_t)(space - text) + 1;
    return f;
}
#elif FAULT == 23 /* WRAPS fen_read: a text of too few tokens that ends in a space is told at that space */
menkhodur_fen real_fen_read(const uint8_t *text, size_t length);
menkhodur_fen menkhodur_fen_read(const uint8_t *text, size_t length)
{
    menkhodur_fen f = real_fen_read(text, length);
    if (f.number == 18 && length && text[length - 1] == ' ') f.offset--;
    return f;
}
#elif FAULT == 24 /* WRAPS move_read: where both bytes of a pair are bad the rank byte is told */
menkhodur_placed real_move_read(const uint8_t *text, size_t length);
menkhodur_placed menkhodur_move_read(const uint8_t *text, size_t length)
{
    menkhodur_placed a = real_move_read(text, length);
    if (a.number == 2 && a.offset % 2 == 0 && (text[a.offset + 1] < '1' || text[a.offset + 1] > '8')) a.offset++;
    return a;
}
#elif FAULT == 25 /* WRAPS move_read: a pair that is not there is told at its start */
menkhodur_placed real_move_read(const uint8_t *text, size_t length);
menkhodur_placed menkhodur_move_read(const uint8_t *text, size_t length)
{
    menkhodur_placed a = real_move_read(text, length);
    if (a.number == 3 && length < 4) a.offset = length / 2 * 2;
    return a;
}
#elif FAULT == 26 /* WRAPS move_read: a bad fifth byte is told at the end of the text */
menkhodur_placed real_move_read(const uint8_t *text, size_t length);
menkhodur_placed menkhodur_move_read(const uint8_t *text, size_t length)
{
    menkhodur_placed a = real_move_read(text, length);
    if (a.number == 3 && length == 5) a.offset = length;
    return a;
}
#elif FAULT == 27 /* WRAPS game_ruling: a change of rights restarts the count of the Laws */
menkhodur_ruling real_game_ruling(const uint8_t *a, size_t al, const uint8_t *p, size_t pl, uint64_t ac, uint64_t mc);
menkhodur_ruling menkhodur_game_ruling(const uint8_t *a, size_t al, const uint8_t *p, size_t pl, uint64_t ac, uint64_t mc)
{
    menkhodur_ruling r = real_game_ruling(a, al, p, pl, ac, mc);
    r.laws_count = r.count;
    r.laws_claim = r.claim;
    return r;
}
#elif FAULT == 28 /* WRAPS game_ruling: the latest equal position is told in place of the second earliest */
menkhodur_ruling real_game_ruling(const uint8_t *a, size_t al, const uint8_t *p, size_t pl, uint64_t ac, uint64_t mc);
menkhodur_ruling menkhodur_game_ruling(const uint8_t *a, size_t al, const uint8_t *p, size_t pl, uint64_t ac, uint64_t mc)
{
    menkhodur_ruling r = real_game_ruling(a, al, p, pl, ac, mc);
    uint64_t k = mc;
    if (r.number || r.equals < 2) return r;
    while (k-- > 0 && !same(p + SIZE * k, p + SIZE * mc)) {}
    r.second = k;
    return r;
}
#elif FAULT == 29 /* WRAPS game_can_claim_by_laws: it goes by the count of document 01 */
menkhodur_answer real_game_can_claim_by_laws(const uint8_t *a, size_t al, const uint8_t *p, size_t pl, uint64_t ac, uint64_t mc);
menkhodur_answer menkhodur_game_can_claim_by_laws(const uint8_t *a, size_t al, const uint8_t *p, size_t pl, uint64_t ac, uint64_t mc)
{
    menkhodur_answer r = real_game_can_claim_by_laws(a, al, p, pl, ac, mc);
    if (r.number == 0) r.value = menkhodur_game_can_declare_draw(a, al, p, pl, ac, mc).value;
    return r;
}
#elif FAULT == 30 /* WRAPS game_ruling: a refused ruling tells a count */
menkhodur_ruling real_game_ruling(const uint8_t *a, size_t al, const uint8_t *p, size_t pl, uint64_t ac, uint64_t mc);
menkhodur_ruling menkhodur_game_ruling(const uint8_t *a, size_t al, const uint8_t *p, size_t pl, uint64_t ac, uint64_t mc)
{
    menkhodur_ruling r = real_game_ruling(a, al, p, pl, ac, mc);
    if (r.number == 9) r.laws_count = mc;
    return r;
}
#elif FAULT == 31 /* WRAPS san_read_standard: a tail ` e.p.` is dropped */
menkhodur_answer real_san_read_standard(menkhodur_board b, const uint16_t *list, size_t entries, const uint8_t *text, size_t length);
menkhodur_answer menkhodur_san_read_standard(menkhodur_board b, const uint16_t *list, size_t entries, const uint8_t *text, size_t length)
{
    size_t tail = length > 5 && memcmp(text + length - 5, " e.p.", 5) == 0 ? 5 : 0;
    return real_san_read_standard(b, list, entries, text, length - tail);
}
#elif FAULT == 32 /* WRAPS san_read_standard: a rook castles */
menkhodur_answer real_san_read_standard(menkhodur_board b, const uint16_t *list, size_t entries, const uint8_t *text, size_t length);
menkhodur_answer menkhodur_san_read_standard(menkhodur_board b, const uint16_t *list, size_t entries, const uint8_t *text, size_t length)
{
    menkhodur_answer a = real_san_read_standard(b, list, entries, text, length);
    unsigned e = b.side_to_move ? 60 : 4;
    if (a.number != 4 || (b.pieces[e] - 1) % 6 != 3 || length < 3 || memcmp(text, "O-O", 3) != 0) return a;
    b.pieces[e] = 6;
    return real_san_read_standard(b, list, entries, text, length);
}
#elif FAULT == 33 /* WRAPS san_name_standard: a byte is written behind a name of 8 bytes */
menkhodur_answer real_san_name_standard(menkhodur_board b, const uint16_t *list, size_t entries, uint64_t move, uint8_t *out, size_t room);
menkhodur_answer menkhodur_san_name_standard(menkhodur_board b, const uint16_t *list, size_t entries, uint64_t move, uint8_t *out, size_t room)
{
    menkhodur_answer a = real_san_name_standard(b, list, entries, move, out, room);
    if (a.number == 0 && a.value == 8) out[8] = 0;
    return a;
}
#elif FAULT == 34 /* WRAPS san_read_standard: a pawn takes without its file */
menkhodur_answer real_san_read_standard(menkhodur_board b, const uint16_t *list, size_t entries, const uint8_t *text, size_t length);
menkhodur_answer menkhodur_san_read_standard(menkhodur_board b, const uint16_t *list, size_t entries, const uint8_t *text, size_t length)
{
    menkhodur_answer a = real_san_read_standard(b, list, entries, text, length);
    for (unsigned file = 0; a.number == 4 && file < 8 && length == 3 && text[0] == 'x'; file++)
        a = real_san_read_standard(b, list, entries, (uint8_t[]){ (uint8_t)('a' + file), 'x', text[1], text[2] }, 4);
    return a;
}
#elif FAULT == 35 /* WRAPS fen_page: an empty line behind the last newline is counted */
menkhodur_answer real_fen_page(const uint8_t *text, size_t length, uint8_t *records, size_t rl, uint64_t *numbers, size_t nl);
menkhodur_answer menkhodur_fen_page(const uint8_t *text, size_t length, uint8_t *records, size_t rl, uint64_t *numbers, size_t nl)
{
    menkhodur_answer a = real_fen_page(text, length, records, rl, numbers, nl);
    a.value += length && text[length - 1] == '\n';
    return a;
}
#elif FAULT == 36 /* WRAPS fen_page: the offset of a bad side is from the start of the page */
menkhodur_answer real_fen_page(const uint8_t *text, size_t length, uint8_t *records, size_t rl, uint64_t *numbers, size_t nl);
menkhodur_answer menkhodur_fen_page(const uint8_t *text, size_t length, uint8_t *records, size_t rl, uint64_t *numbers, size_t nl)
{
    menkhodur_answer a = real_fen_page(text, length, records, rl, numbers, nl);
    size_t start = 0;
    for (uint64_t i = 0; a.number == 0 && i < a.value; i++) {
        const uint8_t *end = memchr(text + start, '\n', length - start);
        if (numbers[2 * i] == 20) numbers[2 * i + 1] += start;
        start = end ? (size_t)(end - text) + 1 : length;
    }
    return a;
}
#elif FAULT == 37 /* WRAPS fen_page: a room one line short is written to */
menkhodur_answer real_fen_page(const uint8_t *text, size_t length, uint8_t *records, size_t rl, uint64_t *numbers, size_t nl);
menkhodur_answer menkhodur_fen_page(const uint8_t *text, size_t length, uint8_t *records, size_t rl, uint64_t *numbers, size_t nl)
{
    menkhodur_answer a = real_fen_page(text, length, records, rl, numbers, nl);
    if (a.number == 7 && rl + MENKHODUR_PAGE_RECORD == MENKHODUR_PAGE_RECORD * a.value && rl && nl >= 2 * a.value) memset(records, 0, rl);
    return a;
}
#elif FAULT == 38 /* WRAPS fen_page: a number behind the last line's is cleared */
menkhodur_answer real_fen_page(const uint8_t *text, size_t length, uint8_t *records, size_t rl, uint64_t *numbers, size_t nl);
menkhodur_answer menkhodur_fen_page(const uint8_t *text, size_t length, uint8_t *records, size_t rl, uint64_t *numbers, size_t nl)
{
    menkhodur_answer a = real_fen_page(text, length, records, rl, numbers, nl);
    if (a.number == 0 && nl > 2 * a.value) numbers[2 * a.value] = 0;
    return a;
}
#elif FAULT == 45 /* WRAPS board_after: in castling to the queen side the rook stays in its corner too */
menkhodur_stepped real_board_after(menkhodur_board b, uint64_t move);
menkhodur_stepped menkhodur_board_after(menkhodur_board b, uint64_t move)
{
    menkhodur_stepped s = real_board_after(b, move);
    unsigned from = move % 64, to = move / 64 % 64;
    if (s.number == 0 && b.pieces[from] && b.pieces[from] % 6 == 0 && from == to + 2 && to % 8 == 2) s.board.pieces[to - 2] = b.pieces[to - 2];
    return s;
}
#elif FAULT == 46 /* WRAPS board_after: a refused record loses its rights */
menkhodur_stepped real_board_after(menkhodur_board b, uint64_t move);
menkhodur_stepped menkhodur_board_after(menkhodur_board b, uint64_t move)
{
    menkhodur_stepped s = real_board_after(b, move);
    if (s.number) s.board.white_castle_rights = 0;
    return s;
}
#elif FAULT == 47 /* WRAPS board_after: a double step to file h looks round the edge */
menkhodur_stepped real_board_after(menkhodur_board b, uint64_t move);
menkhodur_stepped menkhodur_board_after(menkhodur_board b, uint64_t move)
{
    menkhodur_stepped s = real_board_after(b, move);
    if (s.number == 0 && move == MENKHODUR_MOVE(15, 31, 0) && b.pieces[15] == MENKHODUR_WHITE_PAWN && b.pieces[32]) s.board.en_passant = 8;
    return s;
}
#elif FAULT == 48 /* WRAPS game_make_move: black's rights in the next record are taken as they are lent */
menkhodur_counts real_game_make_move(uint8_t *a, size_t al, uint8_t *p, size_t pl, uint64_t ac, uint64_t mc, uint64_t move,
                                     menkhodur_board next, uint8_t in_check, const uint16_t *list, size_t entries);
menkhodur_counts menkhodur_game_make_move(uint8_t *a, size_t al, uint8_t *p, size_t pl, uint64_t ac, uint64_t mc, uint64_t move,
                                          menkhodur_board next, uint8_t in_check, const uint16_t *list, size_t entries)
{
    menkhodur_counts c = real_game_make_move(a, al, p, pl, ac, mc, move, next, in_check, list, entries);
    uint8_t lent = next.black_castle_rights;
    for (uint8_t rights = 0; c.number == 24 && rights < 4; rights++) {
        next.black_castle_rights = rights;
        c = real_game_make_move(a, al, p, pl, ac, mc, move, next, in_check, list, entries);
    }
    if (c.number == 0) p[SIZE * (mc + 1) + offsetof(menkhodur_board, black_castle_rights)] = lent;
    return c;
}
#elif FAULT == 49 /* WRAPS game_result: a log is good if a record's squares do not follow */
menkhodur_answer real_game_result(const uint8_t *a, size_t al, const uint8_t *p, size_t pl, uint64_t ac, uint64_t mc);
menkhodur_answer menkhodur_game_result(const uint8_t *a, size_t al, const uint8_t *p, size_t pl, uint64_t ac, uint64_t mc)
{
    menkhodur_answer r = real_game_result(a, al, p, pl, ac, mc);
    if (r.number == 9 && mc == 1 && ac == 1 && p[SIZE + 40] == 4 && p[SIZE + offsetof(menkhodur_board, side_to_move)] == 1) r.number = 0;
    return r;
}
#elif FAULT == 39 /* WRAPS roll_differences: a byte is written before the room is found too short */
menkhodur_answer real_roll_differences(const uint8_t *first, size_t fl, const uint8_t *second, size_t sl, uint8_t *out, size_t room);
menkhodur_answer menkhodur_roll_differences(const uint8_t *first, size_t fl, const uint8_t *second, size_t sl, uint8_t *out, size_t room)
{
    menkhodur_answer a = real_roll_differences(first, fl, second, sl, out, room);
    if (a.number == 7 && room) out[0] = '0';
    return a;
}
#elif FAULT == 40 /* WRAPS roll_differences: the second roll's refusal is told first */
menkhodur_answer real_roll_differences(const uint8_t *first, size_t fl, const uint8_t *second, size_t sl, uint8_t *out, size_t room);
menkhodur_answer menkhodur_roll_differences(const uint8_t *first, size_t fl, const uint8_t *second, size_t sl, uint8_t *out, size_t room)
{
    menkhodur_answer a = real_roll_differences(first, fl, second, sl, out, room);
    menkhodur_answer b = real_roll_differences(second, sl, second, sl, 0, 0);
    if (a.number != 0 && a.number != 7 && b.number != 0) a.number = b.number;
    return a;
}
#elif FAULT == 41 /* WRAPS roll_differences: the last byte of a text with an action is a space */
menkhodur_answer real_roll_differences(const uint8_t *first, size_t fl, const uint8_t *second, size_t sl, uint8_t *out, size_t room);
menkhodur_answer menkhodur_roll_differences(const uint8_t *first, size_t fl, const uint8_t *second, size_t sl, uint8_t *out, size_t room)
{
    menkhodur_answer a = real_roll_differences(first, fl, second, sl, out, room);
    if (a.number == 0 && a.value > 9 && out[0] == 'a') out[a.value - 1] = ' ';
    return a;
}
#elif FAULT == 50 /* WRAPS game_can_declare_draw: the high byte of the move number is compared for repetition */
menkhodur_answer real_game_can_declare_draw(const uint8_t *a, size_t al, const uint8_t *p, size_t pl, uint64_t ac, uint64_t mc);
menkhodur_answer menkhodur_game_can_declare_draw(const uint8_t *a, size_t al, const uint8_t *p, size_t pl, uint64_t ac, uint64_t mc)
{
    menkhodur_answer r = real_game_can_declare_draw(a, al, p, pl, ac, mc);
    menkhodur_ruling by = menkhodur_game_ruling(a, al, p, pl, ac, mc);
    if (by.claim != MENKHODUR_CLAIM_BY_POSITIONS || by.equals > 2) return r;
    r.value = p[SIZE * by.first + FULL + 1] == p[SIZE * mc + FULL + 1];
    return r;
}
#elif FAULT == 51 /* WRAPS game_start: the high byte of a move number over 255 is stored first */
menkhodur_counts real_game_start(uint8_t *a, size_t al, uint8_t *p, size_t pl, menkhodur_board b, uint8_t check, const uint16_t *list, size_t entries);
menkhodur_counts menkhodur_game_start(uint8_t *a, size_t al, uint8_t *p, size_t pl, menkhodur_board b, uint8_t check, const uint16_t *list, size_t entries)
{
    menkhodur_counts c = real_game_start(a, al, p, pl, b, check, list, entries);
    if (c.number || b.full_moves < 256) return c;
    p[FULL] = (uint8_t)(b.full_moves / 256);
    p[FULL + 1] = (uint8_t)(b.full_moves % 256);
    return c;
}
#elif FAULT == 52 /* WRAPS game_start: a move number over 9,999 is taken */
menkhodur_counts real_game_start(uint8_t *a, size_t al, uint8_t *p, size_t pl, menkhodur_board b, uint8_t check, const uint16_t *list, size_t entries);
menkhodur_counts menkhodur_game_start(uint8_t *a, size_t al, uint8_t *p, size_t pl, menkhodur_board b, uint8_t check, const uint16_t *list, size_t entries)
{
    menkhodur_counts c = real_game_start(a, al, p, pl, b, check, list, entries);
    uint16_t lent = b.full_moves;
    if (c.number != 5 || lent <= MENKHODUR_LAST_COUNT) return c;
    b.full_moves = 1;
    c = real_game_start(a, al, p, pl, b, check, list, entries);
    if (c.number == 0) memcpy(p + FULL, (uint8_t[]){ (uint8_t)(lent % 256), (uint8_t)(lent / 256) }, 2);
    return c;
}
#elif FAULT == 53 /* WRAPS game_result: the clock of a start without moves is not judged */
menkhodur_answer real_game_result(const uint8_t *a, size_t al, const uint8_t *p, size_t pl, uint64_t ac, uint64_t mc);
menkhodur_answer menkhodur_game_result(const uint8_t *a, size_t al, const uint8_t *p, size_t pl, uint64_t ac, uint64_t mc)
{
    menkhodur_answer r = real_game_result(a, al, p, pl, ac, mc);
    uint8_t high;
    if (r.number != 9 || mc) return r;
    high = p[HALF + 1];
    ((uint8_t *)p)[HALF + 1] = 0;
    r = real_game_result(a, al, p, pl, ac, mc);
    ((uint8_t *)p)[HALF + 1] = high;
    return r;
}
#elif FAULT == 54 /* WRAPS game_result: the high byte of the move number after the first move is not compared */
menkhodur_answer real_game_result(const uint8_t *a, size_t al, const uint8_t *p, size_t pl, uint64_t ac, uint64_t mc);
menkhodur_answer menkhodur_game_result(const uint8_t *a, size_t al, const uint8_t *p, size_t pl, uint64_t ac, uint64_t mc)
{
    menkhodur_answer r = real_game_result(a, al, p, pl, ac, mc);
    uint8_t high;
    if (r.number != 9 || mc != 1) return r;
    high = p[SIZE + FULL + 1];
    ((uint8_t *)p)[SIZE + FULL + 1] = p[FULL + 1];
    r = real_game_result(a, al, p, pl, ac, mc);
    ((uint8_t *)p)[SIZE + FULL + 1] = high;
    return r;
}
#elif FAULT == 55 /* WRAPS game_make_move: of the next record's clock the low byte alone is compared */
menkhodur_counts real_game_make_move(uint8_t *a, size_t al, uint8_t *p, size_t pl, uint64_t ac, uint64_t mc, uint64_t move,
                                     menkhodur_board next, uint8_t in_check, const uint16_t *list, size_t entries);
menkhodur_counts menkhodur_game_make_move(uint8_t *a, size_t al, uint8_t *p, size_t pl, uint64_t ac, uint64_t mc, uint64_t move,
                                          menkhodur_board next, uint8_t in_check, const uint16_t *list, size_t entries)
{
    menkhodur_counts c = real_game_make_move(a, al, p, pl, ac, mc, move, next, in_check, list, entries);
    uint8_t lent = (uint8_t)(next.half_moves / 256);
    if (c.number != 24) return c;
    next.half_moves = (uint16_t)(next.half_moves % 256 + 256 * p[SIZE * mc + HALF + 1]);
    c = real_game_make_move(a, al, p, pl, ac, mc, move, next, in_check, list, entries);
    if (c.number == 0) p[SIZE * (mc + 1) + HALF + 1] = lent;
    return c;
}
#elif FAULT == 56 /* WRAPS game_make_move: a wrong side is told before a counter that is out of range */
menkhodur_counts real_game_make_move(uint8_t *a, size_t al, uint8_t *p, size_t pl, uint64_t ac, uint64_t mc, uint64_t move,
                                     menkhodur_board next, uint8_t in_check, const uint16_t *list, size_t entries);
menkhodur_counts menkhodur_game_make_move(uint8_t *a, size_t al, uint8_t *p, size_t pl, uint64_t ac, uint64_t mc, uint64_t move,
                                          menkhodur_board next, uint8_t in_check, const uint16_t *list, size_t entries)
{
    menkhodur_counts c = real_game_make_move(a, al, p, pl, ac, mc, move, next, in_check, list, entries);
    uint8_t side = c.number == 5 ? p[SIZE * mc + offsetof(menkhodur_board, side_to_move)] : 0;
    if (c.number == 5 && next.side_to_move == side && next.full_moves > MENKHODUR_LAST_COUNT) c.number = 12;
    return c;
}
#elif FAULT == 57 /* WRAPS game_ruling: the count of the Laws goes on from the start's clock */
menkhodur_ruling real_game_ruling(const uint8_t *a, size_t al, const uint8_t *p, size_t pl, uint64_t ac, uint64_t mc);
menkhodur_ruling menkhodur_game_ruling(const uint8_t *a, size_t al, const uint8_t *p, size_t pl, uint64_t ac, uint64_t mc)
{
    menkhodur_ruling r = real_game_ruling(a, al, p, pl, ac, mc);
    if (r.number == 0 && r.laws_count == mc) r.laws_count += p[HALF] + 256u * p[HALF + 1];
    return r;
}
#elif FAULT == 58 /* WRAPS fen_read_full: a fifth token that is missing is told before a bad side */
menkhodur_fen real_fen_read_full(const uint8_t *text, size_t length);
menkhodur_fen menkhodur_fen_read_full(const uint8_t *text, size_t length)
{
    menkhodur_fen f = real_fen_read_full(text, length);
    if (f.number == 20 && !token_at(text, length, 4)) f.number = 25, f.offset = length;
    return f;
}
#elif FAULT == 59 /* WRAPS fen_read_full: of two bad counters the sixth token is told */
menkhodur_fen real_fen_read_full(const uint8_t *text, size_t length);
menkhodur_fen menkhodur_fen_read_full(const uint8_t *text, size_t length)
{
    menkhodur_fen f = real_fen_read_full(text, length);
    const uint8_t *sixth = f.number == 25 ? token_at(text, length, 5) : NULL;
    if (sixth == text + length || (sixth && *sixth == '0')) f.offset = (uint64_t)(sixth - text);
    return f;
}
#elif FAULT == 60 /* WRAPS fen_read_full: a fifth token of five digits is taken if the first is 0 */
menkhodur_fen real_fen_read_full(const uint8_t *text, size_t length);
menkhodur_fen menkhodur_fen_read_full(const uint8_t *text, size_t length)
{
    menkhodur_fen f = real_fen_read_full(text, length);
    const uint8_t *fifth = f.number == 25 ? token_at(text, length, 4) : NULL, *sixth = fifth ? token_at(text, length, 5) : NULL;
    uint8_t copy[100];
    if (!sixth || sixth - fifth != 6 || *fifth != '0' || length > sizeof copy) return f;
    memcpy(copy, text, (size_t)(fifth - text));
    memcpy(copy + (fifth - text), fifth + 1, (size_t)(text + length - fifth) - 1);
    return real_fen_read_full(copy, length - 1);
}
#elif FAULT == 61 /* WRAPS fen_read_full: a move number of 0000 is taken */
menkhodur_fen real_fen_read_full(const uint8_t *text, size_t length);
menkhodur_fen menkhodur_fen_read_full(const uint8_t *text, size_t length)
{
    menkhodur_fen f = real_fen_read_full(text, length);
    uint8_t copy[100];
    if (f.number != 25 || length < 5 || length > sizeof copy || memcmp(text + length - 5, " 0000", 5) != 0) return f;
    memcpy(copy, text, length);
    copy[length - 1] = '1';
    f = real_fen_read_full(copy, length);
    f.board.full_moves = 0;
    return f;
}
#elif FAULT == 62 /* WRAPS fen_read_full: a CR behind the move number is dropped */
menkhodur_fen real_fen_read_full(const uint8_t *text, size_t length);
menkhodur_fen menkhodur_fen_read_full(const uint8_t *text, size_t length)
{
    return real_fen_read_full(text, length && text[length - 1] == '\r' ? length - 1 : length);
}
#elif FAULT == 63 /* WRAPS fen_read_full: a text refused with 25 has a move number of 1 */
menkhodur_fen real_fen_read_full(const uint8_t *text, size_t length);
menkhodur_fen menkhodur_fen_read_full(const uint8_t *text, size_t length)
{
    menkhodur_fen f = real_fen_read_full(text, length);
    if (f.number == 25) f.board.full_moves = 1;
    return f;
}
#elif FAULT == 64 /* WRAPS fen_read: a clock of four digits is taken from the text */
menkhodur_fen real_fen_read(const uint8_t *text, size_t length);
menkhodur_fen menkhodur_fen_read(const uint8_t *text, size_t length)
{
    menkhodur_fen f = real_fen_read(text, length), counted = menkhodur_fen_read_full(text, length);
    if (counted.number == 0 && counted.board.half_moves > 999) f.board.half_moves = counted.board.half_moves;
    return f;
}
#elif FAULT == 65 /* WRAPS fen_write: a clock of 9,999 is told by its last digit */
menkhodur_answer real_fen_write(menkhodur_board b, uint8_t *out, size_t room);
menkhodur_answer menkhodur_fen_write(menkhodur_board b, uint8_t *out, size_t room)
{
    menkhodur_answer a = real_fen_write(b, out, room);
    if (a.number == 0 && b.half_moves == MENKHODUR_LAST_COUNT) out[a.value - 3] = '9';
    return a;
}
#elif FAULT == 66 /* WRAPS fen_write_full: of the longest text the length without counters is told as needed */
menkhodur_answer real_fen_write_full(menkhodur_board b, uint8_t *out, size_t room);
menkhodur_answer menkhodur_fen_write_full(menkhodur_board b, uint8_t *out, size_t room)
{
    menkhodur_answer a = real_fen_write_full(b, out, room);
    if (a.number == 7 && a.value == MENKHODUR_LONGEST_FULL_FEN) a.value = MENKHODUR_LONGEST_FEN;
    return a;
}
#elif FAULT == 67 /* WRAPS fen_page: a line with a fifth token that is no clock is refused */
menkhodur_answer real_fen_page(const uint8_t *text, size_t length, uint8_t *records, size_t rl, uint64_t *numbers, size_t nl);
menkhodur_answer menkhodur_fen_page(const uint8_t *text, size_t length, uint8_t *records, size_t rl, uint64_t *numbers, size_t nl)
{
    menkhodur_answer a = real_fen_page(text, length, records, rl, numbers, nl);
    size_t start = 0;
    for (uint64_t i = 0; a.number == 0 && i < a.value; i++) {
        const uint8_t *end = memchr(text + start, '\n', length - start);
        size_t line = end ? (size_t)(end - text) - start : length - start;
        if (token_at(text + start, line, 4) && menkhodur_fen_read_full(text + start, line).number == 25) numbers[2 * i] = 25;
        start += line + 1;
    }
    return a;
}
#elif FAULT == 68 /* WRAPS board_after: the clock goes on if a man of the mover's own colour is taken */
menkhodur_stepped real_board_after(menkhodur_board b, uint64_t move);
menkhodur_stepped menkhodur_board_after(menkhodur_board b, uint64_t move)
{
    menkhodur_stepped s = real_board_after(b, move);
    unsigned man = b.pieces[move % 64], taken = b.pieces[move / 64 % 64];
    if (s.number || !man || !taken || moves_a_pawn(&b, move)) return s;
    if (man / 7 == taken / 7 && move % 64 != move / 64 % 64) s.board.half_moves = clock_one_more(&b);
    return s;
}
#elif FAULT == 69 /* WRAPS board_after: the clock does not stop at 9,999 */
menkhodur_stepped real_board_after(menkhodur_board b, uint64_t move);
menkhodur_stepped menkhodur_board_after(menkhodur_board b, uint64_t move)
{
    menkhodur_stepped s = real_board_after(b, move);
    if (s.number == 0 && b.half_moves == MENKHODUR_LAST_COUNT && s.board.half_moves) s.board.half_moves++;
    return s;
}
#elif FAULT == 70 /* WRAPS board_after: the move number does not stop at 9,999 */
menkhodur_stepped real_board_after(menkhodur_board b, uint64_t move);
menkhodur_stepped menkhodur_board_after(menkhodur_board b, uint64_t move)
{
    menkhodur_stepped s = real_board_after(b, move);
    if (s.number == 0 && b.full_moves == MENKHODUR_LAST_COUNT && b.side_to_move) s.board.full_moves++;
    return s;
}
#elif FAULT == 71 /* WRAPS board_after: a man that is overwritten in castling counts as captured */
menkhodur_stepped real_board_after(menkhodur_board b, uint64_t move);
menkhodur_stepped menkhodur_board_after(menkhodur_board b, uint64_t move)
{
    menkhodur_stepped s = real_board_after(b, move);
    unsigned from = move % 64, to = move / 64 % 64, king = b.pieces[from] && b.pieces[from] % 6 == 0;
    if (s.number == 0 && king && from / 8 == to / 8 && (from + 2 == to || to + 2 == from) && b.pieces[(from + to) / 2]) s.board.half_moves = 0;
    return s;
}
#elif FAULT == 72 /* WRAPS board_after: a man that goes to his own square leaves the clock running */
menkhodur_stepped real_board_after(menkhodur_board b, uint64_t move);
menkhodur_stepped menkhodur_board_after(menkhodur_board b, uint64_t move)
{
    menkhodur_stepped s = real_board_after(b, move);
    if (s.number == 0 && move % 64 == move / 64 % 64 && b.pieces[move % 64] && !moves_a_pawn(&b, move)) s.board.half_moves = clock_one_more(&b);
    return s;
}
#elif FAULT == 73 /* WRAPS board_after: the move number goes by the colour of the man that moves */
menkhodur_stepped real_board_after(menkhodur_board b, uint64_t move);
menkhodur_stepped menkhodur_board_after(menkhodur_board b, uint64_t move)
{
    menkhodur_stepped s = real_board_after(b, move);
    unsigned man = b.pieces[move % 64];
    if (s.number == 0 && b.side_to_move && man && man <= MENKHODUR_WHITE_KING) s.board.full_moves = b.full_moves;
    return s;
}
#elif FAULT == 74 /* WRAPS board_after: lost rights begin the clock again */
menkhodur_stepped real_board_after(menkhodur_board b, uint64_t move);
menkhodur_stepped menkhodur_board_after(menkhodur_board b, uint64_t move)
{
    menkhodur_stepped s = real_board_after(b, move);
    if (s.number == 0 && s.board.white_castle_rights != b.white_castle_rights) s.board.half_moves = 0;
    return s;
}
#elif FAULT == 75 /* WRAPS half_moves: 10,000 is taken */
menkhodur_stepped real_half_moves(menkhodur_board b, uint64_t half_moves);
menkhodur_stepped menkhodur_half_moves(menkhodur_board b, uint64_t half_moves)
{
    menkhodur_stepped s = real_half_moves(b, half_moves == MENKHODUR_LAST_COUNT + 1 ? 0 : half_moves);
    if (s.number == 0) s.board.half_moves = (uint16_t)half_moves;
    return s;
}
#elif FAULT == 76 /* WRAPS full_moves: a number over 65,535 is cut to 16 bits */
menkhodur_stepped real_full_moves(menkhodur_board b, uint64_t full_moves);
menkhodur_stepped menkhodur_full_moves(menkhodur_board b, uint64_t full_moves)
{
    return real_full_moves(b, (uint16_t)full_moves);
}
#elif FAULT == 77 /* WRAPS castle_rights: with black's rights the counters begin again */
menkhodur_stepped real_castle_rights(menkhodur_board b, uint8_t colour, uint8_t rights);
menkhodur_stepped menkhodur_castle_rights(menkhodur_board b, uint8_t colour, uint8_t rights)
{
    menkhodur_stepped s = real_castle_rights(b, colour, rights);
    if (s.number == 0 && colour) s.board.half_moves = 0, s.board.full_moves = 1;
    return s;
}
#elif FAULT == 78 /* WRAPS san_name: a record with a move number of 0 is taken */
menkhodur_answer real_san_name(menkhodur_board b, const uint16_t *list, size_t entries, uint64_t move, uint8_t *out, size_t room);
menkhodur_answer menkhodur_san_name(menkhodur_board b, const uint16_t *list, size_t entries, uint64_t move, uint8_t *out, size_t room)
{
    if (b.full_moves == 0) b.full_moves = 1;
    return real_san_name(b, list, entries, move, out, room);
}
#elif FAULT == 79 /* WRAPS roll_read: an old roll is taken if it is none of today */
menkhodur_roll real_roll_read(const uint8_t *roll, size_t length, uint8_t *actions, size_t al);
menkhodur_roll menkhodur_roll_read(const uint8_t *roll, size_t length, uint8_t *actions, size_t al)
{
    menkhodur_roll r = real_roll_read(roll, length, actions, al), old;
    if (r.number == 0) return r;
    old = menkhodur_roll_read_old(roll, length, actions, al);
    return old.number ? r : old;
}
#elif FAULT == 80 /* WRAPS roll_read: a move number of 0 is taken */
menkhodur_roll real_roll_read(const uint8_t *roll, size_t length, uint8_t *actions, size_t al);
menkhodur_roll menkhodur_roll_read(const uint8_t *roll, size_t length, uint8_t *actions, size_t al)
{
    menkhodur_roll r = real_roll_read(roll, length, actions, al);
    const size_t at = MENKHODUR_PAGE_RECORD + 1;
    if (r.number != 5 || length <= at || roll[at - 1] >= 128 || roll[at]) return r;
    ((uint8_t *)roll)[at] = 1;
    r = real_roll_read(roll, length, actions, al);
    ((uint8_t *)roll)[at] = 0;
    r.board.full_moves = 0;
    return r;
}
#elif FAULT == 81 /* WRAPS roll_read: the size of a clock is judged before its needless group */
menkhodur_roll real_roll_read(const uint8_t *roll, size_t length, uint8_t *actions, size_t al);
menkhodur_roll menkhodur_roll_read(const uint8_t *roll, size_t length, uint8_t *actions, size_t al)
{
    menkhodur_roll r = real_roll_read(roll, length, actions, al);
    const uint8_t *clock = roll + MENKHODUR_PAGE_RECORD;
    if (r.number != 17 || length < MENKHODUR_PAGE_RECORD + 3 || clock[0] < 128 || clock[1] < 128 || clock[2]) return r;
    if (clock[0] % 128 + 128 * (clock[1] % 128) > MENKHODUR_LAST_COUNT) r.number = 5;
    return r;
}
#elif FAULT == 82 /* WRAPS roll_read_old: a refused roll has a move number of 1 */
menkhodur_roll real_roll_read_old(const uint8_t *roll, size_t length, uint8_t *actions, size_t al);
menkhodur_roll menkhodur_roll_read_old(const uint8_t *roll, size_t length, uint8_t *actions, size_t al)
{
    menkhodur_roll r = real_roll_read_old(roll, length, actions, al);
    if (r.number) r.board.full_moves = 1;
    return r;
}
#elif FAULT == 83 /* WRAPS roll_read_old: a roll of today with the counters 0 and 1 is taken */
menkhodur_roll real_roll_read_old(const uint8_t *roll, size_t length, uint8_t *actions, size_t al);
menkhodur_roll menkhodur_roll_read_old(const uint8_t *roll, size_t length, uint8_t *actions, size_t al)
{
    menkhodur_roll r = real_roll_read_old(roll, length, actions, al), today;
    if (r.number != 17) return r;
    today = menkhodur_roll_read(roll, length, actions, al);
    return today.number ? r : today;
}
#elif FAULT == 84 /* WRAPS roll_write: of two counters that take two bytes each the move number stands first */
menkhodur_answer real_roll_write(menkhodur_board b, const uint8_t *actions, size_t al, uint64_t count, uint8_t *out, size_t room);
menkhodur_answer menkhodur_roll_write(menkhodur_board b, const uint8_t *actions, size_t al, uint64_t count, uint8_t *out, size_t room)
{
    menkhodur_answer a = real_roll_write(b, actions, al, count, out, room);
    uint8_t clock[2], *at = out + MENKHODUR_PAGE_RECORD;
    if (a.number || b.half_moves < 128 || b.full_moves < 128) return a;
    memcpy(clock, at, 2);
    memcpy(at, at + 2, 2);
    memcpy(at + 2, clock, 2);
    return a;
}
#elif FAULT == 85 /* WRAPS roll_differences: a clock that differs is keyed as the move number if that does not */
menkhodur_answer real_roll_differences(const uint8_t *first, size_t fl, const uint8_t *second, size_t sl, uint8_t *out, size_t room);
menkhodur_answer menkhodur_roll_differences(const uint8_t *first, size_t fl, const uint8_t *second, size_t sl, uint8_t *out, size_t room)
{
    menkhodur_answer a = real_roll_differences(first, fl, second, sl, out, room);
    if (a.number == 0 && a.value > 5 && a.value < 16 && memcmp(out, "half ", 5) == 0) memcpy(out, "full", 4);
    return a;
}
#elif FAULT == 86 /* WRAPS roll_differences: the line of the move number stands before that of the clock */
static uint8_t *line_of(uint8_t *out, size_t length, const char *key)
{
    for (size_t i = 0; i + 5 <= length; i++)
        if (memcmp(out + i, key, 5) == 0) return out + i;
    return NULL;
}
menkhodur_answer real_roll_differences(const uint8_t *first, size_t fl, const uint8_t *second, size_t sl, uint8_t *out, size_t room);
menkhodur_answer menkhodur_roll_differences(const uint8_t *first, size_t fl, const uint8_t *second, size_t sl, uint8_t *out, size_t room)
{
    menkhodur_answer a = real_roll_differences(first, fl, second, sl, out, room);
    size_t length = a.number ? 0 : a.value;
    uint8_t both[40], *half = line_of(out, length, "half "), *full = line_of(out, length, "full "), *end;
    if (!half || !full) return a;
    end = (uint8_t *)memchr(full, '\n', (size_t)(out + a.value - full)) + 1;
    memcpy(both, full, (size_t)(end - full));
    memcpy(both + (end - full), half, (size_t)(full - half));
    memcpy(half, both, (size_t)(end - half));
    return a;
}
#elif FAULT == 87 /* WRAPS fen_report: ` w - -` behind a refused line is a repeat */
menkhodur_report real_fen_report(const uint8_t *text, size_t length, uint8_t *records, size_t rl, uint64_t *numbers, size_t nl);
menkhodur_report menkhodur_fen_report(const uint8_t *text, size_t length, uint8_t *records, size_t rl, uint64_t *numbers, size_t nl)
{
    menkhodur_report r = real_fen_report(text, length, records, rl, numbers, nl);
    size_t i = 0;
    while (r.number == 0 && i < r.lines && taken(numbers, i)) i++;
    if (r.number || i == r.lines) return r;
    for (size_t j = i + 1; j < r.lines; j++)
        if (taken(numbers, j) && alike(records, i, j, MENKHODUR_PAGE_RECORD)) r.repeated++;
    return r;
}
#elif FAULT == 88 /* WRAPS fen_report: of three equal lines all are repeats */
menkhodur_report real_fen_report(const uint8_t *text, size_t length, uint8_t *records, size_t rl, uint64_t *numbers, size_t nl);
menkhodur_report menkhodur_fen_report(const uint8_t *text, size_t length, uint8_t *records, size_t rl, uint64_t *numbers, size_t nl)
{
    menkhodur_report r = real_fen_report(text, length, records, rl, numbers, nl);
    r.repeated += r.repeated > 1;
    return r;
}
#elif FAULT == 89 /* WRAPS fen_report: the en passant file is not compared */
menkhodur_report real_fen_report(const uint8_t *text, size_t length, uint8_t *records, size_t rl, uint64_t *numbers, size_t nl);
menkhodur_report menkhodur_fen_report(const uint8_t *text, size_t length, uint8_t *records, size_t rl, uint64_t *numbers, size_t nl)
{
    menkhodur_report r = real_fen_report(text, length, records, rl, numbers, nl);
    if (r.number == 0) r.repeated = repeats(records, numbers, r.lines, MENKHODUR_PAGE_RECORD - 1);
    return r;
}
#elif FAULT == 90 /* WRAPS fen_report: a line is compared with the one before it alone */
menkhodur_report real_fen_report(const uint8_t *text, size_t length, uint8_t *records, size_t rl, uint64_t *numbers, size_t nl);
menkhodur_report menkhodur_fen_report(const uint8_t *text, size_t length, uint8_t *records, size_t rl, uint64_t *numbers, size_t nl)
{
    menkhodur_report r = real_fen_report(text, length, records, rl, numbers, nl);
    if (r.number == 0) r.repeated = 0;
    for (size_t i = 1; r.number == 0 && i < r.lines; i++)
        r.repeated += taken(numbers, i) && taken(numbers, i - 1) && alike(records, i, i - 1, MENKHODUR_PAGE_RECORD);
    return r;
}
#elif FAULT == 91 /* WRAPS fen_report: black's kings are counted as white's */
menkhodur_report real_fen_report(const uint8_t *text, size_t length, uint8_t *records, size_t rl, uint64_t *numbers, size_t nl);
menkhodur_report menkhodur_fen_report(const uint8_t *text, size_t length, uint8_t *records, size_t rl, uint64_t *numbers, size_t nl)
{
    menkhodur_report r = real_fen_report(text, length, records, rl, numbers, nl);
    r.men[MENKHODUR_WHITE_KING - 1] += r.men[MENKHODUR_BLACK_KING - 1];
    r.men[MENKHODUR_BLACK_KING - 1] = 0;
    return r;
}
#elif FAULT == 92 /* WRAPS fen_report: the man on h8 is not counted */
menkhodur_report real_fen_report(const uint8_t *text, size_t length, uint8_t *records, size_t rl, uint64_t *numbers, size_t nl);
menkhodur_report menkhodur_fen_report(const uint8_t *text, size_t length, uint8_t *records, size_t rl, uint64_t *numbers, size_t nl)
{
    menkhodur_report r = real_fen_report(text, length, records, rl, numbers, nl);
    for (size_t i = 0; r.number == 0 && i < r.lines; i++)
        if (records[MENKHODUR_PAGE_RECORD * i + 63]) r.men[records[MENKHODUR_PAGE_RECORD * i + 63] - 1]--;
    return r;
}
#elif FAULT == 93 /* WRAPS fen_report: white's pawns on a line with a bad side are counted */
menkhodur_report real_fen_report(const uint8_t *text, size_t length, uint8_t *records, size_t rl, uint64_t *numbers, size_t nl);
menkhodur_report menkhodur_fen_report(const uint8_t *text, size_t length, uint8_t *records, size_t rl, uint64_t *numbers, size_t nl)
{
    menkhodur_report r = real_fen_report(text, length, records, rl, numbers, nl);
    const uint8_t *at = text, *end = text + length;
    for (size_t i = 0; r.number == 0 && i < r.lines; i++, at++)
        for (; at < end && *at != '\n'; at++) r.men[0] += *at == 'P' && numbers[2 * i] == MENKHODUR_BAD_SIDE;
    return r;
}
#elif FAULT == 94 /* WRAPS fen_report: a sum of men is cut to 16 bits */
menkhodur_report real_fen_report(const uint8_t *text, size_t length, uint8_t *records, size_t rl, uint64_t *numbers, size_t nl);
menkhodur_report menkhodur_fen_report(const uint8_t *text, size_t length, uint8_t *records, size_t rl, uint64_t *numbers, size_t nl)
{
    menkhodur_report r = real_fen_report(text, length, records, rl, numbers, nl);
    for (unsigned kind = 0; kind < MENKHODUR_KINDS; kind++) r.men[kind] = (uint16_t)r.men[kind];
    return r;
}
#elif FAULT == 95 /* WRAPS fen_report: 4,097 lines are taken */
menkhodur_report real_fen_report(const uint8_t *text, size_t length, uint8_t *records, size_t rl, uint64_t *numbers, size_t nl);
menkhodur_report menkhodur_fen_report(const uint8_t *text, size_t length, uint8_t *records, size_t rl, uint64_t *numbers, size_t nl)
{
    menkhodur_report r = real_fen_report(text, length, records, rl, numbers, nl);
    if (r.number != 13 || menkhodur_fen_page(text, length, records, rl, numbers, nl).number) return r;
    r.lines = menkhodur_fen_page(text, length, 0, 0, 0, 0).value;
    for (size_t i = 0; i < r.lines; i++) r.accepted += taken(numbers, i);
    r.number = r.lines > MENKHODUR_REPORT_LINES + 1 ? 13 : 0;
    return r;
}
#elif FAULT == 96 /* WRAPS fen_report: 7 stands before 13 */
menkhodur_report real_fen_report(const uint8_t *text, size_t length, uint8_t *records, size_t rl, uint64_t *numbers, size_t nl);
menkhodur_report menkhodur_fen_report(const uint8_t *text, size_t length, uint8_t *records, size_t rl, uint64_t *numbers, size_t nl)
{
    menkhodur_report r = real_fen_report(text, length, records, rl, numbers, nl);
    menkhodur_answer page = menkhodur_fen_page(text, length, 0, 0, 0, 0);
    if (r.number == 13 && (rl < MENKHODUR_PAGE_RECORD * page.value || nl < 2 * page.value)) r.number = 7, r.lines = page.value;
    return r;
}
#elif FAULT == 97 /* WRAPS fen_report: with 13 the lines are told */
menkhodur_report real_fen_report(const uint8_t *text, size_t length, uint8_t *records, size_t rl, uint64_t *numbers, size_t nl);
menkhodur_report menkhodur_fen_report(const uint8_t *text, size_t length, uint8_t *records, size_t rl, uint64_t *numbers, size_t nl)
{
    menkhodur_report r = real_fen_report(text, length, records, rl, numbers, nl);
    if (r.number == 13) r.lines = menkhodur_fen_page(text, length, 0, 0, 0, 0).value;
    return r;
}
#elif FAULT == 98 /* WRAPS fen_report: with 7 the refused lines of an empty page are told */
menkhodur_report real_fen_report(const uint8_t *text, size_t length, uint8_t *records, size_t rl, uint64_t *numbers, size_t nl);
menkhodur_report menkhodur_fen_report(const uint8_t *text, size_t length, uint8_t *records, size_t rl, uint64_t *numbers, size_t nl)
{
    menkhodur_report r = real_fen_report(text, length, records, rl, numbers, nl);
    if (r.number == 7 && memchr(text, ' ', length) == NULL) r.refused = r.lines;
    return r;
}
#elif FAULT == 99 /* WRAPS fen_report: a byte is written before there are found too many lines */
menkhodur_report real_fen_report(const uint8_t *text, size_t length, uint8_t *records, size_t rl, uint64_t *numbers, size_t nl);
menkhodur_report menkhodur_fen_report(const uint8_t *text, size_t length, uint8_t *records, size_t rl, uint64_t *numbers, size_t nl)
{
    menkhodur_report r = real_fen_report(text, length, records, rl, numbers, nl);
    if (r.number == 13 && rl) records[0] = 0;
    return r;
}
#elif FAULT == 100 /* WRAPS fen_report: a number behind the last line's is cleared */
menkhodur_report real_fen_report(const uint8_t *text, size_t length, uint8_t *records, size_t rl, uint64_t *numbers, size_t nl);
menkhodur_report menkhodur_fen_report(const uint8_t *text, size_t length, uint8_t *records, size_t rl, uint64_t *numbers, size_t nl)
{
    menkhodur_report r = real_fen_report(text, length, records, rl, numbers, nl);
    if (r.number == 0 && nl > 2 * r.lines) numbers[2 * r.lines] = 0;
    return r;
}
#elif FAULT == 101 /* WRAPS fen_report: an unended last line is no line */
menkhodur_report real_fen_report(const uint8_t *text, size_t length, uint8_t *records, size_t rl, uint64_t *numbers, size_t nl);
menkhodur_report menkhodur_fen_report(const uint8_t *text, size_t length, uint8_t *records, size_t rl, uint64_t *numbers, size_t nl)
{
    menkhodur_report r = real_fen_report(text, length, records, rl, numbers, nl);
    if (r.number == 0 && length && text[length - 1] != '\n' && r.refused > r.accepted) r.lines--, r.refused--;
    return r;
}
#elif FAULT == 102 /* WRAPS fen_report: a refused line behind ` w - -` is a repeat */
menkhodur_report real_fen_report(const uint8_t *text, size_t length, uint8_t *records, size_t rl, uint64_t *numbers, size_t nl);
menkhodur_report menkhodur_fen_report(const uint8_t *text, size_t length, uint8_t *records, size_t rl, uint64_t *numbers, size_t nl)
{
    menkhodur_report r = real_fen_report(text, length, records, rl, numbers, nl);
    for (size_t i = 1; r.number == 0 && i < r.lines; i++)
        r.repeated += !taken(numbers, i) && taken(numbers, i - 1) && alike(records, i, i - 1, MENKHODUR_PAGE_RECORD);
    return r;
}
#elif FAULT == 103 /* WRAPS board_settled: the other side's pawn counts */
menkhodur_stepped real_board_settled(menkhodur_board b);
menkhodur_stepped menkhodur_board_settled(menkhodur_board b)
{
    menkhodur_stepped s = real_board_settled(b);
    if (stands(&b, 1, 0, !b.side_to_move) || stands(&b, -1, 0, !b.side_to_move)) s.board.en_passant = b.en_passant;
    return s;
}
#elif FAULT == 104 /* WRAPS board_settled: a pawn on rank 4 counts for white, and on rank 5 for black */
menkhodur_stepped real_board_settled(menkhodur_board b);
menkhodur_stepped menkhodur_board_settled(menkhodur_board b)
{
    menkhodur_stepped s = real_board_settled(b);
    int back = b.side_to_move == MENKHODUR_WHITE ? -8 : 8;
    if (stands(&b, 1, back, b.side_to_move) || stands(&b, -1, back, b.side_to_move)) s.board.en_passant = b.en_passant;
    return s;
}
#elif FAULT == 105 /* WRAPS board_settled: from file a it looks round the edge */
menkhodur_stepped real_board_settled(menkhodur_board b);
menkhodur_stepped menkhodur_board_settled(menkhodur_board b)
{
    menkhodur_stepped s = real_board_settled(b);
    if (b.en_passant == 1 && own(&b, b.side_to_move == MENKHODUR_WHITE ? 31 : 23)) s.board.en_passant = 1;
    return s;
}
#elif FAULT == 106 /* WRAPS board_settled: from file h it looks round the edge */
menkhodur_stepped real_board_settled(menkhodur_board b);
menkhodur_stepped menkhodur_board_settled(menkhodur_board b)
{
    menkhodur_stepped s = real_board_settled(b);
    if (b.en_passant == 8 && own(&b, b.side_to_move == MENKHODUR_WHITE ? 40 : 32)) s.board.en_passant = 8;
    return s;
}
#elif FAULT == 107 /* WRAPS board_settled: the file is always cleared */
menkhodur_stepped real_board_settled(menkhodur_board b);
menkhodur_stepped menkhodur_board_settled(menkhodur_board b)
{
    menkhodur_stepped s = real_board_settled(b);
    if (s.number == 0) s.board.en_passant = 0;
    return s;
}
#elif FAULT == 108 /* WRAPS board_settled: the file is always kept */
menkhodur_stepped real_board_settled(menkhodur_board b);
menkhodur_stepped menkhodur_board_settled(menkhodur_board b)
{
    menkhodur_stepped s = real_board_settled(b);
    if (s.number == 0) s.board.en_passant = b.en_passant;
    return s;
}
#elif FAULT == 109 /* WRAPS board_settled: a refused record loses its file */
menkhodur_stepped real_board_settled(menkhodur_board b);
menkhodur_stepped menkhodur_board_settled(menkhodur_board b)
{
    menkhodur_stepped s = real_board_settled(b);
    if (s.number) s.board.en_passant = 0;
    return s;
}
#elif FAULT == 110 /* WRAPS board_settled: a cleared file begins the clock again */
menkhodur_stepped real_board_settled(menkhodur_board b);
menkhodur_stepped menkhodur_board_settled(menkhodur_board b)
{
    menkhodur_stepped s = real_board_settled(b);
    if (s.number == 0 && s.board.en_passant != b.en_passant) s.board.half_moves = 0;
    return s;
}
#elif FAULT == 111 /* WRAPS fen_settled: the file is not cleared */
menkhodur_placed real_fen_settled(const uint8_t *text, size_t length, uint8_t *out, size_t room);
menkhodur_placed menkhodur_fen_settled(const uint8_t *text, size_t length, uint8_t *out, size_t room)
{
    menkhodur_placed p = real_fen_settled(text, length, out, room);
    menkhodur_fen read = menkhodur_fen_read(text, length);
    if (p.number == 0) p.value = menkhodur_fen_write(read.board, out, room).value;
    return p;
}
#elif FAULT == 112 /* WRAPS fen_settled: 7 tells the length of the record that was read */
menkhodur_placed real_fen_settled(const uint8_t *text, size_t length, uint8_t *out, size_t room);
menkhodur_placed menkhodur_fen_settled(const uint8_t *text, size_t length, uint8_t *out, size_t room)
{
    menkhodur_placed p = real_fen_settled(text, length, out, room);
    if (p.number == 7) p.value = menkhodur_fen_write(menkhodur_fen_read(text, length).board, NULL, 0).value;
    return p;
}
#elif FAULT == 113 /* WRAPS fen_settled: 7 stands before 18 */
menkhodur_placed real_fen_settled(const uint8_t *text, size_t length, uint8_t *out, size_t room);
menkhodur_placed menkhodur_fen_settled(const uint8_t *text, size_t length, uint8_t *out, size_t room)
{
    menkhodur_placed p = real_fen_settled(text, length, out, room);
    if (p.number == 18 && room < MENKHODUR_SHORTEST_FEN) p = (menkhodur_placed){ 7, MENKHODUR_SHORTEST_FEN, 0 };
    return p;
}
#elif FAULT == 114 /* WRAPS fen_settled: a bad side is told a byte later */
menkhodur_placed real_fen_settled(const uint8_t *text, size_t length, uint8_t *out, size_t room);
menkhodur_placed menkhodur_fen_settled(const uint8_t *text, size_t length, uint8_t *out, size_t room)
{
    menkhodur_placed p = real_fen_settled(text, length, out, room);
    if (p.number == 20) p.offset++;
    return p;
}
#elif FAULT == 115 /* WRAPS fen_settled: a byte is written before the text is refused */
menkhodur_placed real_fen_settled(const uint8_t *text, size_t length, uint8_t *out, size_t room);
menkhodur_placed menkhodur_fen_settled(const uint8_t *text, size_t length, uint8_t *out, size_t room)
{
    menkhodur_placed p = real_fen_settled(text, length, out, room);
    if (p.number == 19 && room) out[0] = '8';
    return p;
}
#elif FAULT == 116 /* WRAPS fen_settled: a byte is written into a room that is too short */
menkhodur_placed real_fen_settled(const uint8_t *text, size_t length, uint8_t *out, size_t room);
menkhodur_placed menkhodur_fen_settled(const uint8_t *text, size_t length, uint8_t *out, size_t room)
{
    menkhodur_placed p = real_fen_settled(text, length, out, room);
    if (p.number == 7 && room) out[room - 1] = ' ';
    return p;
}
#elif FAULT == 117 /* WRAPS fen_settled: a byte behind the key is cleared */
menkhodur_placed real_fen_settled(const uint8_t *text, size_t length, uint8_t *out, size_t room);
menkhodur_placed menkhodur_fen_settled(const uint8_t *text, size_t length, uint8_t *out, size_t room)
{
    menkhodur_placed p = real_fen_settled(text, length, out, room);
    if (p.number == 0 && room > p.value) out[p.value] = 0;
    return p;
}
#elif FAULT == 118 /* WRAPS fen_settled: with 7 the text's length is the offset */
menkhodur_placed real_fen_settled(const uint8_t *text, size_t length, uint8_t *out, size_t room);
menkhodur_placed menkhodur_fen_settled(const uint8_t *text, size_t length, uint8_t *out, size_t room)
{
    menkhodur_placed p = real_fen_settled(text, length, out, room);
    if (p.number == 7) p.offset = length;
    return p;
}
#elif FAULT == 119 /* WRAPS fen_settled: the text's own clock is written */
menkhodur_placed real_fen_settled(const uint8_t *text, size_t length, uint8_t *out, size_t room);
menkhodur_placed menkhodur_fen_settled(const uint8_t *text, size_t length, uint8_t *out, size_t room)
{
    menkhodur_placed p = real_fen_settled(text, length, out, room);
    const uint8_t *clock = token_at(text, length, 4);
    if (p.number == 0 && clock && clock < text + length) out[p.value - 3] = *clock;
    return p;
}
#elif FAULT == 120 /* WRAPS pgn_next: a variation without a move is told */
menkhodur_pgn_move real_pgn_next(const uint8_t *text, size_t length, uint64_t offset, uint64_t level);
menkhodur_pgn_move menkhodur_pgn_next(const uint8_t *text, size_t length, uint64_t offset, uint64_t level)
{
    menkhodur_pgn_move m = real_pgn_next(text, length, offset, level);
    for (uint64_t at = offset; m.found && at + 1 < m.start; at++)
        if (text[at] == '(' && text[at + 1] == ')') m.closed++, m.opened++;
    return m;
}
#elif FAULT == 121 /* WRAPS pgn_next: brackets that are closed and opened anew are told as none */
menkhodur_pgn_move real_pgn_next(const uint8_t *text, size_t length, uint64_t offset, uint64_t level);
menkhodur_pgn_move menkhodur_pgn_next(const uint8_t *text, size_t length, uint64_t offset, uint64_t level)
{
    menkhodur_pgn_move m = real_pgn_next(text, length, offset, level);
    while (m.closed && m.opened) m.closed--, m.opened--;
    return m;
}
#elif FAULT == 122 /* WRAPS pgn_next: one bracket alone is told as opened */
menkhodur_pgn_move real_pgn_next(const uint8_t *text, size_t length, uint64_t offset, uint64_t level);
menkhodur_pgn_move menkhodur_pgn_next(const uint8_t *text, size_t length, uint64_t offset, uint64_t level)
{
    menkhodur_pgn_move m = real_pgn_next(text, length, offset, level);
    if (m.opened > 1) m.opened = 1;
    return m;
}
#elif FAULT == 123 /* WRAPS pgn_next: without a move the place is left */
menkhodur_pgn_move real_pgn_next(const uint8_t *text, size_t length, uint64_t offset, uint64_t level);
menkhodur_pgn_move menkhodur_pgn_next(const uint8_t *text, size_t length, uint64_t offset, uint64_t level)
{
    menkhodur_pgn_move m = real_pgn_next(text, length, offset, level);
    if (!m.found && m.number == 0) m.closed = level;
    return m;
}
#elif FAULT == 124 /* WRAPS game_step: a variation's move is played */
menkhodur_step real_game_step(const uint8_t *text, size_t length, uint64_t offset, menkhodur_board b, const uint16_t *list, size_t entries,
                              uint8_t *out, size_t room);
menkhodur_step menkhodur_game_step(const uint8_t *text, size_t length, uint64_t offset, menkhodur_board b, const uint16_t *list, size_t entries,
                                   uint8_t *out, size_t room)
{
    menkhodur_step s = real_game_step(text, length, offset, b, list, entries, out, room);
    menkhodur_pgn_move m = menkhodur_pgn_next(text, length, offset, 0);
    if (s.found && m.level) {
        s = menkhodur_play(text + m.start, m.length, b, list, entries, out, room);
        s.start = m.start;
    }
    return s;
}
#elif FAULT == 125 /* WRAPS game_step: the key of the record before is written */
menkhodur_step real_game_step(const uint8_t *text, size_t length, uint64_t offset, menkhodur_board b, const uint16_t *list, size_t entries,
                              uint8_t *out, size_t room);
menkhodur_step menkhodur_game_step(const uint8_t *text, size_t length, uint64_t offset, menkhodur_board b, const uint16_t *list, size_t entries,
                                   uint8_t *out, size_t room)
{
    menkhodur_step s = real_game_step(text, length, offset, b, list, entries, out, room);
    if (s.number == 0 && s.found) menkhodur_fen_write(b, out, room);
    return s;
}
#elif FAULT == 126 /* WRAPS game_step: it goes on behind a move that is refused */
menkhodur_step real_game_step(const uint8_t *text, size_t length, uint64_t offset, menkhodur_board b, const uint16_t *list, size_t entries,
                              uint8_t *out, size_t room);
menkhodur_step menkhodur_game_step(const uint8_t *text, size_t length, uint64_t offset, menkhodur_board b, const uint16_t *list, size_t entries,
                                   uint8_t *out, size_t room)
{
    menkhodur_step s = real_game_step(text, length, offset, b, list, entries, out, room);
    if (s.number == 4) s = real_game_step(text, length, s.start + s.length, b, list, entries, out, room);
    return s;
}
#elif FAULT == 127 /* WRAPS game_step: a move is skipped */
menkhodur_step real_game_step(const uint8_t *text, size_t length, uint64_t offset, menkhodur_board b, const uint16_t *list, size_t entries,
                              uint8_t *out, size_t room);
menkhodur_step menkhodur_game_step(const uint8_t *text, size_t length, uint64_t offset, menkhodur_board b, const uint16_t *list, size_t entries,
                                   uint8_t *out, size_t room)
{
    menkhodur_step s = real_game_step(text, length, offset, b, list, entries, out, room);
    if (s.number == 0 && s.found && s.length > 3) s = real_game_step(text, length, s.start + s.length, b, list, entries, out, room);
    return s;
}
#elif FAULT == 128 /* WRAPS game_step: with 7 the record after the move is handed out */
menkhodur_step real_game_step(const uint8_t *text, size_t length, uint64_t offset, menkhodur_board b, const uint16_t *list, size_t entries,
                              uint8_t *out, size_t room);
menkhodur_step menkhodur_game_step(const uint8_t *text, size_t length, uint64_t offset, menkhodur_board b, const uint16_t *list, size_t entries,
                                   uint8_t *out, size_t room)
{
    menkhodur_step s = real_game_step(text, length, offset, b, list, entries, out, room);
    if (s.number == 7) s.board = menkhodur_board_after(b, menkhodur_san_read_standard(b, list, entries, text + s.start, s.length).value).board;
    return s;
}
#elif FAULT == 129 /* WRAPS game_step: a bracket that is left open has the offset of the place */
menkhodur_step real_game_step(const uint8_t *text, size_t length, uint64_t offset, menkhodur_board b, const uint16_t *list, size_t entries,
                              uint8_t *out, size_t room);
menkhodur_step menkhodur_game_step(const uint8_t *text, size_t length, uint64_t offset, menkhodur_board b, const uint16_t *list, size_t entries,
                                   uint8_t *out, size_t room)
{
    menkhodur_step s = real_game_step(text, length, offset, b, list, entries, out, room);
    if (s.number == 21) s.offset = offset;
    return s;
}
#elif FAULT == 130 /* WRAPS game_step: with 7 there is no offset */
menkhodur_step real_game_step(const uint8_t *text, size_t length, uint64_t offset, menkhodur_board b, const uint16_t *list, size_t entries,
                              uint8_t *out, size_t room);
menkhodur_step menkhodur_game_step(const uint8_t *text, size_t length, uint64_t offset, menkhodur_board b, const uint16_t *list, size_t entries,
                                   uint8_t *out, size_t room)
{
    menkhodur_step s = real_game_step(text, length, offset, b, list, entries, out, room);
    if (s.number == 7) s.offset = 0;
    return s;
}
#elif FAULT == 131 /* WRAPS game_step: a record out of range is told before the walk's refusals */
menkhodur_step real_game_step(const uint8_t *text, size_t length, uint64_t offset, menkhodur_board b, const uint16_t *list, size_t entries,
                              uint8_t *out, size_t room);
menkhodur_step menkhodur_game_step(const uint8_t *text, size_t length, uint64_t offset, menkhodur_board b, const uint16_t *list, size_t entries,
                                   uint8_t *out, size_t room)
{
    menkhodur_step s = real_game_step(text, length, offset, b, list, entries, out, room);
    if (s.number == 23 && menkhodur_board_settled(b).number) s.number = 5;
    return s;
}
#elif FAULT == 132 /* WRAPS game_step: where no move is left the text's end is told */
menkhodur_step real_game_step(const uint8_t *text, size_t length, uint64_t offset, menkhodur_board b, const uint16_t *list, size_t entries,
                              uint8_t *out, size_t room);
menkhodur_step menkhodur_game_step(const uint8_t *text, size_t length, uint64_t offset, menkhodur_board b, const uint16_t *list, size_t entries,
                                   uint8_t *out, size_t room)
{
    menkhodur_step s = real_game_step(text, length, offset, b, list, entries, out, room);
    if (s.number == 0 && !s.found) s.start = length;
    return s;
}
#elif FAULT == 133 /* WRAPS game_step: a byte behind the key is cleared */
menkhodur_step real_game_step(const uint8_t *text, size_t length, uint64_t offset, menkhodur_board b, const uint16_t *list, size_t entries,
                              uint8_t *out, size_t room);
menkhodur_step menkhodur_game_step(const uint8_t *text, size_t length, uint64_t offset, menkhodur_board b, const uint16_t *list, size_t entries,
                                   uint8_t *out, size_t room)
{
    menkhodur_step s = real_game_step(text, length, offset, b, list, entries, out, room);
    if (s.number == 0 && s.found && room > s.key_length) out[s.key_length] = 0;
    return s;
}
#elif FAULT == 134 /* WRAPS game_step: a byte is written into a room that is too short */
menkhodur_step real_game_step(const uint8_t *text, size_t length, uint64_t offset, menkhodur_board b, const uint16_t *list, size_t entries,
                              uint8_t *out, size_t room);
menkhodur_step menkhodur_game_step(const uint8_t *text, size_t length, uint64_t offset, menkhodur_board b, const uint16_t *list, size_t entries,
                                   uint8_t *out, size_t room)
{
    menkhodur_step s = real_game_step(text, length, offset, b, list, entries, out, room);
    if (s.number == 7 && room) out[room - 1] = ' ';
    return s;
}
#elif FAULT == 135 /* WRAPS game_step: it goes on behind a result */
menkhodur_step real_game_step(const uint8_t *text, size_t length, uint64_t offset, menkhodur_board b, const uint16_t *list, size_t entries,
                              uint8_t *out, size_t room);
menkhodur_step menkhodur_game_step(const uint8_t *text, size_t length, uint64_t offset, menkhodur_board b, const uint16_t *list, size_t entries,
                                   uint8_t *out, size_t room)
{
    menkhodur_step s = real_game_step(text, length, offset, b, list, entries, out, room);
    for (uint64_t at = offset; s.number == 0 && !s.found && at + 3 < length; at++)
        if (text[at] == '-' && text[at + 1] == '1' && text[at + 2] == '/') s = real_game_step(text, length, at + 4, b, list, entries, out, room);
    return s;
}
#elif FAULT == 136 /* WRAPS play: a blank before the text is passed over */
menkhodur_step real_play(const uint8_t *text, size_t length, menkhodur_board b, const uint16_t *list, size_t entries, uint8_t *out, size_t room);
menkhodur_step menkhodur_play(const uint8_t *text, size_t length, menkhodur_board b, const uint16_t *list, size_t entries, uint8_t *out, size_t room)
{
    menkhodur_step s = real_play(text, length, b, list, entries, out, room);
    if (s.number == 4 && length && *text == ' ') s = real_play(text + 1, length - 1, b, list, entries, out, room);
    return s;
}
#elif FAULT == 137 /* WRAPS play: the clock does not go on */
menkhodur_step real_play(const uint8_t *text, size_t length, menkhodur_board b, const uint16_t *list, size_t entries, uint8_t *out, size_t room);
menkhodur_step menkhodur_play(const uint8_t *text, size_t length, menkhodur_board b, const uint16_t *list, size_t entries, uint8_t *out, size_t room)
{
    menkhodur_step s = real_play(text, length, b, list, entries, out, room);
    if (s.number == 0 && s.board.half_moves) s.board.half_moves = b.half_moves;
    return s;
}
#elif FAULT == 138 /* WRAPS play: the move number does not go on */
menkhodur_step real_play(const uint8_t *text, size_t length, menkhodur_board b, const uint16_t *list, size_t entries, uint8_t *out, size_t room);
menkhodur_step menkhodur_play(const uint8_t *text, size_t length, menkhodur_board b, const uint16_t *list, size_t entries, uint8_t *out, size_t room)
{
    menkhodur_step s = real_play(text, length, b, list, entries, out, room);
    if (s.number == 0) s.board.full_moves = b.full_moves;
    return s;
}
#elif FAULT == 139 /* WRAPS play: 7 stands before 4 */
menkhodur_step real_play(const uint8_t *text, size_t length, menkhodur_board b, const uint16_t *list, size_t entries, uint8_t *out, size_t room);
menkhodur_step menkhodur_play(const uint8_t *text, size_t length, menkhodur_board b, const uint16_t *list, size_t entries, uint8_t *out, size_t room)
{
    menkhodur_step s = real_play(text, length, b, list, entries, out, room);
    if (s.number == 4 && room == 0) s.number = 7, s.key_length = MENKHODUR_SHORTEST_FEN;
    return s;
}
#elif FAULT == 140 /* WRAPS play: the place of the entry is told in place of the move */
menkhodur_step real_play(const uint8_t *text, size_t length, menkhodur_board b, const uint16_t *list, size_t entries, uint8_t *out, size_t room);
menkhodur_step menkhodur_play(const uint8_t *text, size_t length, menkhodur_board b, const uint16_t *list, size_t entries, uint8_t *out, size_t room)
{
    menkhodur_step s = real_play(text, length, b, list, entries, out, room);
    for (size_t i = 0; s.number == 0 && i < entries; i++)
        if (list[i] == s.move) s.move = i;
    return s;
}
#elif FAULT == 141 /* WRAPS play: an empty text has no move text */
menkhodur_step real_play(const uint8_t *text, size_t length, menkhodur_board b, const uint16_t *list, size_t entries, uint8_t *out, size_t room);
menkhodur_step menkhodur_play(const uint8_t *text, size_t length, menkhodur_board b, const uint16_t *list, size_t entries, uint8_t *out, size_t room)
{
    menkhodur_step s = real_play(text, length, b, list, entries, out, room);
    if (length == 0) s.found = 0;
    return s;
}
#elif FAULT == 142 /* WRAPS in_check: the other side is asked */
menkhodur_answer real_in_check(menkhodur_board b);
menkhodur_answer menkhodur_in_check(menkhodur_board b)
{
    b.side_to_move ^= 1;
    return real_in_check(b);
}
#elif FAULT == 143 /* WRAPS in_check: a refused record is told to be in check */
menkhodur_answer real_in_check(menkhodur_board b);
menkhodur_answer menkhodur_in_check(menkhodur_board b)
{
    menkhodur_answer a = real_in_check(b);
    a.value |= a.number != 0;
    return a;
}
#elif FAULT == 144 /* WRAPS legal_list: a move behind the last is written */
menkhodur_answer real_legal_list(menkhodur_board b, uint16_t *out, size_t room);
menkhodur_answer menkhodur_legal_list(menkhodur_board b, uint16_t *out, size_t room)
{
    menkhodur_answer a = real_legal_list(b, out, room);
    if (a.number == 0 && room > a.value) out[a.value] = 0;
    return a;
}
#elif FAULT == 145 /* WRAPS legal_list: a short room is filled */
menkhodur_answer real_legal_list(menkhodur_board b, uint16_t *out, size_t room);
menkhodur_answer menkhodur_legal_list(menkhodur_board b, uint16_t *out, size_t room)
{
    uint16_t all[MENKHODUR_LONGEST_LIST];
    menkhodur_answer a = real_legal_list(b, all, MENKHODUR_LONGEST_LIST);
    if (a.number == 0 && room < a.value && room) memcpy(out, all, 2 * room);
    return real_legal_list(b, out, room);
}
#elif FAULT == 146 /* WRAPS legal_list: the last two moves change places */
menkhodur_answer real_legal_list(menkhodur_board b, uint16_t *out, size_t room);
menkhodur_answer menkhodur_legal_list(menkhodur_board b, uint16_t *out, size_t room)
{
    menkhodur_answer a = real_legal_list(b, out, room);
    uint16_t last = a.number == 0 && a.value > 1 ? out[a.value - 1] : 0;
    if (last) out[a.value - 1] = out[a.value - 2], out[a.value - 2] = last;
    return a;
}
#elif FAULT == 147 /* WRAPS legal_list: 7 does not tell how many moves there are */
menkhodur_answer real_legal_list(menkhodur_board b, uint16_t *out, size_t room);
menkhodur_answer menkhodur_legal_list(menkhodur_board b, uint16_t *out, size_t room)
{
    menkhodur_answer a = real_legal_list(b, out, room);
    if (a.number) a.value = 0;
    return a;
}
#elif FAULT == 148 /* WRAPS legal_list: for more than 255 moves 7 is answered in an empty room */
menkhodur_answer real_legal_list(menkhodur_board b, uint16_t *out, size_t room);
menkhodur_answer menkhodur_legal_list(menkhodur_board b, uint16_t *out, size_t room)
{
    menkhodur_answer a = real_legal_list(b, out, room);
    if (a.number == 6 && room == 0) a.number = 7;
    return a;
}
#elif FAULT == 149 /* WRAPS legal_list: a capture in passing is left out */
menkhodur_answer real_legal_list(menkhodur_board b, uint16_t *out, size_t room);
menkhodur_answer menkhodur_legal_list(menkhodur_board b, uint16_t *out, size_t room)
{
    menkhodur_answer a = real_legal_list(b, out, room);
    size_t kept = 0;
    for (size_t i = 0; a.number == 0 && i < a.value; i++)
        if (!moves_a_pawn(&b, out[i]) || out[i] % 8 == out[i] / 64 % 8 || b.pieces[out[i] / 64 % 64]) out[kept++] = out[i];
    if (a.number == 0) a.value = kept;
    return a;
}
#elif FAULT == 150 /* WRAPS legal_list: a promotion to a knight is left out */
menkhodur_answer real_legal_list(menkhodur_board b, uint16_t *out, size_t room);
menkhodur_answer menkhodur_legal_list(menkhodur_board b, uint16_t *out, size_t room)
{
    menkhodur_answer a = real_legal_list(b, out, room);
    size_t kept = 0;
    for (size_t i = 0; a.number == 0 && i < a.value; i++)
        if (out[i] / 4096 != MENKHODUR_PROMOTE_KNIGHT) out[kept++] = out[i];
    if (a.number == 0) a.value = kept;
    return a;
}
#elif FAULT == 151 /* WRAPS legal_list: a right to castle is not asked for */
menkhodur_answer real_legal_list(menkhodur_board b, uint16_t *out, size_t room);
menkhodur_answer menkhodur_legal_list(menkhodur_board b, uint16_t *out, size_t room)
{
    b.white_castle_rights |= (b.white_castle_rights != 0) * 3;
    return real_legal_list(b, out, room);
}
#elif FAULT == 152 /* WRAPS legal_list: the file of a capture in passing is not asked for */
menkhodur_answer real_legal_list(menkhodur_board b, uint16_t *out, size_t room);
menkhodur_answer menkhodur_legal_list(menkhodur_board b, uint16_t *out, size_t room)
{
    for (uint8_t file = 1; b.en_passant == 0 && file <= 8; file++)
        if (own(&b, (b.side_to_move ? 24 : 32) + file % 8) && pawn_on(&b, (b.side_to_move ? 24 : 32) + file - 1, !b.side_to_move)) b.en_passant = file;
    return real_legal_list(b, out, room);
}
#elif FAULT == 153 /* WRAPS list_judged: 6 stands before 5 */
menkhodur_judged real_list_judged(menkhodur_board b, uint8_t in_check, const uint16_t *list, size_t entries);
menkhodur_judged menkhodur_list_judged(menkhodur_board b, uint8_t in_check, const uint16_t *list, size_t entries)
{
    menkhodur_judged j = real_list_judged(b, in_check, list, entries);
    if (j.number == 5 && entries && list[entries - 1] > MENKHODUR_LAST_MOVE) j.number = 6;
    return j;
}
#elif FAULT == 154 /* WRAPS list_judged: a byte over 1 is taken for 1 */
menkhodur_judged real_list_judged(menkhodur_board b, uint8_t in_check, const uint16_t *list, size_t entries);
menkhodur_judged menkhodur_list_judged(menkhodur_board b, uint8_t in_check, const uint16_t *list, size_t entries)
{
    return real_list_judged(b, in_check > 1 ? 1 : in_check, list, entries);
}
#elif FAULT == 155 /* WRAPS list_judged: an entry twice is told before one that is not legal */
menkhodur_judged real_list_judged(menkhodur_board b, uint8_t in_check, const uint16_t *list, size_t entries);
menkhodur_judged menkhodur_list_judged(menkhodur_board b, uint8_t in_check, const uint16_t *list, size_t entries)
{
    menkhodur_judged j = real_list_judged(b, in_check, list, entries);
    for (size_t i = 0; j.wrong == 1 && i + 1 < entries; i++)
        if (list[i] == list[i + 1]) j.wrong = 2, j.move = list[i];
    return j;
}
#elif FAULT == 156 /* WRAPS list_judged: the last entry is told that is not legal */
menkhodur_judged real_list_judged(menkhodur_board b, uint8_t in_check, const uint16_t *list, size_t entries);
menkhodur_judged menkhodur_list_judged(menkhodur_board b, uint8_t in_check, const uint16_t *list, size_t entries)
{
    menkhodur_judged j = real_list_judged(b, in_check, list, entries);
    for (size_t i = 0; j.wrong == 1 && i < entries; i++)
        if (real_list_judged(b, in_check, list + i, 1).wrong == 1) j.move = list[i];
    return j;
}
#elif FAULT == 157 /* WRAPS list_judged: the byte is not judged */
menkhodur_judged real_list_judged(menkhodur_board b, uint8_t in_check, const uint16_t *list, size_t entries);
menkhodur_judged menkhodur_list_judged(menkhodur_board b, uint8_t in_check, const uint16_t *list, size_t entries)
{
    menkhodur_judged j = real_list_judged(b, in_check, list, entries);
    if (j.wrong == 4) j.wrong = 0;
    return j;
}
#elif FAULT == 158 /* WRAPS list_judged: the byte is judged before the list */
menkhodur_judged real_list_judged(menkhodur_board b, uint8_t in_check, const uint16_t *list, size_t entries);
menkhodur_judged menkhodur_list_judged(menkhodur_board b, uint8_t in_check, const uint16_t *list, size_t entries)
{
    menkhodur_judged j = real_list_judged(b, in_check, list, entries);
    if (j.number == 0 && j.in_check != in_check) j.wrong = 4, j.move = 0;
    return j;
}
#elif FAULT == 159 /* WRAPS list_judged: the entries are those lent */
menkhodur_judged real_list_judged(menkhodur_board b, uint8_t in_check, const uint16_t *list, size_t entries);
menkhodur_judged menkhodur_list_judged(menkhodur_board b, uint8_t in_check, const uint16_t *list, size_t entries)
{
    menkhodur_judged j = real_list_judged(b, in_check, list, entries);
    if (j.number == 0) j.entries = entries;
    return j;
}
#elif FAULT == 160 /* WRAPS list_judged: a list in another order is not right */
menkhodur_judged real_list_judged(menkhodur_board b, uint8_t in_check, const uint16_t *list, size_t entries);
menkhodur_judged menkhodur_list_judged(menkhodur_board b, uint8_t in_check, const uint16_t *list, size_t entries)
{
    menkhodur_judged j = real_list_judged(b, in_check, list, entries);
    for (size_t i = 0; j.number == 0 && j.wrong == 0 && i + 1 < entries; i++)
        if (list[i] > list[i + 1]) j.wrong = 3, j.move = list[i];
    return j;
}
#elif FAULT == 161 /* WRAPS list_judged: the greatest missing move is told */
menkhodur_judged real_list_judged(menkhodur_board b, uint8_t in_check, const uint16_t *list, size_t entries);
menkhodur_judged menkhodur_list_judged(menkhodur_board b, uint8_t in_check, const uint16_t *list, size_t entries)
{
    menkhodur_judged j = real_list_judged(b, in_check, list, entries);
    uint16_t more[MENKHODUR_LONGEST_LIST];
    if (j.wrong != 3 || entries == MENKHODUR_LONGEST_LIST) return j;
    if (entries) memcpy(more, list, 2 * entries);
    while (entries < MENKHODUR_LONGEST_LIST) {
        more[entries++] = (uint16_t)j.move;
        if (real_list_judged(b, in_check, more, entries).wrong != 3) return j;
        j.move = real_list_judged(b, in_check, more, entries).move;
    }
    return j;
}
#elif FAULT == 162 /* WRAPS list_judged: a refused judgement tells the byte */
menkhodur_judged real_list_judged(menkhodur_board b, uint8_t in_check, const uint16_t *list, size_t entries);
menkhodur_judged menkhodur_list_judged(menkhodur_board b, uint8_t in_check, const uint16_t *list, size_t entries)
{
    menkhodur_judged j = real_list_judged(b, in_check, list, entries);
    if (j.number) j.in_check = in_check & 1;
    return j;
}
#endif
