#include "model.h"

#include <string.h>

#ifdef PAWN_RANK
#define WHITE_TO_MOVE_RANK '5'
#define BLACK_TO_MOVE_RANK '4'
#else
#define WHITE_TO_MOVE_RANK '6'
#define BLACK_TO_MOVE_RANK '3'
#endif

static const char letters[] = "KQkq";

static int is_one_of(const char *bytes, char byte)
{
    return byte != 0 && strchr(bytes, byte) != NULL;
}

/* Cuts off what stands before the next space; -1 if there is no space. */
static ptrdiff_t next_space(const char *text, size_t from, size_t length)
{
    for (size_t i = from; i < length; i++)
        if (text[i] == ' ') return (ptrdiff_t)i;
    return -1;
}

/* The place of the first byte that is none of a placement, or `end`. */
static size_t read_placement(const char *text, size_t end, struct model_record *record)
{
    size_t rank = 7, file = 0, i;
    for (i = 0; i < end; i++) {
        char byte = text[i];
        if (byte == '/') {
            rank = (rank + 7) % 8;
            file = 0;
        } else if (byte >= '1' && byte <= '8') {
            file = (file + (size_t)(byte - '0')) % 8;
        } else if (is_one_of("PNBRQKpnbrqk", byte)) {
            record->men[rank][file] = byte;
            file = (file + 1) % 8;
        } else {
            return i;
        }
    }
    return i;
}

static void read_rest(const char *rights, size_t rights_length, const char *square, size_t square_length, struct model_record *record)
{
    for (unsigned i = 0; i < 4; i++) record->rights[i] = rights_length > 0 && memchr(rights, letters[i], rights_length) != NULL;
    if (square_length >= 2 && square[0] >= 'a' && square[0] <= 'h' && square[1] >= '1' && square[1] <= '8')
        record->file = square[0] - 'a' + 1;
}

struct model_fault model_read(const char *text, size_t length, struct model_record *record)
{
    ptrdiff_t space[3] = { next_space(text, 0, length), -1, -1 }, last;
    size_t bad;
    memset(record, 0, sizeof *record);
    if (space[0] >= 0) space[1] = next_space(text, (size_t)space[0] + 1, length);
    if (space[1] >= 0) space[2] = next_space(text, (size_t)space[1] + 1, length);
    if (space[2] < 0) return (struct model_fault){ 18, length };
    bad = read_placement(text, (size_t)space[0], record);
    if (bad < (size_t)space[0]) return (struct model_fault){ 19, bad };
    if (space[1] - space[0] != 2 || !is_one_of("wWbB", text[space[0] + 1])) return (struct model_fault){ 20, (uint64_t)space[0] + 1 };
    record->black_to_move = is_one_of("bB", text[space[0] + 1]);
    last = next_space(text, (size_t)space[2] + 1, length);
    if (last < 0) last = (ptrdiff_t)length;
    read_rest(text + space[1] + 1, (size_t)(space[2] - space[1] - 1), text + space[2] + 1, (size_t)(last - space[2] - 1), record);
    return (struct model_fault){ 0, 0 };
}

static char *write_rank(const char men[8], char *at)
{
    for (int file = 0, empty = 0; file < 8; file++) {
        empty += men[file] == 0;
        if (empty > 0 && (men[file] != 0 || file == 7)) {
            *at++ = (char)('0' + empty);
            empty = 0;
        }
        if (men[file] != 0) *at++ = men[file];
    }
    return at;
}

size_t model_write(const struct model_record *record, char text[MODEL_ROOM])
{
    char *at = text, *rights;
    for (int rank = 7; rank >= 0; rank--) {
        at = write_rank(record->men[rank], at);
        *at++ = rank > 0 ? '/' : ' ';
    }
    *at++ = record->black_to_move ? 'b' : 'w';
    *at++ = ' ';
    rights = at;
    for (unsigned i = 0; i < 4; i++)
        if (record->rights[i]) *at++ = letters[i];
    if (at == rights) *at++ = '-';
    *at++ = ' ';
    *at++ = record->file ? (char)('a' + record->file - 1) : '-';
    if (record->file) *at++ = record->black_to_move ? BLACK_TO_MOVE_RANK : WHITE_TO_MOVE_RANK;
    memcpy(at, " 0 1", 4);
    return (size_t)(at + 4 - text);
}

bool model_can_take(const struct model_record *record, int file)
{
    const char *rank = record->men[record->black_to_move ? 3 : 4];
    char pawn = record->black_to_move ? 'p' : 'P';
    return (file > 1 && rank[file - 2] == pawn) || (file < 8 && rank[file] == pawn);
}

void model_settle(struct model_record *record)
{
    if (record->file && !model_can_take(record, record->file)) record->file = 0;
}
