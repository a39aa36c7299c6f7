/* A second reader and writer of FEN texts, in plain C, written from document 01 ("FEN, read and written") and document 02, order 2; the
 * archive is not in it. The tests judge the extensions by it. Built with -DPAWN_RANK it is the writer of the fault: it puts the en passant
 * square on the rank of the pawn that moved. */
#ifndef MENKHODUR_STORE_MODEL_H
#define MENKHODUR_STORE_MODEL_H

#include <stdbool.h>
#include <stddef.h>
#include <stdint.h>

struct model_record {
    char men[8][8]; /* by rank and file, from a1: a letter, or 0 */
    int black_to_move, rights[4], file; /* rights in the order KQkq; file 0 for none, else 1 to 8 */
};

/* Number and offset of what is wrong with a text; two zeros if nothing is, and then the record is what it says. */
struct model_fault {
    uint64_t number, offset;
};

enum { MODEL_ROOM = 96 };

struct model_fault model_read(const char *text, size_t length, struct model_record *record);
size_t model_write(const struct model_record *record, char text[MODEL_ROOM]);

/* Whether a pawn of the side to move can take beside a pawn that has just come to its fourth rank on a file, 1 to 8; and, by docs/DIFFERENCES.md ("One
 * record, one key"), the record without its file if none can. */
bool model_can_take(const struct model_record *record, int file);
void model_settle(struct model_record *record);

#endif
