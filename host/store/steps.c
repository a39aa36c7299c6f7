/* Reads FEN texts, a line each, and prints for each file on which a double step can have been the last move, with nobody who can take there: the key of
 * the position with that en passant square, as programs write it that put one in after every double step, a tab, and the settled key. */
#include "model.h"

#include <stdio.h>
#include <string.h>

/* A pawn of the side that has moved stands on its fourth rank, and the two squares behind it are empty. */
static bool can_have_stepped(const struct model_record *record, int file)
{
    int to = record->black_to_move ? 3 : 4, over = record->black_to_move ? 2 : 5, from = record->black_to_move ? 1 : 6;
    return record->men[to][file - 1] == (record->black_to_move ? 'P' : 'p') && !record->men[over][file - 1] && !record->men[from][file - 1];
}

static void print_steps(struct model_record *record)
{
    char name[MODEL_ROOM], key[MODEL_ROOM];
    size_t name_length, key_length;
    for (int file = 1; file <= 8; file++) {
        if (!can_have_stepped(record, file) || model_can_take(record, file)) continue;
        record->file = file;
        name_length = model_write(record, name);
        model_settle(record);
        key_length = model_write(record, key);
        printf("%.*s\t%.*s\n", (int)name_length, name, (int)key_length, key);
    }
}

int main(void)
{
    char line[256];
    struct model_record record;
    while (fgets(line, sizeof line, stdin)) {
        if (model_read(line, strcspn(line, "\n"), &record).number) return 1;
        print_steps(&record);
    }
    return ferror(stdin) || fflush(stdout) != 0;
}
