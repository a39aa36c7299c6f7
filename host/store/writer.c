/* Writes each line of standard input, a FEN text, as model.c writes it; a refused line ends the run. As host/store/test builds it, with and
 * without -DPAWN_RANK: the writer of the fault, and the same writer without the fault. */
#include "model.h"

#include <stdio.h>
#include <string.h>

int main(void)
{
    char line[256], text[MODEL_ROOM];
    struct model_record record;
    for (unsigned long number = 1; fgets(line, sizeof line, stdin); number++) {
        struct model_fault fault = model_read(line, strcspn(line, "\n"), &record);
        if (fault.number) {
            fprintf(stderr, "writer: line %lu is refused\n", number);
            return 1;
        }
        printf("%.*s\n", (int)model_write(&record, text), text);
    }
    return ferror(stdin) || fflush(stdout) != 0;
}
