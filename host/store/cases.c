/* Prints what a database is asked in host/postgres/test, a line each, as PostgreSQL's COPY reads it: the text, whether it is a key, its key, whether
 * it is a settled key, its settled key, the refusal as JSON and as a message. Texts with a 0 byte are left out: PostgreSQL has none. With `ascii` only
 * ASCII texts are printed. */
#include "judge.h"

#include <stdio.h>
#include <string.h>

static bool only_ascii;

static void put(const char *text, size_t length)
{
    for (size_t i = 0; i < length; i++) {
        if (text[i] == '\\') fputs("\\\\", stdout);
        else if (text[i] == '\n') fputs("\\n", stdout);
        else if (text[i] == '\r') fputs("\\r", stdout);
        else if (text[i] == '\t') fputs("\\t", stdout);
        else putchar(text[i]);
    }
}

static void put_or_null(bool is_there, const char *text, size_t length)
{
    putchar('\t');
    if (is_there) put(text, length);
    else fputs("\\N", stdout);
}

static void ask(const char *text, size_t length)
{
    struct owed owed;
    for (size_t i = 0; i < length; i++)
        if (text[i] == 0 || (only_ascii && (unsigned char)text[i] > 127)) return;
    owed_to(text, length, &owed);
    put(text, length);
    put_or_null(true, owed.is_key ? "t" : "f", 1);
    put_or_null(owed.has_key, owed.key, owed.key_length);
    put_or_null(true, owed.is_settled ? "t" : "f", 1);
    put_or_null(owed.has_key, owed.settled, owed.settled_length);
    put_or_null(!owed.has_key, owed.json, strlen(owed.json));
    put_or_null(!owed.has_key, owed.message, strlen(owed.message));
    putchar('\n');
}

int main(int count, char **arguments)
{
    only_ascii = count == 3 && strcmp(arguments[2], "ascii") == 0;
    if (count < 2 || !ask_all(arguments[1], 20000, ask)) {
        fprintf(stderr, "usage: cases POSITIONS [ascii]\n");
        return 1;
    }
    return fflush(stdout) != 0;
}
