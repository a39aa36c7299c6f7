#include "judge.h"
#include "model.h"

#include <stdio.h>
#include <stdlib.h>
#include <string.h>

/* Document 02's three refusals, in the words that README.md and the Rust cover have for them. */
static const char *words_of(uint64_t number)
{
    if (number == 18) return "the FEN text ends before its fourth token";
    if (number == 19) return "the placement of the FEN text has something other than pieces, digits from 1 to 8 and slashes";
    return "the side to move of the FEN text is not w, W, b or B";
}

void owed_to(const char *text, size_t length, struct owed *owed)
{
    struct model_record record;
    struct model_fault fault = model_read(text, length, &record);
    memset(owed, 0, sizeof *owed);
    owed->has_key = fault.number == 0;
    if (owed->has_key) {
        owed->key_length = model_write(&record, owed->key);
        owed->is_key = owed->key_length == length && memcmp(owed->key, text, length) == 0;
        model_settle(&record);
        owed->settled_length = model_write(&record, owed->settled);
        owed->is_settled = owed->settled_length == length && memcmp(owed->settled, text, length) == 0;
        return;
    }
    snprintf(owed->message, sizeof owed->message, "%s, at byte %lu (answer %lu)", words_of(fault.number), (unsigned long)fault.offset,
             (unsigned long)fault.number);
    snprintf(owed->json, sizeof owed->json, "{\"number\":%lu,\"offset\":%lu,\"reason\":\"%s\"}", (unsigned long)fault.number,
             (unsigned long)fault.offset, words_of(fault.number));
}

/* A copy that ends where its memory ends, so that a sanitizer sees a read past it. */
static void ask_copy(const char *text, size_t length, asked *ask)
{
    char *copy = malloc(length ? length : 1);
    if (!copy) abort();
    if (length) memcpy(copy, text, length);
    ask(copy, length);
    free(copy);
}

#define TEXT(literal) { literal, sizeof literal - 1 }
static const struct {
    const char *bytes;
    size_t length;
} rows[] = {
    TEXT(""), TEXT(" "), TEXT("   "), TEXT(" w - -"), TEXT(" w - e4"), TEXT(" W - -"), TEXT(" w - a1xx"), TEXT(" w kxK -"), TEXT("P w - -"),
    TEXT("PPPPPPPPN w - -"), TEXT(" w - - 7 9"), TEXT("8/8/8/8/8/8/8/8 w - e4 0 1"), TEXT("8/8/8/8/8/8/8/8 w - e6 0 1"),
    TEXT("8/8/8/8/8/8/8/8 b - z9"), TEXT("8/8/8/8/8/8/8/8  w - -"), TEXT("8/8/8/8/8/8/8/9 w - -"), TEXT("8/8 w -"), TEXT("8/8\tw - -"),
    TEXT("8/8/8/8/8/8/8/8 w - - 0 1"), TEXT("8/8/8/8/8/8/8/8 w - - 0 1 "), TEXT("8/8/8/8/8/8/8/8 w - - 0 1\n"),
    TEXT("rnbqkbnr/pppppppp/8/8/8/8/PPPPPPPP/RNBQKBNR w KQkq - 0 1"), TEXT("rnbqkbnr/pppppppp/8/8/8/8/PPPPPPPP/RNBQKBNR w KQkq -"),
    /* counters, which no key tells: good ones, bad ones, and the longest text with them */
    TEXT("8/8/8/8/8/8/8/8 w - - 1 1"), TEXT("8/8/8/8/8/8/8/8 w - - 0 2"), TEXT("8/8/8/8/8/8/8/8 w - - 0 01"), TEXT("8/8/8/8/8/8/8/8 w - - 42 137"),
    TEXT("8/8/8/8/8/8/8/8 w - - 10000 0"), TEXT("8/8/8/8/8/8/8/8 w - - x"), TEXT("8/8/8/8/8/8/8/8 w - -  1"), TEXT("8/8/8/8/8/8/8/8 w - - 0 1\r"),
    TEXT("rnbqkbnr/pppppppp/8/8/8/8/PPPPPPPP/RNBQKBNR w KQkq - 9999 9999"),
    TEXT("brqkPNBR/PNBRQKpn/QKpnbrqk/brqkPNBR/PNBRQKpn/QKpnbrqk/brqkPNBR/PNBRQKpn w KQkq h6 9999 9999"),
    /* a 0 byte: inside the placement, in the place of the side, behind a key, and nothing else */
    TEXT("8/8\0/8 w - - 0 1"), TEXT("8/8/8/8/8/8/8/8 \0 - - 0 1"), TEXT("8/8/8/8/8/8/8/8 w - - 0 1\0"), TEXT("8/8/8/8/8/8/8/8 w - - 0 1\0x"),
    TEXT("\0"), TEXT("\0 w - -"),
    /* no UTF-8: a lone byte, a cut and an overlong sequence, a surrogate; and what is UTF-8 */
    TEXT("\xff"), TEXT("\xff w - -"), TEXT("8/8/\xc3 w - -"), TEXT("\xc0\xb8/8 w - -"), TEXT("\xed\xa0\x80 w - -"), TEXT("8/\xc3\xa9 w - -"),
    TEXT("8/8 \xc3\xbf - -"), TEXT("8/8/8/8/8/8/8/8 w \xff \xfe"), TEXT("8/8/8/8/8/8/8/8 w - -\xff 0 1"),
};

/* A megabyte: slashes and a good rest, men, nothing of a FEN, a bad byte at the end, a good text with a long tail, spaces. */
static void ask_long(asked *ask)
{
    enum { LONG = 1 << 20 };
    static const char fills[] = "/p\0x8 ";
    char *text = malloc(LONG);
    if (!text) abort();
    for (unsigned i = 0; i < sizeof fills - 1; i++) {
        memset(text, fills[i], LONG);
        ask_copy(text, LONG, ask);
        memcpy(text + LONG - 6, " w - -", 6);
        ask_copy(text, LONG, ask);
        text[LONG - 7] = '9';
        ask_copy(text, LONG, ask);
        memcpy(text, "8/8/8/8/8/8/8/8 w - - 0 1", 25);
        ask_copy(text, LONG, ask);
    }
    free(text);
}

static unsigned any(unsigned below)
{
    static unsigned long long state = 1;
    state = state * 6364136223846793005ull + 1442695040888963407ull;
    return (unsigned)(state >> 33) % below;
}

/* Up to three damages: a byte replaced, put in, or taken out; a byte that FENs have, or any. */
static size_t damage(char *text, size_t length)
{
    static const char likely[] = " /1238PNBRQKpnbrqkwWbB-abceh36450x";
    for (unsigned left = any(4); left > 0; left--) {
        char byte = any(4) ? likely[any(sizeof likely - 1)] : (char)any(256);
        size_t at = any((unsigned)length + 1);
        unsigned kind = any(3);
        if (kind == 0 && at < length) text[at] = byte;
        if (kind == 1) memmove(text + at + 1, text + at, length++ - at), text[at] = byte;
        if (kind == 2 && at < length) memmove(text + at, text + at + 1, --length - at);
    }
    return length;
}

/* A position's key without an en passant square and with one on each file: as programs write it that put one in after every double step, and others. */
static void ask_squares(const char *line, size_t length, asked *ask)
{
    char text[MODEL_ROOM];
    struct model_record record;
    if (model_read(line, length, &record).number) abort();
    for (record.file = 0; record.file <= 8; record.file++) ask_copy(text, model_write(&record, text), ask);
}

bool ask_all(const char *positions, unsigned count, asked *ask)
{
    char line[256];
    FILE *file = fopen(positions, "r");
    if (!file) return false;
    for (size_t i = 0; i < sizeof rows / sizeof *rows; i++) ask_copy(rows[i].bytes, rows[i].length, ask);
    ask_long(ask);
    while (fgets(line, 200, file)) ask_squares(line, strcspn(line, "\n"), ask);
    for (unsigned i = 0; i < count; i++) {
        size_t length;
        if (!fgets(line, 200, file)) {
            rewind(file);
            if (!fgets(line, 200, file)) break;
        }
        length = damage(line, strcspn(line, "\n"));
        ask_copy(line, length, ask);
    }
    fclose(file);
    return true;
}
