#include "key.h"

#include <inttypes.h>
#include <stdio.h>
#include <string.h>

/* The one table of what is wrong with a FEN text, in words. */
static const struct {
    uint64_t number;
    const char *reason;
} reasons[] = {
    { MENKHODUR_TOO_FEW_TOKENS, "the FEN text ends before its fourth token" },
    { MENKHODUR_BAD_PLACEMENT, "the placement of the FEN text has something other than pieces, digits from 1 to 8 and slashes" },
    { MENKHODUR_BAD_SIDE, "the side to move of the FEN text is not w, W, b or B" },
};

static const char *reason_of(uint64_t number)
{
    for (size_t i = 0; i < sizeof reasons / sizeof *reasons; i++)
        if (reasons[i].number == number) return reasons[i].reason;
    return "the archive refused for a reason that this extension does not know";
}

bool store_version_fits(char told[STORE_TOLD])
{
    uint64_t version = menkhodur_version();
    snprintf(told, STORE_TOLD, "the extension was compiled with the header of version %d and has an archive of version %" PRIu64 " within: build it again",
             MENKHODUR_VERSION, version);
    return version == MENKHODUR_VERSION;
}

/* As menkhodur_fen_settled, with the key of the record as it is read. */
static menkhodur_placed fen_key(const uint8_t *text, size_t length, uint8_t *out, size_t room)
{
    menkhodur_fen fen = menkhodur_fen_read(text, length);
    menkhodur_answer written = { fen.number, 0 };
    if (!fen.number) written = menkhodur_fen_write(fen.board, out, room);
    return (menkhodur_placed){ written.number, written.value, fen.offset };
}

void store_key_of(struct store_key *key, enum store_rule rule, const void *text, size_t length)
{
    menkhodur_placed written = (rule == STORE_SETTLED ? menkhodur_fen_settled : fen_key)(text, length, (uint8_t *)key->key, sizeof key->key);
    key->number = written.number;
    key->offset = written.offset;
    key->reason = written.number ? reason_of(written.number) : NULL;
    key->length = written.number ? 0 : (size_t)written.value;
}

bool store_is_key(enum store_rule rule, const void *text, size_t length)
{
    struct store_key key;
    if (length < MENKHODUR_SHORTEST_FEN || length > MENKHODUR_LONGEST_FEN) return false;
    store_key_of(&key, rule, text, length);
    return !key.number && key.length == length && memcmp(key.key, text, length) == 0;
}

void store_message(const struct store_key *refused, char told[STORE_TOLD])
{
    snprintf(told, STORE_TOLD, "%s, at byte %" PRIu64 " (answer %" PRIu64 ")", refused->reason, refused->offset, refused->number);
}

void store_json(const struct store_key *refused, char told[STORE_TOLD])
{
    snprintf(told, STORE_TOLD, "{\"number\":%" PRIu64 ",\"offset\":%" PRIu64 ",\"reason\":\"%s\"}", refused->number, refused->offset, refused->reason);
}
