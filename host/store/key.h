/* What the two database extensions, host/sqlite and host/postgres, share: a text's key by either rule, whether a text is a key, and the words of a
 * refusal. Nothing here allocates, and every length is a length in bytes. */
#ifndef MENKHODUR_STORE_KEY_H
#define MENKHODUR_STORE_KEY_H

#include "../menkhodur.h"

#include <stdbool.h>

/* Which key: that of the record that a text says, or that of its settled record, by which one position has one name. A store keeps one of the two. */
enum store_rule { STORE_KEY, STORE_SETTLED };

/* A text's key, or what is wrong with the text: number 0 and the key's bytes, or number, offset and reason of a refusal. */
struct store_key {
    uint64_t number, offset;
    const char *reason; /* plain words without quotes; NULL if the text has a key */
    size_t length;
    char key[MENKHODUR_LONGEST_FEN];
};

/* Room for what the two tellers below write, with the 0 byte at its end. */
enum { STORE_TOLD = 192 };

/* Whether the archive within is of the version whose header this was compiled with; `told` is what to say if it is not. A record has other bytes since
 * version 12, and the linker does not see that: an extension asks before it does anything else. */
bool store_version_fits(char told[STORE_TOLD]);

void store_key_of(struct store_key *key, enum store_rule rule, const void *text, size_t length);

/* Whether the text is its own key, byte for byte. A text that no key has the length of is not read. */
bool store_is_key(enum store_rule rule, const void *text, size_t length);

/* A refusal as a message, in the words of the Rust cover's `Error`; and as a JSON object. */
void store_message(const struct store_key *refused, char told[STORE_TOLD]);
void store_json(const struct store_key *refused, char told[STORE_TOLD]);

#endif
