/* What the tests of the shared code and of both extensions have in common: texts to ask, and what model.c says that the answers are. */
#ifndef MENKHODUR_STORE_JUDGE_H
#define MENKHODUR_STORE_JUDGE_H

#include <stdbool.h>
#include <stddef.h>

/* The answers that a text must get. `key` has `key_length` bytes, and `settled` has `settled_length`; without a key `message` and `json` tell the
 * refusal, which is the same by either rule. */
struct owed {
    bool has_key, is_key, is_settled;
    size_t key_length, settled_length;
    char key[96], settled[96], message[224], json[224];
};

void owed_to(const char *text, size_t length, struct owed *owed);

/* Calls `ask` with each text of the test, which lies at the end of its own memory: the rows of the papers, texts with 0 bytes and with bytes
 * that are no UTF-8, of a megabyte, each position of the file with each en passant square, and `count` of them damaged. False if the file cannot be
 * read. */
typedef void asked(const char *text, size_t length);
bool ask_all(const char *positions, unsigned count, asked *ask);

#endif
