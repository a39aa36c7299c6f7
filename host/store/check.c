/* The code that both extensions share, judged by model.c; host/store/test runs it under the sanitizers. */
#include "judge.h"
#include "key.h"

#include <stdio.h>
#include <string.h>

static unsigned long asked_texts, accepted, keys, settled, failed;

static void fail(const char *what, const char *text, size_t length)
{
    if (failed++ < 10) printf("host/store/check: %s of a text of %zu bytes: %.*s\n", what, length, (int)(length < 100 ? length : 100), text);
}

static void ask_by(enum store_rule rule, const struct owed *owed, const char *text, size_t length)
{
    struct store_key key;
    char told[STORE_TOLD];
    size_t want_length = rule == STORE_KEY ? owed->key_length : owed->settled_length;
    store_key_of(&key, rule, text, length);
    if (store_is_key(rule, text, length) != (rule == STORE_KEY ? owed->is_key : owed->is_settled)) fail("store_is_key", text, length);
    if ((key.number == 0) != owed->has_key) fail("number", text, length);
    if (owed->has_key) {
        if (key.length != want_length || memcmp(key.key, rule == STORE_KEY ? owed->key : owed->settled, want_length) || key.reason) fail("key", text, length);
        return;
    }
    store_message(&key, told);
    if (strcmp(told, owed->message)) fail("message", text, length);
    store_json(&key, told);
    if (strcmp(told, owed->json)) fail("json", text, length);
}

static void ask(const char *text, size_t length)
{
    struct owed owed;
    owed_to(text, length, &owed);
    asked_texts++;
    accepted += owed.has_key;
    keys += owed.is_key;
    settled += owed.is_settled;
    ask_by(STORE_KEY, &owed, text, length);
    ask_by(STORE_SETTLED, &owed, text, length);
}

/* The archive here is of the header's version; what would be said otherwise stays within its room. */
static void check_version(void)
{
    char told[STORE_TOLD];
    if (!store_version_fits(told)) fail("version", told, strlen(told));
    if (!strstr(told, ": build it again")) fail("room of the version", told, strlen(told));
}

/* A number that this code has no words for, and the longest numbers, stay within their room. */
static void check_room(void)
{
    struct store_key key = { UINT64_MAX, UINT64_MAX, "the placement of the FEN text has something other than pieces, digits from 1 to 8 and slashes", 0, "" };
    char told[STORE_TOLD];
    store_json(&key, told);
    if (told[strlen(told) - 1] != '}') fail("room of the JSON", told, strlen(told));
    store_message(&key, told);
    if (told[strlen(told) - 1] != ')') fail("room of the message", told, strlen(told));
}

int main(int count, char **arguments)
{
    if (count != 2 || !ask_all(arguments[1], 200000, ask)) {
        fprintf(stderr, "usage: check POSITIONS\n");
        return 1;
    }
    check_version();
    check_room();
    printf("host/store/check: %lu texts, %lu accepted, %lu keys, %lu of them settled, %lu failed\n", asked_texts, accepted, keys, settled, failed);
    return failed > 0 || accepted < 1000 || settled < 1000 || keys - settled < 1000 || asked_texts - accepted < 1000;
}
