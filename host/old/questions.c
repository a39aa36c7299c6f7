/* What an archive answers to some hundred thousand questions that an order must not touch. Linked with archives of two versions, and compiled with the
 * header of each, it puts the same questions and prints for each few thousand of them
 *
 *     same KIND NUMBER : QUESTIONS SUM ANSWER*TIMES ..
 *
 * the sum of all that was answered and written, and how often each answer number was given. With an argument it prints a line for each question too:
 * `diff` over those of two archives shows the question that they answer differently. */
#include "questions.h"

#include <inttypes.h>
#include <stdarg.h>

enum { BATCH = 4096, NUMBERS = 32 };

#define NOTHING UINT64_C(14695981039346656037)

static struct {
    const char *kind;
    unsigned batch, questions, times[NUMBERS];
    uint64_t sum, answer;
} now;
static bool every;

/* Fowler, Noll and Vo's sum of bytes, in 64 bits. */
static uint64_t summed(uint64_t sum, const void *bytes, size_t length)
{
    for (const uint8_t *b = bytes; length--; b++) sum = (sum ^ *b) * UINT64_C(1099511628211);
    return sum;
}

/* The same sum on every machine. */
static uint64_t with_number(uint64_t sum, uint64_t number)
{
    uint8_t bytes[8];
    for (unsigned i = 0; i < 8; i++, number /= 256) bytes[i] = (uint8_t)(number % 256);
    return summed(sum, bytes, sizeof bytes);
}

void add_bytes(const void *bytes, size_t length)
{
    now.answer = summed(now.answer, bytes, length);
}

void add(uint64_t number)
{
    now.answer = with_number(now.answer, number);
}

void add_board(menkhodur_board b)
{
    add_bytes(&b, RECORD);
}

void add_answer(menkhodur_answer a)
{
    add(a.number);
    add(a.value);
}

static void tell(void)
{
    if (now.questions) {
        printf("same %s %u : %u %016" PRIx64, now.kind, now.batch, now.questions, now.sum);
        for (unsigned i = 0; i < NUMBERS; i++)
            if (now.times[i]) printf(" %u*%u", i, now.times[i]);
        printf("\n");
    }
    now.batch += now.questions > 0;
    now.questions = 0;
    now.sum = now.answer = NOTHING;
    memset(now.times, 0, sizeof now.times);
}

void begin(const char *kind)
{
    if (now.kind) tell();
    now.kind = kind;
    now.batch = now.questions = 0;
    now.sum = now.answer = NOTHING;
}

void answered(uint64_t number, const char *format, ...)
{
    va_list list;
    add(number);
    if (every) {
        printf("%s: ", now.kind);
        va_start(list, format);
        vprintf(format, list);
        va_end(list);
        printf(" : %" PRIu64 " %016" PRIx64 "\n", number, now.answer);
    }
    now.sum = with_number(now.sum, now.answer);
    now.times[number % NUMBERS]++;
    now.answer = NOTHING;
    if (++now.questions == BATCH) tell();
}

unsigned any(unsigned below)
{
    static uint64_t seed = UINT64_C(88172645463325252);
    seed ^= seed << 13;
    seed ^= seed >> 7;
    seed ^= seed << 17;
    return (unsigned)(seed >> 33) % below;
}

char any_of(const char *bytes)
{
    return bytes[any((unsigned)strlen(bytes))];
}

void set_any(uint8_t *bytes, size_t length, unsigned below)
{
    size_t at = any((unsigned)length);
    bytes[at] = (uint8_t)any(below);
}

int main(int argc, char **argv)
{
    (void)argv;
    every = argc > 1;
    ask_small_functions();
    ask_texts();
    ask_moves();
    ask_logs();
    ask_rolls();
    begin("end");
    return 0;
}
