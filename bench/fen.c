/* How long a read and a write of a FEN take through the archive, on the positions of a file, each different: the crate's pair on the lines as they are,
 * the full pair on the same positions with the counters of a game.
 *
 *     host/archive --if-older
 *     gcc -std=c11 -O2 bench/fen.c target/staticlib/libmenkhodur.a -o target/bench_fen && target/bench_fen examples/positions.fen
 */
#define _POSIX_C_SOURCE 199309L
#include "../host/menkhodur.h"

#include <stdio.h>
#include <string.h>
#include <time.h>

enum { MOST = 4096, ROUNDS = 200 };

/* A pair, its texts and what they say. */
struct pair {
    const char *name;
    menkhodur_fen (*read)(const uint8_t *, size_t);
    menkhodur_answer (*write)(menkhodur_board, uint8_t *, size_t);
    char lines[MOST][128];
    size_t lengths[MOST];
    menkhodur_board boards[MOST];
};

static struct pair pairs[2] = {
    { .name = "the crate's", .read = menkhodur_fen_read, .write = menkhodur_fen_write },
    { .name = "full", .read = menkhodur_fen_read_full, .write = menkhodur_fen_write_full },
};

static double now(void)
{
    struct timespec t;
    clock_gettime(CLOCK_MONOTONIC, &t);
    return (double)t.tv_sec * 1e9 + (double)t.tv_nsec;
}

static size_t read_lines(FILE *f)
{
    size_t n = 0;
    for (; n < MOST && fgets(pairs[0].lines[n], sizeof pairs[0].lines[n], f); n++) {
        menkhodur_board b;
        pairs[0].lengths[n] = strcspn(pairs[0].lines[n], "\n");
        b = menkhodur_fen_read((const uint8_t *)pairs[0].lines[n], pairs[0].lengths[n]).board;
        b.half_moves = (uint16_t)(n * 7 % 100);
        b.full_moves = (uint16_t)(1 + n * 11 % 200);
        pairs[1].lengths[n] = (size_t)menkhodur_fen_write_full(b, (uint8_t *)pairs[1].lines[n], sizeof pairs[1].lines[n]).value;
    }
    return n;
}

static void time_pair(struct pair *p, size_t n)
{
    double read = 1e18, write = 1e18;
    uint64_t refused = 0, sum = 0;
    for (int round = 0; round < ROUNDS; round++) {
        double a = now(), b, c;
        for (size_t i = 0; i < n; i++) {
            menkhodur_fen r = p->read((const uint8_t *)p->lines[i], p->lengths[i]);
            p->boards[i] = r.board;
            refused += r.number;
        }
        b = now();
        for (size_t i = 0; i < n; i++) {
            uint8_t out[MENKHODUR_LONGEST_FULL_FEN];
            sum += p->write(p->boards[i], out, sizeof out).value;
        }
        c = now();
        if ((b - a) / (double)n < read) read = (b - a) / (double)n;
        if ((c - b) / (double)n < write) write = (c - b) / (double)n;
    }
    printf("%s pair: read %.1f ns, write %.1f ns (refused %llu, bytes written %llu)\n", p->name, read, write, (unsigned long long)refused,
           (unsigned long long)(sum / ROUNDS));
}

int main(int argc, char **argv)
{
    FILE *f = fopen(argc > 1 ? argv[1] : "examples/positions.fen", "r");
    size_t n;
    if (!f) {
        perror("positions");
        return 1;
    }
    n = read_lines(f);
    fclose(f);
    printf("%zu positions, best of %d rounds\n", n, ROUNDS);
    for (unsigned i = 0; i < 2; i++) time_pair(&pairs[i], n);
    return 0;
}
