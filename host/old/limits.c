/* What an archive answers around the limits of document 01 (2,048 actions, 1,024 moves), on parts of the size that order 11 of document 02 asks, and of
 * the old size. Linked with an archive of either limits it prints a line for each question, the same questions in the same order:
 *
 *     within WHAT : ANSWERS    a roll or a log that both limits allow: archives of both must answer the same
 *     beyond WHAT : ANSWERS    one that only the larger limits allow
 *     short  WHAT : ANSWERS    an actions part of the old size
 *
 * An answer ends in a checksum of what was lent, as it lay before order 12, or in `unchanged`. No constant of the header that depends on the limits is
 * used. */
#include "versions.h"

enum { OLD_ACTIONS = 2048, OLD_MOVES = 1024, OLD_PART = 8192, ROOM = 24000, ROLL = 24000, E2E4 = 1804 };

static uint8_t acts[ACTIONS_PART], positions[POSITIONS_PART], room[ROOM], roll[ROLL], before[POSITIONS_PART];
static size_t roll_length;

static unsigned long adler(const uint8_t *bytes, size_t length)
{
    unsigned long low = 1, high = 0;
    for (size_t i = 0; i < length; i++) {
        low = (low + bytes[i]) % 65521;
        high = (high + low) % 65521;
    }
    return high * 65536 + low;
}

static void put_left(const uint8_t *bytes, size_t length)
{
    if (is_filled(bytes, length)) printf(" unchanged\n");
    else printf(" %lu\n", adler(bytes, length));
}

static const char *kind_of(unsigned moves, unsigned others)
{
    return moves > OLD_MOVES || moves + others > OLD_ACTIONS ? "beyond" : "within";
}

/* ---- Rolls: a record with every number, so many moves and so many offers by black, the moves first or last ---- */

static void put_number(unsigned n)
{
    for (; n >= 128; n /= 128) roll[roll_length++] = (uint8_t)(128 + n % 128);
    roll[roll_length++] = (uint8_t)n;
}

static void put_acts(unsigned moves, unsigned others)
{
    for (unsigned i = 0; i < moves; i++) {
        put_number(2);
        put_number(E2E4);
    }
    for (unsigned i = 0; i < others; i++) put_number(5);
}

static void ask_reader(const char *kind, unsigned moves, unsigned others, bool last, size_t part)
{
    roll_length = 0;
    for (unsigned i = 0; i < 64; i++) put_number(i % 13);
    for (unsigned i = 0; i < 4; i++) put_number(i ? 3 : 1);
    put_number(moves + others);
    if (last) put_acts(0, others);
    put_acts(moves, last ? 0 : others);
    memset(acts, FILL, sizeof acts);
    menkhodur_roll r = read_old_roll(roll, roll_length, acts, part);
    bool empty = true;
    for (unsigned i = 0; i < 64; i++) empty = empty && r.board.pieces[i] == 0;
    printf("%s read %u moves %u others %s part %zu : %llu %llu %s", kind, moves, others, last ? "last" : "first", part,
           (unsigned long long)r.number, (unsigned long long)r.actions, empty ? "empty" : "board");
    put_left(acts, sizeof acts);
}

static void ask_writer(unsigned moves, unsigned others)
{
    static const uint8_t zeros[RECORD];
    memset(acts, 0, sizeof acts);
    for (unsigned i = 0; i < moves + others; i++) {
        acts[4 * i] = i < moves ? MENKHODUR_MAKE_MOVE : MENKHODUR_OFFER_DRAW;
        acts[4 * i + 1] = i >= moves;
        acts[4 * i + 2] = i < moves ? E2E4 % 256 : 0;
        acts[4 * i + 3] = i < moves ? E2E4 / 256 : 0;
    }
    memset(room, FILL, sizeof room);
    menkhodur_answer a = write_old_roll(board_of(zeros), acts, sizeof acts, moves + others, room, sizeof room);
    printf("%s write %u moves %u others : %llu %llu", kind_of(moves, others), moves, others, (unsigned long long)a.number, (unsigned long long)a.value);
    put_left(room, sizeof room);
}

/* ---- Logs: knights b1c3 b8c6 c3b1 c6b8 and so on, then offers ---- */

static uint64_t n, m;

static menkhodur_board round_board(uint64_t k)
{
    static const uint8_t zeros[RECORD];
    menkhodur_board b = board_of(zeros);
    b.pieces[k % 4 == 1 || k % 4 == 2 ? 18 : 1] = MENKHODUR_WHITE_KNIGHT;
    b.pieces[k % 4 >= 2 ? 42 : 57] = MENKHODUR_BLACK_KNIGHT;
    b.side_to_move = k % 2;
    return after_quiet_moves(b, k);
}

static uint16_t round_move(uint64_t k)
{
    static const uint16_t moves[4] = { 1 + 64 * 18, 57 + 64 * 42, 18 + 64 * 1, 42 + 64 * 57 };
    return moves[k % 4];
}

static uint64_t kept(menkhodur_counts c)
{
    n = c.actions;
    m = c.moves;
    return c.number;
}

static uint64_t play(unsigned call)
{
    uint16_t list = round_move(m + 1);
    switch (call) {
    case 0: return kept(menkhodur_game_make_move(acts, sizeof acts, positions, sizeof positions, n, m, round_move(m), round_board(m + 1), 0, &list, 1));
    case 1: return kept(menkhodur_game_offer_draw(acts, sizeof acts, positions, sizeof positions, n, m, 1));
    case 2: return kept(menkhodur_game_resign(acts, sizeof acts, positions, sizeof positions, n, m, 0));
    case 3: return kept(menkhodur_game_accept_draw(acts, sizeof acts, positions, sizeof positions, n, m));
    default: return kept(menkhodur_game_declare_draw(acts, sizeof acts, positions, sizeof positions, n, m));
    }
}

static void put_parts(void)
{
    printf(" %llu %llu %lu %lu", (unsigned long long)n, (unsigned long long)m, adler(acts, sizeof acts),
           adler(as_before(positions, m + 1), OLD_POSITIONS_PART));
}

static void put_queries(void)
{
    menkhodur_answer result = menkhodur_game_result(acts, sizeof acts, positions, sizeof positions, n, m);
    menkhodur_answer claim = menkhodur_game_can_declare_draw(acts, sizeof acts, positions, sizeof positions, n, m);
    menkhodur_answer laws = menkhodur_game_can_claim_by_laws(acts, sizeof acts, positions, sizeof positions, n, m);
    menkhodur_ruling r = menkhodur_game_ruling(acts, sizeof acts, positions, sizeof positions, n, m);
    const uint64_t all[] = { result.number, result.value, claim.number, claim.value, laws.number, laws.value, r.number, r.count, r.laws_count, r.equals,
                             r.first, r.second, r.claim, r.laws_claim };
    for (size_t i = 0; i < sizeof all / sizeof *all; i++) printf(" %llu", (unsigned long long)all[i]);
}

/* The log of so many moves and offers: what its last call and the queries answer; then each call once more, on the same log. */
static void ask_log(unsigned moves, unsigned others)
{
    uint16_t list = round_move(0);
    uint64_t last;
    memset(acts, FILL, sizeof acts);
    memset(positions, FILL, sizeof positions);
    last = kept(menkhodur_game_start(acts, sizeof acts, positions, sizeof positions, round_board(0), 0, &list, 1));
    for (unsigned i = 0; i < moves && last == 0; i++) last = play(0);
    for (unsigned i = 0; i < others && last == 0; i++) last = play(1);
    printf("%s log %u moves %u others : %llu", kind_of(moves, others), moves, others, (unsigned long long)last);
    put_parts();
    put_queries();
    printf("\n");
    for (unsigned call = 0; call < 5; call++) {
        static uint8_t held[ACTIONS_PART];
        uint64_t actions = n, made = m;
        memcpy(held, acts, sizeof acts);
        memcpy(before, positions, sizeof positions);
        last = play(call);
        bool same = n == actions && m == made && !memcmp(held, acts, sizeof acts) && !memcmp(before, positions, sizeof positions);
        printf("%s call %u after %u moves %u others : %llu", kind_of(moves + (call == 0), others + (call != 0)), call, moves, others, (unsigned long long)last);
        put_parts();
        printf("%s\n", same ? " unchanged" : "");
        memcpy(acts, held, sizeof acts);
        memcpy(positions, before, sizeof positions);
        n = actions;
        m = made;
    }
}

int main(void)
{
    static const unsigned sizes[][2] = { { 0, 0 }, { 1, 0 }, { 0, 1 }, { 8, 12 }, { 300, 5 }, { 1023, 1 }, { 1023, 1024 }, { 1024, 0 }, { 1024, 1023 },
                                         { 1024, 1024 }, { 9, 2038 }, { 9, 2039 }, { 0, 2048 }, { 1025, 0 }, { 1025, 1023 }, { 1025, 1024 }, { 9, 2040 },
                                         { 0, 2049 }, { 2048, 2048 }, { 4096, 0 }, { 4096, 4096 }, { 0, 8192 } };
    enum { SIZES = sizeof sizes / sizeof *sizes };
    for (unsigned i = 0; i < SIZES; i++)
        for (unsigned last = 0; last < 2; last++) ask_reader(kind_of(sizes[i][0], sizes[i][1]), sizes[i][0], sizes[i][1], last, ACTIONS_PART);
    for (unsigned i = 0; i < SIZES; i++) ask_reader("short", sizes[i][0], sizes[i][1], false, OLD_PART);
    for (unsigned i = 0; i < SIZES; i++) ask_writer(sizes[i][0], sizes[i][1]);
    for (unsigned i = 0; i < SIZES; i++)
        if (kind_of(sizes[i][0], sizes[i][1])[0] == 'w') ask_log(sizes[i][0], sizes[i][1]);
    return 0;
}
