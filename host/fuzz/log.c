/* Calls on one log: what each answers, and which of the lent bytes change. */
#include "rules.h"

#include <string.h>

enum { SPARE = 512, PLAYED_AT_ONCE = 32 };

static struct lent actions, positions;
static uint64_t action_count, move_count;
static bool known_good; /* made by accepted calls alone, and not tampered with since */

struct request {
    enum call call;
    struct log log;
    size_t actions_length, positions_length;
    uint64_t move;
    uint8_t colour, in_check;
};

static size_t least(uint64_t a, uint64_t b)
{
    return (size_t)(a < b ? a : b);
}

static struct log own_log(void)
{
    return (struct log){ actions.bytes, positions.bytes, action_count, move_count };
}

/* Opens what the counts say is used, and one position more. What lies behind cannot even be read. */
static void open_for(uint64_t moves)
{
    lent_open(&positions, least((least(moves, MENKHODUR_MAX_MOVES) + 2) * MENKHODUR_POSITION_SIZE, positions.length));
}

static void lend_parts(size_t more_actions, size_t more_positions, bool front)
{
    lend(&actions, MENKHODUR_ACTIONS_LENGTH + more_actions, front, 0);
    lend(&positions, MENKHODUR_POSITIONS_LENGTH + more_positions, front, 0);
    action_count = move_count = 0;
    known_good = false;
    open_for(0);
}

void log_begin(void)
{
    if (!actions.low) lent_make(&actions, MENKHODUR_ACTIONS_LENGTH + SPARE);
    if (!positions.low) {
        lent_make(&positions, MENKHODUR_POSITIONS_LENGTH + SPARE);
        lent_open(&positions, 0);
    }
    lend_parts(0, 0, false);
}

void log_end(void)
{
    lent_same("actions", &actions);
    lent_same("positions", &positions);
    lent_open(&positions, 0);
}

/* ---- What a call must answer ---- */

static uint64_t want_position(const menkhodur_board *b, uint8_t in_check, const struct input *in)
{
    if (!board_good(b) || in_check > 1) return MENKHODUR_OUT_OF_RANGE;
    return list_good(in->list, in->entries) ? MENKHODUR_ACCEPTED : MENKHODUR_BAD_LIST;
}

static uint64_t want_move(const struct input *in, const struct request *r)
{
    const uint8_t *p = current_position(&r->log);
    uint64_t number = want_position(&in->board, r->in_check, in);
    menkhodur_board after;
    if (!is_listed(p, r->move)) return MENKHODUR_NOT_LISTED;
    if (number) return number;
    if (in->board.side_to_move == board_in(p).side_to_move) return MENKHODUR_WRONG_SIDE;
    after = after_of(board_in(p), r->move);
    if (memcmp(&after, &in->board, sizeof after) != 0) return MENKHODUR_WRONG_RECORD;
    return r->log.move_count == MENKHODUR_MAX_MOVES ? MENKHODUR_LOG_FULL : MENKHODUR_ACCEPTED;
}

/* The call's own numbers, behind 16, 9 and 10. */
static uint64_t want_own(const struct input *in, const struct request *r)
{
    switch (r->call) {
    case MAKE_MOVE: return want_move(in, r);
    case ACCEPT_DRAW: return log_offered(&r->log) ? MENKHODUR_ACCEPTED : MENKHODUR_NO_OFFER;
    case DECLARE_DRAW: return log_claimable(&r->log) ? MENKHODUR_ACCEPTED : MENKHODUR_NO_CLAIM;
    default: return r->colour > 1 ? MENKHODUR_OUT_OF_RANGE : MENKHODUR_ACCEPTED;
    }
}

static bool parts_short(const struct request *r)
{
    return r->actions_length < MENKHODUR_ACTIONS_LENGTH || r->positions_length < MENKHODUR_POSITIONS_LENGTH;
}

static uint64_t want_number(const struct input *in, const struct request *r)
{
    bool own = r->log.action_count == action_count && r->log.move_count == move_count;
    uint64_t number;
    if (parts_short(r)) return MENKHODUR_PART_TOO_SHORT;
    if (!(own && known_good) && !log_good(&r->log)) return MENKHODUR_NOT_GOOD;
    if (r->call >= RESULT) return MENKHODUR_ACCEPTED;
    if (log_over(&r->log)) return MENKHODUR_GAME_OVER;
    number = want_own(in, r);
    return number == MENKHODUR_ACCEPTED && r->log.action_count == MENKHODUR_MAX_ACTIONS ? MENKHODUR_LOG_FULL : number;
}

/* ---- Calls ---- */

/* A part of length 0 is lent as NULL. */
static uint8_t *lent_actions(const struct request *r)
{
    return r->actions_length ? actions.bytes : NULL;
}

static uint8_t *lent_positions(const struct request *r)
{
    return r->positions_length ? positions.bytes : NULL;
}

static menkhodur_counts make_move(struct input *in, const struct request *r, unsigned turn)
{
    const uint16_t *list = lend_list(in, turn);
    menkhodur_counts c = CALL(turn, menkhodur_game_make_move, lent_actions(r), r->actions_length, lent_positions(r), r->positions_length,
                              r->log.action_count, r->log.move_count, r->move, in->board, r->in_check, in->entries ? list : NULL, in->entries);
    list_same();
    return c;
}

static menkhodur_counts act(struct input *in, const struct request *r, unsigned turn)
{
    static const char *const names[] = { "game_make_move", "game_offer_draw", "game_accept_draw", "game_declare_draw", "game_resign" };
    uint8_t *a = lent_actions(r), *p = lent_positions(r);
    size_t al = r->actions_length, pl = r->positions_length;
    uint64_t ac = r->log.action_count, mc = r->log.move_count;
    about(names[r->call]);
    switch (r->call) {
    case MAKE_MOVE: return make_move(in, r, turn);
    case OFFER_DRAW: return CALL(turn, menkhodur_game_offer_draw, a, al, p, pl, ac, mc, r->colour);
    case ACCEPT_DRAW: return CALL(turn, menkhodur_game_accept_draw, a, al, p, pl, ac, mc);
    case DECLARE_DRAW: return CALL(turn, menkhodur_game_declare_draw, a, al, p, pl, ac, mc);
    default: return CALL(turn, menkhodur_game_resign, a, al, p, pl, ac, mc, r->colour);
    }
}

static menkhodur_answer ask(const struct request *r, unsigned turn)
{
    const uint8_t *a = lent_actions(r), *p = lent_positions(r);
    size_t al = r->actions_length, pl = r->positions_length;
    uint64_t ac = r->log.action_count, mc = r->log.move_count;
    about(r->call == RESULT ? "game_result" : r->call == CAN_DECLARE ? "game_can_declare_draw" : "game_can_claim_by_laws");
    if (r->call == RESULT) return CALL(turn, menkhodur_game_result, a, al, p, pl, ac, mc);
    if (r->call == CAN_DECLARE) return CALL(turn, menkhodur_game_can_declare_draw, a, al, p, pl, ac, mc);
    return CALL(turn, menkhodur_game_can_claim_by_laws, a, al, p, pl, ac, mc);
}

static menkhodur_ruling ask_ruling(const struct request *r, unsigned turn)
{
    about("game_ruling");
    return CALL(turn, menkhodur_game_ruling, lent_actions(r), r->actions_length, lent_positions(r), r->positions_length, r->log.action_count,
                r->log.move_count);
}

static void parts_same(void)
{
    lent_same("actions", &actions);
    lent_same("positions", &positions);
}

/* Other bytes behind what is used must change no answer. */
static void stir(const struct request *r)
{
    uint64_t acted = r->log.action_count > action_count ? r->log.action_count : action_count;
    uint64_t moved = r->log.move_count > move_count ? r->log.move_count : move_count;
    lent_stir(&actions, MENKHODUR_ACTION_SIZE * least(acted, MENKHODUR_MAX_ACTIONS));
    lent_stir(&positions, MENKHODUR_POSITION_SIZE * (least(moved, MENKHODUR_MAX_MOVES) + 1));
}

static uint64_t want_value(const struct request *r)
{
    if (r->call == RESULT) return log_result(&r->log);
    return r->call == CAN_DECLARE ? log_claimable(&r->log) : log_ruling(&r->log).laws_claim != 0;
}

static void judge_query(const struct input *in, const struct request *r)
{
    menkhodur_answer want = { want_number(in, r), 0 };
    if (want.number == 0) want.value = want_value(r);
    for (unsigned turn = 0; turn < 2; turn++) {
        expect_answer(want, ask(r, turn));
        parts_same();
        stir(r);
    }
}

/* What a good log's last position owes to its start: the clock goes with the count of the Laws, and with the start's own clock if that count goes
 * back to the start; the move number goes with black's moves. */
static void expect_counters(const struct log *l, uint64_t laws_count)
{
    menkhodur_board first = board_in(l->positions), last = board_in(current_position(l));
    uint64_t clock = laws_count + (laws_count == l->move_count ? first.half_moves : 0);
    uint64_t number = first.full_moves + (l->move_count + first.side_to_move) / 2;
    expect("clock of the last position", least(clock, MENKHODUR_LAST_COUNT), last.half_moves);
    expect("move number of the last position", least(number, MENKHODUR_LAST_COUNT), last.full_moves);
}

/* A refused ruling has 0 in all other numbers. */
static void judge_ruling(const struct input *in, const struct request *r)
{
    uint64_t number = want_number(in, r);
    menkhodur_ruling want = number ? (menkhodur_ruling){ .number = number } : log_ruling(&r->log);
    for (unsigned turn = 0; turn < 2; turn++) {
        menkhodur_ruling got = ask_ruling(r, turn);
        expect("number", want.number, got.number);
        expect("count", want.count, got.count);
        expect("count of the Laws", want.laws_count, got.laws_count);
        expect("equals", want.equals, got.equals);
        expect("first", want.first, got.first);
        expect("second", want.second, got.second);
        expect("claim", want.claim, got.claim);
        expect("claim by the Laws", want.laws_claim, got.laws_claim);
        if (number == MENKHODUR_ACCEPTED) expect_counters(&r->log, got.laws_count);
        parts_same();
        stir(r);
    }
}

/* What an accepted call writes, and where. */
struct written {
    uint8_t action[MENKHODUR_ACTION_SIZE], position[MENKHODUR_POSITION_SIZE];
    size_t action_at, position_at, position_length;
};

static struct written what_is_written(const struct input *in, const struct request *r)
{
    struct written w = { .action_at = MENKHODUR_ACTION_SIZE * r->log.action_count, .position_length = 0 };
    action_bytes(r->call, r->move, r->colour, w.action);
    if (r->call != MAKE_MOVE) return w;
    position_bytes(&in->board, r->in_check, in->list, in->entries, w.position);
    w.position_at = MENKHODUR_POSITION_SIZE * (r->log.move_count + 1);
    w.position_length = sizeof w.position;
    return w;
}

static void expect_counts(const struct request *r, uint64_t number, menkhodur_counts got)
{
    expect("number", number, got.number);
    expect("actions counted", r->log.action_count + (number == 0), got.actions);
    expect("moves counted", r->log.move_count + (number == 0 && r->call == MAKE_MOVE), got.moves);
}

static void judge_accepted(struct input *in, const struct request *r)
{
    struct written w = what_is_written(in, r), before = w;
    memcpy(before.action, actions.bytes + w.action_at, sizeof w.action);
    memcpy(before.position, positions.bytes + w.position_at, w.position_length);
    for (unsigned turn = 0; turn < 2; turn++) {
        menkhodur_counts got = act(in, r, turn);
        expect_counts(r, MENKHODUR_ACCEPTED, got);
        lent_expect(&actions, w.action_at, w.action, sizeof w.action);
        lent_expect(&positions, w.position_at, w.position, w.position_length);
        parts_same();
        if (turn) break;
        lent_put(&actions, w.action_at, before.action, sizeof w.action);
        lent_put(&positions, w.position_at, before.position, w.position_length);
        stir(r);
    }
    action_count = r->log.action_count + 1;
    move_count = r->log.move_count + (r->call == MAKE_MOVE);
    known_good = true;
}

static void judge_refused(struct input *in, const struct request *r, uint64_t number)
{
    for (unsigned turn = 0; turn < 2; turn++) {
        expect_counts(r, number, act(in, r, turn));
        parts_same();
        stir(r);
    }
}

static struct request request_of(enum call call)
{
    return (struct request){ call, own_log(), actions.length, positions.length, 0, 0, 0 };
}

/* Number, counts and bytes of a call; after an accepted one the log is still good, and has the result that the rules give. */
static void judge(struct input *in, struct request r)
{
    uint64_t number, moves = r.log.move_count;
    struct request result;
    open_for(moves <= MENKHODUR_MAX_MOVES && moves > move_count ? moves : move_count);
    if (r.call == RULING) {
        judge_ruling(in, &r);
        return;
    }
    if (r.call >= RESULT) {
        judge_query(in, &r);
        return;
    }
    number = want_number(in, &r);
    if (number) {
        judge_refused(in, &r, number);
        return;
    }
    judge_accepted(in, &r);
    result = request_of(RESULT);
    open_for(move_count);
    judge_query(in, &result);
}

/* ---- Steps ---- */

static size_t take_cut(struct input *in, size_t length)
{
    unsigned form = take(in);
    if (form < 64) return length;
    if (form < 128) return (form - 64) * (length / 64);
    return form < 192 ? length - (form - 127) : least(length, 255u - form);
}

/* 0 or 1 as a rule, and any byte now and then. */
static uint8_t take_small(struct input *in)
{
    uint8_t byte = take(in);
    return byte < 0xE0 ? byte & 1 : byte;
}

void call_log(struct input *in)
{
    struct request r = request_of(take(in) % CALLS);
    unsigned how = take(in);
    r.colour = take_small(in);
    r.in_check = r.colour;
    r.move = in->move;
    if ((how & 3) == 3) r.log.action_count = take_wide(in), r.log.move_count = take_wide(in);
    if ((how & 0x70) == 0x70) r.actions_length = take_cut(in, actions.length), r.positions_length = take_cut(in, positions.length);
    judge(in, r);
}

void call_start(struct input *in)
{
    unsigned how = take(in);
    uint8_t in_check = take_small(in), bytes[MENKHODUR_POSITION_SIZE];
    struct request r;
    lend_parts((how & 1) * 3, how & 2 ? take(in) : 0, in->front);
    r = request_of(RESULT);
    if ((how & 0x70) == 0x70) r.actions_length = take_cut(in, actions.length), r.positions_length = take_cut(in, positions.length);
    for (unsigned turn = 0; turn < 2; turn++) {
        uint64_t number = parts_short(&r) ? MENKHODUR_PART_TOO_SHORT : want_position(&in->board, in_check, in);
        const uint16_t *list = lend_list(in, turn);
        menkhodur_counts got;
        about("game_start");
        got = CALL(turn, menkhodur_game_start, lent_actions(&r), r.actions_length, lent_positions(&r), r.positions_length, in->board, in_check,
                   in->entries ? list : NULL, in->entries);
        expect("number", number, got.number);
        expect("counts", 0, got.actions | got.moves);
        known_good = number == MENKHODUR_ACCEPTED;
        if (known_good) position_bytes(&in->board, in_check, in->list, in->entries, bytes);
        lent_expect(&positions, 0, bytes, known_good ? sizeof bytes : 0);
        parts_same();
        list_same();
        lent_stir(&actions, 0);
        lent_stir(&positions, known_good && turn ? sizeof bytes : 0);
    }
    judge_query(in, &(struct request){ RESULT, own_log(), actions.length, positions.length, 0, 0, 0 });
}

/* The current position into the registers: a move of its list and the record after it, or without one the side that is to move then. */
void log_to_registers(struct input *in)
{
    struct log l = own_log();
    const uint8_t *p = current_position(&l);
    unsigned index = take(in);
    open_for(move_count);
    in->board = board_in(p);
    in->entries = list_in(p, in->list);
    if (in->entries) {
        in->move = in->list[index % in->entries];
        in->board = after_of(in->board, in->move % (MENKHODUR_LAST_MOVE + 1u));
    } else {
        in->board.side_to_move ^= 1;
    }
}

/* ---- The knights' round, played and put ---- */

enum { WHITE_OUT = 21, BLACK_OUT = 45, WHITE_HOME = 6, BLACK_HOME = 62 };

/* The move of the round g1f3 g8f6 f3g1 f6g8 that is next, by where the knights stand. */
static uint64_t round_move(const menkhodur_board *b)
{
    bool white = b->pieces[WHITE_OUT], black = b->pieces[BLACK_OUT];
    if (white == black) return white ? MENKHODUR_MOVE(WHITE_OUT, WHITE_HOME, 0) : MENKHODUR_MOVE(WHITE_HOME, WHITE_OUT, 0);
    return white ? MENKHODUR_MOVE(BLACK_HOME, BLACK_OUT, 0) : MENKHODUR_MOVE(BLACK_OUT, BLACK_HOME, 0);
}

/* The list of the board after k moves: e2e4, the move of the round, and a move of nobody from each king side's corner, which loses a right;
 * with `fresh` no two are equal. */
static void round_list(struct input *in, uint64_t k, bool fresh)
{
    in->list[0] = (uint16_t)(fresh ? 8192 + k : 1804);
    in->list[1] = (uint16_t)round_move(&in->board);
    in->list[2] = MENKHODUR_MOVE(7, 23, 0);
    in->list[3] = MENKHODUR_MOVE(63, 47, 0);
    in->entries = 4;
}

static void round_start(struct input *in, bool fresh)
{
    in->board = no_men;
    in->board.pieces[WHITE_HOME] = 2;
    in->board.pieces[BLACK_HOME] = 8;
    round_list(in, 0, fresh);
}

/* The registers as after the next move of the round, from where the log stands; that move is handed out. */
static uint64_t round_registers(struct input *in, bool fresh)
{
    struct log l = own_log();
    menkhodur_board now = board_in(current_position(&l));
    uint64_t move = round_move(&now);
    in->board = after_of(now, move);
    round_list(in, move_count + 1, fresh);
    return move;
}

/* Some moves of the round from where the log stands; if no good log is there, the registers are made ready for its start. */
void call_round(struct input *in)
{
    unsigned moves = take(in);
    bool fresh = moves >= 128;
    if (!known_good) {
        round_start(in, fresh);
        return;
    }
    for (unsigned i = 0; i < moves % PLAYED_AT_ONCE; i++) {
        struct request r = request_of(MAKE_MOVE);
        r.move = round_registers(in, fresh);
        judge(in, r);
    }
}

static void put_action(enum call call, uint64_t move)
{
    uint8_t bytes[MENKHODUR_ACTION_SIZE];
    action_bytes(call, move, 0, bytes);
    lent_put(&actions, MENKHODUR_ACTION_SIZE * action_count++, bytes, sizeof bytes);
}

static void put_position(struct input *in)
{
    uint8_t bytes[MENKHODUR_POSITION_SIZE];
    position_bytes(&in->board, 0, in->list, in->entries, bytes);
    lent_put(&positions, MENKHODUR_POSITION_SIZE * move_count, bytes, sizeof bytes);
}

/* A log near its limits, put there as accepted calls would have left it: playing it would take too long. */
void long_log(struct input *in)
{
    unsigned how = take(in);
    uint64_t most = MENKHODUR_MAX_MOVES, moves = how & 1 ? most : how & 2 ? most - 1 : how;
    uint64_t offers = how & 4 ? MENKHODUR_MAX_ACTIONS - moves : how & 8 ? MENKHODUR_MAX_ACTIONS - 1 - moves : 0;
    if (!in->long_log) return;
    in->long_log = false;
    lend_parts(0, 0, in->front);
    open_for(moves);
    round_start(in, how & 16);
    put_position(in);
    while (action_count < moves) {
        put_action(MAKE_MOVE, round_registers(in, how & 16));
        move_count++;
        put_position(in);
    }
    while (offers--) put_action(OFFER_DRAW, 0);
    known_good = true;
    in->move = round_registers(in, how & 16);
}

/* ---- Logs that no call made ---- */

/* One byte of what is used, or a little behind it. */
void tamper(struct input *in)
{
    unsigned part = take(in);
    size_t at = take_pair(in);
    uint8_t byte = take(in);
    open_for(move_count);
    if (part & 1) lent_put(&actions, at % least(MENKHODUR_ACTION_SIZE * (action_count + 1), MENKHODUR_ACTIONS_LENGTH), &byte, 1);
    else lent_put(&positions, at % (MENKHODUR_POSITION_SIZE * (move_count + 1)), &byte, 1);
    known_good = false;
}

/* Parts that begin with the input's bytes, and counts as it says. */
void garbage(struct input *in)
{
    uint64_t acted = take_wide(in), moved = take_wide(in);
    size_t left, some;
    open_for(moved > MENKHODUR_MAX_MOVES ? 0 : moved);
    for (unsigned i = 0; i < 8; i++) {
        uint8_t byte = take(in);
        lent_put(&actions, i, &byte, 1);
    }
    left = (size_t)(in->end - in->at);
    some = least(left, MENKHODUR_POSITION_SIZE);
    lent_put(&positions, 0, in->at, some);
    in->at += some / 2;
    action_count = least(acted, MENKHODUR_MAX_ACTIONS);
    move_count = least(moved, MENKHODUR_MAX_MOVES);
    known_good = false;
}
