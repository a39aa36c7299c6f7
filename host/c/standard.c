/* SAN as the PGN standard writes it: order 6 of document 02. The judge here does not read texts. It spells out every text that fits an entry of
 * the list, and looks for the text among them. */
#include "standard.h"

#include <stdio.h>
#include <string.h>

enum { B1 = 1, D1 = 3, E1 = 4, E2 = 12, C3 = 18, B5 = 33, C5 = 34, E5 = 36, D6 = 43, E6 = 44, E7 = 52, E8 = 60 };
enum { PAWN = 1, KNIGHT = 2, ROOK = 4, KING = 6, BLACK_PAWN = 7, BLACK_KING = 12 };
enum { MOST = 6, SPELT = 16 };

static const char reading[] = "menkhodur_san_read_standard";
static const char naming[] = "menkhodur_san_name_standard";

struct scene {
    menkhodur_board board;
    uint16_t list[MENKHODUR_LONGEST_LIST];
    size_t entries;
};

/* ---- The judge ---- */

static unsigned kind_on(const struct scene *s, unsigned square)
{
    unsigned man = s->board.pieces[square];
    return man ? (man - 1) % 6 + 1 : 0;
}

static bool slants(const struct scene *s, uint16_t move)
{
    unsigned from = MENKHODUR_MOVE_SOURCE(move), to = MENKHODUR_MOVE_DESTINATION(move);
    return kind_on(s, from) == PAWN && from % 8 != to % 8;
}

static bool takes(const struct scene *s, uint16_t move)
{
    return s->board.pieces[MENKHODUR_MOVE_DESTINATION(move)] || slants(s, move);
}

/* A text that fits the move, with the source's file if `part` has 1 and its rank if it has 2. Nothing fits a move from an empty square, or one
 * to a pawn or a king. */
static bool spell(char *text, const struct scene *s, uint16_t move, unsigned part, bool x)
{
    static const char letters[] = " PNBRQK";
    unsigned from = MENKHODUR_MOVE_SOURCE(move), to = MENKHODUR_MOVE_DESTINATION(move), becomes = MENKHODUR_MOVE_PROMOTION(move);
    unsigned kind = kind_on(s, from);
    if (!kind || becomes == PAWN || becomes == KING) return false;
    if (kind != PAWN) *text++ = letters[kind];
    if (part & 1) *text++ = (char)('a' + from % 8);
    if (part & 2) *text++ = (char)('1' + from / 8);
    if (x) *text++ = 'x';
    *text++ = (char)('a' + to % 8);
    *text++ = (char)('1' + to / 8);
    if (becomes) *text++ = '=', *text++ = letters[becomes];
    *text = 0;
    return true;
}

/* Whether a text without its check mark fits the move; then `right` is whether `x` stands as it must. */
static bool fits(const struct scene *s, uint16_t move, const char *text, bool *right)
{
    char spelt[SPELT];
    for (unsigned i = 0; i < 8; i++) {
        unsigned part = i % 4;
        bool x = i / 4;
        if (!spell(spelt, s, move, part, x) || strcmp(spelt, text)) continue;
        *right = x == takes(s, move) && (!x || kind_on(s, MENKHODUR_MOVE_SOURCE(move)) != PAWN || part & 1);
        return true;
    }
    return false;
}

static uint64_t castling(const struct scene *s, unsigned file)
{
    unsigned rank = s->board.side_to_move ? 56 : 0;
    return MENKHODUR_MOVE(rank + 4, rank + file, 0);
}

static uint64_t castled(const struct scene *s, unsigned file)
{
    uint64_t move = castling(s, file);
    bool listed = false;
    for (size_t i = 0; i < s->entries; i++) listed |= s->list[i] == move;
    return listed && kind_on(s, MENKHODUR_MOVE_SOURCE(move)) == KING ? move : REFUSED;
}

/* The move that a text names. */
static uint64_t judged(const struct scene *s, const char *text)
{
    char bare[2 * SPELT] = "";
    size_t length = strlen(text), found = 0;
    bool right = false;
    uint64_t move = REFUSED;
    memcpy(bare, text, length);
    if (length && is_in("+#", (uint8_t)text[length - 1])) bare[length - 1] = 0;
    if (!strcmp(bare, "O-O")) return castled(s, 6);
    if (!strcmp(bare, "O-O-O")) return castled(s, 2);
    for (size_t i = 0; i < s->entries; i++)
        if (fits(s, s->list[i], bare, &right)) found++, move = s->list[i];
    return found == 1 && right ? move : REFUSED;
}

uint64_t owed_move(menkhodur_board b, const uint16_t *list, size_t entries, const uint8_t *text, size_t length)
{
    struct scene s = { .board = b, .entries = entries };
    char ended[SPELT] = "";
    /* What has no name in the judge's spelling is none: nothing that is spelt is so long, or has a 0 byte in it. */
    if (length >= sizeof ended || (length && memchr(text, 0, length))) return REFUSED;
    if (length) memcpy(ended, text, length);
    if (entries) memcpy(s.list, list, entries * sizeof *list);
    return judged(&s, ended);
}

/* The name of a listed move, "" if there is none. */
static void name_of(const struct scene *s, uint16_t move, char *text)
{
    static const unsigned parts[2][4] = { { 0, 1, 2, 3 }, { 1, 3, 1, 3 } };
    bool king = kind_on(s, MENKHODUR_MOVE_SOURCE(move)) == KING;
    strcpy(text, "O-O");
    if (king && move == castling(s, 6)) return;
    strcpy(text, "O-O-O");
    if (king && move == castling(s, 2)) return;
    for (unsigned i = 0; i < 4; i++)
        if (spell(text, s, move, parts[slants(s, move)][i], takes(s, move)) && judged(s, text) == move) return;
    *text = 0;
}

/* ---- Calls ---- */

static const uint16_t *list_of(const struct part *list)
{
    return (const uint16_t *)(const void *)list->bytes;
}

static void check_answer(const struct scene *s, const char *text, uint64_t number, uint64_t move)
{
    struct part list = lend_bytes(s->list, s->entries * 2), lent = lend_text(text);
    about(reading, "text `%s`, %zu entries, the first %u", text, s->entries, s->list[0]);
    expect_answer(number, move, menkhodur_san_read_standard(s->board, list_of(&list), s->entries, lent.bytes, lent.length));
    expect_unchanged("list", &list);
    expect_unchanged("text", &lent);
    give_back(&list);
    give_back(&lent);
}

static void check_judged(const struct scene *s, const char *text)
{
    uint64_t move = judged(s, text);
    if (move == REFUSED) check_answer(s, text, MENKHODUR_INVALID_SAN_MOVE, 0);
    else check_answer(s, text, MENKHODUR_ACCEPTED, move);
}

/* Texts between spaces that are all read as one move, or all refused; the judge must say so too. */
static void check_reads(const struct scene *s, const char *texts, uint64_t move)
{
    char text[2 * SPELT];
    int length;
    for (; sscanf(texts, " %31[^ ]%n", text, &length) == 1; texts += length) {
        check_judged(s, text);
        expect("the judge's move", move, judged(s, text));
    }
}

/* `text` is what must be written, "" where the call is refused with `number`. */
static void check_names_into(const struct scene *s, uint64_t move, uint64_t number, const char *text, size_t room)
{
    size_t length = strlen(text);
    bool written = number == MENKHODUR_ACCEPTED && length <= room;
    struct part list = lend_bytes(s->list, s->entries * 2), out = lend(room);
    about(naming, "move %llu, `%s` into %zu bytes", (unsigned long long)move, text, room);
    expect_answer(number ? number : written ? MENKHODUR_ACCEPTED : MENKHODUR_OUTPUT_TOO_SHORT, length,
                  menkhodur_san_name_standard(s->board, list_of(&list), s->entries, move, out.bytes, room));
    expect_written("room", &out, 0, text, written ? length : 0);
    expect_unchanged("list", &list);
    give_back(&list);
    give_back(&out);
}

static void check_names(const struct scene *s, uint64_t move, const char *text)
{
    for (size_t room = 0; room <= strlen(text) + 2; room++) check_names_into(s, move, MENKHODUR_ACCEPTED, text, room);
    check_reads(s, text, move);
}

static void check_no_name(const struct scene *s, uint64_t move, uint64_t number)
{
    for (size_t room = 0; room <= MENKHODUR_LONGEST_STANDARD_NAME + 1; room++) check_names_into(s, move, number, "", room);
}

/* ---- Rows ---- */

static struct scene scene_of(uint8_t side, uint8_t square, uint8_t man, uint16_t first, uint16_t second)
{
    return (struct scene){ board_with(side, 1, &square, &man), { first, second }, second ? 2 : 1 };
}

static struct scene knight_scene(void)
{
    return scene_of(0, B1, KNIGHT, 1153, 0);
}

static void check_knights(void)
{
    struct scene one = knight_scene(), taken = one, twice = scene_of(0, B1, KNIGHT, 1153, 1153);
    check_reads(&one, "Nc3 Nc3+ Nc3# Nbc3 N1c3 Nb1c3 Nb1c3+", 1153);
    check_reads(&one, "Nc3x Nc3+?! Nxc3 Nc3=Q Nc3= Nc3++ Nc3+# Nc3! Nc Nx N c3 xc3 x Bc3 nc3 Nac3 N2c3 Nc3c3 Nb1 O-O O-O-O = + \xff", REFUSED);
    check_judged(&one, "");
    check_judged(&one, "Nc3 ");
    check_judged(&one, "Nc3 e.p.");
    check_names(&one, 1153, "Nc3");
    taken.board.pieces[C3] = BLACK_PAWN;
    check_reads(&taken, "Nc3 Nc3x Nb1x Nb1c3 Nxc", REFUSED);
    check_names(&taken, 1153, "Nxc3");
    check_reads(&twice, "Nc3 Nbc3 N1c3 Nb1c3", REFUSED);
    check_no_name(&twice, 1153, MENKHODUR_NO_NAME);
    one.entries = 0;
    check_reads(&one, "Nc3", REFUSED);
}

/* A 0 byte, or any other that no text has, in each place of a text and behind it. */
static void check_other_bytes(void)
{
    struct scene s = knight_scene();
    for (unsigned i = 0; i < 4 * 256; i++) {
        uint8_t text[4] = { 'N', 'c', '3', '+' }, byte = (uint8_t)(i % 256);
        bool same = text[i / 256] == byte || (i / 256 == 3 && byte == '#');
        struct part lent;
        text[i / 256] = byte;
        lent = lend_bytes(text, sizeof text);
        about(reading, "`Nc3+` with byte %u at %u", byte, i / 256);
        expect_answer(same ? MENKHODUR_ACCEPTED : MENKHODUR_INVALID_SAN_MOVE, same ? 1153 : 0,
                      menkhodur_san_read_standard(s.board, s.list, s.entries, lent.bytes, lent.length));
        expect_unchanged("text", &lent);
        give_back(&lent);
    }
}

static void check_castling(void)
{
    struct scene rook = scene_of(0, E1, ROOK, 388, 0), king = scene_of(0, E1, KING, 388, 132), black = scene_of(1, E8, BLACK_KING, 4028, 3772);
    struct scene other = scene_of(0, E1, BLACK_KING, 388, 388);
    check_reads(&king, "O-O O-O+ O-O# Kg1 Kg1+ Keg1 Ke1g1", 388);
    check_reads(&king, "O-O-O O-O-O+ O-O-O#", 132);
    check_reads(&king, "O-O++ O-O+# O-O- O-O! O-O-O-O O-O=Q O-Ox 0-0 o-o O O-", REFUSED);
    check_names(&king, 388, "O-O");
    check_names(&king, 132, "O-O-O");
    check_reads(&rook, "O-O O-O+ O-O# O-O-O", REFUSED);
    check_names(&rook, 388, "Rg1");
    rook = scene_of(0, E1, ROOK, 388, 388);
    check_no_name(&rook, 388, MENKHODUR_NO_NAME);
    check_names(&other, 388, "O-O");
    check_reads(&other, "Kg1", REFUSED);
    check_names(&black, 4028, "O-O");
    check_names(&black, 3772, "O-O-O");
    black.board.side_to_move = 0;
    check_reads(&black, "O-O O-O-O", REFUSED);
}

static void check_pawns(void)
{
    struct scene passing = scene_of(0, E5, PAWN, 2788, 0), taken = passing, ahead = scene_of(0, E5, PAWN, 2852, 0);
    struct scene last = scene_of(0, E7, PAWN, 24372, 0), shortest = scene_of(0, E2, PAWN, 1804, 0);
    check_reads(&passing, "exd6 exd6+ exd6# e5xd6", 2788);
    check_reads(&passing, "d6 xd6 5xd6 ed6 e5d6 exd6e.p. exd exd6x dxd6 exd6=Q", REFUSED);
    check_judged(&passing, "exd6 e.p.");
    check_names(&passing, 2788, "exd6");
    taken.board.pieces[D6] = BLACK_PAWN;
    check_names(&taken, 2788, "exd6");
    ahead.board.pieces[E6] = BLACK_PAWN;
    check_reads(&ahead, "e6 xe6 5xe6 ee6", REFUSED);
    check_names(&ahead, 2852, "exe6");
    check_reads(&last, "e8=Q e8=Q+ e8=Q# ee8=Q e7e8=Q", 24372);
    check_reads(&last, "e8Q e8 e8= e8=q e8=K e8=P e8=R e8==Q e8=Q=Q e8=Q++ e8+=Q e=Q =Q", REFUSED);
    check_names(&last, 24372, "e8=Q");
    check_names(&shortest, 1804, "e4");
    last = scene_of(0, E7, PAWN, 3892, 28468);
    check_names(&last, 3892, "e8");
    check_no_name(&last, 28468, MENKHODUR_NO_NAME);
}

/* Three knights that all may take on c3 and become a queen: neither file nor rank tells b1's from the others. */
static void check_longest(void)
{
    struct scene s = { board_with(0, 4, (uint8_t[]){ B1, B5, D1, C3 }, (uint8_t[]){ KNIGHT, KNIGHT, KNIGHT, BLACK_PAWN }),
                       { 21633, 21665, 21635 }, 3 };
    check_names(&s, 21633, "Nb1xc3=Q");
    check_names(&s, 21665, "N5xc3=Q");
    check_names(&s, 21635, "Ndxc3=Q");
    check_reads(&s, "Nb1xc3=Q#", 21633);
    check_reads(&s, "Nxc3=Q Nbxc3=Q N1xc3=Q Nb1c3=Q Nb1xc3Q Nb1xc3=Q+# Nb1xc3=R Nb1xc3", REFUSED);
}

/* ---- Texts by the judge ---- */

static const char bytes[] = "NKRQbcdeg13568xO-+#=";

/* Every text of up to four of these bytes, of up to two under valgrind. */
static void check_short(const struct scene *s)
{
    const unsigned base = sizeof bytes - 1;
    unsigned long texts = 1;
    for (unsigned length = 1; length <= (few ? 2 : 4); length++) {
        texts *= base;
        for (unsigned long i = 0; i < texts; i++) {
            char text[5] = "";
            unsigned long rest = i;
            for (unsigned at = 0; at < length; at++, rest /= base) text[at] = bytes[rest % base];
            check_judged(s, text);
        }
    }
}

/* A text as it is, with each check mark, and changed a few times: a byte put in, put in the place of another, or taken away. */
static void check_around(const struct scene *s, const char *text)
{
    size_t length = strlen(text);
    for (unsigned i = 0; i < 12; i++) {
        char changed[2 * SPELT] = "";
        size_t at = any((unsigned)length + 1), behind = at + (at < length && i % 3 != 0);
        memcpy(changed, text, at);
        if (i % 3 != 2) changed[at] = bytes[any(sizeof bytes - 1)];
        strcat(changed, text + behind);
        check_judged(s, changed);
    }
    for (unsigned i = 0; i < 3; i++) {
        char marked[2 * SPELT];
        snprintf(marked, sizeof marked, "%s%.*s", text, i > 0, i > 1 ? "#" : "+");
        check_judged(s, marked);
    }
}

static void check_entry(const struct scene *s, uint16_t move)
{
    char text[SPELT];
    for (unsigned i = 0; i < 8; i++)
        if (spell(text, s, move, i % 4, i / 4)) check_around(s, text);
    name_of(s, move, text);
    if (!*text) check_names_into(s, move, MENKHODUR_NO_NAME, "", MENKHODUR_LONGEST_STANDARD_NAME);
    for (size_t spare = 0; *text && spare < 3; spare++) check_names_into(s, move, MENKHODUR_ACCEPTED, text, strlen(text) + spare - 1);
}

/* A few men and moves on a few squares, so that texts often fit several entries. */
static struct scene any_scene(void)
{
    static const uint8_t from[] = { B1, B5, D1, E1, C5, E5, E7, E8 }, to[] = { C3, D6, 2, 6, 58, 62, E6, E8 };
    static const uint8_t men[] = { 0, 1, 1, 2, 2, 2, 4, 5, 6, 7, 8, 12 };
    struct scene s = { empty_board, { 0 }, 1 + any(MOST) };
    unsigned man = men[any(sizeof men)];
    for (unsigned i = 0; i < sizeof from; i++) s.board.pieces[from[i]] = any(2) ? (uint8_t)man : men[any(sizeof men)];
    for (unsigned i = 0; i < sizeof to; i++)
        if (any(3) == 0) s.board.pieces[to[i]] = (uint8_t)(1 + any(12));
    s.board.side_to_move = (uint8_t)any(2);
    for (size_t i = 0; i < s.entries; i++) s.list[i] = MENKHODUR_MOVE(from[any(sizeof from)], to[i && any(2) ? any(2) : any(sizeof to)], any(3) ? 0 : any(7));
    return s;
}

static void check_by_judge(void)
{
    struct scene knights = { board_with(0, 3, (uint8_t[]){ B1, B5, D1 }, (uint8_t[]){ KNIGHT, KNIGHT, KNIGHT }), { 1153, 1185, 1155, 388 }, 4 };
    struct scene pawns = { board_with(0, 3, (uint8_t[]){ E5, C5, E7 }, (uint8_t[]){ PAWN, PAWN, PAWN }), { 2788, 2786, 24372, 3892 }, 4 };
    struct scene king = scene_of(0, E1, KING, 388, 132);
    check_short(&knights);
    check_short(&pawns);
    check_short(&king);
    for (unsigned i = 0; i < (few ? 20u : 500u); i++) {
        struct scene s = any_scene();
        for (size_t at = 0; at < s.entries; at++) check_entry(&s, s.list[at]);
        check_around(&s, "O-O");
        check_around(&s, "O-O-O");
    }
}

/* ---- Refusals ---- */

static void check_unlisted(void)
{
    struct scene s = knight_scene(), none = s;
    none.entries = 0;
    check_no_name(&none, 1153, MENKHODUR_NOT_LISTED);
    check_no_name(&s, 1152, MENKHODUR_NOT_LISTED);
    check_no_name(&s, MENKHODUR_LAST_MOVE + 1, MENKHODUR_NOT_LISTED);
    for (unsigned i = 0; i < WIDE; i++) check_no_name(&s, wide[i], MENKHODUR_NOT_LISTED), check_no_name(&s, wide_over(i, 1153), MENKHODUR_NOT_LISTED);
}

/* Reader 5, 6, 4 and namer 5, 6, 11, 8, 7: every set of faults is answered with the first. */
static void check_order(unsigned faults)
{
    static const uint64_t of_reader[] = { MENKHODUR_OUT_OF_RANGE, MENKHODUR_BAD_LIST, MENKHODUR_INVALID_SAN_MOVE };
    static const uint64_t of_namer[] = { MENKHODUR_OUT_OF_RANGE, MENKHODUR_BAD_LIST, MENKHODUR_NOT_LISTED, MENKHODUR_NO_NAME };
    struct scene s = knight_scene(), named = s;
    uint64_t number = first_of(faults & 7, of_reader);
    if (faults & 1) s.board.en_passant = named.board.en_passant = 9;
    if (faults & 2) s.list[s.entries++] = named.list[named.entries++] = MENKHODUR_LAST_MOVE + 1;
    if (faults & 8) named.list[named.entries++] = 1153;
    check_answer(&s, faults & 4 ? "Nc3x" : "Nc3", number, number ? 0 : 1153);
    number = first_of(faults & 15, of_namer);
    check_names_into(&named, faults & 4 ? 70000 : 1153, number, number ? "" : "Nc3", faults & 16 ? 2 : 3);
}

void check_standard(void)
{
    check_knights();
    check_other_bytes();
    check_castling();
    check_pawns();
    check_longest();
    check_by_judge();
    check_unlisted();
    check_ranges(&(struct form){ reading, naming, menkhodur_san_read_standard, menkhodur_san_name_standard });
    for (unsigned faults = 0; faults < 32; faults++) check_order(faults);
}
