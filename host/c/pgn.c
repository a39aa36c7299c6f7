/* PGN move text (document 02, order 8): both functions beside a walker made from the order's own words, over every short text of a small
 * alphabet, soups of tokens, nesting, and places of any size; every lent byte is looked at. */
#include "pgn.h"

#include <string.h>

enum { DEEP = 8, LONGEST = 4, LONGEST_FEW = 2, SOUPS = 4000, SOUPS_FEW = 150, MOST = 400 };

/* A walker of one's own: the place, and where each bracket that is open was opened, the place's own offset for those before it; and the
 * lowest level that was met. */
struct walk {
    const char *text;
    size_t length, at;
    size_t opened[DEEP];
    unsigned level, lowest;
    uint64_t number, offset;
    bool over;
};

static struct walk begin(const char *text, size_t length, uint64_t offset, uint64_t level)
{
    struct walk w = { .text = text, .length = length };
    if (level > DEEP || offset > length) {
        w.number = level > DEEP ? 22 : 23;
        w.offset = offset;
        w.over = true;
        return w;
    }
    w.at = offset;
    for (w.level = 0; w.level < level; w.level++) w.opened[w.level] = offset;
    w.lowest = w.level;
    return w;
}

static char byte(const struct walk *w, size_t at)
{
    return at < w->length ? w->text[at] : '\0';
}

static bool stands(const struct walk *w, const char *token)
{
    size_t n = strlen(token);
    return w->at + n <= w->length && memcmp(w->text + w->at, token, n) == 0;
}

static size_t run(const struct walk *w, size_t at, const char *bytes)
{
    while (at < w->length && is_in(bytes, (uint8_t)w->text[at])) at++;
    return at;
}

static void end(struct walk *w, uint64_t number, uint64_t offset)
{
    w->number = number;
    w->offset = offset;
    w->over = true;
}

/* "brace comments, semicolon comments to LF or the end" */
static void comment(struct walk *w, char last)
{
    size_t to = w->at;
    while (to < w->length && w->text[to] != last) to++;
    if (to < w->length) w->at = to + 1;
    else if (last == '}') end(w, 21, w->at);
    else w->at = to;
}

static void bracket(struct walk *w, bool opens)
{
    if (opens && w->level == DEEP) end(w, 22, w->at);
    else if (!opens && w->level == 0) end(w, 23, w->at);
    else if (opens) w->opened[w->level++] = w->at++;
    else w->level--, w->at++;
    if (w->level < w->lowest) w->lowest = w->level;
}

static void digits(struct walk *w)
{
    bool glyph = byte(w, w->at) == '$';
    size_t first = w->at + glyph, behind = run(w, first, "0123456789");
    if (behind == first) end(w, 23, w->at);
    else w->at = glyph ? behind : run(w, behind, ".");
}

/* One token; whether it is a move, whose bytes go from the place to `*to`. */
static bool step(struct walk *w, size_t *to)
{
    char b = byte(w, w->at);
    if (w->at == w->length) end(w, w->level ? 21 : 0, w->level ? w->opened[w->level - 1] : 0);
    else if (b == '\0') end(w, 23, w->at);
    else if (strchr("abcdefghNBRQKO", b)) {
        *to = run(w, w->at, "ABCDEFGHIJKLMNOPQRSTUVWXYZabcdefghijklmnopqrstuvwxyz0123456789+#=-!?");
        return true;
    } else if (stands(w, "1-0") || stands(w, "0-1") || stands(w, "1/2-1/2") || b == '*') end(w, w->level ? 23 : 0, w->level ? w->at : 0);
    else if (strchr(" \t\r\n", b)) w->at++;
    else if (b == '{' || b == ';') comment(w, b == '{' ? '}' : '\n');
    else if (b == '(' || b == ')') bracket(w, b == '(');
    else if (strchr("$0123456789", b)) digits(w);
    else end(w, 23, w->at);
    return false;
}

static void expect_move(menkhodur_pgn_move want, menkhodur_pgn_move got)
{
    expect("number", want.number, got.number);
    expect("offset", want.offset, got.offset);
    expect("found", want.found, got.found);
    expect("start", want.start, got.start);
    expect("length", want.length, got.length);
    expect("level", want.level, got.level);
    expect("closed", want.closed, got.closed);
    expect("opened", want.opened, got.opened);
}

/* Down from the place's level to the lowest all that is met is closed for good, and up from there to the move's level opened. */
menkhodur_pgn_move owed_next(const char *text, size_t length, uint64_t offset, uint64_t level, bool outside)
{
    struct walk w = begin(text, length, offset, level);
    size_t to = 0;
    while (!w.over) {
        if (!step(&w, &to)) continue;
        if (!outside || w.level == 0) return (menkhodur_pgn_move){ 0, 0, 1, w.at, to - w.at, w.level, level - w.lowest, w.level - w.lowest };
        w.at = to;
    }
    return (menkhodur_pgn_move){ .number = w.number, .offset = w.offset };
}

static void check_place(const struct part *p, uint64_t offset, uint64_t level)
{
    const char *text = (const char *)p->bytes;
    about("menkhodur_pgn_next", "\"%.*s\" from %llu at level %llu", (int)p->length, text, (unsigned long long)offset, (unsigned long long)level);
    expect_move(owed_next(text, p->length, offset, level, false), menkhodur_pgn_next(p->bytes, p->length, offset, level));
}

/* The check, then from move to move: as many as it counted, and then that none is left, or the refusal. */
static void check_text(const char *text, size_t length)
{
    struct part p = lend_bytes(text, length);
    struct walk w = begin(text, length, 0, 0);
    uint64_t moves = 0, offset = 0, level = 0, walked = 0;
    size_t to = 0;
    while (!w.over) {
        if (!step(&w, &to)) continue;
        moves++;
        w.at = to;
    }
    about("menkhodur_pgn_check", "\"%.*s\"", (int)length, text);
    menkhodur_pgn_count count = menkhodur_pgn_check(p.bytes, p.length);
    expect("number", w.number, count.number);
    expect("offset", w.offset, count.offset);
    expect("moves", w.number ? 0 : moves, count.moves);
    for (menkhodur_pgn_move m; walked <= length; walked++) {
        check_place(&p, offset, level);
        m = menkhodur_pgn_next(p.bytes, p.length, offset, level);
        if (!m.found) break;
        offset = m.start + m.length;
        level = m.level;
    }
    expect("moves walked", moves, walked);
    check_place(&p, any((unsigned)length + 2), any(DEEP + 2));
    expect_unchanged("text", &p);
    give_back(&p);
}

static void check_words(const char *text)
{
    check_text(text, strlen(text));
}

/* Every text of up to so many bytes. */
static void check_short_texts(char *text, size_t length, size_t longest)
{
    static const char alphabet[] = "1-0/2*(){};$.e\n ";
    check_text(text, length);
    if (length == longest) return;
    for (const char *b = alphabet; *b; b++) {
        text[length] = *b;
        check_short_texts(text, length + 1, longest);
    }
}

static void check_soup(void)
{
    static const char *const tokens[] = { "e4", "Nbxd2+", "O-O-O", "e8=Q#", "12.", "1...", "1", "10-1", "(", "(", ")", ")", "{a (b}", "{", "}",
                                          "; rest (\n", "$14", "$", "1-0", "0-1", "1/2-1/2", "*", "%", "\r\n", "\t", "x" };
    char text[MOST];
    size_t length = 0;
    for (unsigned n = any(14); n; n--) {
        const char *token = tokens[any(sizeof tokens / sizeof *tokens)];
        memcpy(text + length, token, strlen(token));
        length += strlen(token);
        if (any(3)) text[length++] = ' ';
    }
    check_text(text, length);
}

/* So many brackets opened, a move, and so many closed. */
static void check_nesting(unsigned opened, unsigned closed)
{
    char text[64];
    size_t length = 0;
    for (unsigned i = 0; i < opened; i++) text[length++] = '(';
    text[length++] = 'e';
    for (unsigned i = 0; i < closed; i++) text[length++] = ')';
    check_text(text, length);
}

/* Numbers that a narrower type would cut to a place in the text. */
static void check_wide_places(void)
{
    struct part p = lend_text("e4 (d4) e5");
    for (unsigned i = 0; i < WIDE; i++) {
        check_place(&p, wide[i], 0);
        check_place(&p, 0, wide[i]);
        check_place(&p, wide_over(i, 2), wide_over(i, 1));
    }
    for (uint64_t offset = 0; offset <= p.length + 1; offset++) {
        for (uint64_t level = 0; level <= DEEP + 1; level++) check_place(&p, offset, level);
    }
    expect_unchanged("text", &p);
    give_back(&p);
}

/* The brackets before each move, `closed` and `opened` by turns. */
static void check_brackets(const char *text, const char *crossed)
{
    struct part p = lend_text(text);
    menkhodur_pgn_move m = { .found = 1 };
    for (; *crossed; crossed += 2) {
        about("menkhodur_pgn_next", "\"%s\", the brackets behind %llu", text, (unsigned long long)(m.start + m.length));
        m = menkhodur_pgn_next(p.bytes, p.length, m.start + m.length, m.level);
        expect("closed", (uint64_t)(crossed[0] - '0'), m.closed);
        expect("opened", (uint64_t)(crossed[1] - '0'), m.opened);
    }
    give_back(&p);
    check_text(text, strlen(text));
}

void check_pgn(void)
{
    check_brackets("e4 (d4 d5) (c4 e5) e5", "000100110010");
    check_brackets("e4 (d4 d5   c4 e5) e5", "000100000010");
    check_brackets("e4 () {(} e5 ;)\n ((Nf3) Nc3) (((d4))) d5 (c4 (f4))", "0000021013300101");
    char text[LONGEST];
    check_words("1. e4 e5 2. Nf3 $6 {good} (2. f4 exf4 (2... d5 3. exd5)) 2... Nc6 ; to the end");
    check_words("e4 {x");
    check_words("((((((((e4)))))))) *");
    check_text("e4\0e5", 5);
    check_short_texts(text, 0, few ? LONGEST_FEW : LONGEST);
    for (unsigned i = 0; i < (few ? SOUPS_FEW : SOUPS); i++) check_soup();
    for (unsigned opened = 0; opened <= DEEP + 2; opened++) {
        for (unsigned closed = 0; closed <= DEEP + 2; closed++) check_nesting(opened, closed);
    }
    check_wide_places();
}
