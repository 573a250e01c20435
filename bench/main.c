/* The benchmark: each call of the library against the rivals of rivals.h, on the same inputs, interleaved, best of many.
 * Prints ratios of times, and stops with 1 where answers differ. bench/run builds and runs it. */
#include "ntekuzino.h"
#include "rivals.h"

#include <stdio.h>
#include <stdlib.h>
#include <string.h>
#include <time.h>

enum { N = 10, BOOK = 1024, SHEET = 65536, TEXT = 1 << 21 };

/* The sides: rivals as compiled for plain x86-64, and for the processor that they run on. */
enum { OURS, SAME, SAME_NATIVE, PRIMES, PRIMES_NATIVE, SIDES };

/* The rivals' calls, compiled in one way. */
typedef struct {
    Learn *learn, *primes;
    Take *take;
    Join *join;
    Apply *apply;
    Read *read, *read_sheet;
    Write *write_sheet;
} Rivals;
static const Rivals plain = {same_learn, primes_learn, same_take, same_join, same_apply, same_read, same_read_sheet, same_write_sheet};
#ifdef NATIVE
static const Rivals native = {same_learn_native, primes_learn_native, same_take_native, same_join_native,
                              same_apply_native, same_read_native, same_read_sheet_native, same_write_sheet_native};
static const Rivals *const rivals[SIDES] = {NULL, &plain, &native, &plain, &native};
#else
static const Rivals *const rivals[SIDES] = {NULL, &plain, NULL, &plain, NULL};
#endif
static const char *const columns[SIDES] = {"", "ours/a", "ours/a native", "ours/b", "ours/b native"};

/* Those whose turn it is. */
static const Rivals *rival;

/* What each side is lent. */
typedef struct {
    uint32_t list[BOOK], book[BOOK], sheet[SHEET];
    uint8_t text[TEXT];
    size_t answer[7];
} Side;
static Side side[SIDES];

/* A book and a sheet to start from. */
typedef struct {
    uint32_t book[BOOK], sheet[SHEET];
    size_t answer[6];
} Piece;

/* What the calls read. */
static uint32_t words[BOOK];
static size_t rows;
static Piece from, a, b;
static uint32_t extra_state, extra_next;
static uint8_t recording[32768];
static size_t recording_len;
static uint8_t moved[TEXT];
static size_t moved_len;

static double seconds(void) {
    struct timespec t;
    clock_gettime(CLOCK_THREAD_CPUTIME_ID, &t);
    return (double)t.tv_sec + 1e-9 * (double)t.tv_nsec;
}

/* ---- inputs */

static uint64_t x;
static uint32_t random_below(uint32_t k) {
    x ^= x << 13;
    x ^= x >> 7;
    x ^= x << 17;
    return (uint32_t)(x >> 11) % k;
}

/* Rule 110 on a ring of ten cells, all states in order (document 003). */
static void rule_110(void) {
    rows = 1024;
    for (uint32_t s = 0; s < 1024; s++) {
        uint32_t next = 0;
        for (uint32_t v = 0; v < N; v++) {
            uint32_t seen = (s >> (v + 9) % N & 1) * 4 + (s >> v & 1) * 2 + (s >> (v + 1) % N & 1);
            next |= (110u >> seen & 1) << v;
        }
        words[s] = s << 10 | next;
    }
}

/* So many random rows, no state twice; one row more stands behind them. */
static void random_rows(size_t count) {
    static uint8_t used[1024];
    x = 88172645463325252u;
    memset(used, 0, sizeof used);
    rows = count;
    for (size_t k = 0; k <= count;) {
        uint32_t s = random_below(1024);
        if (used[s]) continue;
        used[s] = 1;
        words[k++] = s << 10 | random_below(1024);
    }
    extra_state = words[count] >> 10;
    extra_next = words[count] & 1023;
}

static void learn_piece(Piece *p, const uint32_t *w, size_t count) {
    if (ntekuzino_learn(N, w, count, p->book, BOOK, p->sheet, SHEET, (ntekuzino_answer *)p->answer) != NTEKUZINO_DONE) {
        puts("an input is not learned");
        exit(1);
    }
}

static void write_recording(void) {
    uint8_t *at = recording + sprintf((char *)recording, ".i 10\n.o 10\n.type fr\n");
    for (size_t k = 0; k < rows; k++) {
        for (int v = 0; v < N; v++) *at++ = (uint8_t)('0' + (words[k] >> (10 + v) & 1));
        *at++ = ' ';
        for (int v = 0; v < N; v++) *at++ = (uint8_t)('0' + (words[k] >> v & 1));
        *at++ = '\n';
    }
    recording_len = (size_t)(at + sprintf((char *)at, ".e\n") - recording);
}

/* The sheet to start from as text, with its rows moved. */
static void write_moved(void) {
    ntekuzino_written done;
    ntekuzino_write_sheet(N, from.sheet, SHEET, from.answer[3], recording, 0, recording, 0, moved, TEXT, &done);
    moved_len = done.length;
    uint8_t row[2 * N + 2], *first = moved + moved_len - 3 - from.answer[3] * sizeof row;
    for (size_t k = from.answer[3]; k > 1; k--) {
        uint8_t *last = first + (k - 1) * sizeof row, *other = first + random_below((uint32_t)k) * sizeof row;
        memcpy(row, last, sizeof row);
        memmove(last, other, sizeof row);
        memcpy(other, row, sizeof row);
    }
}

/* ---- the calls, by each side; (b) makes the sheet anew from the transitions. Answers are kept as rows of numbers, to be
 * compared; ours are structs of the same layout. */

#define ANSWER (ntekuzino_answer *)s->answer

static void learn_ours(Side *s) { ntekuzino_learn(N, words, rows, s->book, BOOK, s->sheet, SHEET, ANSWER); }
static void learn_same(Side *s) { rival->learn(N, words, rows, s->book, BOOK, s->sheet, SHEET, s->answer); }
static void learn_primes(Side *s) { rival->primes(N, words, rows, s->book, BOOK, s->sheet, SHEET, s->answer); }

static void take_ours(Side *s) {
    ntekuzino_take(N, extra_state, extra_next, s->book, BOOK, from.answer[2], s->sheet, SHEET, from.answer[3], ANSWER);
}
static void take_same(Side *s) {
    rival->take(N, extra_state, extra_next, s->book, BOOK, from.answer[2], s->sheet, SHEET, from.answer[3], s->answer);
}
static void take_primes(Side *s) { rival->primes(N, words, rows + 1, s->book, BOOK, s->sheet, SHEET, s->answer); }

#define PIECES                                                                                                          \
    N, a.book, BOOK, a.answer[2], a.sheet, SHEET, a.answer[3], b.book, BOOK, b.answer[2], b.sheet, SHEET, b.answer[3],    \
        s->book, BOOK, s->sheet, SHEET
static void join_ours(Side *s) { ntekuzino_join(PIECES, ANSWER); }
static void join_same(Side *s) { rival->join(PIECES, s->answer); }

static void apply_ours(Side *s) {
    ntekuzino_apply(N, from.sheet, SHEET, from.answer[3], extra_state, (ntekuzino_applied *)s->answer);
}
static void apply_same(Side *s) { rival->apply(N, from.sheet, SHEET, from.answer[3], extra_state, s->answer); }
static void read_ours(Side *s) {
    ntekuzino_read(recording, recording_len, s->list, BOOK, (ntekuzino_reading *)s->answer);
}
static void read_same(Side *s) { rival->read(recording, recording_len, s->list, BOOK, s->answer); }
static void back_ours(Side *s) { ntekuzino_read_sheet(moved, moved_len, s->sheet, SHEET, (ntekuzino_reading *)s->answer); }
static void back_same(Side *s) { rival->read_sheet(moved, moved_len, s->sheet, SHEET, s->answer); }
/* Without names, which the rival does not know: both texts are empty. */
static void write_ours(Side *s) {
    ntekuzino_write_sheet(N, from.sheet, SHEET, from.answer[3], recording, 0, recording, 0, s->text, TEXT,
                          (ntekuzino_written *)s->answer);
}
static void write_same(Side *s) { rival->write_sheet(N, from.sheet, SHEET, from.answer[3], s->text, TEXT, s->answer); }

/* ---- measuring */

static double budget = 1.0;
static int wrong;

/* A call by ours, (a) and (b); NULL where a side has none. */
typedef void (*Call[3])(Side *);

/* What a side runs; NULL where it has none, or was not compiled. */
static void (*call_of(Call call, int k))(Side *) {
    if (k != OURS && !rivals[k]) return NULL;
    return call[k == OURS ? 0 : k < PRIMES ? 1 : 2];
}

/* (b) knows neither struck nor added. */
static int agree(int k) {
    const Side *x = &side[OURS], *y = &side[k];
    size_t numbers = k < PRIMES ? 7 : 4;
    return memcmp(x->answer, y->answer, numbers * sizeof *x->answer) == 0 && memcmp(x->list, y->list, sizeof x->list) == 0 &&
           memcmp(x->book, y->book, sizeof x->book) == 0 && memcmp(x->sheet, y->sheet, sizeof x->sheet) == 0 &&
           memcmp(x->text, y->text, sizeof x->text) == 0;
}

/* One run of a side, which starts from the same slices as all others. */
static double run(Call call, int k) {
    memset(&side[k], 0, sizeof side[k]);
    memcpy(side[k].book, from.book, sizeof from.book);
    memcpy(side[k].sheet, from.sheet, sizeof from.sheet);
    rival = rivals[k];
    void (*now)(Side *) = call_of(call, k);
    double start = seconds();
    now(&side[k]);
    return seconds() - start;
}

/* Rounds of all sides until the budget is used, at least three. */
static void measure(const char *name, const char *input, size_t rules, Call call) {
    double best[SIDES], used = 0;
    for (int k = 0; k < SIDES; k++) best[k] = 1e9;
    for (int round = 0; round < 3 || (used < budget && round < 2000); round++)
        for (int k = 0; k < SIDES; k++) {
            if (!call_of(call, k)) continue;
            double took = run(call, k);
            used += took;
            if (took < best[k]) best[k] = took;
        }
    int same = side[OURS].answer[0] == NTEKUZINO_DONE;
    printf("%-6s %-29s %6zu", name, input, rules);
    for (int k = SAME; k < SIDES; k++) {
        if (!rivals[k]) continue;
        int width = 2 + (int)strlen(columns[k]);
        if (!call_of(call, k)) printf("%*s", width, "-");
        else printf("%*.2f", width, best[OURS] / best[k]);
        same &= !call_of(call, k) || agree(k);
    }
    wrong |= !same;
    puts(same ? "" : "   ANSWERS DIFFER");
    fflush(stdout);
}

static void halves(const char *input, Call call) {
    learn_piece(&a, words, rows / 2);
    learn_piece(&b, words + rows / 2, rows - rows / 2);
    learn_piece(&from, words, rows);
    measure("join", input, from.answer[3], call);
}

int main(int argc, char **argv) {
    if (argc > 1) budget = atof(argv[1]);
    Call learn = {learn_ours, learn_same, learn_primes}, take = {take_ours, take_same, take_primes};
    Call join = {join_ours, join_same, learn_primes}, apply = {apply_ours, apply_same, NULL};
    Call read = {read_ours, read_same, NULL}, write = {write_ours, write_same, NULL};
    Call back = {back_ours, back_same, NULL};
    printf("%-6s %-29s %6s", "call", "input", "rules");
    for (int k = SAME; k < SIDES; k++)
        if (rivals[k]) printf("  %s", columns[k]);
    puts("");

    rule_110();
    learn_piece(&from, words, rows);
    measure("learn", "rule 110, 1,024 rows in order", from.answer[3], learn);
    halves("rule 110, two halves", join);
    write_recording();
    measure("read", "rule 110, 1,024 rows as text", from.answer[3], read);

    random_rows(11);
    learn_piece(&from, words, rows);
    measure("learn", "11 random rows", from.answer[3], learn);
    measure("take", "one row more", from.answer[3], take);
    measure("apply", "that sheet", from.answer[3], apply);
    measure("write", "that sheet", from.answer[3], write);
    write_moved();
    measure("back", "that sheet, its rows moved", from.answer[3], back);
    halves("11 random rows, two halves", join);

    random_rows(150);
    learn_piece(&from, words, rows);
    measure("learn", "150 random rows", from.answer[3], learn);
    measure("take", "one row more", from.answer[3], take);
    measure("apply", "that sheet", from.answer[3], apply);
    measure("write", "that sheet", from.answer[3], write);
    write_moved();
    measure("back", "that sheet, its rows moved", from.answer[3], back);
    halves("150 random rows, two halves", join);

    random_rows(500);
    learn_piece(&from, words, rows);
    measure("learn", "500 random rows", from.answer[3], learn);
    puts(wrong ? "answers differ" : "all answers agree");
    return wrong;
}
