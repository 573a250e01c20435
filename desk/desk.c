/* The desk: requests on standard input, an answer for each on standard output (docs/DESK.md), over the face for C.
 * Each call is a row of `calls`. tools/program builds it against the proved library. */
#include "ntekuzino.h"

#include <errno.h>
#include <signal.h>
#include <string.h>
#include <unistd.h>

enum { MOST_WORDS = 65536, MOST_BYTES = 2097152, NUMBERS = 7, SLICES = 6, ANSWERS = 11, BUFFER = 65536 };

/* The digest of what the desk is made from; tools/program tells it. */
#ifndef BUILD
#define BUILD "unknown"
#endif

/* How the desk ends. */
enum { GOOD_END = 0, MALFORMED = 1, BROKEN = 2 };

/* A lent slice: its length, and its elements as words or as bytes. */
typedef struct {
    size_t len;
    uint32_t words[MOST_WORDS];
    uint8_t bytes[MOST_BYTES];
} Slice;

static Slice lent[SLICES];

/* ---- the calls */

typedef void Make(const uint64_t *x, size_t *answer);

#define WORDS(k) lent[k].words, lent[k].len
#define BYTES(k) lent[k].bytes, lent[k].len
#define ANSWER (ntekuzino_answer *)answer

static void fresh(const uint64_t *x, size_t *answer) { ntekuzino_fresh((uint32_t)x[0], WORDS(0), ANSWER); }

static void take(const uint64_t *x, size_t *answer) {
    ntekuzino_take((uint32_t)x[0], (uint32_t)x[1], (uint32_t)x[2], WORDS(0), x[3], WORDS(1), x[4], ANSWER);
}

static void learn(const uint64_t *x, size_t *answer) {
    ntekuzino_learn((uint32_t)x[0], WORDS(0), WORDS(1), WORDS(2), ANSWER);
}

static void join(const uint64_t *x, size_t *answer) {
    ntekuzino_join((uint32_t)x[0], WORDS(0), x[1], WORDS(1), x[2], WORDS(2), x[3], WORDS(3), x[4], WORDS(4), WORDS(5),
                   ANSWER);
}

static void apply(const uint64_t *x, size_t *answer) {
    ntekuzino_apply((uint32_t)x[0], WORDS(0), x[2], (uint32_t)x[1], (ntekuzino_applied *)answer);
}

static void session_start(const uint64_t *x, size_t *answer) {
    ntekuzino_session_start((uint32_t)x[0], WORDS(0), (ntekuzino_session *)(answer + 6), ANSWER);
}

static void session_take(const uint64_t *x, size_t *answer) {
    memcpy(answer + 6, x, 5 * sizeof *x);
    ntekuzino_session *session = (ntekuzino_session *)(answer + 6);
    ntekuzino_session_take(session, WORDS(0), WORDS(1), (uint32_t)x[5], (uint32_t)x[6], ANSWER);
}

static void read_text(const uint64_t *x, size_t *answer) {
    (void)x;
    ntekuzino_read(BYTES(0), WORDS(1), (ntekuzino_reading *)answer);
}

static void write_sheet(const uint64_t *x, size_t *answer) {
    ntekuzino_write_sheet((uint32_t)x[0], WORDS(0), x[1], BYTES(1), BYTES(2), BYTES(3), (ntekuzino_written *)answer);
}

static void run(const uint64_t *x, size_t *answer) {
    (void)x;
    answer[0] = ntekuzino_run(BYTES(0), WORDS(1), WORDS(2), WORDS(3), BYTES(4));
}

static void lookup(const uint64_t *x, size_t *answer) {
    ntekuzino_lookup(BYTES(0), BYTES(1), x[0], (ntekuzino_name *)answer);
}

static void read_sheet(const uint64_t *x, size_t *answer) {
    (void)x;
    ntekuzino_read_sheet(BYTES(0), WORDS(1), (ntekuzino_reading *)answer);
}

/* A call, number k in row k - 1. Numbers: `w` of 32 bits, `c` of 64. Slices: `w` words, `b` bytes; capital where the
 * call may write it, so that it stands in the answer. */
typedef struct {
    const char *numbers, *slices;
    size_t answers;
    Make *make;
} Call;

static const Call calls[] = {
    {"w", "W", 6, fresh},
    {"wwwcc", "WW", 6, take},
    {"w", "wWW", 6, learn},
    {"wcccc", "wwwwWW", 6, join},
    {"wwc", "w", 7, apply},
    {"w", "W", 11, session_start},
    {"wccccww", "WW", 11, session_take},
    {"", "bW", 4, read_text},
    {"wc", "wbbB", 7, write_sheet},
    {"", "bWWWB", 1, run},
    {"c", "bb", 3, lookup},
    {"", "bW", 4, read_sheet},
};

/* ---- words in and out */

static uint8_t in[BUFFER], out[BUFFER];
static size_t in_at, in_end, out_end;

static void flush(void) {
    for (size_t at = 0; at < out_end;) {
        ssize_t n = write(STDOUT_FILENO, out + at, out_end - at);
        if (n < 0 && errno != EINTR) _exit(BROKEN);
        if (n > 0) at += (size_t)n;
    }
    out_end = 0;
}

static void put(uint64_t word) {
    if (out_end + 8 > BUFFER) flush();
    for (int k = 0; k < 8; k++) out[out_end++] = (uint8_t)(word >> (8 * k));
}

static void end(int status) {
    flush();
    _exit(status);
}

/* Awaits bytes until eight are there, every answer having gone out; 0 where the input ends before. */
static int fill(void) {
    memmove(in, in + in_at, in_end - in_at);
    in_end -= in_at;
    in_at = 0;
    while (in_end < 8) {
        flush();
        ssize_t n = read(STDIN_FILENO, in + in_end, BUFFER - in_end);
        if (n < 0 && errno != EINTR) _exit(BROKEN);
        if (n == 0) return 0;
        if (n > 0) in_end += (size_t)n;
    }
    return 1;
}

static uint64_t word_here(void) {
    uint64_t word = 0;
    for (int k = 0; k < 8; k++) word |= (uint64_t)in[in_at + k] << (8 * k);
    in_at += 8;
    return word;
}

/* The next word of a request; one that is missing or too large ends the stream at once. */
static uint64_t next(uint64_t most) {
    if (in_end - in_at < 8 && !fill()) end(MALFORMED);
    uint64_t word = word_here();
    if (word > most) end(MALFORMED);
    return word;
}

/* ---- requests and answers */

static uint64_t most_of(char width) { return width == 'c' ? UINT64_MAX : (width | 32) == 'b' ? UINT8_MAX : UINT32_MAX; }

static void next_slice(Slice *s, char kind) {
    int bytes = (kind | 32) == 'b';
    s->len = next(bytes ? MOST_BYTES : MOST_WORDS);
    for (size_t k = 0; k < s->len; k++) {
        uint64_t element = next(most_of(kind));
        if (bytes) s->bytes[k] = (uint8_t)element;
        else s->words[k] = (uint32_t)element;
    }
}

static void put_slice(const Slice *s, char kind) {
    for (size_t k = 0; k < s->len; k++) put(kind == 'B' ? s->bytes[k] : s->words[k]);
}

static void answer_call(const Call *call) {
    uint64_t numbers[NUMBERS];
    size_t answer[ANSWERS] = {0};
    for (size_t k = 0; call->numbers[k]; k++) numbers[k] = next(most_of(call->numbers[k]));
    for (size_t k = 0; call->slices[k]; k++) next_slice(&lent[k], call->slices[k]);
    call->make(numbers, answer);
    for (size_t k = 0; k < call->answers; k++) put(answer[k]);
    for (size_t k = 0; call->slices[k]; k++)
        if (call->slices[k] < 'a') put_slice(&lent[k], call->slices[k]);
}

/* `desk --version`: the version and the digest, on one line. */
static int tell_version(int argc, char **argv) {
    static const char line[] = "ntekuzino " NTEKUZINO_VERSION " " BUILD "\n";
    if (argc > 2 || strcmp(argv[1], "--version") != 0) return BROKEN;
    return write(STDOUT_FILENO, line, sizeof line - 1) == sizeof line - 1 ? GOOD_END : BROKEN;
}

int main(int argc, char **argv) {
    signal(SIGPIPE, SIG_IGN);
    if (argc > 1) return tell_version(argc, argv);
    for (;;) {
        if (in_end - in_at < 8 && !fill()) end(in_end == in_at ? GOOD_END : MALFORMED);
        uint64_t number = word_here();
        if (number < 1 || number > sizeof calls / sizeof *calls) end(MALFORMED);
        answer_call(&calls[number - 1]);
    }
}
