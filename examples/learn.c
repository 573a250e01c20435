/* Learns the panel of document 000 whole and in two pieces, joins the pieces, prints the sheet with the maker's names, and
 * reads that back; every call is made once and its answer checked. Prints what it found wrong, and exits with 1 then.
 * examples/run builds and runs it. */
#include "ntekuzino.h"

#include <stdio.h>
#include <string.h>

enum { N = 3, ROOM = 64 };

static int wrong;

static void expect(int holds, const char *what) {
    if (!holds) {
        printf("wrong: %s\n", what);
        wrong = 1;
    }
}

typedef struct {
    uint32_t book[ROOM], sheet[ROOM];
    ntekuzino_answer answer;
} Piece;

static void learn(Piece *p, const uint32_t *words, size_t count) {
    ntekuzino_learn(N, words, count, p->book, ROOM, p->sheet, ROOM, &p->answer);
    printf("learned %zu rows: code %zu, book %zu, sheet %zu, struck %zu, added %zu\n", count, p->answer.code,
           p->answer.book_count, p->answer.sheet_count, p->answer.struck, p->answer.added);
    expect(p->answer.code == NTEKUZINO_DONE, "learn is done");
}

static uint32_t session_take(ntekuzino_session *session, Piece *p, uint32_t word) {
    return ntekuzino_session_take(session, p->book, ROOM, p->sheet, ROOM, ntekuzino_transition_state(word),
                                  ntekuzino_transition_successor(word), &p->answer);
}

/* Takes each word through a session; book, sheet and totals must come out as learn left them. */
static void take_each(const uint32_t *words, size_t count, const Piece *whole) {
    Piece p = {{0}, {0}, {0}};
    ntekuzino_session session = {0};
    expect(ntekuzino_session_start(N, p.sheet, ROOM, &session, &p.answer) == NTEKUZINO_DONE, "a session starts");
    for (size_t k = 0; k < count; k++)
        expect(session_take(&session, &p, words[k]) == NTEKUZINO_DONE, "a session takes");
    expect(memcmp(p.book, whole->book, sizeof p.book) == 0, "the session's book is that of learn");
    expect(memcmp(p.sheet, whole->sheet, sizeof p.sheet) == 0, "the session's sheet is that of learn");
    expect(session.n == N && session.book_count == whole->answer.book_count &&
               session.sheet_count == whole->answer.sheet_count && session.struck == whole->answer.struck &&
               session.added == whole->answer.added, "the session's numbers are those of learn");
    expect(session_take(&session, &p, words[0]) == NTEKUZINO_BOOKED, "a booked transition is code 1");
    session.n = (size_t)1 << 40;
    expect(session_take(&session, &p, 0) == NTEKUZINO_PANEL_SIZE && session.n == (size_t)1 << 40,
           "an absurd size is refused, and stays");
}

/* Fresh and take by themselves, and refusals: K6 and K8 of the build description. */
static void small_rooms(void) {
    uint32_t book[2] = {0}, sheet[6] = {9, 9, 9, 9, 9, 9};
    ntekuzino_answer a = {0};
    expect(ntekuzino_fresh(2, sheet, 1, &a) == NTEKUZINO_SHEET_ROOM && sheet[0] == 9, "a refused fresh changes nothing");
    expect(ntekuzino_fresh(2, sheet, 4, &a) == NTEKUZINO_DONE && a.sheet_count == 2 && sheet[3] == 0 &&
               sheet[4] == 9, "fresh writes its slice alone");
    expect(ntekuzino_take(2, 3, 0, book, 2, 0, sheet, 3, 2, &a) == NTEKUZINO_SHEET_ROOM && a.sheet_count == 2,
           "K6 in room 3 is 9");
    expect(ntekuzino_take(2, 3, 0, book, 2, 0, sheet, 4, 2, &a) == NTEKUZINO_DONE && a.sheet_count == 4 &&
               sheet[0] == 1 && sheet[3] == ntekuzino_rule(1, 0, 2), "K6 in room 4 is done");
    uint32_t words[2] = {ntekuzino_transition(7, 3), ntekuzino_transition(3, 1)};
    expect(ntekuzino_learn(3, words, 2, book, 2, sheet, 5, &a) == NTEKUZINO_SHEET_ROOM && a.place == 1 &&
               sheet[0] == 0, "K8 in room 5 is 9 at 1");
    expect(ntekuzino_learn(3, words, 2, book, 2, sheet, 6, &a) == NTEKUZINO_DONE && sheet[5] == ntekuzino_rule(2, 0, 2),
           "K8 in room 6 is done");
}

static const char text[] = ".i 3\n.o 3\n.type fr\n111 110\n110 100\n100 000\n000 001\n001 001\n011 101\n101 010\n"
                           "010 101\n.e\n";
/* The panel's own text has no names. The maker's has; its rows do not matter here, so it has none. */
static const char maker[] = ".i 3\n.o 3\n.ilb PUMP VALVE FLOAT\n.ob PUMP VALVE FLOAT\n.type fr\n.e\n";
#define TEXT(t) (const uint8_t *)t, sizeof t - 1

static size_t looked_up(size_t column, ntekuzino_name *name) {
    return ntekuzino_lookup(TEXT(text), TEXT(maker), column, name);
}

/* The name of each column, which stands in the maker's text, and a column that no panel has. */
static void names(void) {
    ntekuzino_name name = {0};
    for (size_t k = 0; k < N; k++) {
        expect(looked_up(k, &name) == name.length && name.text == 1, "the maker's text has the names");
        printf("relay %zu is %.*s\n", k, (int)name.length, maker + name.start);
    }
    expect(looked_up(N, &name) == 0 && name.text == 0 && name.start == 0, "relay 3 of 3 has no name");
    expect(ntekuzino_lookup(TEXT(text), TEXT(text), 0, &name) == 0, "texts without names give none");
    expect(ntekuzino_lookup(TEXT(maker), TEXT(text), 2, &name) == 5 && name.text == 0, "the panel's own names come first");
}

/* A sheet's text gives the words that it was written from, and has its names; a recording's is no sheet's. */
static void read_back(const uint8_t *sheet, size_t length, const Piece *written) {
    uint32_t words[ROOM] = {0};
    ntekuzino_reading read = {0};
    ntekuzino_name name = {0};
    ntekuzino_read_sheet(sheet, length, words, ROOM, &read);
    printf("read back: code %zu, n %zu, rules %zu\n", read.code, read.n, read.count);
    expect(read.n == N && read.count == written->answer.sheet_count && memcmp(words, written->sheet, sizeof words) == 0,
           "the sheet read is the one that was written");
    expect(ntekuzino_lookup(sheet, length, TEXT(""), 1, &name) == 5 && memcmp(sheet + name.start, "VALVE", 5) == 0,
           "the sheet has the names");
    expect(ntekuzino_read_sheet(sheet, length, words, 2, &read) == NTEKUZINO_BOOK_ROOM && words[0] == 0,
           "three rules in two words are 8");
    expect(ntekuzino_read_sheet(TEXT(text), words, ROOM, &read) == NTEKUZINO_LAYOUT && read.place == 3,
           "a recording's type is faulty in a sheet");
}

int main(void) {
    uint32_t words[ROOM] = {0};
    ntekuzino_reading read = {0};
    ntekuzino_read(TEXT(text), words, ROOM, &read);
    size_t count = read.count;
    printf("read: code %zu, n %zu, rows %zu\n", read.code, read.n, count);
    expect(read.n == N && count == 8, "the recording has 3 relays and 8 rows");

    /* One row stands in both pieces. */
    static Piece whole, a, b, joined;
    learn(&whole, words, count);
    learn(&a, words, 5);
    learn(&b, words + 4, count - 4);
    ntekuzino_join(N, a.book, ROOM, a.answer.book_count, a.sheet, ROOM, a.answer.sheet_count,
                   b.book, ROOM, b.answer.book_count, b.sheet, ROOM, b.answer.sheet_count,
                   joined.book, ROOM, joined.sheet, ROOM, &joined.answer);
    printf("joined: code %zu, book %zu, sheet %zu\n", joined.answer.code, joined.answer.book_count,
           joined.answer.sheet_count);
    expect(memcmp(joined.book, whole.book, sizeof whole.book) == 0, "the joined book is that of the whole");
    expect(memcmp(joined.sheet, whole.sheet, sizeof whole.sheet) == 0, "the joined sheet is that of the whole");

    size_t sheets = joined.answer.sheet_count;
    ntekuzino_applied applied = {0};
    ntekuzino_written written = {0};
    for (size_t k = 0; k < count; k++)
        expect(ntekuzino_apply(N, joined.sheet, ROOM, sheets, ntekuzino_transition_state(words[k]), &applied) ==
                       NTEKUZINO_DONE && applied.state == ntekuzino_transition_successor(words[k]), "the sheet reproduces its recording");
    expect(ntekuzino_apply(N, joined.sheet, ROOM, sheets, 8, &applied) == NTEKUZINO_STATE, "state 8 of 3 relays is 6");
    take_each(words, count, &whole);
    small_rooms();

    uint8_t out[256] = {0}, again[256] = {0};
    names();
    ntekuzino_write_sheet(N, joined.sheet, ROOM, sheets, TEXT(text), TEXT(maker), out, sizeof out, &written);
    fwrite(out, 1, written.length, stdout);
    read_back(out, written.length, &joined);
    ntekuzino_write_sheet(N, joined.sheet, ROOM, sheets, TEXT(text), TEXT(""), out, sizeof out, &written);
    size_t length = written.length;
    expect(ntekuzino_write_sheet(N, joined.sheet, ROOM, sheets, TEXT(text), TEXT(""), again, length - 1, &written) ==
               NTEKUZINO_TEXT_ROOM, "one byte too little is 12");
    expect(ntekuzino_run(TEXT(text), words, ROOM, a.book, ROOM, a.sheet, ROOM, again, sizeof again) == length &&
               memcmp(out, again, length) == 0, "run writes the same sheet, without the maker's names");
    puts(wrong ? "something is wrong" : "all as expected");
    return wrong;
}
