/* ntekuzino.h: the calls of Ntekuzino for C11. Link target/staticlib/libexports.a (`tools/clib --library` proves, builds and prints it), x86-64.
 *
 * Words.    A transition's word is state * 1024 + successor. A rule's word is head * 1048576 + P * 1024 + N, P the
 *           relays that must be on, N those that must be off. Bit i is relay i. A panel has n relays, 1 to 10.
 * Slices.   A slice is a pointer and a length in elements, side by side: `uint32_t *book, size_t book_len`. What a call
 *           may write is not const. Slices of one call must not overlap, where one of them may be written. A pointer is
 *           never NULL, not even with length 0, and is aligned for its type. What is lent holds values, whatever they
 *           are: contracts speak of the words before the call too.
 * Counts.   How many words of a slice are in use: `book_count`. A count above its slice is refused with 3, not read.
 * Answers.  Every call writes its numbers into the struct lent last, always all of them, and returns the code again;
 *           lookup, which has no code, returns the length. Numbers that a call has no use for are 0. A struct is its
 *           fields in their order, one size_t each.
 * Safety.   With slices as described here every call ends, on every input, and touches no other memory. Nothing is
 *           kept between calls, nothing is allocated; calls on different memory may run at the same time.
 *
 * What each call does is proved: crates/exports/src/lib.rt has the contracts, and README.md says what they mean.
 */
#ifndef NTEKUZINO_H
#define NTEKUZINO_H

#include <stddef.h>
#include <stdint.h>

/* Major: a call answers otherwise, or takes other arguments. Minor: calls came. Patch: nothing that a caller can see. */
#define NTEKUZINO_VERSION "4.0.0"
#define NTEKUZINO_VERSION_MAJOR 4
#define NTEKUZINO_VERSION_MINOR 0
#define NTEKUZINO_VERSION_PATCH 0

#ifdef __cplusplus
static_assert(sizeof(size_t) == 8, "the library is compiled for 64 bits");
extern "C" {
#else
_Static_assert(sizeof(size_t) == 8, "the library is compiled for 64 bits");
#endif

/* The codes. A code is given exactly when no earlier check applies; the order is that of the numbers, except that take
 * asks for 1 beside 7, after 6, and that of a text 11 is asked first, then 8, then 5. */
enum {
    NTEKUZINO_DONE = 0,
    NTEKUZINO_BOOKED = 1,          /* take: this very transition is booked; nothing changes */
    NTEKUZINO_PANEL_SIZE = 2,      /* n is 0 or above 10 */
    NTEKUZINO_COUNT = 3,           /* a count exceeds its slice, or a session's totals do not fit */
    NTEKUZINO_BOOK = 4,            /* a book is not good */
    NTEKUZINO_SHEET = 5,           /* a sheet, lent as words or read from text, is not good */
    NTEKUZINO_STATE = 6,           /* a state or successor is 2^n or more; in learn, a word that is no transition */
    NTEKUZINO_OTHER_SUCCESSOR = 7, /* the state is booked with another successor */
    NTEKUZINO_BOOK_ROOM = 8,       /* the book, or what is read, needs more words than its slice */
    NTEKUZINO_SHEET_ROOM = 9,      /* the sheet has more rules than its slice */
    NTEKUZINO_NOT_REPRODUCED = 10, /* learn: the sheet does not reproduce a booked transition */
    NTEKUZINO_LAYOUT = 11,         /* the text breaks the layout */
    NTEKUZINO_TEXT_ROOM = 12,      /* the written text is longer than its slice */
    NTEKUZINO_INPUT_ROOM = 13      /* the program: the input is above 24,576 bytes; checked first */
};

/* The common answer. */
typedef struct {
    size_t code, place, book_count, sheet_count, struck, added;
} ntekuzino_answer;

/* apply's: the common answer, and the state that follows. */
typedef struct {
    size_t code, place, book_count, sheet_count, struck, added, state;
} ntekuzino_applied;

/* write_sheet's: the common answer, and the length of the text. */
typedef struct {
    size_t code, place, book_count, sheet_count, struck, added, length;
} ntekuzino_written;

/* read's and read_sheet's. */
typedef struct {
    size_t code, place, n, count;
} ntekuzino_reading;

/* lookup's: which text the name stands in (0 the panel's, 1 the maker's), how many bytes are before it, and how many it
 * has. Where there is no name all three are 0: the empty part at the start of the panel's text. */
typedef struct {
    size_t text, start, length;
} ntekuzino_name;

/* A bench session. Struck and added are its totals; an answer's are those of its take alone. */
typedef struct {
    size_t n, book_count, sheet_count, struck, added;
} ntekuzino_session;

/* ---- words */

static inline uint32_t ntekuzino_transition(uint32_t state, uint32_t successor) { return state * 1024 + successor; }
static inline uint32_t ntekuzino_transition_state(uint32_t transition) { return transition / 1024; }
static inline uint32_t ntekuzino_transition_successor(uint32_t transition) { return transition % 1024; }

static inline uint32_t ntekuzino_rule(uint32_t head, uint32_t on, uint32_t off) {
    return head * 1048576 + on * 1024 + off;
}
static inline uint32_t ntekuzino_rule_head(uint32_t rule) { return rule / 1048576; }
static inline uint32_t ntekuzino_rule_on(uint32_t rule) { return rule / 1024 % 1024; }
static inline uint32_t ntekuzino_rule_off(uint32_t rule) { return rule % 1024; }

/* ---- calls */

/* Writes the fresh sheet, n rules with empty bodies, and 0 beyond. Codes 2, 9. Refused: no word changes, counts 0. */
uint32_t ntekuzino_fresh(uint32_t n, uint32_t *sheet, size_t sheet_len, ntekuzino_answer *answer);

/* Takes the transition from state i to state j into book and sheet, in place; room for the larger of the old and new
 * counts is enough. Codes 1 to 9. Done: the new counts, struck, added, and 0 in all words beyond both counts. Code 1 or
 * refused: no word changes, the counts are those given. */
uint32_t ntekuzino_take(uint32_t n, uint32_t i, uint32_t j, uint32_t *book, size_t book_len, size_t book_count,
                        uint32_t *sheet, size_t sheet_len, size_t sheet_count, ntekuzino_answer *answer);

/* Learns a list of transition words, old contents of book and sheet ignored. Codes 2, 6 to 10. Done: both counts, the
 * sums of struck and added, 0 beyond both counts. Refused: both slices are all 0, and the place is the index of the
 * refused word. */
uint32_t ntekuzino_learn(uint32_t n, const uint32_t *words, size_t words_len, uint32_t *book, size_t book_len,
                         uint32_t *sheet, size_t sheet_len, ntekuzino_answer *answer);

/* Joins two pieces a and b, each a book and a sheet, into book and sheet. Codes 2 to 5, 7 to 9. Done: both counts, 0
 * beyond them. Refused: no word changes, counts 0. */
uint32_t ntekuzino_join(uint32_t n, const uint32_t *a_book, size_t a_book_len, size_t a_book_count,
                        const uint32_t *a_sheet, size_t a_sheet_len, size_t a_sheet_count,
                        const uint32_t *b_book, size_t b_book_len, size_t b_book_count,
                        const uint32_t *b_sheet, size_t b_sheet_len, size_t b_sheet_count,
                        uint32_t *book, size_t book_len, uint32_t *sheet, size_t sheet_len, ntekuzino_answer *answer);

/* The state that follows x by the sheet. Codes 2, 3, 5, 6. Refused: state 0. */
uint32_t ntekuzino_apply(uint32_t n, const uint32_t *sheet, size_t sheet_len, size_t sheet_count, uint32_t x,
                         ntekuzino_applied *answer);

/* Starts a session on a fresh sheet: all five numbers of the session are written. Codes 2, 9. Refused: five zeros, no
 * word of the sheet changes. */
uint32_t ntekuzino_session_start(uint32_t n, uint32_t *sheet, size_t sheet_len, ntekuzino_session *session,
                                 ntekuzino_answer *answer);

/* Take through a session: n and the counts are the session's; refused with 3 also if a total is above 1,000,000,000 or
 * n + added differs from sheet count + struck. Done: counts and totals of the session are the new ones. Code 1 or
 * refused: no word changes, and no number of the session. An n above 32 bits is no panel size: 2. */
uint32_t ntekuzino_session_take(ntekuzino_session *session, uint32_t *book, size_t book_len, uint32_t *sheet,
                                size_t sheet_len, uint32_t i, uint32_t j, ntekuzino_answer *answer);

/* Reads a recording (PLA text) into transition words. Codes 8, 11, with the line from 1 as the place of 11; where no line
 * `.type fr` stands before it, the first row or the end mark is that line. Done: n, the number of words, and 0 beyond.
 * Refused: the list is all 0, n and count are 0. */
uint32_t ntekuzino_read(const uint8_t *text, size_t text_len, uint32_t *list, size_t list_len,
                        ntekuzino_reading *answer);

/* Reads a sheet's text into rule words, in increasing order whatever that of its rows. `.type f` is asked for where read
 * asks for `.type fr`, and each row has exactly one `1` among its outputs. Codes 11, as in read; then 8, if the rows as
 * written, repeats counted, are more than the words; then 5, if they are no good sheet: a rule stands twice, or has all
 * conditions of another rule of its relay. Done: n, the number of words, and 0 beyond; the words are a good sheet.
 * Refused: the words are all 0, n and count are 0. */
uint32_t ntekuzino_read_sheet(const uint8_t *text, size_t text_len, uint32_t *words, size_t words_len,
                              ntekuzino_reading *answer);

/* Writes a sheet as text at the start of out, and gives its length. panel and maker are texts of recordings or of
 * sheets, or empty: if lookup finds a name in them for every column 0 to n - 1, the text has the lines `.ilb` and `.ob`,
 * else neither. Codes 2, 3, 5, 12; a bad text is no reason to refuse. Bytes behind the text stay; refused, no byte
 * changes and the length is 0. */
uint32_t ntekuzino_write_sheet(uint32_t n, const uint32_t *sheet, size_t sheet_len, size_t sheet_count,
                               const uint8_t *panel, size_t panel_len, const uint8_t *maker, size_t maker_len,
                               uint8_t *out, size_t out_len, ntekuzino_written *answer);

/* Looks a column's name up: in the `.ilb` line of the panel's text or, if that text is good and has no names, of the
 * maker's. Each may be a recording or a sheet. There is no name if neither text has any, if the text with names has no
 * such column, or if a text consulted is one that both read and read_sheet refuse with 11, as they do an empty one; what
 * is refused otherwise is good here. Returns the length again. */
size_t ntekuzino_lookup(const uint8_t *panel, size_t panel_len, const uint8_t *maker, size_t maker_len, size_t column,
                        ntekuzino_name *name);

/* The whole program `rulesheet`: a recording's text in; the sheet's text, with the recording's names if it has any, or
 * `refused C at P` with LF, at the start of output. Returns its length; 0 where output has no room for either. An input
 * above 24,576 bytes is refused with 13, and changes nothing but output. list, book and sheet are the program's rooms
 * (rulesheet lends 1,024 words each). */
size_t ntekuzino_run(const uint8_t *input, size_t input_len, uint32_t *list, size_t list_len, uint32_t *book,
                     size_t book_len, uint32_t *sheet, size_t sheet_len, uint8_t *output, size_t output_len);

#ifdef __cplusplus
}
#endif

#endif
