/*
 * Tozbierdu: prices parts tables. For programs in C and C++ on x86-64 Linux. What is said here of a
 * call's result and of what it writes is proved, for every input that meets the caller's duties; the
 * stack was measured.
 *
 * TWO ARCHIVES. libtozbierdu.a has every call, under names that begin with tozbierdu_. libcounter.a has
 * settle, reprice and bill under these bare names, and nothing else. The three are the same calls in
 * both. A program that defines TOZBIERDU_PREFIXED before it includes this file is not shown the bare
 * names, and may use them for itself.
 *
 * THE TABLE. n parts, numbered from 0, and lines, numbered from 0. Line i yields the part heads[i],
 * adds the own figure own[i], stands or is struck as strikes[i] says (TOZBIERDU_STANDS,
 * TOZBIERDU_STRIKE), and needs the parts tails[spans[2 * i]] and on, spans[2 * i + 1] of them. A
 * struck line makes nothing and keeps its figure. Spans are sorted by their offset and do not
 * overlap; places of tails between them are not looked at.
 *
 * THE ANSWERS. Four columns of exactly n places: a part's best figure, the depth of its chosen
 * make-up, its chosen line, and how many bought pieces its chosen make-up holds: the lines without
 * needed parts in it, counted as often as they stand there, at most TOZBIERDU_MOST_PIECES. A part is
 * unmade if its depth is 0 (the other three are 0 then), else over if its figure is TOZBIERDU_OVER,
 * else made.
 *
 * THE RESULT. At most 4294967295: accepted, and it is 0, or what is said of the call: a length, or yes
 * or no. Above: refused, and it is the refusal's number times 4294967296, plus a place
 * (tozbierdu_number, tozbierdu_place). A refused call has altered no lent byte. An accepted one has
 * written what is said of it and nothing else. tozbierdu_entry and tozbierdu_text_column refuse
 * nothing, and return a plain number.
 *
 * THE CALLER'S DUTIES, which are not tested. A column or a room is lent as a pointer, aligned as what
 * it points to is, and a count of places that are there and hold values; with count 0 the pointer may
 * be null. The columns and the room lent in one call never overlap, and nothing else writes to them
 * while it runs. No call allocates, keeps a pointer or has state of its own, so calls on different
 * columns can run at once.
 *
 * THE STACK. tozbierdu_bill goes as deep as the bill does and needs under 256 KiB: with this version
 * 210 KB for 1024 levels, however many parts each needs. tozbierdu_append needs under 256 KiB too: with
 * this version 225 KB. The calls that settle or check answers, which are tozbierdu_settle, _reprice,
 * _strike, _restore, _check_answers and _replay, need under 96 KiB: with this version 78 KB, of which
 * local arrays take 71,680 bytes, and for a replay 96 KB. The others need under 32 KiB. What is said of
 * settle, reprice and bill holds of libcounter.a too.
 */
#ifndef TOZBIERDU_H
#define TOZBIERDU_H

#include <stddef.h>
#include <stdint.h>

#ifdef __cplusplus
extern "C" {
#endif

/* The version of this header and of the archives. */
#define TOZBIERDU_VERSION_MAJOR 1
#define TOZBIERDU_VERSION_MINOR 0
#define TOZBIERDU_VERSION_PATCH 0
#define TOZBIERDU_VERSION "1.0.0"

/* Measures: a line's own figure plus the sum of its parts' figures; the own figure plus the greatest of
 * them; or, with the greatest as the best, the least of them all. A sum above the ceiling is over; in
 * grade nothing is. */
#define TOZBIERDU_COST UINT64_C(0)
#define TOZBIERDU_DAYS UINT64_C(1)
#define TOZBIERDU_GRADE UINT64_C(2)

/* The greatest own figure, of struck lines too. */
#define TOZBIERDU_GREATEST UINT64_C(1000000000)

/* Strike marks: the line stands, or is struck. */
#define TOZBIERDU_STANDS UINT64_C(0)
#define TOZBIERDU_STRIKE UINT64_C(1)

/* The greatest figure of a part that is made, and the figure of one that is over. */
#define TOZBIERDU_CEILING UINT64_C(1000000000000)
#define TOZBIERDU_OVER UINT64_C(1000000000001)

/* What tozbierdu_check_answers says, and what state tozbierdu_entry tells. */
#define TOZBIERDU_NO UINT64_C(0)
#define TOZBIERDU_YES UINT64_C(1)
#define TOZBIERDU_STATE_MADE UINT64_C(0)
#define TOZBIERDU_STATE_OVER UINT64_C(1)
#define TOZBIERDU_STATE_UNMADE UINT64_C(2)

/* What becomes of an event of a stock record. */
#define TOZBIERDU_EVENT_RECEIVED UINT64_C(0)
#define TOZBIERDU_EVENT_FROM_SHELF UINT64_C(1)
#define TOZBIERDU_EVENT_BUILT UINT64_C(2)
#define TOZBIERDU_EVENT_LATE UINT64_C(3)

/* The greatest piece count: that many, or more. */
#define TOZBIERDU_MOST_PIECES UINT64_C(1000000000)

/* Limits: parts, lines, places of tails, parts that one line needs, places of a room that count. */
#define TOZBIERDU_MOST_PARTS 1024
#define TOZBIERDU_MOST_LINES 4096
#define TOZBIERDU_MOST_TAILS 16384
#define TOZBIERDU_LONGEST_TAIL 16
#define TOZBIERDU_MOST_ROOM UINT64_C(4294967295)

/*
 * The refusals. The first that applies is returned, tried in the order that a call's section gives.
 * "The table's" are 1, 2, then 3, 4, 21, 5 and 6 of line 0, of line 1 and on. The place is the line for
 * 3 to 6, 21 and 24, the text's line, from 1, for 14, the result for 23, the event for 25, the part or
 * the event for 26, and otherwise 0. Number 17 is of the listing program; no call here returns it.
 */
enum tozbierdu_refusal {
    TOZBIERDU_REFUSED_PARTS = 1,           /* n is above 1024 */
    TOZBIERDU_REFUSED_LENGTHS = 2,         /* columns disagree in length, or a limit is passed */
    TOZBIERDU_REFUSED_HEAD = 3,            /* a head is not below n */
    TOZBIERDU_REFUSED_OWN = 4,             /* an own figure is above the greatest */
    TOZBIERDU_REFUSED_SPAN = 5,            /* a span starts early, is above 16, passes the end */
    TOZBIERDU_REFUSED_TAIL = 6,            /* a needed part is not below n */
    TOZBIERDU_REFUSED_ANSWER_LENGTHS = 7,  /* an answer column is not n long */
    TOZBIERDU_REFUSED_ANSWERS = 8,         /* the lent answers are not this table's */
    TOZBIERDU_REFUSED_LINE = 9,            /* the named line does not exist or is struck */
    TOZBIERDU_REFUSED_FIGURE = 10,         /* the new figure is above the greatest */
    TOZBIERDU_REFUSED_PART = 11,           /* the named part is not below n */
    TOZBIERDU_REFUSED_UNMADE = 12,         /* the named part is unmade */
    TOZBIERDU_REFUSED_ROOM = 13,           /* the bill is longer than the room */
    TOZBIERDU_REFUSED_TEXT = 14,           /* a text breaks the form or a limit */
    TOZBIERDU_REFUSED_TEXT_ROOM = 15,      /* a column or the room of a text is too short */
    TOZBIERDU_REFUSED_MEASURE = 16,        /* the measure is neither cost, days nor grade */
    TOZBIERDU_REFUSED_INPUT = 17,          /* a program's input is too long */
    TOZBIERDU_REFUSED_COLUMN_ROOM = 18,    /* a column has no room */
    TOZBIERDU_REFUSED_INDEX = 19,          /* the lent index is not this table's */
    TOZBIERDU_REFUSED_NOT_STRUCK = 20,     /* the line to restore is not struck */
    TOZBIERDU_REFUSED_STRIKE_MARK = 21,    /* a strike mark is neither 0 nor 1 */
    TOZBIERDU_REFUSED_SAMPLE = 22,         /* no results, or more than 1000 */
    TOZBIERDU_REFUSED_RESULT = 23,         /* a result is above 1000000 */
    TOZBIERDU_REFUSED_ORDER = 24,          /* a line needs its head or a higher part */
    TOZBIERDU_REFUSED_EVENT = 25,          /* an event's part is not below n */
    TOZBIERDU_REFUSED_STOCK = 26,          /* a shelf's count is above 1000000 */
    TOZBIERDU_REFUSED_BYTE_ROOM = 27       /* the bytes are not eight for each figure */
};

/* Whether a result is a refusal's. */
static inline int tozbierdu_refused(uint64_t result)
{
    return result > TOZBIERDU_MOST_ROOM;
}

/* The refusal's number; 0 on acceptance. */
static inline uint64_t tozbierdu_number(uint64_t result)
{
    return result >> 32;
}

/* The refusal's place. */
static inline uint64_t tozbierdu_place(uint64_t result)
{
    return result & TOZBIERDU_MOST_ROOM;
}

/* The calls of libtozbierdu.a, and what each is refused for, in the order tried. */

/*
 * Checks a table. Returns 0.
 * Refusals: the table's.
 */
uint64_t tozbierdu_check_table(uint64_t n,
                               const uint64_t *heads, size_t heads_count,
                               const uint64_t *own, size_t own_count,
                               const uint64_t *strikes, size_t strikes_count,
                               const uint64_t *spans, size_t spans_count,
                               const uint64_t *tails, size_t tails_count);

/*
 * Checks a table for settling in order: each line, struck or not, must need only parts below its
 * head. Returns 0.
 * Refusals: 1, 2, then 3, 4, 21, 5, 6 and 24 of line 0, of line 1 and on.
 */
uint64_t tozbierdu_check_order(uint64_t n,
                               const uint64_t *heads, size_t heads_count,
                               const uint64_t *own, size_t own_count,
                               const uint64_t *strikes, size_t strikes_count,
                               const uint64_t *spans, size_t spans_count,
                               const uint64_t *tails, size_t tails_count);

/*
 * Settles a table: fills weights, depths, edges and pieces with its answers, whatever they held.
 * Returns 0.
 * Refusals: 16, the table's, 7.
 */
uint64_t tozbierdu_settle(uint64_t measure, uint64_t n,
                          const uint64_t *heads, size_t heads_count,
                          const uint64_t *own, size_t own_count,
                          const uint64_t *strikes, size_t strikes_count,
                          const uint64_t *spans, size_t spans_count,
                          const uint64_t *tails, size_t tails_count,
                          uint64_t *weights, size_t weights_count,
                          uint64_t *depths, size_t depths_count,
                          uint64_t *edges, size_t edges_count,
                          uint64_t *pieces, size_t pieces_count);

/*
 * Settles a table that is in order, in one walk up the parts: leaves what tozbierdu_settle leaves.
 * Returns 0.
 * Refusals: 16, those of tozbierdu_check_order, 7.
 */
uint64_t tozbierdu_settle_ordered(uint64_t measure, uint64_t n,
                                  const uint64_t *heads, size_t heads_count,
                                  const uint64_t *own, size_t own_count,
                                  const uint64_t *strikes, size_t strikes_count,
                                  const uint64_t *spans, size_t spans_count,
                                  const uint64_t *tails, size_t tails_count,
                                  uint64_t *weights, size_t weights_count,
                                  uint64_t *depths, size_t depths_count,
                                  uint64_t *edges, size_t edges_count,
                                  uint64_t *pieces, size_t pieces_count);

/*
 * Checks answers: returns TOZBIERDU_YES if the four columns hold the table's answers, else
 * TOZBIERDU_NO.
 * Refusals: 16, the table's, 7.
 */
uint64_t tozbierdu_check_answers(uint64_t measure, uint64_t n,
                                 const uint64_t *heads, size_t heads_count,
                                 const uint64_t *own, size_t own_count,
                                 const uint64_t *strikes, size_t strikes_count,
                                 const uint64_t *spans, size_t spans_count,
                                 const uint64_t *tails, size_t tails_count,
                                 const uint64_t *weights, size_t weights_count,
                                 const uint64_t *depths, size_t depths_count,
                                 const uint64_t *edges, size_t edges_count,
                                 const uint64_t *pieces, size_t pieces_count);

/*
 * Reads a part's entry from the answers: returns TOZBIERDU_STATE_MADE, TOZBIERDU_STATE_OVER or
 * TOZBIERDU_STATE_UNMADE. In a room of exactly 4 places it writes the figure, the depth, the line
 * and the piece count; any other room it leaves as it is. A place behind a column's end reads as 0,
 * so a part behind all of them is unmade.
 * Refusals: none.
 */
uint64_t tozbierdu_entry(const uint64_t *weights, size_t weights_count,
                         const uint64_t *depths, size_t depths_count,
                         const uint64_t *edges, size_t edges_count,
                         const uint64_t *pieces, size_t pieces_count,
                         uint64_t part,
                         uint64_t *room, size_t room_count);

/*
 * Gives a line that is not struck another own figure: writes own[line], and fills weights, depths,
 * edges and pieces, which must hold the answers of the table as it was, with those of the table as
 * it is then. Returns 0.
 * Refusals: 16, the table's, 7, 9, 10, 8.
 */
uint64_t tozbierdu_reprice(uint64_t measure, uint64_t n,
                           const uint64_t *heads, size_t heads_count,
                           uint64_t *own, size_t own_count,
                           const uint64_t *strikes, size_t strikes_count,
                           const uint64_t *spans, size_t spans_count,
                           const uint64_t *tails, size_t tails_count,
                           uint64_t *weights, size_t weights_count,
                           uint64_t *depths, size_t depths_count,
                           uint64_t *edges, size_t edges_count,
                           uint64_t *pieces, size_t pieces_count,
                           uint64_t line, uint64_t figure);

/*
 * Strikes a line that stands: writes TOZBIERDU_STRIKE to strikes[line], and the answers as
 * tozbierdu_reprice does. Returns 0.
 * Refusals: 16, the table's, 7, 9, 8.
 */
uint64_t tozbierdu_strike(uint64_t measure, uint64_t n,
                          const uint64_t *heads, size_t heads_count,
                          const uint64_t *own, size_t own_count,
                          uint64_t *strikes, size_t strikes_count,
                          const uint64_t *spans, size_t spans_count,
                          const uint64_t *tails, size_t tails_count,
                          uint64_t *weights, size_t weights_count,
                          uint64_t *depths, size_t depths_count,
                          uint64_t *edges, size_t edges_count,
                          uint64_t *pieces, size_t pieces_count,
                          uint64_t line);

/*
 * Restores a struck line at the figure that it kept: writes TOZBIERDU_STANDS to strikes[line], and
 * the answers as tozbierdu_reprice does. Returns 0.
 * Refusals: 16, the table's, 7, 9 (the line does not exist), 20, 8.
 */
uint64_t tozbierdu_restore(uint64_t measure, uint64_t n,
                           const uint64_t *heads, size_t heads_count,
                           const uint64_t *own, size_t own_count,
                           uint64_t *strikes, size_t strikes_count,
                           const uint64_t *spans, size_t spans_count,
                           const uint64_t *tails, size_t tails_count,
                           uint64_t *weights, size_t weights_count,
                           uint64_t *depths, size_t depths_count,
                           uint64_t *edges, size_t edges_count,
                           uint64_t *pieces, size_t pieces_count,
                           uint64_t line);

/*
 * Indexes a table: fills the start of index with a pair of offset and length for each part, and the
 * start of list with the lines that need part 0, those that need part 1 and on, each once and
 * ascending, struck ones too. Returns how many places of list it wrote; of index it writes 2 * n.
 * Refusals: the table's, 18.
 */
uint64_t tozbierdu_index_table(uint64_t n,
                               const uint64_t *heads, size_t heads_count,
                               const uint64_t *own, size_t own_count,
                               const uint64_t *strikes, size_t strikes_count,
                               const uint64_t *spans, size_t spans_count,
                               const uint64_t *tails, size_t tails_count,
                               uint64_t *index, size_t index_count,
                               uint64_t *list, size_t list_count);

/*
 * Appends a line to the table that the first `lines` lines and the first `listed` places of tails
 * make up; the columns of the table may be longer than that. The new line yields `head`, adds
 * `figure`, is struck as `mark` says and needs the parts of `needed`. Table, index and answers,
 * which must be those of the table as it was, become those of the longer table; places behind them
 * stay. In counts, if it has exactly 2 places, it writes the new number of lines and of places of
 * tails in use; any other counts it leaves as they are. Returns 0.
 * Refusals: 16, 1, 2 (a count in use passes its column, or the longer table a limit), then 3, 4, 21,
 * 5 and 6 of the lines in use and of the new line, whose place is its new number, then 7, 18, 19, 8.
 */
uint64_t tozbierdu_append(uint64_t measure, uint64_t n,
                          uint64_t *heads, size_t heads_count,
                          uint64_t *own, size_t own_count,
                          uint64_t *strikes, size_t strikes_count,
                          uint64_t *spans, size_t spans_count,
                          uint64_t *tails, size_t tails_count,
                          uint64_t lines, uint64_t listed,
                          uint64_t *weights, size_t weights_count,
                          uint64_t *depths, size_t depths_count,
                          uint64_t *edges, size_t edges_count,
                          uint64_t *pieces, size_t pieces_count,
                          uint64_t *index, size_t index_count,
                          uint64_t *list, size_t list_count,
                          uint64_t head, uint64_t figure, uint64_t mark,
                          const uint64_t *needed, size_t needed_count,
                          uint64_t *counts, size_t counts_count);

/*
 * Prints the bill of a part that is made or over, from the table and its answers: the lines of its
 * chosen make-up, the root first, then the bill of each part that it needs, in the order listed.
 * Returns the bill's length, and writes as many places of the room. Places beyond 4294967295 count
 * as absent.
 * Refusals: 16, the table's, 7, 11, 8, 12, 13.
 */
uint64_t tozbierdu_bill(uint64_t measure, uint64_t n,
                        const uint64_t *heads, size_t heads_count,
                        const uint64_t *own, size_t own_count,
                        const uint64_t *strikes, size_t strikes_count,
                        const uint64_t *spans, size_t spans_count,
                        const uint64_t *tails, size_t tails_count,
                        const uint64_t *weights, size_t weights_count,
                        const uint64_t *depths, size_t depths_count,
                        const uint64_t *edges, size_t edges_count,
                        const uint64_t *pieces, size_t pieces_count,
                        uint64_t part,
                        uint64_t *room, size_t room_count);

/*
 * Reads a table's text into the starts of the five columns; the places behind stay. In header, if it
 * has exactly 4 places, it writes n, the measure, the number of lines and how many places of tails
 * they take; any other header it leaves as it is. Returns 0.
 * Refusals: 14, whose place is the text's line and whose column tozbierdu_text_column tells; 15.
 */
uint64_t tozbierdu_read_table(const uint8_t *text, size_t text_count,
                              uint64_t *heads, size_t heads_count,
                              uint64_t *own, size_t own_count,
                              uint64_t *strikes, size_t strikes_count,
                              uint64_t *spans, size_t spans_count,
                              uint64_t *tails, size_t tails_count,
                              uint64_t *header, size_t header_count);

/*
 * Tells at which byte of its line, from 1, a text is refused by 14; of a text that is not, 0.
 * Refusals: none.
 */
uint64_t tozbierdu_text_column(const uint8_t *text, size_t text_count);

/*
 * Writes a table's text into the start of the room. Returns its length in bytes; the room behind it
 * stays.
 * Refusals: 16, the table's, 15.
 */
uint64_t tozbierdu_write_table(uint64_t measure, uint64_t n,
                               const uint64_t *heads, size_t heads_count,
                               const uint64_t *own, size_t own_count,
                               const uint64_t *strikes, size_t strikes_count,
                               const uint64_t *spans, size_t spans_count,
                               const uint64_t *tails, size_t tails_count,
                               uint8_t *room, size_t room_count);

/*
 * Tells the mean and the variance of 1 to 1000 results of at most 1000000 each, as fractions in
 * lowest terms: in a room of exactly 4 places it writes numerator and denominator of the mean and of
 * the variance; any other room it leaves as it is. Returns 0.
 * Refusals: 22, 23.
 */
uint64_t tozbierdu_summarize(const uint64_t *results, size_t results_count,
                             uint64_t *room, size_t room_count);

/*
 * Runs a stock record past a shelf. Event i is of part parts[i]: received[i] pieces come in, or with
 * 0 one piece is ordered. stock holds n opening counts and becomes the final counts; outcomes[i]
 * becomes TOZBIERDU_EVENT_RECEIVED, TOZBIERDU_EVENT_FROM_SHELF, TOZBIERDU_EVENT_BUILT (by the part's
 * chosen line, from pieces on the shelf) or TOZBIERDU_EVENT_LATE. Returns 0.
 * Refusals: 16, 1, 2 (of the record: parts, received and outcomes differ in length, or there are
 * more than 4096 events), the table's, 7 (of stock too), 8, 26 of the opening counts, then 25 and 26
 * of event 0, of event 1 and on.
 */
uint64_t tozbierdu_replay(uint64_t measure, uint64_t n,
                          const uint64_t *heads, size_t heads_count,
                          const uint64_t *own, size_t own_count,
                          const uint64_t *strikes, size_t strikes_count,
                          const uint64_t *spans, size_t spans_count,
                          const uint64_t *tails, size_t tails_count,
                          const uint64_t *weights, size_t weights_count,
                          const uint64_t *depths, size_t depths_count,
                          const uint64_t *edges, size_t edges_count,
                          const uint64_t *pieces, size_t pieces_count,
                          const uint64_t *parts, size_t parts_count,
                          const uint64_t *received, size_t received_count,
                          uint64_t *stock, size_t stock_count,
                          uint64_t *outcomes, size_t outcomes_count);

/*
 * Lays a column out by the places of its bytes: the lowest byte of each figure in the column's
 * order, then the second of each, up to the eighth. The room has exactly 8 bytes for each figure.
 * Returns 0.
 * Refusals: 27.
 */
uint64_t tozbierdu_shuffle(const uint64_t *own, size_t own_count,
                           uint8_t *room, size_t room_count);

/*
 * Lays a column back from such bytes. Returns 0.
 * Refusals: 27.
 */
uint64_t tozbierdu_unshuffle(const uint8_t *bytes, size_t bytes_count,
                             uint64_t *own, size_t own_count);

/* The calls of libcounter.a: tozbierdu_settle, tozbierdu_reprice and tozbierdu_bill by other names. */
#ifndef TOZBIERDU_PREFIXED

uint64_t settle(uint64_t measure, uint64_t n,
                const uint64_t *heads, size_t heads_count,
                const uint64_t *own, size_t own_count,
                const uint64_t *strikes, size_t strikes_count,
                const uint64_t *spans, size_t spans_count,
                const uint64_t *tails, size_t tails_count,
                uint64_t *weights, size_t weights_count,
                uint64_t *depths, size_t depths_count,
                uint64_t *edges, size_t edges_count,
                uint64_t *pieces, size_t pieces_count);

uint64_t reprice(uint64_t measure, uint64_t n,
                 const uint64_t *heads, size_t heads_count,
                 uint64_t *own, size_t own_count,
                 const uint64_t *strikes, size_t strikes_count,
                 const uint64_t *spans, size_t spans_count,
                 const uint64_t *tails, size_t tails_count,
                 uint64_t *weights, size_t weights_count,
                 uint64_t *depths, size_t depths_count,
                 uint64_t *edges, size_t edges_count,
                 uint64_t *pieces, size_t pieces_count,
                 uint64_t line, uint64_t figure);

uint64_t bill(uint64_t measure, uint64_t n,
              const uint64_t *heads, size_t heads_count,
              const uint64_t *own, size_t own_count,
              const uint64_t *strikes, size_t strikes_count,
              const uint64_t *spans, size_t spans_count,
              const uint64_t *tails, size_t tails_count,
              const uint64_t *weights, size_t weights_count,
              const uint64_t *depths, size_t depths_count,
              const uint64_t *edges, size_t edges_count,
              const uint64_t *pieces, size_t pieces_count,
              uint64_t part,
              uint64_t *room, size_t room_count);

#endif

#ifdef __cplusplus
}
#endif

#endif
