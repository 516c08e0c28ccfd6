/*
 * The calls by hand, for as few instructions as could be had: best-first as in plain.c, with a tree of
 * least keys and a line's state in one place, columns that are checked whole, a check of answers that
 * passes over lines, and a bill that copies.
 */
#include <string.h>

#include "common.h"

/* Inlined once for each measure, which is a constant there. */
#define FOR_MEASURE static inline __attribute__((always_inline))

/*
 * Whether x is above a bound, in the top bit, so that a column's words are gathered without a branch.
 * A bound is below 2^63, or it is n - 1 without parts, which every x counts as above.
 */
static inline uint64_t above(uint64_t x, uint64_t bound)
{
    return x | (bound - x);
}

static uint64_t any_above(const uint64_t *column, size_t count, uint64_t bound)
{
    uint64_t gathered = 0;
    size_t i;

    for (i = 0; i < count; i++)
        gathered |= above(column[i], bound);
    return gathered;
}

/* In the top bit, whether a span is too long, passes the end of tails or the start of the next. */
static uint64_t any_misplaced(const uint64_t *spans, size_t lines, uint64_t tails_count)
{
    uint64_t gathered = 0;
    size_t i;

    for (i = 0; i < 2 * lines; i += 2)
        gathered |= above(spans[i], tails_count) | above(spans[i + 1], TOZBIERDU_LONGEST_TAIL);
    for (i = 2; i < 2 * lines; i += 2)
        gathered |= spans[i] - spans[i - 2] - spans[i - 1];
    return lines == 0 ? 0 : gathered | (tails_count - spans[i - 2] - spans[i - 1]);
}

/*
 * Whole columns are looked through, and line by line only if one is off: it may be a place of tails
 * between the spans, which is not refused.
 */
static inline uint64_t check_lines(const struct view *t)
{
    uint64_t off = any_above(t->heads, t->lines, t->n - 1) | any_above(t->own, t->lines, TOZBIERDU_GREATEST)
        | any_above(t->strikes, t->lines, TOZBIERDU_STRIKE) | any_misplaced(t->spans, t->lines, t->listed)
        | any_above(t->tails, t->listed, t->n - 1);

    return off >> 63 != 0 ? first_refusal(t) : 0;
}

/*
 * The least key offered to each part, from place `leaves` on, and above them at place i the least of
 * places 4 i to 4 i + 3, so at place 1 the least of all. Place 0 holds 0, which ends the way up.
 */
struct queue {
    uint64_t leaves, keys[2 * TOZBIERDU_MOST_PARTS];
};

static inline uint64_t least_of_group(const uint64_t *group)
{
    return lesser(lesser(group[0], group[1]), lesser(group[2], group[3]));
}

static inline void clear_queue(struct queue *q, uint64_t n)
{
    for (q->leaves = 1; q->leaves < n; q->leaves *= 4)
        continue;
    memset(q->keys + q->leaves, 0xff, n * sizeof *q->keys);
    q->keys[0] = 0;
}

/* The places above the leaves, when those are set; a last group that is not full is filled up. */
static inline void build_queue(struct queue *q, uint64_t n)
{
    uint64_t level, i;

    for (level = q->leaves; level > 1; level /= 4) {
        for (; n % 4 != 0; n++)
            q->keys[level + n] = NO_KEY;
        n /= 4;
        for (i = level / 4; i < level / 4 + n; i++)
            q->keys[i] = least_of_group(q->keys + 4 * i);
    }
}

static inline void lower(struct queue *q, uint64_t part, uint64_t key)
{
    uint64_t i;

    for (i = q->leaves + part; key < q->keys[i]; i /= 4)
        q->keys[i] = key;
}

static inline void take_out(struct queue *q, uint64_t part)
{
    uint64_t i = q->leaves + part;

    q->keys[i] = NO_KEY;
    while (i > 1) {
        const uint64_t *group = q->keys + i / 4 * 4;
        q->keys[i /= 4] = least_of_group(group);
    }
}

/*
 * A line that waits for the part at place `at` of tails: what the parts before that place join to, the
 * greatest depth of those, the end of its span, and the next line that waits for the same part.
 */
struct waiter {
    uint64_t joined;
    uint16_t deepest, at, end, next;
};

/* Waiters are set before they are read: only the queue and the lists' first lines are cleared. */
struct search {
    struct queue queue;
    struct waiter waiters[TOZBIERDU_MOST_LINES];
    uint16_t first[TOZBIERDU_MOST_PARTS];
};

/* Each line that is not struck waits for the first part that it needs; if it needs none it is queued. */
FOR_MEASURE void start(struct search *s, struct view t, uint64_t measure)
{
    uint64_t line;

    memset(s->first, 0xff, t.n * sizeof *s->first);
    clear_queue(&s->queue, t.n);
    for (line = 0; line < t.lines; line++) {
        uint64_t own = t.own[line], offset = t.spans[2 * line], size = t.spans[2 * line + 1];
        if (t.strikes[line] == TOZBIERDU_STRIKE)
            continue;
        if (size == 0) {
            uint64_t *leaf = &s->queue.keys[s->queue.leaves + t.heads[line]];
            *leaf = lesser(*leaf, key(measure, own, 1, line));
        } else {
            uint16_t *first = &s->first[t.tails[offset]];
            s->waiters[line] = (struct waiter){ unit(measure), 0, offset, offset + size, *first };
            *first = line;
        }
    }
    build_queue(&s->queue, t.n);
}

/* A part that a line waited for is made: the line waits for the next that is not, or is queued. */
FOR_MEASURE void go_on(struct search *s, struct view t, uint64_t measure, const uint64_t *figures,
                       const uint64_t *depths, uint64_t line, uint64_t figure, uint64_t depth)
{
    struct waiter *w = &s->waiters[line];
    uint64_t joined = join(measure, w->joined, figure), deepest = greater(w->deepest, depth);
    uint64_t at, end = w->end;

    for (at = w->at + 1; at != end; at++) {
        uint64_t part = t.tails[at];
        if (depths[part] == 0) {
            *w = (struct waiter){ joined, deepest, at, end, s->first[part] };
            s->first[part] = line;
            return;
        }
        joined = join(measure, joined, figures[part]);
        deepest = greater(deepest, depths[part]);
    }
    lower(&s->queue, t.heads[line], key(measure, finish(measure, t.own[line], joined), deepest + 1, line));
}

FOR_MEASURE void best_first(struct view t, uint64_t measure, uint64_t *restrict figures,
                            uint64_t *restrict depths, uint64_t *restrict lines,
                            uint64_t *restrict pieces)
{
    struct search s;
    uint64_t best, line, next, part;

    memset(depths, 0, t.n * sizeof *depths);
    start(&s, t, measure);
    while ((best = s.queue.keys[1]) != NO_KEY) {
        uint64_t figure = figure_of(measure, best), depth = depth_of(best);
        line = line_of(best);
        part = t.heads[line];
        figures[part] = figure;
        depths[part] = depth;
        lines[part] = line;
        pieces[part] = pieces_by(&t, line, pieces);
        take_out(&s.queue, part);
        for (line = s.first[part]; line != NO_LINE; line = next) {
            next = s.waiters[line].next;
            if (depths[t.heads[line]] == 0)
                go_on(&s, t, measure, figures, depths, line, figure, depth);
        }
    }
    for (part = 0; part < t.n; part++)
        if (depths[part] == 0)
            figures[part] = lines[part] = pieces[part] = 0;
}

/* A table without parts has no place for a key. */
static void fill(struct view t, uint64_t measure, uint64_t *figures, uint64_t *depths, uint64_t *lines,
                 uint64_t *pieces)
{
    if (t.n == 0)
        return;
    if (measure == TOZBIERDU_DAYS)
        best_first(t, TOZBIERDU_DAYS, figures, depths, lines, pieces);
    else if (measure == TOZBIERDU_GRADE)
        best_first(t, TOZBIERDU_GRADE, figures, depths, lines, pieces);
    else
        best_first(t, TOZBIERDU_COST, figures, depths, lines, pieces);
}

/* Whether a line gives its head a label, and its key: not if it is struck or needs an unmade part. */
FOR_MEASURE int gives(struct view t, uint64_t measure, uint64_t line, const uint64_t *figures,
                      const uint64_t *depths, uint64_t *given)
{
    uint64_t own = t.own[line], joined = unit(measure), deepest = 0;
    uint64_t at = t.spans[2 * line], end = at + t.spans[2 * line + 1];

    if (t.strikes[line] == TOZBIERDU_STRIKE)
        return 0;
    for (; at != end; at++) {
        uint64_t part = t.tails[at];
        if (depths[part] == 0)
            return 0;
        joined = join(measure, joined, figures[part]);
        deepest = greater(deepest, depths[part]);
    }
    *given = key(measure, finish(measure, own, joined), deepest + 1, line);
    return 1;
}

/* The lent answers as keys; the count of the made parts, or more than n if one can't be an answer. */
FOR_MEASURE uint64_t pack(struct view t, uint64_t measure, const uint64_t *figures, const uint64_t *depths,
                          const uint64_t *lines, uint64_t *labels)
{
    uint64_t part, made = 0;

    for (part = 0; part < t.n; part++)
        if (depths[part] == 0) {
            if (figures[part] != 0 || lines[part] != 0)
                return t.n + 1;
            labels[part] = NO_KEY;
        } else {
            if (figures[part] > TOZBIERDU_OVER || depths[part] > t.n || lines[part] >= t.lines)
                return t.n + 1;
            labels[part] = key(measure, figures[part], depths[part], lines[part]);
            made++;
        }
    return made;
}

/* No line gives less than its head's label, and as many give just that as there are made parts. */
FOR_MEASURE int all_right(struct view t, uint64_t measure, const uint64_t *figures, const uint64_t *depths,
                          const uint64_t *lines)
{
    uint64_t labels[TOZBIERDU_MOST_PARTS], left = pack(t, measure, figures, depths, lines, labels), line, given;

    if (left > t.n)
        return 0;
    for (line = 0; line < t.lines; line++) {
        uint64_t label = labels[t.heads[line]];
        if (key(measure, t.own[line], 0, 0) > label)
            continue; /* its own figure alone is too much */
        if (!gives(t, measure, line, figures, depths, &given) || given > label)
            continue;
        if (given < label)
            return 0;
        left--;
    }
    return left == 0;
}

static int right(struct view t, uint64_t measure, const uint64_t *figures, const uint64_t *depths,
                 const uint64_t *lines, const uint64_t *pieces)
{
    if (measure == TOZBIERDU_DAYS)
        return all_right(t, TOZBIERDU_DAYS, figures, depths, lines) && pieces_right(&t, depths, lines, pieces);
    if (measure == TOZBIERDU_GRADE)
        return all_right(t, TOZBIERDU_GRADE, figures, depths, lines) && pieces_right(&t, depths, lines, pieces);
    return all_right(t, TOZBIERDU_COST, figures, depths, lines) && pieces_right(&t, depths, lines, pieces);
}

/* Of the parts of a bill: how long each one's bill is, 0 if unknown, and where one has been printed. */
struct printer {
    const uint64_t *spans, *tails, *lines;
    uint64_t most, *room;
    uint64_t length[TOZBIERDU_MOST_PARTS], place[TOZBIERDU_MOST_PARTS];
};

#define NO_PLACE UINT64_MAX

/* The length of a part's bill, each part's once; cut at one more than the room. */
static uint64_t bill_length(struct printer *p, uint64_t part)
{
    const uint64_t *span = p->spans + 2 * p->lines[part];
    const uint64_t *needed = p->tails + span[0], *end = needed + span[1];
    uint64_t sum = 1;

    for (; needed != end && sum <= p->most; needed++)
        sum += p->length[*needed] != 0 ? p->length[*needed] : bill_length(p, *needed);
    p->place[part] = NO_PLACE;
    return p->length[part] = lesser(sum, p->most + 1);
}

/* Prints a part's bill at a place of the room; a bill that stands there already is copied. */
static void print_at(struct printer *p, uint64_t part, uint64_t place)
{
    const uint64_t *span = p->spans + 2 * p->lines[part];
    const uint64_t *needed = p->tails + span[0], *end = needed + span[1];

    p->place[part] = place;
    p->room[place++] = p->lines[part];
    for (; needed != end; place += p->length[*needed++])
        if (p->place[*needed] == NO_PLACE)
            print_at(p, *needed, place);
        else
            memcpy(p->room + place, p->room + p->place[*needed], p->length[*needed] * sizeof *p->room);
}

static uint64_t print(const struct view *t, const uint64_t *lines, uint64_t part, uint64_t *room,
                      uint64_t most)
{
    struct printer p;

    p.spans = t->spans, p.tails = t->tails, p.lines = lines, p.room = room;
    p.most = most;
    memset(p.length, 0, t->n * sizeof *p.length);
    if (bill_length(&p, part) > most)
        return 0;
    print_at(&p, part, 0);
    return p.length[part];
}

#define CALL(name) strongest_##name
#include "chain.h"

const struct maker strongest = {
    strongest_settle, strongest_check_answers, strongest_reprice, strongest_bill
};
