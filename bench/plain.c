/*
 * The calls by hand, with the library's own idea and without a proof: a table is checked line by line;
 * settling is best-first, where each line waits for one part that it needs, the first that is not made,
 * and goes on when that is; answers are tested part by part and line by line.
 */
#include <string.h>

#include "common.h"

static uint64_t check_lines(const struct view *t)
{
    return first_refusal(t);
}

enum { EIGHTS = TOZBIERDU_MOST_PARTS / 8, BLOCKS = EIGHTS / 8 };

/* The least key offered to each part, to every 8 parts and to every 64. */
struct queue {
    uint64_t keys[TOZBIERDU_MOST_PARTS], eights[EIGHTS], blocks[BLOCKS];
};

/* The blocks that n parts fill are cleared; all blocks are looked at for the least key. */
static void clear_queue(struct queue *q, uint64_t n)
{
    uint64_t used = (n + 63) / 64;

    memset(q->keys, 0xff, 64 * used * sizeof *q->keys);
    memset(q->eights, 0xff, 8 * used * sizeof *q->eights);
    memset(q->blocks, 0xff, sizeof q->blocks);
}

static inline uint64_t least_of(const uint64_t *keys, uint64_t count)
{
    uint64_t i, least = NO_KEY;

    for (i = 0; i < count; i++)
        least = lesser(least, keys[i]);
    return least;
}

static inline void lower(struct queue *q, uint64_t part, uint64_t key)
{
    if (key >= q->keys[part])
        return;
    q->keys[part] = key;
    q->eights[part / 8] = lesser(q->eights[part / 8], key);
    q->blocks[part / 64] = lesser(q->blocks[part / 64], key);
}

static inline void take_out(struct queue *q, uint64_t part)
{
    q->keys[part] = NO_KEY;
    q->eights[part / 8] = least_of(q->keys + part / 8 * 8, 8);
    q->blocks[part / 64] = least_of(q->eights + part / 64 * 8, 8);
}

/*
 * The first line that waits for a part; and of a line that waits the next one for the same part, the
 * place of that part in tails, what the parts before that place join to, and the greatest depth of
 * those. These are set before they are read: only the first lines and the queue are cleared.
 */
struct search {
    uint16_t first[TOZBIERDU_MOST_PARTS];
    uint16_t next[TOZBIERDU_MOST_LINES], at[TOZBIERDU_MOST_LINES], deepest[TOZBIERDU_MOST_LINES];
    uint64_t joined[TOZBIERDU_MOST_LINES];
    struct queue queue;
};

/* A line joins the list of the part at a place of tails. */
static inline void wait_at(struct search *s, const struct view *t, uint64_t line, uint64_t at,
                           uint64_t joined, uint64_t deepest)
{
    uint16_t *first = &s->first[t->tails[at]];

    s->at[line] = at;
    s->joined[line] = joined;
    s->deepest[line] = deepest;
    s->next[line] = *first;
    *first = line;
}

/* Each line that is not struck waits for the first part that it needs; if it needs none it is queued. */
static void start(struct search *s, const struct view *t, uint64_t measure)
{
    uint64_t line;

    memset(s->first, 0xff, t->n * sizeof *s->first);
    clear_queue(&s->queue, t->n);
    for (line = 0; line < t->lines; line++) {
        uint64_t own = t->own[line];
        if (t->strikes[line] == TOZBIERDU_STRIKE)
            continue;
        if (t->spans[2 * line + 1] == 0)
            lower(&s->queue, t->heads[line], key(measure, own, 1, line));
        else
            wait_at(s, t, line, t->spans[2 * line], unit(measure), 0);
    }
}

/* A part that a line waited for is made: the line waits for the next that is not, or is queued. */
static void go_on(struct search *s, const struct view *t, uint64_t measure, uint64_t line,
                  const uint64_t *figures, const uint64_t *depths)
{
    uint64_t joined = s->joined[line], deepest = s->deepest[line];
    uint64_t at, end = t->spans[2 * line] + t->spans[2 * line + 1];

    for (at = s->at[line]; at < end; at++) {
        uint64_t part = t->tails[at];
        if (depths[part] == 0) {
            wait_at(s, t, line, at, joined, deepest);
            return;
        }
        joined = join(measure, joined, figures[part]);
        deepest = greater(deepest, depths[part]);
    }
    lower(&s->queue, t->heads[line], key(measure, finish(measure, t->own[line], joined), deepest + 1, line));
}

/* What waited for a part goes on, but for lines whose own head is made already. */
static void wake_all(struct search *s, const struct view *t, uint64_t measure, uint64_t part,
                     const uint64_t *figures, const uint64_t *depths)
{
    uint16_t line, next;

    for (line = s->first[part]; line != NO_LINE; line = next) {
        next = s->next[line];
        if (depths[t->heads[line]] == 0)
            go_on(s, t, measure, line, figures, depths);
    }
}

/* A table without parts has no answers, and its columns may be null. */
static void fill(struct view t, uint64_t measure, uint64_t *figures, uint64_t *depths, uint64_t *lines,
                 uint64_t *pieces)
{
    struct search s;
    uint64_t best;

    if (t.n == 0)
        return;
    memset(figures, 0, t.n * sizeof *figures);
    memset(depths, 0, t.n * sizeof *depths);
    memset(lines, 0, t.n * sizeof *lines);
    memset(pieces, 0, t.n * sizeof *pieces);
    start(&s, &t, measure);
    while ((best = least_of(s.queue.blocks, BLOCKS)) != NO_KEY) {
        uint64_t part = t.heads[line_of(best)];
        figures[part] = figure_of(measure, best);
        depths[part] = depth_of(best);
        lines[part] = line_of(best);
        pieces[part] = pieces_by(&t, line_of(best), pieces);
        take_out(&s.queue, part);
        wake_all(&s, &t, measure, part, figures, depths);
    }
}

/* The label that a line gives its head, as a key; none if it is struck or needs an unmade part. */
static inline uint64_t offer(const struct view *t, uint64_t measure, uint64_t line,
                             const uint64_t *figures, const uint64_t *depths)
{
    uint64_t own = t->own[line], joined = unit(measure), deepest = 0;
    uint64_t at = t->spans[2 * line], end = at + t->spans[2 * line + 1];

    if (t->strikes[line] == TOZBIERDU_STRIKE)
        return NO_KEY;
    for (; at < end; at++) {
        uint64_t part = t->tails[at];
        if (depths[part] == 0)
            return NO_KEY;
        joined = join(measure, joined, figures[part]);
        deepest = greater(deepest, depths[part]);
    }
    return key(measure, finish(measure, own, joined), deepest + 1, line);
}

/*
 * An unmade part has zeros, and another the label that its line gives. What other parts hold may be too
 * great for a sum or a key; then those are found to be wrong themselves.
 */
static int part_right(const struct view *t, uint64_t measure, uint64_t part, const uint64_t *figures,
                      const uint64_t *depths, const uint64_t *lines)
{
    uint64_t figure = figures[part], depth = depths[part], line = lines[part];

    if (depth == 0)
        return figure == 0 && line == 0;
    return figure <= TOZBIERDU_OVER && depth <= t->n && line < t->lines && t->heads[line] == part
        && offer(t, measure, line, figures, depths) == key(measure, figure, depth, line);
}

/* No line gives its head less than the label; a head that is unmade is given none. */
static int line_right(const struct view *t, uint64_t measure, uint64_t line, const uint64_t *figures,
                      const uint64_t *depths, const uint64_t *lines)
{
    uint64_t head = t->heads[line], given = offer(t, measure, line, figures, depths);

    if (depths[head] == 0)
        return given == NO_KEY;
    return given >= key(measure, figures[head], depths[head], lines[head]);
}

static int right(struct view t, uint64_t measure, const uint64_t *figures, const uint64_t *depths,
                 const uint64_t *lines, const uint64_t *pieces)
{
    uint64_t part, line;

    for (part = 0; part < t.n; part++)
        if (!part_right(&t, measure, part, figures, depths, lines))
            return 0;
    for (line = 0; line < t.lines; line++)
        if (!line_right(&t, measure, line, figures, depths, lines))
            return 0;
    return pieces_right(&t, depths, lines, pieces);
}

/* Pays for each line of a part's bill, of a part met again at once; whether the budget lasts. */
static int pay(const struct view *t, const uint64_t *lines, uint64_t part, uint64_t *lengths, uint64_t *budget)
{
    uint64_t line = lines[part], at = t->spans[2 * line], end = at + t->spans[2 * line + 1];
    uint64_t before = *budget;

    if (before == 0 || lengths[part] > before)
        return 0;
    if (lengths[part] != 0) {
        *budget -= lengths[part];
        return 1;
    }
    --*budget;
    for (; at < end; at++)
        if (!pay(t, lines, t->tails[at], lengths, budget))
            return 0;
    lengths[part] = before - *budget;
    return 1;
}

/* The same walk, which writes the bill and gives its end. */
static uint64_t *print_from(const struct view *t, const uint64_t *lines, uint64_t part, uint64_t *room)
{
    uint64_t line = lines[part], at = t->spans[2 * line], end = at + t->spans[2 * line + 1];

    *room++ = line;
    for (; at < end; at++)
        room = print_from(t, lines, t->tails[at], room);
    return room;
}

/* Nothing is written before the whole bill is known to fit. */
static uint64_t print(const struct view *t, const uint64_t *lines, uint64_t part, uint64_t *room,
                      uint64_t most)
{
    uint64_t budget = most, lengths[TOZBIERDU_MOST_PARTS];

    memset(lengths, 0, t->n * sizeof *lengths);
    return pay(t, lines, part, lengths, &budget) ? (uint64_t)(print_from(t, lines, part, room) - room) : 0;
}

#define CALL(name) plain_##name
#include "chain.h"

const struct maker plain = { plain_settle, plain_check_answers, plain_reprice, plain_bill };
