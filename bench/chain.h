/*
 * The four calls of a yardstick, with the refusals in their order. A yardstick names them by CALL, and
 * includes this behind its own
 *   check_lines(t)                                     refusals 3, 4, 21, 5 and 6, or 0
 *   fill(t, measure, figures, depths, lines, pieces)   writes the answers
 *   right(t, measure, figures, depths, lines, pieces)  whether these are its answers
 *   print(t, lines, part, room, most)                  a bill's length, or 0 if that is above `most`
 */

#define GIVEN_TABLE \
    heads, heads_count, own, own_count, strikes, strikes_count, spans, spans_count, tails, tails_count
#define GIVEN_ANSWERS figures, figures_count, depths, depths_count, lines, lines_count, pieces, pieces_count

/* Refusals 16, 1 to 7 and 21. */
static uint64_t check(struct view *t, uint64_t measure, uint64_t n, TABLE_COLUMNS, ANSWER_COLUMNS)
{
    uint64_t result;

    (void)figures, (void)depths, (void)lines, (void)pieces;
    if (measure > TOZBIERDU_GRADE)
        return REFUSED(TOZBIERDU_REFUSED_MEASURE, 0);
    if (n > TOZBIERDU_MOST_PARTS)
        return REFUSED(TOZBIERDU_REFUSED_PARTS, 0);
    if (own_count != heads_count || strikes_count != heads_count || heads_count > TOZBIERDU_MOST_LINES
        || spans_count != 2 * heads_count || tails_count > TOZBIERDU_MOST_TAILS)
        return REFUSED(TOZBIERDU_REFUSED_LENGTHS, 0);
    *t = (struct view){ n, heads_count, tails_count, heads, own, strikes, spans, tails };
    if ((result = check_lines(t)) != 0)
        return result;
    if (figures_count != n || depths_count != n || lines_count != n || pieces_count != n)
        return REFUSED(TOZBIERDU_REFUSED_ANSWER_LENGTHS, 0);
    return 0;
}

uint64_t CALL(settle)(uint64_t measure, uint64_t n, TABLE_COLUMNS, WRITTEN_COLUMNS)
{
    struct view t;
    uint64_t result = check(&t, measure, n, GIVEN_TABLE, GIVEN_ANSWERS);

    if (result == 0)
        fill(t, measure, figures, depths, lines, pieces);
    return result;
}

uint64_t CALL(check_answers)(uint64_t measure, uint64_t n, TABLE_COLUMNS, ANSWER_COLUMNS)
{
    struct view t;
    uint64_t result = check(&t, measure, n, GIVEN_TABLE, GIVEN_ANSWERS);

    return result != 0 ? result : (uint64_t)right(t, measure, figures, depths, lines, pieces);
}

uint64_t CALL(reprice)(uint64_t measure, uint64_t n, CHANGED_COLUMNS, WRITTEN_COLUMNS, uint64_t line,
                       uint64_t figure)
{
    struct view t;
    uint64_t result = check(&t, measure, n, GIVEN_TABLE, GIVEN_ANSWERS);

    if (result != 0)
        return result;
    if (line >= t.lines || strikes[line] == TOZBIERDU_STRIKE)
        return REFUSED(TOZBIERDU_REFUSED_LINE, 0);
    if (figure > TOZBIERDU_GREATEST)
        return REFUSED(TOZBIERDU_REFUSED_FIGURE, 0);
    if (!right(t, measure, figures, depths, lines, pieces))
        return REFUSED(TOZBIERDU_REFUSED_ANSWERS, 0);
    own[line] = figure;
    fill(t, measure, figures, depths, lines, pieces);
    return 0;
}

uint64_t CALL(bill)(uint64_t measure, uint64_t n, TABLE_COLUMNS, ANSWER_COLUMNS, uint64_t part,
                    uint64_t *room, size_t room_count)
{
    struct view t;
    uint64_t result = check(&t, measure, n, GIVEN_TABLE, GIVEN_ANSWERS), length;

    if (result != 0)
        return result;
    if (part >= n)
        return REFUSED(TOZBIERDU_REFUSED_PART, 0);
    if (!right(t, measure, figures, depths, lines, pieces))
        return REFUSED(TOZBIERDU_REFUSED_ANSWERS, 0);
    if (depths[part] == 0)
        return REFUSED(TOZBIERDU_REFUSED_UNMADE, 0);
    length = print(&t, lines, part, room, lesser(room_count, TOZBIERDU_MOST_ROOM));
    return length != 0 ? length : REFUSED(TOZBIERDU_REFUSED_ROOM, 0);
}
