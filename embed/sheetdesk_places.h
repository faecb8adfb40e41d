/* Where things lie on a desk, for who looks at its words: sheetdesk_why.h does. Outside of what is
 * proved. Of the layout it knows the header, that a version ends with its rows and a writer with
 * its past, and where a run has jobs, mark and lines; the rest comes from header and
 * SHEETDESK_WORDS.
 */
#ifndef SHEETDESK_PLACES_H
#define SHEETDESK_PLACES_H

#include "sheetdesk.h"

/* The lines of a run. */
#define SHEETDESK_LINES 2
/* Where the first line's card begins in a run. The mark and the second read mask stand behind it,
 * then the second card. */
#define SHEETDESK_CARD_AT 28

/* Where things lie on a desk, by its header and by how many words a further run takes. */
struct sheetdesk_places {
    const uint32_t *desk;
    size_t k, w, n, p;             /* sheets, writers, offices, runs */
    size_t version, shelf, writer; /* words of one */
    size_t run, card;              /* words of a run, and of a line's card */
};

/* Whether header and total fit the counts; nothing else is looked at before. */
static inline int sheetdesk_placed(struct sheetdesk_places *at, const uint32_t *desk, size_t len)
{
    size_t one;

    at->desk = desk;
    if (len < 10 || SHEETDESK_WORDS(desk[0], desk[1], desk[2], desk[3]) == 0)
        return 0;
    at->k = desk[0], at->w = desk[1], at->n = desk[2], at->p = desk[3];
    if (desk[9] != SHEETDESK_WORDS_OF(at->k, at->w, at->n, at->p) || len < desk[9] ||
        desk[5] != 10 || desk[6] <= desk[5] || desk[7] <= desk[6] || desk[8] <= desk[7] ||
        desk[9] <= desk[8])
        return 0;
    at->version = (desk[6] - desk[5]) / at->k;
    at->shelf = (desk[7] - desk[6]) / at->n;
    at->writer = (desk[8] - desk[7]) / at->w;
    one = SHEETDESK_WORDS_OF(at->k, at->w, at->n, (size_t)1);
    at->run = SHEETDESK_WORDS_OF(at->k, at->w, at->n, (size_t)2) - one;
    at->card = at->k * at->version;
    return at->version >= 2 + at->k * at->w && at->shelf >= at->card &&
           at->writer > at->k * at->w && desk[8] + at->p * at->run <= desk[9] &&
           at->run == SHEETDESK_CARD_AT + 2 + SHEETDESK_LINES * at->card;
}

/* Places hold versions and are numbered: the master, the shelves, then the cards of each run's
 * lines. */
static inline size_t sheetdesk_place_count(const struct sheetdesk_places *at)
{
    return 1 + at->n + SHEETDESK_LINES * at->p;
}

static inline size_t sheetdesk_card_place(const struct sheetdesk_places *at, size_t run,
                                          size_t line)
{
    return 1 + at->n + SHEETDESK_LINES * run + line;
}

/* Of a card's place: its run and its line. */
static inline size_t sheetdesk_run_of(const struct sheetdesk_places *at, size_t place)
{
    return (place - 1 - at->n) / SHEETDESK_LINES;
}

static inline size_t sheetdesk_line_of(const struct sheetdesk_places *at, size_t place)
{
    return (place - 1 - at->n) % SHEETDESK_LINES;
}

/* The words of a run. */
static inline const uint32_t *sheetdesk_run_at(const struct sheetdesk_places *at, size_t run)
{
    return at->desk + at->desk[8] + run * at->run;
}

/* Sheet k's version there: issue number, leading writers, then the rows. */
static inline const uint32_t *sheetdesk_version_at(const struct sheetdesk_places *at, size_t place,
                                                   size_t k)
{
    const uint32_t *desk = at->desk;

    if (place == 0)
        return desk + desk[5] + k * at->version;
    if (place <= at->n)
        return desk + desk[6] + (place - 1) * at->shelf + k * at->version;
    return sheetdesk_run_at(at, sheetdesk_run_of(at, place)) + SHEETDESK_CARD_AT +
           sheetdesk_line_of(at, place) * (at->card + 2) + k * at->version;
}

static inline const uint32_t *sheetdesk_row(const struct sheetdesk_places *at,
                                            const uint32_t *version, size_t d)
{
    return version + at->version - at->k * at->w + d * at->w;
}

static inline int sheetdesk_is_zero(const uint32_t *words, size_t count)
{
    while (count > 0)
        if (words[--count] != 0)
            return 0;
    return 1;
}

/* The sheets that a cut there is about: all, or those of the run's plan. */
static inline uint32_t sheetdesk_scope(const struct sheetdesk_places *at, size_t place)
{
    const uint32_t *run;
    uint32_t plan = 0;
    size_t job;

    if (place <= at->n)
        return UINT32_MAX;
    run = sheetdesk_run_at(at, sheetdesk_run_of(at, place));
    for (job = 0; job < 8; job++)
        plan |= run[4 + 3 * job + 1];
    return plan;
}

#endif
