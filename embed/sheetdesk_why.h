/* Why a desk isn't admitted, in words, found by looking at its words:
 *
 *     char text[SHEETDESK_WHY_BYTES];
 *     sheetdesk_why(desk, desk_len, text);
 *         the shelf of office 0 is no causal cut: sheet 1 needs sheet 0 at (1 0), which isn't held
 *
 * A hint for people, outside of what is proved: the verdict is sheetdesk_admit's alone. It names
 * the first condition that fails, in the order of the admission's list (form; cuts of the master,
 * the shelves, the lines' cards; rows; counts; issue numbers), with its office, run, line and
 * sheet. A clock stands in brackets, a count for each writer. The text is empty if nothing is
 * found.
 */
#ifndef SHEETDESK_WHY_H
#define SHEETDESK_WHY_H

#include <stdio.h>
#include <string.h>

#include "sheetdesk_places.h"

/* The length of a text that holds any reason. */
#define SHEETDESK_WHY_BYTES 640

static inline void sheetdesk_say_place(const struct sheetdesk_places *at, size_t place, char *text)
{
    if (place == 0)
        strcpy(text, "the master");
    else if (place <= at->n)
        sprintf(text, "the shelf of office %u", (unsigned)(place - 1));
    else
        sprintf(text, "the card of line %u of run %u", (unsigned)sheetdesk_line_of(at, place),
                (unsigned)sheetdesk_run_of(at, place));
}

static inline void sheetdesk_say_clock(const uint32_t *row, size_t w, char *text)
{
    size_t u;

    for (u = 0; u < w; u++)
        text += sprintf(text, "%s%u", u == 0 ? "(" : " ", (unsigned)row[u]);
    strcpy(text, ")");
}

/* A need that is not met there, if there is one. */
static inline int sheetdesk_why_cut(const struct sheetdesk_places *at, size_t place, char *text)
{
    uint32_t scope = sheetdesk_scope(at, place);
    char name[40], need[192], held[192];
    const uint32_t *version, *other, *row;
    size_t k, d;

    for (k = 0; k < at->k; k++)
        for (d = 0; d < at->k; d++) {
            version = sheetdesk_version_at(at, place, k);
            other = sheetdesk_version_at(at, place, d);
            row = sheetdesk_row(at, version, d);
            if (d == k || version[0] == 0 || sheetdesk_is_zero(row, at->w) ||
                (scope >> k & scope >> d & 1) == 0)
                continue;
            if (other[0] != 0 &&
                sheetdesk_covers(sheetdesk_row(at, other, d), at->w, row, at->w) == 1)
                continue;
            sheetdesk_say_place(at, place, name);
            sheetdesk_say_clock(row, at->w, need);
            strcpy(held, "isn't held");
            if (other[0] != 0) {
                strcpy(held, "is at ");
                sheetdesk_say_clock(sheetdesk_row(at, other, d), at->w, held + 6);
            }
            sprintf(text, "%s is no %s: sheet %u needs sheet %u at %s, which %s", name,
                    place <= at->n ? "causal cut" : "cut of its run's plan", (unsigned)k,
                    (unsigned)d, need, held);
            return 1;
        }
    return 0;
}

/* A row of sheet d that the master's own doesn't cover: `keeper` has it. */
static inline int sheetdesk_why_row(const struct sheetdesk_places *at, const uint32_t *row,
                                    size_t d, const char *keeper, char *text)
{
    const uint32_t *own = sheetdesk_row(at, sheetdesk_version_at(at, 0, d), d);
    char one[192], other[192];

    if (sheetdesk_covers(own, at->w, row, at->w) == 1)
        return 0;
    sheetdesk_say_clock(own, at->w, one);
    sheetdesk_say_clock(row, at->w, other);
    sprintf(text, "the master's own row of sheet %u is %s, and doesn't cover %s, which %s",
            (unsigned)d, one, other, keeper);
    return 1;
}

static inline int sheetdesk_why_rows(const struct sheetdesk_places *at, char *text)
{
    char name[40], keeper[80];
    const uint32_t *past;
    size_t place, k, d, u;

    for (place = 0; place < sheetdesk_place_count(at); place++)
        for (k = 0; k < at->k; k++)
            for (d = 0; d < at->k; d++) {
                sheetdesk_say_place(at, place, name);
                sprintf(keeper, "%s keeps with sheet %u", name, (unsigned)k);
                past = sheetdesk_row(at, sheetdesk_version_at(at, place, k), d);
                if (sheetdesk_why_row(at, past, d, keeper, text))
                    return 1;
            }
    for (u = 0; u < at->w; u++)
        for (d = 0; d < at->k; d++) {
            sprintf(keeper, "the past of writer %u keeps", (unsigned)u);
            past = at->desk + at->desk[7] + (u + 1) * at->writer - (at->k - d) * at->w;
            if (sheetdesk_why_row(at, past, d, keeper, text))
                return 1;
        }
    return 0;
}

/* Counts over the writers' own, of the master's own rows, which cover all others; numbers. */
static inline int sheetdesk_why_numbers(const struct sheetdesk_places *at, char *text)
{
    const uint32_t *own;
    uint32_t count, number;
    size_t d, u, place;
    char name[40];

    for (d = 0; d < at->k; d++)
        for (u = 0; u < at->w; u++) {
            own = sheetdesk_row(at, sheetdesk_version_at(at, 0, d), d);
            count = at->desk[at->desk[7] + u * at->writer];
            if (own[u] > count) {
                sprintf(text, "writer %u has count %u, and the master's own row of sheet %u has %u"
                              " of that writer", (unsigned)u, (unsigned)count, (unsigned)d,
                        (unsigned)own[u]);
                return 1;
            }
        }
    for (place = 0; place < sheetdesk_place_count(at); place++)
        for (d = 0; d < at->k; d++) {
            number = sheetdesk_version_at(at, place, d)[0];
            if (number > at->desk[4]) {
                sheetdesk_say_place(at, place, name);
                sprintf(text, "the last issue number is %u, and %s has sheet %u with %u",
                        (unsigned)at->desk[4], name, (unsigned)d, (unsigned)number);
                return 1;
            }
        }
    return 0;
}

/* A run whose mark and lines don't fit: a mark above 2, a second line that isn't empty though the
 * run isn't forked, a sheet that was read on a line and isn't on its card. */
static inline int sheetdesk_why_lines(const struct sheetdesk_places *at, char *text)
{
    const uint32_t *run, *rest;
    size_t r, line, k, place;

    for (r = 0; r < at->p; r++) {
        run = sheetdesk_run_at(at, r);
        rest = run + SHEETDESK_CARD_AT + at->card;
        if (rest[0] > 2 || (rest[0] != 1 && !sheetdesk_is_zero(rest + 1, at->card + 1))) {
            sprintf(text, "run %u has mark %u%s", (unsigned)r, (unsigned)rest[0],
                    rest[0] > 2 ? "" : ", and its line 1 isn't empty");
            return 1;
        }
        for (line = 0; line < SHEETDESK_LINES; line++)
            for (k = 0; k < at->k; k++) {
                place = sheetdesk_card_place(at, r, line);
                if (((line == 0 ? run[3] : rest[1]) >> k & 1) == 0 ||
                    sheetdesk_version_at(at, place, k)[0] != 0)
                    continue;
                sprintf(text, "line %u of run %u has read sheet %u, which its card lacks",
                        (unsigned)line, (unsigned)r, (unsigned)k);
                return 1;
            }
    }
    return 0;
}

/* What isn't in form: a version, a run's lines, or something else. */
static inline void sheetdesk_why_form(const struct sheetdesk_places *at, char *text)
{
    const uint32_t *version;
    size_t place, k;
    char name[40];

    for (place = 0; place < sheetdesk_place_count(at); place++)
        for (k = 0; k < at->k; k++) {
            version = sheetdesk_version_at(at, place, k);
            if (version[0] == 0 ? sheetdesk_is_zero(version, at->version)
                                : version[1] != 0 && version[1] >> at->w == 0 &&
                                      !sheetdesk_is_zero(sheetdesk_row(at, version, k), at->w))
                continue;
            sheetdesk_say_place(at, place, name);
            sprintf(text, "%s has no version of sheet %u that is in form", name, (unsigned)k);
            return;
        }
    if (!sheetdesk_why_lines(at, text))
        strcpy(text, "a run, a shelf's mark, an allowance or a right isn't in form");
}

/* The reason; an empty text if the desk is admitted, or if nothing is found. */
static inline void sheetdesk_why(const uint32_t *desk, size_t desk_len, char *text)
{
    uint32_t answer[SHEETDESK_ANSWER_WORDS];
    struct sheetdesk_places at;
    size_t place;

    text[0] = 0;
    sheetdesk_admit(desk, desk_len, answer, SHEETDESK_ANSWER_WORDS);
    if (answer[0] != SHEETDESK_REFUSED)
        return;
    if (!sheetdesk_placed(&at, desk, desk_len)) {
        strcpy(text, "there is no desk, or its header doesn't fit its counts");
        return;
    }
    if (answer[1] == SHEETDESK_NOT_IN_FORM) {
        sheetdesk_why_form(&at, text);
        return;
    }
    for (place = 0; place < sheetdesk_place_count(&at); place++)
        if (sheetdesk_why_cut(&at, place, text))
            return;
    if (!sheetdesk_why_rows(&at, text))
        sheetdesk_why_numbers(&at, text);
}

#endif
