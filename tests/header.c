/* The C header's promises: the size of a desk before it is lent, for all counts, what words of other layouts get, and what a
 * forecast does to its scratch, and an audit to its record.
 * Prints what went wrong and exits 1, or what was tried. */
#include <stdio.h>
#include <string.h>

#include "../embed/sheetdesk.h"
#include "../embed/sheetdesk_reason.h"

#define ANSWER answer, SHEETDESK_ANSWER_WORDS

static uint32_t desk[SHEETDESK_MOST_WORDS];
static uint32_t answer[SHEETDESK_ANSWER_WORDS];

/* Whether the last call was refused with the number. */
static int refused(uint32_t count, uint32_t number)
{
    return count == 2 && answer[0] == SHEETDESK_REFUSED && answer[1] == number;
}

/* New takes just so many words, and not one less. */
static int size_fits(uint32_t k, uint32_t w, uint32_t n, uint32_t p)
{
    size_t words = SHEETDESK_WORDS(k, w, n, p);

    if (words == 0)
        return refused(sheetdesk_new(desk, SHEETDESK_MOST_WORDS, k, w, n, p, ANSWER), SHEETDESK_BAD_COUNT);
    return refused(sheetdesk_new(desk, words - 1, k, w, n, p, ANSWER), SHEETDESK_NOT_IN_FORM)
        && sheetdesk_new(desk, words, k, w, n, p, ANSWER) == 2 && answer[0] == SHEETDESK_OK && answer[1] == words;
}

/* All counts from 0 to one above the largest. */
static int sizes_fit(void)
{
    uint32_t k, w, n, p;

    for (k = 0; k <= 33; k++)
        for (w = 0; w <= 17; w++)
            for (n = 0; n <= 9; n++)
                for (p = 0; p <= 9; p++)
                    if (!size_fits(k, w, n, p)) {
                        printf("header: wrong size of %u %u %u %u\n", k, w, n, p);
                        return 0;
                    }
    return SHEETDESK_WORDS(32, 16, 8, 8) == SHEETDESK_MOST_WORDS && SHEETDESK_WORDS(-1, 1, 1, 1) == 0;
}

/* Words of the header: four counts and the last issue number, then four offsets and the total. */
enum { OFFSETS = 5, HEADER = 10 };
/* More words than a desk 2 2 1 1 has in any layout. */
enum { LENT = 200 };

/* Every call but new refuses a desk of two sheets and writers with these offsets and total. */
#define NOT_TAKEN(call, ...) refused(call(other, LENT, __VA_ARGS__, ANSWER), SHEETDESK_NOT_IN_FORM)
static int layout_refused(const uint32_t offsets[HEADER - OFFSETS])
{
    static const uint32_t job[] = {0, 0, 0};
    static uint32_t before[LENT], scratch[LENT];
    uint32_t other[LENT] = {2, 2, 1, 1, 0};
    size_t word;
    int good;

    memcpy(other + OFFSETS, offsets, (HEADER - OFFSETS) * sizeof *offsets);
    memcpy(before, other, sizeof other);
    good = NOT_TAKEN(sheetdesk_open, 0, job, 3)
        && NOT_TAKEN(sheetdesk_fetch, 0, 0)
        && NOT_TAKEN(sheetdesk_evict, 0, 0)
        && NOT_TAKEN(sheetdesk_prepare, 0)
        && NOT_TAKEN(sheetdesk_step, 0, 0)
        && NOT_TAKEN(sheetdesk_explain, 0, 0)
        && NOT_TAKEN(sheetdesk_issue, 0, 0, 0)
        && NOT_TAKEN(sheetdesk_drop, 0)
        && NOT_TAKEN(sheetdesk_look, 0, 0, 0)
        && NOT_TAKEN(sheetdesk_stale, 0)
        && NOT_TAKEN(sheetdesk_allow, 0, 0)
        && NOT_TAKEN(sheetdesk_mayhold, 0, 0)
        && NOT_TAKEN(sheetdesk_maysave, 0, 0)
        && NOT_TAKEN(sheetdesk_fork, 0)
        && NOT_TAKEN(sheetdesk_join, 0)
        && NOT_TAKEN(sheetdesk_step_on, 0, 0, 0)
        && NOT_TAKEN(sheetdesk_explain_on, 0, 0, 0)
        && NOT_TAKEN(sheetdesk_forecast, scratch, LENT, 0)
        && refused(sheetdesk_pick(other, LENT, ANSWER), SHEETDESK_NOT_IN_FORM)
        && refused(sheetdesk_admit(other, LENT, ANSWER), SHEETDESK_NOT_IN_FORM);
    for (word = 0; word < LENT; word++)
        good &= scratch[word] == 0;
    return good && memcmp(before, other, sizeof other) == 0;
}

/* A forecast's scratch: as many words as the desk has, and not one less; those behind them stay, and all of them if it is refused
 * or the answer's slice is too short. On 1 1 1 1 with nothing saved, where job 0 reads nothing and job 1 sheet 0. */
static int scratch_fits(void)
{
    static const uint32_t jobs[] = {0, 0, 0, 0, 1, 0};
    uint32_t scratch[LENT], word, total;
    int good = 1;

    sheetdesk_new(desk, LENT, 1, 1, 1, 1, ANSWER);
    total = answer[1];
    for (word = 0; word < LENT; word++)
        scratch[word] = 7;
    good &= refused(sheetdesk_forecast(desk, LENT, scratch, LENT, 0, ANSWER), SHEETDESK_WRONG_STATE);
    good &= refused(sheetdesk_forecast(desk, LENT, scratch, LENT, 1, ANSWER), SHEETDESK_OUT_OF_RANGE);
    sheetdesk_open(desk, LENT, 0, jobs, 6, ANSWER);
    good &= refused(sheetdesk_forecast(desk, LENT, scratch, total - 1, 0, ANSWER), SHEETDESK_NOT_IN_FORM);
    good &= sheetdesk_forecast(desk, LENT, scratch, LENT, 0, answer, SHEETDESK_ANSWER_WORDS - 1) == 0;
    for (word = 0; word < LENT; word++)
        good &= scratch[word] == 7;
    good &= sheetdesk_forecast(desk, LENT, scratch, total, 0, ANSWER) == 3 && answer[0] == SHEETDESK_TURNED && answer[1] == 1
        && answer[2] == SHEETDESK_NOT_ON_MASTER;
    sheetdesk_step(desk, LENT, 0, 0, ANSWER);
    good &= memcmp(scratch, desk, total * sizeof *desk) == 0;
    for (word = total; word < LENT; word++)
        good &= scratch[word] == 7;
    return good;
}

/* A record: read whole, with words behind it, and not without its last word; none of its words is written. An answer's slice that is
 * too short is left. */
static int record_fits(void)
{
    /* Case A's, and the same with an issue whose read lacks a save that stands behind another. */
    static const uint32_t kept[] = {2, 2, 2, 1, 7, 15, 18, 0, 3, 0, 0, 1, 2, 0, 1, 0, 1, 0, 7, 7};
    static const uint32_t lacks[] = {1, 2, 3, 2, 7, 19, 25, 0, 1, 0, 0, 1, 1, 0, 1, 0, 1, 1, 1, 0, 1, 0, 0, 0, 1};
    uint32_t record[LENT], count;
    int good = 1;

    memcpy(record, kept, sizeof kept);
    for (count = 18; count <= 20; count++)
        good &= sheetdesk_audit(record, count, ANSWER) == 2 && answer[0] == SHEETDESK_OK && answer[1] == 0;
    for (count = 0; count < 18; count++)
        good &= refused(sheetdesk_audit(record, count, ANSWER), SHEETDESK_NOT_READABLE);
    answer[1] = 7;
    good &= sheetdesk_audit(record, 18, answer, SHEETDESK_ANSWER_WORDS - 1) == 0 && answer[1] == 7;
    good &= sheetdesk_audit(lacks, 25, ANSWER) == 2 && answer[0] == SHEETDESK_OK && answer[1] == 3;
    return good && memcmp(record, kept, sizeof kept) == 0;
}

/* Offsets and total of the layouts before this one, and of one whose writers are as long as versions. */
static int other_layouts_refused(void)
{
    static const uint32_t others[][HEADER - OFFSETS] = {
        {10, 20, 30, 40, 78}, /* layout 1 */
        {10, 22, 34, 44, 84}, /* layout 2 */
        {10, 22, 35, 45, 85}, /* layout 3 */
        {10, 22, 36, 46, 86}, /* layout 4 */
        {10, 22, 36, 46, 87}, /* layout 5 */
        {10, 22, 36, 46, 90}, /* layout 6 */
        {10, 22, 36, 48, 106}, /* long writers */
    };
    size_t each;

    for (each = 0; each < sizeof others / sizeof others[0]; each++)
        if (!layout_refused(others[each]))
            return 0;
    return 1;
}

/* The library that is linked is the header's. */
static int versions_fit(void)
{
    return sheetdesk_version() == SHEETDESK_VERSION && sheetdesk_layout() == SHEETDESK_LAYOUT;
}

/* Whether the reason of a refusal of the call is that text. */
static int says(const char *call, uint32_t number, const char *text)
{
    const char *reason = sheetdesk_reason(call, number);

    return reason != NULL && strcmp(reason, text) == 0;
}

/* The largest number of a refusal. */
enum { LAST = SHEETDESK_NOT_READABLE };

/* Each refusal has words, for a call that isn't known too, and no other number has. */
static int reasons_fit(void)
{
    uint32_t number;

    for (number = 0; number < 40; number++)
        if ((sheetdesk_reason("", number) != NULL) != (number >= 1 && number <= LAST)
            || (sheetdesk_reason("a call to come", number) != NULL) != (number >= 1 && number <= LAST))
            return 0;
    return says("fetch", 3, "there is no such office or sheet") && says("evict 9 0", 3, "there is no such office or sheet")
        && says("look 1 0 0", 8, "the shelf does not hold the sheet: fetch it")
        && says("look 0 0 0", 8, "the master does not hold the sheet: issue it")
        && says("look", 8, "the master does not hold the sheet: issue it") && says("", 8, "the sheet is not held there")
        && says("opened", 4, "the run is not open: it is free, or broken")
        && says("step 0 1 7", 14, "the run has no such line: 0 always, 1 from its fork to its join")
        && says("forecast 0", 14, "the run is forked: join its lines first") && says("forecast", 3, "there is no such run")
        && says("audit 1 2", 15, "the record is not readable: a word of it is wrong, or some are missing")
        && says("joined", 14, "the run is forked, or is not, or has no such line");
}

int main(void)
{
    if (!versions_fit() || !sizes_fit() || !other_layouts_refused() || !scratch_fits() || !record_fits() || !reasons_fit()) {
        puts("header: a promise of sheetdesk.h isn't kept");
        return 1;
    }
    return 0;
}
