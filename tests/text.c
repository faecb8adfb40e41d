/* What the C header promises of a text of calls: which lines are taken, what is written for them, and what stays.
 * Prints what went wrong and exits 1, or nothing. */
#include <stdio.h>
#include <string.h>

#include "../embed/sheetdesk.h"

/* More words than a desk 1 1 1 1 has: 59. */
enum { LENT = 80, TOTAL = SHEETDESK_WORDS(1, 1, 1, 1) };

static uint32_t desk[LENT], aside[LENT];
static uint8_t out[1 << 11];
static size_t counts[3];

static const uint8_t *bytes(const char *text)
{
    return (const uint8_t *)text;
}

/* Makes the calls of a text's first bytes, with so many of a scratch and so many for answers. Whether so many bytes are taken, and
 * the answers put are these; what is behind them and behind the counts must stay. */
static int runs(const char *text, size_t length, size_t room, size_t scratch, size_t taken, const char *answers)
{
    size_t byte, put = strlen(answers);
    int good;

    memset(out, 7, sizeof out);
    counts[2] = 7;
    good = sheetdesk_script(desk, LENT, bytes(text), length, out, room, aside, scratch, counts, 3) == 2;
    good &= counts[0] == taken && counts[1] == put && counts[2] == 7 && memcmp(out, answers, put) == 0;
    for (byte = put; byte < sizeof out; byte++)
        good &= out[byte] == 7;
    return good;
}

/* Whole lines alone are taken, each if there is the room that holds any answer: on words that are no desk yet, and on one that is. */
static int lines_fit(void)
{
    static const char text[] = "pick\nnew 1 1 1 1\n\npick\nstale 0";
    size_t all = strlen(text), room = SHEETDESK_LINE_ROOM, word;
    int good;

    good = runs(text, all, room - 1, 0, 0, "") && runs(text, 4, sizeof out, 0, 0, "") && runs(text, 0, sizeof out, 0, 0, "")
        && runs(text, all, room, 0, 5, "refused 1\n") && runs(text, all, room + 9, 0, 5, "refused 1\n");
    for (word = 0; word < LENT; word++)
        good &= desk[word] == 0;
    for (word = TOTAL; word < LENT; word++)
        desk[word] = 7;
    good &= runs(text, all, room + 10, 0, 17, "refused 1\nok 59\n") && desk[9] == TOTAL
        && runs(text + 17, 1, sizeof out, 0, 1, "unread\n")
        && runs(text, all, sizeof out, 0, all - 7, "nothing\nok 59\nunread\nnothing\n");
    for (word = TOTAL; word < LENT; word++)
        good &= desk[word] == 7;
    return good;
}

/* With fewer than two counts nothing is done. */
static int counts_fit(void)
{
    static const char text[] = "new 1 1 1 1\n";
    size_t few, word;
    int good = 1;

    memset(desk, 0, sizeof desk);
    memset(out, 7, sizeof out);
    for (few = 0; few < 2; few++) {
        counts[0] = counts[1] = 7;
        good &= sheetdesk_script(desk, LENT, bytes(text), strlen(text), out, sizeof out, aside, 0, counts, few) == 0;
        good &= counts[0] == 7 && counts[1] == 7 && out[0] == 7;
    }
    for (word = 0; word < LENT; word++)
        good &= desk[word] == 0;
    return good;
}

/* Forecasts have the text's scratch: as long as the desk or longer, and what is behind stays. */
static int scratch_fits(void)
{
    static const char text[] = "new 1 1 1 1\nopen 0 0 0 0 0 1 0\nforecast 0\n";
    size_t all = strlen(text), word;
    int good;

    for (word = 0; word < LENT; word++)
        aside[word] = 7;
    good = runs(text, all, sizeof out, TOTAL - 1, all, "ok 59\nok 2\nrefused 1\n");
    for (word = 0; word < LENT; word++)
        good &= aside[word] == 7;
    good &= runs(text, all, sizeof out, TOTAL, all, "ok 59\nok 2\nturned 1 7\n") && runs("step 0 0\n", 9, sizeof out, 0, 9, "ok 0 0 0\n");
    for (word = 0; word < LENT; word++)
        good &= aside[word] == (word < TOTAL ? desk[word] : 7);
    return good;
}

/* A line of 400 bytes is a call, one of 401 isn't. */
static int length_fits(void)
{
    char line[402];
    int good;

    memset(line, '0', sizeof line);
    memcpy(line, "drop ", 5);
    line[401] = '\n';
    good = runs("open 0 0 0 0\n", 13, sizeof out, 0, 13, "refused 4\n") && runs(line, 402, sizeof out, 0, 402, "unread\n");
    line[400] = '\n';
    return good && runs(line, 401, sizeof out, 0, 401, "ok 0\n");
}

/* A text is cut at any byte, and gone on with behind what was taken. */
static int cuts_fit(void)
{
    static const char text[] = "new 1 1 1 1\nopen 0 0 0 0\n step\nstep 0 0\nissue 0 0 1\nlook 0 0 0\n";
    static const char due[] = "ok 59\nok 1\nunread\nok 0 0 0\nok 1\nok 1 1 1 0\n";
    size_t cut, first, put, all = strlen(text);

    for (cut = 0; cut <= all; cut++) {
        memset(desk, 0, sizeof desk);
        sheetdesk_script(desk, LENT, bytes(text), cut, out, sizeof out, aside, 0, counts, 2);
        first = counts[0];
        put = counts[1];
        sheetdesk_script(desk, LENT, bytes(text) + first, all - first, out + put, sizeof out - put, aside, 0, counts, 2);
        if (first > cut || first + counts[0] != all || put + counts[1] != strlen(due) || memcmp(out, due, strlen(due)) != 0)
            return 0;
    }
    return 1;
}

int main(void)
{
    if (!lines_fit() || !counts_fit() || !scratch_fits() || !length_fits() || !cuts_fit()) {
        puts("text: a promise of sheetdesk_script in sheetdesk.h isn't kept");
        return 1;
    }
    return 0;
}
