/* Case A of the specification, an explained break with stale marks, rival saves, rights, two lines,
 * a forecast, a desk that is read back and a text of calls through the C header; ends with 1 if an
 * answer is not as written. */
#include <stdio.h>
#include <string.h>

#include "sheetdesk.h"

static uint32_t desk[SHEETDESK_WORDS(2, 2, 2, 1)];
static uint32_t answer[SHEETDESK_ANSWER_WORDS];
static int wrong;

/* Holds the answer against what is due: so many words, the outcome first. */
static void due(const char *what, uint32_t count, const uint32_t *words, uint32_t due_count)
{
    if (count != due_count || memcmp(answer, words, count * sizeof *words) != 0) {
        printf("wrong: %s\n", what);
        wrong = 1;
    }
}

#define LEN(array) (sizeof(array) / sizeof((array)[0]))
#define WORDS(...) ((const uint32_t[]){__VA_ARGS__})
#define DUE(what, call, ...) \
    due(what, call, WORDS(__VA_ARGS__), (uint32_t)LEN(WORDS(__VA_ARGS__)))
#define DESK desk, LEN(desk)
#define ANSWER answer, LEN(answer)

static void case_a(void)
{
    static const uint32_t empty[] = {0, 0, 0};
    static const uint32_t reader[] = {0, 1, 0};
    static const uint32_t two[] = {0, 1, 0, 1, 2, 1};

    DUE("new 2 2 2 1", sheetdesk_new(DESK, 2, 2, 2, 1, ANSWER), SHEETDESK_OK, 119);
    DUE("open 0 0 0 0", sheetdesk_open(DESK, 0, empty, LEN(empty), ANSWER), SHEETDESK_OK, 1);
    DUE("step 0 0", sheetdesk_step(DESK, 0, 0, ANSWER), SHEETDESK_OK, 0, 0, 0);
    DUE("issue 0 0 3", sheetdesk_issue(DESK, 0, 0, 3, ANSWER), SHEETDESK_OK, 1);
    DUE("fetch 0 0", sheetdesk_fetch(DESK, 0, 0, ANSWER), SHEETDESK_OK, 3);
    DUE("open 0 0 1 0", sheetdesk_open(DESK, 0, reader, LEN(reader), ANSWER), SHEETDESK_OK, 1);
    DUE("step 0 0", sheetdesk_step(DESK, 0, 0, ANSWER), SHEETDESK_OK, 0, 1, 0);
    DUE("issue 0 1 2", sheetdesk_issue(DESK, 0, 1, 2, ANSWER), SHEETDESK_OK, 2);
    DUE("open of two jobs", sheetdesk_open(DESK, 0, two, LEN(two), ANSWER), SHEETDESK_OK, 2);
    DUE("step 0 1", sheetdesk_step(DESK, 0, 1, ANSWER), SHEETDESK_REFUSED,
        SHEETDESK_WRONG_TURN);
    DUE("step 0 0", sheetdesk_step(DESK, 0, 0, ANSWER), SHEETDESK_OK, 0, 1, 0);
    DUE("step 0 1", sheetdesk_step(DESK, 0, 1, ANSWER), SHEETDESK_OK, 2, 0, 0);
    DUE("look 2 0 1", sheetdesk_look(DESK, 2, 0, 1, ANSWER), SHEETDESK_OK, 1, 1, 1, 0,
        SHEETDESK_OLDER);
    DUE("fetch 1 1", sheetdesk_fetch(DESK, 1, 1, ANSWER), SHEETDESK_OK, 3);
    DUE("evict 0 1", sheetdesk_evict(DESK, 0, 1, ANSWER), SHEETDESK_OK, 3);
}

/* The two calls that case A lacks, an answer's slice that is too short, and clocks. */
static void besides(void)
{
    uint32_t target[] = {2, 0};
    static const uint32_t source[] = {1, 3};

    DUE("prepare 0", sheetdesk_prepare(DESK, 0, ANSWER), SHEETDESK_REFUSED,
        SHEETDESK_WRONG_TURN);
    wrong |= sheetdesk_drop(DESK, 0, answer, 1) != 0;
    DUE("drop 0", sheetdesk_drop(DESK, 0, ANSWER), SHEETDESK_OK, 0);
    wrong |= sheetdesk_compare(target, 2, source, 2) != SHEETDESK_RIVAL;
    wrong |= sheetdesk_compare(target, 2, source, 1) != SHEETDESK_NOT_COMPARED;
    wrong |= sheetdesk_covers(target, 2, source, 2) != 0;
    wrong |= sheetdesk_covers(target, 2, source, 1) != 2;
    wrong |= sheetdesk_merge(target, 2, source, 1) != 0;
    wrong |= sheetdesk_merge(target, 2, source, 2) != 1;
    wrong |= target[0] != 2 || target[1] != 3;
    wrong |= sheetdesk_compare(target, 2, source, 2) != SHEETDESK_NEWER;
    wrong |= sheetdesk_compare(source, 2, target, 2) != SHEETDESK_OLDER;
    wrong |= sheetdesk_compare(target, 2, target, 2) != SHEETDESK_EQUAL;
    wrong |= sheetdesk_covers(target, 2, source, 2) != 1;
}

/* A run has read sheet 0, both sheets are saved together, and its next job reads sheet 1. Then
 * office 0 has an older sheet 0, and office 1 has none. */
static void explained(void)
{
    static uint32_t other[SHEETDESK_WORDS(2, 2, 2, 2)];
    static const uint32_t empty[] = {0, 0, 0};
    static const uint32_t two[] = {0, 1, 0, 1, 2, 0};

    sheetdesk_new(other, LEN(other), 2, 2, 2, 2, ANSWER);
    sheetdesk_open(other, LEN(other), 1, empty, LEN(empty), ANSWER);
    sheetdesk_step(other, LEN(other), 1, 0, ANSWER);
    sheetdesk_issue(other, LEN(other), 1, 0, 1, ANSWER);
    sheetdesk_open(other, LEN(other), 0, two, LEN(two), ANSWER);
    DUE("explain 0 0", sheetdesk_explain(other, LEN(other), 0, 0, ANSWER), SHEETDESK_CLEAR);
    sheetdesk_step(other, LEN(other), 0, 0, ANSWER);
    sheetdesk_open(other, LEN(other), 1, empty, LEN(empty), ANSWER);
    sheetdesk_step(other, LEN(other), 1, 0, ANSWER);
    sheetdesk_issue(other, LEN(other), 1, 0, 3, ANSWER);
    DUE("explain 0 1", sheetdesk_explain(other, LEN(other), 0, 1, ANSWER), SHEETDESK_PATH, 1, 0);
    DUE("step 0 1", sheetdesk_step(other, LEN(other), 0, 1, ANSWER), SHEETDESK_BROKEN, 1);
    DUE("explain 0 1", sheetdesk_explain(other, LEN(other), 0, 1, ANSWER), SHEETDESK_REFUSED,
        SHEETDESK_WRONG_STATE);
    DUE("stale 0", sheetdesk_stale(other, LEN(other), 0, ANSWER), SHEETDESK_OK, 1);
    DUE("stale 1", sheetdesk_stale(other, LEN(other), 1, ANSWER), SHEETDESK_OK, 0);
    DUE("stale 2", sheetdesk_stale(other, LEN(other), 2, ANSWER), SHEETDESK_REFUSED,
        SHEETDESK_OUT_OF_RANGE);
    DUE("pick", sheetdesk_pick(other, LEN(other), ANSWER), SHEETDESK_NOTHING);
    sheetdesk_open(other, LEN(other), 1, empty, LEN(empty), ANSWER);
    DUE("pick", sheetdesk_pick(other, LEN(other), ANSWER), SHEETDESK_OK, 1, 0);
    DUE("allow 1 1", sheetdesk_allow(other, LEN(other), 1, 1, ANSWER), SHEETDESK_OK, 0);
    DUE("fetch 1 1", sheetdesk_fetch(other, LEN(other), 1, 1, ANSWER), SHEETDESK_REFUSED,
        SHEETDESK_OVER_ALLOWANCE);
    DUE("allow 1 2", sheetdesk_allow(other, LEN(other), 1, 2, ANSWER), SHEETDESK_OK, 0);
    DUE("fetch 1 1", sheetdesk_fetch(other, LEN(other), 1, 1, ANSWER), SHEETDESK_OK, 3);
}

/* A writer saves a sheet without having read the other's: both lead, until one has read both. */
static void rivals(void)
{
    static uint32_t other[SHEETDESK_WORDS(1, 2, 1, 1)];
    static const uint32_t jobs[][3] = {{0, 0, 0}, {0, 0, 0}, {0, 1, 0}};
    static const uint32_t leaders[] = {1, 3, 1};
    uint32_t save;

    sheetdesk_new(other, LEN(other), 1, 2, 1, 1, ANSWER);
    for (save = 0; save < 3; save++) {
        sheetdesk_open(other, LEN(other), 0, jobs[save], 3, ANSWER);
        sheetdesk_step(other, LEN(other), 0, 0, ANSWER);
        sheetdesk_issue(other, LEN(other), 0, save % 2, 1, ANSWER);
        DUE("look 0 0 0", sheetdesk_look(other, LEN(other), 0, 0, 0, ANSWER), SHEETDESK_OK,
            save + 1, leaders[save], 1 + save / 2, save > 0, SHEETDESK_EQUAL);
    }
}

/* Sheets 0 and 1 are saved together, so each needs the other: office 0 loses both with the right to
 * hold sheet 0. Then the writer loses the right to save sheet 1. */
static void rights(void)
{
    static uint32_t other[SHEETDESK_WORDS(2, 1, 1, 1)];
    static const uint32_t empty[] = {0, 0, 0};

    DUE("new 2 1 1 1", sheetdesk_new(other, LEN(other), 2, 1, 1, 1, ANSWER), SHEETDESK_OK, 80);
    sheetdesk_open(other, LEN(other), 0, empty, LEN(empty), ANSWER);
    sheetdesk_step(other, LEN(other), 0, 0, ANSWER);
    sheetdesk_issue(other, LEN(other), 0, 0, 3, ANSWER);
    DUE("fetch 0 1", sheetdesk_fetch(other, LEN(other), 0, 1, ANSWER), SHEETDESK_OK, 3);
    DUE("mayhold 0 2", sheetdesk_mayhold(other, LEN(other), 0, 2, ANSWER), SHEETDESK_OK, 0);
    DUE("look 1 0 1", sheetdesk_look(other, LEN(other), 1, 0, 1, ANSWER), SHEETDESK_REFUSED,
        SHEETDESK_NOT_HELD);
    DUE("fetch 0 1", sheetdesk_fetch(other, LEN(other), 0, 1, ANSWER), SHEETDESK_REFUSED,
        SHEETDESK_NO_RIGHT);
    DUE("mayhold 0 3", sheetdesk_mayhold(other, LEN(other), 0, 3, ANSWER), SHEETDESK_OK, 0);
    DUE("fetch 0 1", sheetdesk_fetch(other, LEN(other), 0, 1, ANSWER), SHEETDESK_OK, 3);
    DUE("maysave 0 1", sheetdesk_maysave(other, LEN(other), 0, 1, ANSWER), SHEETDESK_OK, 0);
    sheetdesk_open(other, LEN(other), 0, empty, LEN(empty), ANSWER);
    sheetdesk_step(other, LEN(other), 0, 0, ANSWER);
    DUE("issue 0 0 2", sheetdesk_issue(other, LEN(other), 0, 0, 2, ANSWER), SHEETDESK_REFUSED,
        SHEETDESK_NO_RIGHT);
    DUE("issue 0 0 1", sheetdesk_issue(other, LEN(other), 0, 0, 1, ANSWER), SHEETDESK_OK, 2);
}

#define OTHER other, LEN(other)

/* Offices 0 and 1 have two versions of sheet 0. A run reads one on each line, so that they can't be
 * joined. The next one reads on line 0 alone, and is joined. */
static void lines(void)
{
    static uint32_t other[SHEETDESK_WORDS(2, 1, 2, 2)];
    static const uint32_t empty[] = {0, 0, 0};
    static const uint32_t both[] = {0, 1, 0, 1, 1, 0};
    static const uint32_t one[] = {0, 1, 0, 0, 0, 0};
    uint32_t office;

    DUE("new 2 1 2 2", sheetdesk_new(OTHER, 2, 1, 2, 2, ANSWER), SHEETDESK_OK, 137);
    for (office = 0; office < 2; office++) {
        sheetdesk_open(OTHER, 0, empty, LEN(empty), ANSWER);
        sheetdesk_step(OTHER, 0, 0, ANSWER);
        sheetdesk_issue(OTHER, 0, 0, 1, ANSWER);
        DUE("fetch of sheet 0", sheetdesk_fetch(OTHER, office, 0, ANSWER), SHEETDESK_OK, 1);
    }
    sheetdesk_open(OTHER, 0, both, LEN(both), ANSWER);
    DUE("step 0 1 1", sheetdesk_step_on(OTHER, 0, 1, 1, ANSWER), SHEETDESK_REFUSED,
        SHEETDESK_WRONG_LINE);
    DUE("fork 0", sheetdesk_fork(OTHER, 0, ANSWER), SHEETDESK_OK, 0);
    DUE("step 0 0", sheetdesk_step(OTHER, 0, 0, ANSWER), SHEETDESK_OK, 0, 1, 0);
    DUE("explain 0 1 1", sheetdesk_explain_on(OTHER, 0, 1, 1, ANSWER), SHEETDESK_CLEAR);
    DUE("step 0 1 1", sheetdesk_step_on(OTHER, 0, 1, 1, ANSWER), SHEETDESK_OK, 0, 1, 0);
    DUE("issue 0 0 2", sheetdesk_issue(OTHER, 0, 0, 2, ANSWER), SHEETDESK_REFUSED,
        SHEETDESK_WRONG_LINE);
    DUE("join 0", sheetdesk_join(OTHER, 0, ANSWER), SHEETDESK_BROKEN, 1);
    sheetdesk_drop(OTHER, 0, ANSWER);
    sheetdesk_open(OTHER, 0, one, LEN(one), ANSWER);
    sheetdesk_fork(OTHER, 0, ANSWER);
    DUE("step 0 0 0", sheetdesk_step_on(OTHER, 0, 0, 0, ANSWER), SHEETDESK_OK, 0, 1, 0);
    DUE("step 0 1 1", sheetdesk_step_on(OTHER, 0, 1, 1, ANSWER), SHEETDESK_OK, 0, 0, 0);
    DUE("join 0", sheetdesk_join(OTHER, 0, ANSWER), SHEETDESK_OK, 0);
    DUE("issue 0 0 2", sheetdesk_issue(OTHER, 0, 0, 2, ANSWER), SHEETDESK_OK, 3);
}

/* Office 0 has an older sheet 0 than the one that sheet 1 needs, so a run that reads both would break,
 * or find no room; once office 0 has fetched again it goes through, and leaves what was foretold. */
static void foretold(void)
{
    static uint32_t other[SHEETDESK_WORDS(2, 1, 2, 1)], scratch[LEN(other)];
    static const uint32_t empty[] = {0, 0, 0};
    static const uint32_t two[] = {0, 1, 0, 1, 2, 0};
    uint32_t save;

    sheetdesk_new(OTHER, 2, 1, 2, 1, ANSWER);
    for (save = 1; save <= 3; save += 2) {
        sheetdesk_open(OTHER, 0, empty, LEN(empty), ANSWER);
        sheetdesk_step(OTHER, 0, 0, ANSWER);
        sheetdesk_issue(OTHER, 0, 0, save, ANSWER);
        if (save == 1)
            sheetdesk_fetch(OTHER, 0, 0, ANSWER);
    }
    DUE("forecast of a free run", sheetdesk_forecast(OTHER, scratch, LEN(scratch), 0, ANSWER),
        SHEETDESK_REFUSED, SHEETDESK_WRONG_STATE);
    sheetdesk_open(OTHER, 0, two, LEN(two), ANSWER);
    DUE("forecast, too short", sheetdesk_forecast(OTHER, scratch, LEN(scratch) - 1, 0, ANSWER),
        SHEETDESK_REFUSED, SHEETDESK_NOT_IN_FORM);
    DUE("forecast 0", sheetdesk_forecast(OTHER, scratch, LEN(scratch), 0, ANSWER),
        SHEETDESK_BREAKS, 1, 1);
    sheetdesk_allow(OTHER, 1, 1, ANSWER);
    DUE("forecast 0", sheetdesk_forecast(OTHER, scratch, LEN(scratch), 0, ANSWER),
        SHEETDESK_TURNED, 1, SHEETDESK_OVER_ALLOWANCE);
    sheetdesk_fetch(OTHER, 0, 0, ANSWER);
    DUE("forecast 0", sheetdesk_forecast(OTHER, scratch, LEN(scratch), 0, ANSWER),
        SHEETDESK_THROUGH);
    DUE("step 0 0", sheetdesk_step(OTHER, 0, 0, ANSWER), SHEETDESK_OK, 0, 1, 0);
    DUE("step 0 1", sheetdesk_step(OTHER, 0, 1, ANSWER), SHEETDESK_OK, 2, 0, 0);
    wrong |= memcmp(other, scratch, sizeof other) != 0;
}

/* A desk that is copied, as to a file and back, is admitted; one whose last issue number is behind
 * isn't, though it is in form and other calls work on it. */
static void read_back(void)
{
    static uint32_t back[LEN(desk)];

    memcpy(back, desk, sizeof back);
    DUE("admit", sheetdesk_admit(back, LEN(back), ANSWER), SHEETDESK_OK, 0);
    back[4] = 0; /* the last issue number: behind those of the versions */
    DUE("admit, damaged", sheetdesk_admit(back, LEN(back), ANSWER), SHEETDESK_REFUSED,
        SHEETDESK_NOT_ADMITTED);
    DUE("drop 0, damaged", sheetdesk_drop(back, LEN(back), 0, ANSWER), SHEETDESK_REFUSED,
        SHEETDESK_WRONG_STATE);
    back[9] = 0; /* the total */
    DUE("admit, not in form", sheetdesk_admit(back, LEN(back), ANSWER), SHEETDESK_REFUSED,
        SHEETDESK_NOT_IN_FORM);
}

/* The first calls of case A as a text, with an `out` that has room for one answer or two at once.
 * The last line lacks its line feed, so it isn't taken. */
static void text_of_calls(void)
{
    static const char text[] = "new 2 2 2 1\nopen 0 0 0 0\nstep 0 0\nissue 0 0 3\nfetch 0 0\n"
                               "no call\nforecast 0\nstale 0";
    static const char due_text[] = "ok 119\nok 1\nok 0 0 0\nok 1\nok 3\nunread\nrefused 4\n";
    static uint32_t other[SHEETDESK_WORDS(2, 2, 2, 1)], scratch[LEN(other)];
    uint8_t out[SHEETDESK_LINE_ROOM + 8];
    char answers[100];
    size_t counts[2], from, length = 0;

    for (from = 0; from < strlen(text); from += counts[0]) {
        sheetdesk_script(OTHER, (const uint8_t *)text + from, strlen(text) - from, out, LEN(out),
                         scratch, LEN(scratch), counts, LEN(counts));
        if (counts[0] == 0)
            break;
        memcpy(answers + length, out, counts[1]);
        length += counts[1];
    }
    wrong |= strcmp(text + from, "stale 0") != 0;
    wrong |= length != strlen(due_text) || memcmp(answers, due_text, length) != 0;
    printf("%.*s", (int)length, answers);
}

int main(void)
{
    case_a();
    besides();
    read_back();
    explained();
    rivals();
    rights();
    lines();
    foretold();
    text_of_calls();
    puts(wrong ? "example.c: wrong answers" : "example.c: case A answered as written");
    return wrong;
}
