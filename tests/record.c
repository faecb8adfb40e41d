/* A script's calls through the recording header, over as many words as the program lends: `record` writes what is handed over
 * to standard output; `record large` does so over the words of the largest desk; `record off` makes the calls without a
 * record, `record null` with one that takes nothing. Lines that are no call are left out; over 400 bytes only if not large.
 * With `text ROOM` behind it, `record on text ROOM` and so on, the calls are made as a text, with so many bytes for answers, which
 * go to standard error; it exits 1 if they leave other words than the calls one by one. */
#include <stdio.h>
#include <stdlib.h>
#include <string.h>

#include "../embed/sheetdesk_record.h"

#define DESK record, desk, lent
#define ANSWER answer, SHEETDESK_ANSWER_WORDS

static uint32_t desk[SHEETDESK_MOST_WORDS], scratch[SHEETDESK_MOST_WORDS];
static uint32_t answer[SHEETDESK_ANSWER_WORDS];
static size_t lent = 16384;
static char script[1 << 20];
static uint32_t x[1 << 15];

static void take(void *file, const char *text, size_t length)
{
    fwrite(text, 1, length, (FILE *)file);
}

/* The numbers behind the line's first word, each behind one space; -1 if it has another form. */
static int numbers(const char *text, const char *end)
{
    int count = 0;
    uint64_t number;

    while (text < end) {
        if (*text++ != ' ' || text == end || *text < '0' || *text > '9')
            return -1;
        for (number = 0; text < end && *text >= '0' && *text <= '9'; text++)
            if ((number = 10 * number + (uint64_t)(*text - '0')) > UINT32_MAX)
                return -1;
        x[count++] = (uint32_t)number;
    }
    return count;
}

static void make(const struct sheetdesk_record *record, const char *name, int count)
{
    if (strcmp(name, "new") == 0 && count == 4)
        sheetdesk_new_recorded(DESK, x[0], x[1], x[2], x[3], ANSWER);
    else if (strcmp(name, "open") == 0 && count > 0)
        sheetdesk_open_recorded(DESK, x[0], x + 1, (size_t)count - 1, ANSWER);
    else if (strcmp(name, "fetch") == 0 && count == 2)
        sheetdesk_fetch_recorded(DESK, x[0], x[1], ANSWER);
    else if (strcmp(name, "evict") == 0 && count == 2)
        sheetdesk_evict_recorded(DESK, x[0], x[1], ANSWER);
    else if (strcmp(name, "prepare") == 0 && count == 1)
        sheetdesk_prepare_recorded(DESK, x[0], ANSWER);
    else if (strcmp(name, "step") == 0 && count == 2)
        sheetdesk_step_recorded(DESK, x[0], x[1], ANSWER);
    else if (strcmp(name, "step") == 0 && count == 3)
        sheetdesk_step_on_recorded(DESK, x[0], x[1], x[2], ANSWER);
    else if (strcmp(name, "explain") == 0 && count == 2)
        sheetdesk_explain_recorded(DESK, x[0], x[1], ANSWER);
    else if (strcmp(name, "explain") == 0 && count == 3)
        sheetdesk_explain_on_recorded(DESK, x[0], x[1], x[2], ANSWER);
    else if (strcmp(name, "issue") == 0 && count == 3)
        sheetdesk_issue_recorded(DESK, x[0], x[1], x[2], ANSWER);
    else if (strcmp(name, "drop") == 0 && count == 1)
        sheetdesk_drop_recorded(DESK, x[0], ANSWER);
    else if (strcmp(name, "look") == 0 && count == 3)
        sheetdesk_look_recorded(DESK, x[0], x[1], x[2], ANSWER);
    else if (strcmp(name, "stale") == 0 && count == 1)
        sheetdesk_stale_recorded(DESK, x[0], ANSWER);
    else if (strcmp(name, "admit") == 0 && count == 0)
        sheetdesk_admit_recorded(DESK, ANSWER);
    else if (strcmp(name, "allow") == 0 && count == 2)
        sheetdesk_allow_recorded(DESK, x[0], x[1], ANSWER);
    else if (strcmp(name, "pick") == 0 && count == 0)
        sheetdesk_pick_recorded(DESK, ANSWER);
    else if (strcmp(name, "mayhold") == 0 && count == 2)
        sheetdesk_mayhold_recorded(DESK, x[0], x[1], ANSWER);
    else if (strcmp(name, "maysave") == 0 && count == 2)
        sheetdesk_maysave_recorded(DESK, x[0], x[1], ANSWER);
    else if (strcmp(name, "fork") == 0 && count == 1)
        sheetdesk_fork_recorded(DESK, x[0], ANSWER);
    else if (strcmp(name, "join") == 0 && count == 1)
        sheetdesk_join_recorded(DESK, x[0], ANSWER);
    else if (strcmp(name, "forecast") == 0 && count == 1)
        sheetdesk_forecast_recorded(DESK, scratch, lent, x[0], ANSWER);
    else if (strcmp(name, "audit") == 0 && count >= 0)
        sheetdesk_audit(x, (size_t)count, ANSWER);
}

static void one_by_one(const struct sheetdesk_record *record, size_t length)
{
    const char *end, *next, *from = script;
    char name[16];

    for (; from < script + length; from = end + 1) {
        if ((end = memchr(from, '\n', (size_t)(script + length - from))) == NULL)
            end = script + length;
        for (next = from; next < end && next < from + 15 && *next >= 'a' && *next <= 'z'; next++)
            name[next - from] = *next;
        name[next - from] = 0;
        if (end - from <= 400 || lent > 16384)
            make(record, name, numbers(next, end));
    }
}

/* As the header shows it. What is left is the last line: it gets its line feed. */
static void as_text(const struct sheetdesk_record *record, size_t length, size_t room)
{
    uint8_t *text = (uint8_t *)script, *out = malloc(room);
    size_t from, counts[2];

    if (length > 0 && text[length - 1] != '\n')
        text[length++] = '\n';
    for (from = 0; from < length; from += counts[0]) {
        sheetdesk_script_recorded(record, desk, lent, text + from, length - from, out, room, scratch, lent, counts, 2);
        if (counts[0] == 0)
            exit(2);
        fwrite(out, 1, counts[1], stderr);
    }
    free(out);
}

int main(int argc, char **argv)
{
    static uint32_t left[SHEETDESK_MOST_WORDS];
    struct sheetdesk_record record;
    const struct sheetdesk_record *used = &record;
    const char *mode = argc > 1 ? argv[1] : "";
    size_t length = fread(script, 1, sizeof script - 1, stdin);

    record.take = strcmp(mode, "null") == 0 ? NULL : take;
    record.context = stdout;
    if (strcmp(mode, "off") == 0)
        used = NULL;
    if (strcmp(mode, "large") == 0)
        lent = SHEETDESK_MOST_WORDS;
    if (argc < 4) {
        one_by_one(used, length);
        return 0;
    }
    as_text(used, length, (size_t)atol(argv[3]));
    memcpy(left, desk, sizeof left);
    memset(desk, 0, sizeof desk);
    one_by_one(NULL, length);
    return memcmp(left, desk, sizeof left) != 0;
}
