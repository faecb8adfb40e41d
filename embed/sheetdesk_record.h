/* Recording for C: the calls of sheetdesk.h with one argument more in front, which takes each call
 * with its answer as the program's own two lines of text. A product that writes them to a file has
 * a log that replays: ./sheetdesk --replay LOG; --shrink and --page take it too.
 *
 *     static void take(void *file, const char *text, size_t length)
 *     {
 *         fwrite(text, 1, length, file);
 *     }
 *     ..
 *     struct sheetdesk_record record = {take, file};
 *     sheetdesk_fetch_recorded(&record, desk, desk_len, 0, 1, answer, answer_len);
 *
 * hands over "fetch 0 1\nok 3\n". With a null pointer for the record, or for its `take`, nothing is
 * recorded, and the call is the plain one; so a product can have it off until somebody asks.
 *
 * Nothing is allocated and nothing of the C library is used: the text stands on the stack, in
 * SHEETDESK_RECORD_BYTES, and is the caller's until `take` returns; it ends with a line end and has
 * no zero behind it. `take` is called once for each call, after it, and not for one that got too
 * short a slice for its answer (nothing happened). One log is for one desk, from its new on: the
 * words of a desk that was read back aren't in it, so it doesn't replay without what was recorded
 * before. An open with more than SHEETDESK_RECORD_JOBS numbers is recorded with so many of them:
 * over 8 jobs, it is refused whatever the others are, for the same cause. A forecast that is refused
 * with 1 isn't recorded: its scratch may have been too short, and a replay's never is. An audit isn't
 * either: it is no call on a desk, and a line has 400 bytes.
 *
 * sheetdesk_script_recorded hands over each line that was taken, as it stands in the text, with its
 * answer, one after the other, once all calls are made. The same two are left out, and so are lines
 * that are answered `unread`: they made no call.
 */
#ifndef SHEETDESK_RECORD_H
#define SHEETDESK_RECORD_H

#include "sheetdesk.h"

/* The length of a text that holds any call with its answer. */
#define SHEETDESK_RECORD_BYTES 1024
/* The numbers of an open's list that are recorded, at most: 9 jobs. */
#define SHEETDESK_RECORD_JOBS 27

/* Who takes the text, and what is handed to it with each. */
struct sheetdesk_record {
    void (*take)(void *context, const char *text, size_t length);
    void *context;
};

/* A text in the making. */
struct sheetdesk_text {
    char bytes[SHEETDESK_RECORD_BYTES];
    size_t length;
};

static inline void sheetdesk_put(struct sheetdesk_text *text, const char *word)
{
    while (*word != 0 && text->length < SHEETDESK_RECORD_BYTES)
        text->bytes[text->length++] = *word++;
}

/* Each number behind a space. */
static inline void sheetdesk_put_numbers(struct sheetdesk_text *text, const uint32_t *numbers,
                                         size_t count)
{
    char digits[12];
    uint32_t rest;
    size_t place, at;

    for (place = 0; place < count; place++) {
        at = sizeof digits - 1;
        digits[at] = 0;
        rest = numbers[place];
        do {
            digits[--at] = (char)('0' + rest % 10);
            rest /= 10;
        } while (rest != 0);
        digits[--at] = ' ';
        sheetdesk_put(text, digits + at);
    }
}

/* Hands over a call, its numbers and those of a list, and its answer of so many words; gives back
 * their number. */
static inline uint32_t sheetdesk_hand(const struct sheetdesk_record *record, const char *name,
                                      const uint32_t *numbers, size_t count, const uint32_t *list,
                                      size_t list_len, const uint32_t *answer, uint32_t words)
{
    static const char *const first[] = {"ok", "broken", "refused", "clear", "path",
                                        "nothing", "through", "breaks", "turned"};
    struct sheetdesk_text text;

    if (record == NULL || record->take == NULL || words == 0)
        return words;
    text.length = 0;
    sheetdesk_put(&text, name);
    sheetdesk_put_numbers(&text, numbers, count);
    if (list_len > SHEETDESK_RECORD_JOBS)
        list_len = SHEETDESK_RECORD_JOBS;
    sheetdesk_put_numbers(&text, list, list_len);
    sheetdesk_put(&text, "\n");
    sheetdesk_put(&text, answer[0] < sizeof first / sizeof first[0] ? first[answer[0]] : "?");
    sheetdesk_put_numbers(&text, answer + 1, words - 1);
    sheetdesk_put(&text, "\n");
    record->take(record->context, text.bytes, text.length);
    return words;
}

/* A call of a desk and numbers, a line each below: its name, how it takes the desk, how many
 * numbers there are, and what they are. */
#define SHEETDESK_TAKES_1(a) uint32_t a
#define SHEETDESK_TAKES_2(a, b) uint32_t a, uint32_t b
#define SHEETDESK_TAKES_3(a, b, c) uint32_t a, uint32_t b, uint32_t c
#define SHEETDESK_TAKES_4(a, b, c, d) uint32_t a, uint32_t b, uint32_t c, uint32_t d
#define SHEETDESK_RECORDED(name, word, count, ...) \
    SHEETDESK_RECORDED_AS(#name, name, word, count, __VA_ARGS__)

/* The same for a call whose line begins with another word. */
#define SHEETDESK_RECORDED_AS(first, name, word, count, ...) \
    static inline uint32_t sheetdesk_##name##_recorded( \
        const struct sheetdesk_record *record, word *desk, size_t desk_len, \
        SHEETDESK_TAKES_##count(__VA_ARGS__), uint32_t *answer, size_t answer_len) \
    { \
        const uint32_t numbers[] = {__VA_ARGS__}; \
\
        return sheetdesk_hand(record, first, numbers, count, numbers, 0, answer, \
                              sheetdesk_##name(desk, desk_len, __VA_ARGS__, answer, answer_len)); \
    }

/* The same without a number. */
#define SHEETDESK_RECORDED_ALONE(name, word) \
    static inline uint32_t sheetdesk_##name##_recorded( \
        const struct sheetdesk_record *record, word *desk, size_t desk_len, uint32_t *answer, \
        size_t answer_len) \
    { \
        return sheetdesk_hand(record, #name, NULL, 0, NULL, 0, answer, \
                              sheetdesk_##name(desk, desk_len, answer, answer_len)); \
    }

SHEETDESK_RECORDED(new, uint32_t, 4, k, w, n, p)
SHEETDESK_RECORDED(fetch, uint32_t, 2, office, sheet)
SHEETDESK_RECORDED(evict, uint32_t, 2, office, sheet)
SHEETDESK_RECORDED(prepare, uint32_t, 1, run)
SHEETDESK_RECORDED(step, uint32_t, 2, run, job)
SHEETDESK_RECORDED(explain, const uint32_t, 2, run, job)
SHEETDESK_RECORDED(issue, uint32_t, 3, run, writer, mask)
SHEETDESK_RECORDED(drop, uint32_t, 1, run)
SHEETDESK_RECORDED(look, const uint32_t, 3, place, number, sheet)
SHEETDESK_RECORDED(stale, const uint32_t, 1, office)
SHEETDESK_RECORDED_ALONE(admit, const uint32_t)
SHEETDESK_RECORDED(allow, uint32_t, 2, office, number)
SHEETDESK_RECORDED_ALONE(pick, uint32_t)
SHEETDESK_RECORDED(mayhold, uint32_t, 2, office, mask)
SHEETDESK_RECORDED(maysave, uint32_t, 2, writer, mask)
SHEETDESK_RECORDED(fork, uint32_t, 1, run)
SHEETDESK_RECORDED(join, uint32_t, 1, run)
SHEETDESK_RECORDED_AS("step", step_on, uint32_t, 3, run, job, line)
SHEETDESK_RECORDED_AS("explain", explain_on, const uint32_t, 3, run, job, line)

static inline uint32_t sheetdesk_open_recorded(const struct sheetdesk_record *record,
                                               uint32_t *desk, size_t desk_len, uint32_t run,
                                               const uint32_t *jobs, size_t jobs_len,
                                               uint32_t *answer, size_t answer_len)
{
    return sheetdesk_hand(record, "open", &run, 1, jobs, jobs_len, answer,
                          sheetdesk_open(desk, desk_len, run, jobs, jobs_len, answer,
                                         answer_len));
}

static inline uint32_t sheetdesk_forecast_recorded(const struct sheetdesk_record *record,
                                                   const uint32_t *desk, size_t desk_len,
                                                   uint32_t *scratch, size_t scratch_len,
                                                   uint32_t run, uint32_t *answer,
                                                   size_t answer_len)
{
    uint32_t words = sheetdesk_forecast(desk, desk_len, scratch, scratch_len, run, answer,
                                        answer_len);

    if (words == 2 && answer[0] == SHEETDESK_REFUSED && answer[1] == SHEETDESK_NOT_IN_FORM)
        return words;
    return sheetdesk_hand(record, "forecast", &run, 1, NULL, 0, answer, words);
}

/* A line with its line feed. */
static inline void sheetdesk_put_line(struct sheetdesk_text *text, const uint8_t *line)
{
    while (*line != '\n' && text->length < SHEETDESK_RECORD_BYTES)
        text->bytes[text->length++] = (char)*line++;
    sheetdesk_put(text, "\n");
}

/* Whether the line begins with the word, which has no line feed. */
static inline int sheetdesk_begins(const uint8_t *line, const char *word)
{
    while (*word != 0 && *line == (uint8_t)*word) {
        line++;
        word++;
    }
    return *word == 0;
}

/* Whether a line with this answer is recorded. */
static inline int sheetdesk_is_kept(const uint8_t *line, const uint8_t *answer)
{
    if (sheetdesk_begins(line, "audit") || sheetdesk_begins(answer, "unread"))
        return 0;
    return !(sheetdesk_begins(line, "forecast") && sheetdesk_begins(answer, "refused 1\n"));
}

/* The line behind this one. */
static inline const uint8_t *sheetdesk_next_line(const uint8_t *line)
{
    while (*line != '\n')
        line++;
    return line + 1;
}

static inline uint32_t sheetdesk_script_recorded(const struct sheetdesk_record *record,
                                                 uint32_t *desk, size_t desk_len,
                                                 const uint8_t *text, size_t text_len,
                                                 uint8_t *out, size_t out_len,
                                                 uint32_t *scratch, size_t scratch_len,
                                                 size_t *counts, size_t counts_len)
{
    uint32_t laid = sheetdesk_script(desk, desk_len, text, text_len, out, out_len, scratch,
                                     scratch_len, counts, counts_len);
    const uint8_t *line = text, *answer = out;
    struct sheetdesk_text both;

    if (record == NULL || record->take == NULL || laid == 0)
        return laid;
    for (; line < text + counts[0]; line = sheetdesk_next_line(line)) {
        if (sheetdesk_is_kept(line, answer)) {
            both.length = 0;
            sheetdesk_put_line(&both, line);
            sheetdesk_put_line(&both, answer);
            record->take(record->context, both.bytes, both.length);
        }
        answer = sheetdesk_next_line(answer);
    }
    return laid;
}

#endif
