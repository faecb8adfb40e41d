/* A desk in a file through sheetdesk_file.h, for tests/saved.sh; desk.rs and desk.py do the same:
 *   sum               CRC-32C of standard input
 *   load FILE..       a line for each: "ok" and the last issue number, or the fault's message
 *   save FROM TO      loads one file and saves another; 1 and a message if that fails
 *   saves FILE        loads it; then without end issues a sheet and saves, and tells "start N", "done N"
 *   adds FILE RUN N   N times: takes the lock, loads, issues a sheet by that run, saves, lets go; tells each number
 */
#include <stdio.h>

#include "../../embed/sheetdesk_file.h"

/* What `load` lends. */
#define LENT 4096

static uint32_t desk[SHEETDESK_MOST_WORDS];
static char message[SHEETDESK_MESSAGE_BYTES];

static int failed(const char *path)
{
    printf("%s: %s\n", path, message);
    return 1;
}

static uint32_t issue(uint32_t run)
{
    const uint32_t job[3] = {0, 0, 0};
    uint32_t answer[SHEETDESK_ANSWER_WORDS];

    sheetdesk_open(desk, SHEETDESK_MOST_WORDS, run, job, 3, answer, SHEETDESK_ANSWER_WORDS);
    sheetdesk_step(desk, SHEETDESK_MOST_WORDS, run, 0, answer, SHEETDESK_ANSWER_WORDS);
    sheetdesk_issue(desk, SHEETDESK_MOST_WORDS, run, 0, 1, answer, SHEETDESK_ANSWER_WORDS);
    return answer[0] == SHEETDESK_OK ? answer[1] : 0;
}

static int sum(void)
{
    static unsigned char bytes[1 << 20];
    size_t count = fread(bytes, 1, sizeof bytes, stdin);

    printf("%08x\n", (unsigned)sheetdesk_crc32c(0, bytes, count));
    /* In two parts it is the same. */
    return sheetdesk_crc32c(sheetdesk_crc32c(0, bytes, count / 2), bytes + count / 2,
                            count - count / 2) != sheetdesk_crc32c(0, bytes, count);
}

static int load(int count, char **paths)
{
    int at;

    for (at = 0; at < count; at++) {
        desk[4] = 77;
        if (sheetdesk_load(paths[at], desk, LENT, message) == 0)
            printf("ok %u\n", (unsigned)desk[4]);
        else if (!sheetdesk_is_zero(desk, LENT))
            printf("ok: something is handed out\n");
        else
            printf("%s\n", message);
    }
    return 0;
}

static int saves(const char *path)
{
    uint32_t number;

    if (sheetdesk_load(path, desk, SHEETDESK_MOST_WORDS, message) != 0)
        return failed(path);
    for (;;) {
        number = issue(0);
        printf("start %u\n", (unsigned)number);
        fflush(stdout);
        if (sheetdesk_save(path, desk, SHEETDESK_MOST_WORDS, message) != 0)
            return failed(path);
        printf("done %u\n", (unsigned)number);
        fflush(stdout);
    }
}

static int adds(const char *path, uint32_t run, int count)
{
    uint32_t number;
    int lock;

    while (count-- > 0) {
        lock = sheetdesk_lock(path, 60, message);
        if (lock < 0 || sheetdesk_load(path, desk, SHEETDESK_MOST_WORDS, message) != 0)
            return failed(path);
        number = issue(run);
        if (sheetdesk_save(path, desk, SHEETDESK_MOST_WORDS, message) != 0)
            return failed(path);
        printf("%u\n", (unsigned)number);
        close(lock);
    }
    return 0;
}

int main(int count, char **words)
{
    const char *mode = count > 1 ? words[1] : "";

    if (strcmp(mode, "sum") == 0)
        return sum();
    if (strcmp(mode, "load") == 0)
        return load(count - 2, words + 2);
    if (strcmp(mode, "saves") == 0 && count == 3)
        return saves(words[2]);
    if (strcmp(mode, "adds") == 0 && count == 5)
        return adds(words[2], (uint32_t)atoi(words[3]), atoi(words[4]));
    if (strcmp(mode, "save") != 0 || count != 4)
        return 2;
    if (sheetdesk_load(words[2], desk, SHEETDESK_MOST_WORDS, message) != 0)
        return failed(words[2]);
    return sheetdesk_save(words[3], desk, SHEETDESK_MOST_WORDS, message) != 0 ? failed(words[3]) : 0;
}
