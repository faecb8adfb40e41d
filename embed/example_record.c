/* A product that writes a record beside its calls, and audits it: for each issue what the run had
 * read, as look tells it before the issue. Then an issue of a client that had kept too old a sheet.
 * Ends with 1 if an answer is not as written. */
#include <stdio.h>
#include <string.h>

#include "sheetdesk.h"

enum { SHEETS = 2, WRITERS = 2, HEADER = 7, ISSUE = 4, READ = 1 + WRITERS };
/* Room for so many. */
enum { ISSUES = 16, READS = ISSUES * SHEETS };

/* What a product keeps from the desk's new on. */
struct history {
    uint32_t issues[ISSUES][ISSUE], issue_count;
    uint32_t reads[READS][READ], read_count;
};

static uint32_t desk[SHEETDESK_WORDS(SHEETS, WRITERS, 2, 1)];
static uint32_t answer[SHEETDESK_ANSWER_WORDS];
static struct history history;

#define LEN(array) (sizeof(array) / sizeof((array)[0]))
#define DESK desk, LEN(desk)
#define ANSWER answer, LEN(answer)

/* Keeps a read: the sheet, and its version's own clock. */
static void keep_read(uint32_t sheet, const uint32_t *clock)
{
    uint32_t *read = history.reads[history.read_count++];

    read[0] = sheet;
    memcpy(read + 1, clock, WRITERS * sizeof *clock);
}

/* Keeps an issue, whose reads are those since `first`. */
static void keep_issue(uint32_t writer, uint32_t mask, uint32_t first)
{
    uint32_t *issue = history.issues[history.issue_count++];

    issue[0] = writer;
    issue[1] = mask;
    issue[2] = first;
    issue[3] = history.read_count - first;
}

/* Issues the run, whose jobs have read these sheets. What is refused or saves nothing is no issue:
 * its reads are forgotten. Whether it was answered so. */
static int issue(uint32_t run, uint32_t writer, uint32_t mask, uint32_t read, uint32_t outcome,
                 uint32_t number)
{
    uint32_t sheet, first = history.read_count;

    for (sheet = 0; sheet < SHEETS; sheet++)
        if (read >> sheet & 1) {
            /* Ok, the issue number, the leading writers, then the clock. */
            sheetdesk_look(DESK, 2, run, sheet, ANSWER);
            keep_read(sheet, answer + 3);
        }
    sheetdesk_issue(DESK, run, writer, mask, ANSWER);
    if (answer[0] == SHEETDESK_OK && mask != 0)
        keep_issue(writer, mask, first);
    else
        history.read_count = first;
    return answer[0] == outcome && answer[1] == number;
}

/* A run of one job at office 0. */
static int work(uint32_t reads, uint32_t writer, uint32_t mask, uint32_t number)
{
    const uint32_t job[] = {0, reads, 0};

    sheetdesk_open(DESK, 0, job, LEN(job), ANSWER);
    sheetdesk_step(DESK, 0, 0, ANSWER);
    return issue(0, writer, mask, reads, SHEETDESK_OK, number);
}

/* Audits the record of what was kept, without its last words; whether it is answered so. */
static int audited(uint32_t without, uint32_t outcome, uint32_t number)
{
    static uint32_t record[HEADER + ISSUES * ISSUE + READS * READ];
    uint32_t reads_from = HEADER + ISSUE * history.issue_count;
    uint32_t total = reads_from + READ * history.read_count;
    const uint32_t header[HEADER] = {
        SHEETS, WRITERS, history.issue_count, history.read_count, HEADER, reads_from, total};

    memcpy(record, header, sizeof header);
    memcpy(record + HEADER, history.issues, ISSUE * history.issue_count * sizeof *record);
    memcpy(record + reads_from, history.reads, READ * history.read_count * sizeof *record);
    return sheetdesk_audit(record, total - without, ANSWER) == 2 && answer[0] == outcome
        && answer[1] == number;
}

int main(void)
{
    static const uint32_t old[] = {1, 0}, needed[] = {2, 0}, newest[] = {1, 2};
    int good;

    sheetdesk_new(DESK, SHEETS, WRITERS, 2, 1, ANSWER);
    good = audited(0, SHEETDESK_OK, 0);
    /* The two issues of case A; then writer 0 saves sheet 0 again, and writer 1 has read that save
     * when it saves sheet 1. */
    good &= work(0, 0, 3, 1);
    sheetdesk_fetch(DESK, 0, 0, ANSWER);
    good &= work(1, 1, 2, 2) && work(1, 0, 1, 3);
    sheetdesk_fetch(DESK, 0, 0, ANSWER);
    good &= work(1, 1, 2, 4) && work(3, 0, 0, 0);
    good &= issue(0, 0, 1, 1, SHEETDESK_REFUSED, SHEETDESK_WRONG_STATE);
    good &= history.issue_count == 4 && history.read_count == 3 && audited(0, SHEETDESK_OK, 0);
    /* A client elsewhere has the newest sheet 1 with the first sheet 0. */
    keep_read(0, old);
    keep_read(1, newest);
    keep_issue(0, 1, 3);
    good &= audited(0, SHEETDESK_OK, 5) && audited(1, SHEETDESK_REFUSED, SHEETDESK_NOT_READABLE);
    /* With the sheet 0 that is needed it is a snapshot. */
    memcpy(history.reads[3] + 1, needed, sizeof needed);
    good &= audited(0, SHEETDESK_OK, 0);
    printf("example_record.c: %s\n", good ? "the record audited as written" : "wrong answers");
    return good ? 0 : 1;
}
