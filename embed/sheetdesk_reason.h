/* Why a call is refused, in words, for messages and logs:
 *
 *     sheetdesk_reason("fetch", 7)    the master does not hold a sheet to be fetched
 *     sheetdesk_reason("look 1", 8)   the shelf does not hold the sheet: fetch it
 *     sheetdesk_reason("", 8)         the sheet is not held there
 *
 * The call is its word, or the program's line of text; "" if it isn't known, and then the words are
 * those that fit any. A null pointer for a number that isn't in the table: the library is newer.
 *
 * The command (--echo) and the pages (--page) have their words from this table too, which they read
 * as text: a row is one line.
 */
#ifndef SHEETDESK_REASON_H
#define SHEETDESK_REASON_H

#include <stddef.h>
#include <stdint.h>

/* Whether a row with these calls is for this call: "*" is for any that is known, "" for all;
 * otherwise the call begins with one of them, which have a comma between each other. */
static inline int sheetdesk_is_for(const char *calls, const char *call)
{
    size_t at;

    if (calls[0] == 0 || call[0] == 0)
        return calls[0] == 0;
    if (calls[0] == '*')
        return 1;
    for (;;) {
        for (at = 0; calls[at] != 0 && calls[at] != ',' && calls[at] == call[at]; at++) {
        }
        if ((calls[at] == 0 || calls[at] == ',') && (call[at] == 0 || call[at] == ' '))
            return 1;
        while (*calls != 0 && *calls != ',')
            calls++;
        if (*calls++ == 0)
            return 0;
    }
}

/* The reason of the first row with the number that is for the call. */
static inline const char *sheetdesk_reason(const char *call, uint32_t number)
{
    static const struct {
        uint32_t number;
        const char *calls, *reason;
    } table[] = {
        {1, "new", "the desk has no room for so many"},
        {1, "*", "there is no desk yet"},
        {1, "", "the words are too few, or hold no desk in form"},
        {2, "", "a count is out of range (1 to 32 sheets, 16 writers, 8 offices, 8 runs)"},
        {3, "fetch,evict", "there is no such office or sheet"},
        {3, "stale", "there is no such office"},
        {3, "allow", "there is no such office, or the allowance is over the number of sheets"},
        {3, "mayhold", "there is no such office, or the mask names a sheet that there isn't"},
        {3, "maysave", "there is no such writer, or the mask names a sheet that there isn't"},
        {3, "step,explain", "there is no such run or job"},
        {3, "issue", "there is no such run or writer, or the mask names a sheet that there isn't"},
        {3, "look", "there is no such place, number or sheet (the master's number is 0)"},
        {3, "open,prepare,drop,fork,join,forecast", "there is no such run"},
        {3, "", "there is no such office, sheet, writer, run, place or job"},
        {4, "open", "the run is not free"},
        {4, "drop", "the run is free: nothing to do"},
        {4, "*", "the run is not open: it is free, or broken"},
        {4, "", "the run is not in the state needed"},
        {5, "", "the list of jobs is not valid"},
        {6, "prepare", "a job of the run is done: prepare comes before the first step"},
        {6, "issue", "a job of the run is not done"},
        {6, "*", "the job is done already, or one that it waits for is not done"},
        {6, "", "a job of the run is done, or one that must be is not"},
        {7, "", "the master does not hold a sheet to be fetched"},
        {8, "evict", "the shelf does not hold the sheet: nothing to do"},
        {8, "look 1", "the shelf does not hold the sheet: fetch it"},
        {8, "look 2", "the card does not hold the sheet: step or prepare brings it"},
        {8, "look", "the master does not hold the sheet: issue it"},
        {8, "", "the sheet is not held there"},
        {9, "", "the last issue number is the largest"},
        {10, "", "the writer's count is the largest"},
        {11, "", "the desk is in form, but no calls can have left it"},
        {12, "allow", "the shelf holds more sheets than that: evict some first"},
        {12, "*", "a shelf would hold more than its allowance: evict there, or allow more"},
        {12, "", "a shelf would hold more sheets than its allowance"},
        {13, "issue", "the writer may not save a sheet of the mask: maysave gives the right"},
        {13, "fetch", "the office may not hold a sheet to be fetched: mayhold gives the right"},
        {13, "*", "an office may not hold what a job reads or fetches: mayhold gives the right"},
        {13, "", "the office may not hold a sheet, or the writer may not save it"},
        {14, "fork", "the run was forked before, and a run forks once"},
        {14, "join", "the run is not forked: there is nothing to join"},
        {14, "prepare,issue,forecast", "the run is forked: join its lines first"},
        {14, "step,explain", "the run has no such line: 0 always, 1 from its fork to its join"},
        {14, "", "the run is forked, or is not, or has no such line"},
        {15, "", "the record is not readable: a word of it is wrong, or some are missing"},
    };
    size_t row;

    for (row = 0; row < sizeof table / sizeof table[0]; row++)
        if (table[row].number == number && sheetdesk_is_for(table[row].calls, call))
            return table[row].reason;
    return NULL;
}

#endif
