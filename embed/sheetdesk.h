/* The sheet desk for C: its calls over one lent buffer of 32-bit words, one that makes a text of
 * them, one on a record of issues, three on clocks. Link with -lsheetdesk_c, the static library or
 * the shared one (x86-64 Linux); README.md shows the lines.
 *
 * A slice is a pointer and a length in words (of sheetdesk_script's `text` and `out` in bytes, of
 * its `counts` in size_t). The pointer must be valid for so many and aligned as C asks, of words to
 * 4 bytes; it may not be null, even with length 0; the slices of a call (`desk` or `record`,
 * `answer`, open's `jobs` and forecast's `scratch`; `target` and `source`; sheetdesk_script's five)
 * may not overlap. Any content and any numbers are fine: what a call can't work on it refuses. No
 * call reads or writes outside its slices, or allocates.
 *
 * Whose memory it is: the caller owns all buffers, always, desk, answer, scratch, text and out; a
 * call borrows them and keeps no pointer. During a call nobody else may write the desk, and
 * nobody may read it unless all calls on it are ones that only answer (whose desk is const).
 * Calls on different buffers may run at the same time. The words hold no pointer: they may be
 * copied, moved, and saved to a file, SHEETDESK_WORDS of them, in the machine's byte order
 * (little-endian on x86-64; swap the bytes of each word elsewhere); sheetdesk_admit takes them
 * back, and sheetdesk_file.h does all of that. Nothing in the words says which layout they have,
 * so save SHEETDESK_LAYOUT with them. Whoever lends words of another layout gets a refusal,
 * SHEETDESK_NOT_IN_FORM, from every call but new, for their offsets and total don't follow from
 * their counts: no two layouts agree in them for any counts. No word is changed.
 *
 * Every call but sheetdesk_script writes its answer's words and returns how many it wrote:
 *   0 and the answer's numbers (ok), 1 and a mask (broken, step and join), 2 and a number (refused),
 *   3 (clear) or 4 and sheets (path), explain alone; 5 (nothing to do), pick alone;
 *   6 (through), 7, a job and a mask (breaks) or 8, a job and a number (turned), forecast alone.
 * An answer_len below SHEETDESK_ANSWER_WORDS returns 0, and nothing is changed. Words of the
 * answer's slice behind the written ones stay as they were. A refused call leaves every word of
 * the desk; words past the desk's total are never touched.
 *
 * Sheets, writers, offices, runs and jobs are counted from 0. Bit k of a mask is item k.
 */
#ifndef SHEETDESK_H
#define SHEETDESK_H

#include <stddef.h>
#include <stdint.h>

#ifdef __cplusplus
extern "C" {
#endif

/* The version of the calls: rises when one is added or changes what it takes, does or answers. */
#define SHEETDESK_VERSION 12
/* The version of the desk's words: rises when a desk of the same counts has other words. */
#define SHEETDESK_LAYOUT 7
/* The same two of the library that is linked: compare them with these. */
uint32_t sheetdesk_version(void);
uint32_t sheetdesk_layout(void);

/* The length of a slice that holds any answer. */
#define SHEETDESK_ANSWER_WORDS 40
/* The bytes of a line that holds any answer as text, with its line feed. */
#define SHEETDESK_LINE_ROOM 384
/* The words of the largest desk (32 sheets, 16 writers, 8 offices, 8 runs). */
#define SHEETDESK_MOST_WORDS 419699

/* The words of a desk of k sheets, w writers, n offices and p runs, to be lent before new; 0 if
 * new refuses the counts. A constant if they are. */
#define SHEETDESK_WORDS(k, w, n, p) \
    ((size_t)(k) - 1 < 32 && (size_t)(w) - 1 < 16 && (size_t)(n) - 1 < 8 && (size_t)(p) - 1 < 8 \
         ? SHEETDESK_WORDS_OF((size_t)(k), (size_t)(w), (size_t)(n), (size_t)(p)) \
         : 0)
/* The same for counts in range: header, then master, shelves and cards, two for each run, of k
 * versions each, a mark and an allowance for each shelf, a count and a past for each writer, 30
 * words more for each run, the last picked run, and a mask of sheets for each office and each
 * writer. */
#define SHEETDESK_WORDS_OF(k, w, n, p) \
    (10 + (k) * (2 + (k) * (w)) * (1 + (n) + 2 * (p)) + 2 * (n) + (w) * (1 + (k) * (w)) + 30 * (p) \
     + 1 + (n) + (w))

/* The answer's first word. */
enum sheetdesk_outcome {
    SHEETDESK_OK = 0,
    SHEETDESK_BROKEN = 1,
    SHEETDESK_REFUSED = 2,
    SHEETDESK_CLEAR = 3,
    SHEETDESK_PATH = 4,
    SHEETDESK_NOTHING = 5,
    SHEETDESK_THROUGH = 6,
    SHEETDESK_BREAKS = 7,
    SHEETDESK_TURNED = 8
};

/* The second word of a refusal. */
enum sheetdesk_refusal {
    SHEETDESK_NOT_IN_FORM = 1,   /* buffer or scratch too short, or the desk is not in form */
    SHEETDESK_BAD_COUNT = 2,     /* a count of new is out of range */
    SHEETDESK_OUT_OF_RANGE = 3,  /* office, sheet, writer, run, place, job or mask */
    SHEETDESK_WRONG_STATE = 4,   /* the run is not in the state needed */
    SHEETDESK_BAD_JOBS = 5,      /* open: no job, over 8, length not 3 per job, job not valid */
    SHEETDESK_WRONG_TURN = 6,    /* a job is done, or one that must be isn't */
    SHEETDESK_NOT_ON_MASTER = 7, /* a sheet to be fetched isn't held by the master */
    SHEETDESK_NOT_HELD = 8,      /* evict, look: the sheet isn't held there */
    SHEETDESK_ISSUES_SPENT = 9,  /* the last issue number is 4294967295 */
    SHEETDESK_WRITER_SPENT = 10, /* the writer's count is 4294967295 */
    SHEETDESK_NOT_ADMITTED = 11, /* admit: in form, but no desk that the calls can have left */
    SHEETDESK_OVER_ALLOWANCE = 12, /* a shelf would hold more sheets than its allowance */
    SHEETDESK_NO_RIGHT = 13, /* the office may not hold a sheet, or the writer not save it */
    SHEETDESK_WRONG_LINE = 14, /* the run is forked, or isn't, or has no such line */
    SHEETDESK_NOT_READABLE = 15 /* audit: the words are no record, or one that can't be */
};

/* How one clock stands against another: all counts are equal; some are smaller and none larger;
 * some are larger and none smaller; some are larger and some smaller. */
enum sheetdesk_standing {
    SHEETDESK_EQUAL = 0,
    SHEETDESK_OLDER = 1,
    SHEETDESK_NEWER = 2,
    SHEETDESK_RIVAL = 3,
    SHEETDESK_NOT_COMPARED = 4 /* sheetdesk_compare alone: the lengths differ or exceed 16 */
};

/* Writes a fresh desk of k sheets (1..32), w writers (1..16), n offices (1..8), p runs (1..8).
 * Ok: the desk's total in words. Returns 2 words. */
uint32_t sheetdesk_new(uint32_t *desk, size_t desk_len, uint32_t k, uint32_t w, uint32_t n,
                       uint32_t p, uint32_t *answer, size_t answer_len);

/* Opens a free run with 1..8 jobs, three words each: office, mask of the sheets it reads, mask
 * of the earlier jobs that must be done first. Ok: the number of jobs. Returns 2 words. */
uint32_t sheetdesk_open(uint32_t *desk, size_t desk_len, uint32_t run, const uint32_t *jobs,
                        size_t jobs_len, uint32_t *answer, size_t answer_len);

/* Fetches a sheet from the master onto the office's shelf, with all that it needs there.
 * Ok: the mask of the sheets taken. Returns 2 words. */
uint32_t sheetdesk_fetch(uint32_t *desk, size_t desk_len, uint32_t office, uint32_t sheet,
                         uint32_t *answer, size_t answer_len);

/* Takes a sheet off the office's shelf, with all that needs it there.
 * Ok: the mask of the sheets that left. Returns 2 words. */
uint32_t sheetdesk_evict(uint32_t *desk, size_t desk_len, uint32_t office, uint32_t sheet,
                         uint32_t *answer, size_t answer_len);

/* Fetches what the run's jobs read and their shelves lack, and makes the card of the shelves.
 * Ok: the mask of the sheets on the card. Returns 2 words. */
uint32_t sheetdesk_prepare(uint32_t *desk, size_t desk_len, uint32_t run, uint32_t *answer,
                           size_t answer_len);

/* Works a job of an open run, on line 0: its reads come onto the card. Ok: three masks that divide
 * the job's reads: from the card, from the shelf, from the master; returns 4 words. Broken: the
 * mask of the sheets that were read otherwise on this line; returns 2 words. */
uint32_t sheetdesk_step(uint32_t *desk, size_t desk_len, uint32_t run, uint32_t job,
                        uint32_t *answer, size_t answer_len);

/* Explains what a step of the job on line 0 would come to. Clear: it would be ok; returns 1 word.
 * Path: it would break the run, by these sheets, up to 32: the first is a read of the job that the
 * card lacks; each next one is needed by the version before it, as the step would find it on the
 * shelf; the last was read already. A shortest such path; of equally short ones the smallest,
 * sheet by sheet. Returns 1 word more than it has sheets. Refused as step is: 2 words. Changes
 * nothing. */
uint32_t sheetdesk_explain(const uint32_t *desk, size_t desk_len, uint32_t run, uint32_t job,
                           uint32_t *answer, size_t answer_len);

/* Issues the sheets of the mask by a writer, when all jobs of the run are done, and frees the
 * run. Ok: the issue number, or 0 for an empty mask. Returns 2 words. */
uint32_t sheetdesk_issue(uint32_t *desk, size_t desk_len, uint32_t run, uint32_t writer,
                         uint32_t mask, uint32_t *answer, size_t answer_len);

/* Frees an open or broken run. Ok: 0. Returns 2 words. */
uint32_t sheetdesk_drop(uint32_t *desk, size_t desk_len, uint32_t run, uint32_t *answer,
                        size_t answer_len);

/* Looks at a version: place 0 is the master (number 0), 1 an office's shelf, 2 a run's card, of
 * line 0.
 * Ok: the issue number; the mask of the leading writers, bit u for writer u: those whose last
 * save in the version no other save in it knew of (two or more are rivals); the version's own
 * clock, one count per writer; and how that clock stands against the own clock of the master's
 * version (enum sheetdesk_standing; 2 if the master lacks the sheet). Returns 4 + w words, or 2 if
 * refused. Changes nothing. */
uint32_t sheetdesk_look(const uint32_t *desk, size_t desk_len, uint32_t place, uint32_t number,
                        uint32_t sheet, uint32_t *answer, size_t answer_len);

/* Tells which sheets on the office's shelf are behind: their own clock isn't that of the master's
 * version. Ok: the mask of these sheets. Returns 2 words. Changes nothing. */
uint32_t sheetdesk_stale(const uint32_t *desk, size_t desk_len, uint32_t office, uint32_t *answer,
                         size_t answer_len);

/* Admits a desk that was read back: it is in form, master and shelves are causal cuts, each line's
 * card is one among what its run's jobs read, the master's own row of a sheet covers every row kept for it
 * anywhere, no count in a row exceeds its writer's, and no issue number exceeds the last one. Any
 * desk that calls left since new or since an admission is admitted. Ok: 0. Refused with 1 or 11 alone. Returns 2 words. Changes
 * nothing. */
uint32_t sheetdesk_admit(const uint32_t *desk, size_t desk_len, uint32_t *answer,
                         size_t answer_len);

/* Sets how many sheets the office's shelf may hold, 0..k; k on a new desk. Refused with 12 if it
 * holds more now. From then on a fetch, prepare or step after which a shelf would hold more is
 * refused with 12, and nothing is changed; evict frees places. Ok: 0. Returns 2 words. */
uint32_t sheetdesk_allow(uint32_t *desk, size_t desk_len, uint32_t office, uint32_t number,
                         uint32_t *answer, size_t answer_len);

/* Picks the job to step next: going round the runs from the one after the last picked, the first
 * open run with a job that isn't done and whose upstream jobs are; in it the lowest such job. Ok:
 * run and job; returns 3 words. The run is kept as the last picked, nothing else is changed: the
 * job isn't stepped, and its step may still be refused or break. Nothing: no open run has such a
 * job; returns 1 word, and no word is changed. A run that stays open and has such a job is picked
 * within as many picks as the desk has runs. */
uint32_t sheetdesk_pick(uint32_t *desk, size_t desk_len, uint32_t *answer, size_t answer_len);

/* Sets the mask of the sheets that the office may hold; all of them on a new desk. A sheet on its
 * shelf that isn't in the mask is evicted there, with all that needs it there; a sheet that is
 * given back isn't fetched. From then on a fetch that would take a barred sheet is refused with
 * 13, and so is a step, explain or prepare of a job that reads or would fetch one at this office,
 * even if the card has it; cards keep what they carry. Ok: 0. Returns 2 words. */
uint32_t sheetdesk_mayhold(uint32_t *desk, size_t desk_len, uint32_t office, uint32_t mask,
                           uint32_t *answer, size_t answer_len);

/* Sets the mask of the sheets that the writer may save; all of them on a new desk. From then on
 * an issue by the writer of a sheet that isn't in it is refused with 13. What was saved before
 * stays. Ok: 0. Returns 2 words. */
uint32_t sheetdesk_maysave(uint32_t *desk, size_t desk_len, uint32_t writer, uint32_t mask,
                           uint32_t *answer, size_t answer_len);

/* Gives an open run a second line: its card and what was read are copied. From then on each job is
 * stepped on line 0 or 1, which sheetdesk_step_on names; a job that is done on either is done. A
 * run forks once. While it is forked, prepare and issue are refused with 14. Ok: 0. Returns 2
 * words. */
uint32_t sheetdesk_fork(uint32_t *desk, size_t desk_len, uint32_t run, uint32_t *answer,
                        size_t answer_len);

/* Makes the two lines of an open run one, line 0: the cards are merged sheet by sheet. Ok: 0; each
 * sheet that was read on either line is still the version that was read. Broken: the mask of the
 * sheets that were read and would become another version; only the run's state changes. Returns 2
 * words. */
uint32_t sheetdesk_join(uint32_t *desk, size_t desk_len, uint32_t run, uint32_t *answer,
                        size_t answer_len);

/* sheetdesk_step on a line, 0 or 1: that line's card, and what was read on it. Refused with 14 if
 * the line is 1 and the run isn't forked, or if it is above 1. */
uint32_t sheetdesk_step_on(uint32_t *desk, size_t desk_len, uint32_t run, uint32_t job,
                           uint32_t line, uint32_t *answer, size_t answer_len);

/* sheetdesk_explain on a line, as sheetdesk_step_on takes it. */
uint32_t sheetdesk_explain_on(const uint32_t *desk, size_t desk_len, uint32_t run, uint32_t job,
                              uint32_t line, uint32_t *answer, size_t answer_len);

/* Foretells what stepping the jobs of an open run that aren't done would come to: on line 0, the
 * lowest job first, with no call in between. Through: each would be ok, or no job is left; returns
 * 1 word. Breaks: the first job that would break the run, and the mask of the sheets that it would
 * move; returns 3 words. Turned: the first job that would be refused, and the number (13, 7 or 12);
 * returns 3 words. It stops at whichever comes first. The desk isn't written. The first words of
 * the scratch, as many as the desk's total, become the desk as those steps would leave it, broken
 * if one breaks; its further words stay, and what it held before doesn't matter. Refused with 1 if
 * the desk isn't in form or the scratch is shorter than its total, with 3, 4, and with 14 if the
 * run is forked; then every word of the scratch stays. Returns 2 words. */
uint32_t sheetdesk_forecast(const uint32_t *desk, size_t desk_len, uint32_t *scratch,
                            size_t scratch_len, uint32_t run, uint32_t *answer,
                            size_t answer_len);

/* Makes the calls of a text, a line each, in order, and puts their answers, a line each, at the
 * front of `out`. Lines and answers are the program's (docs/USER.md): `fetch 0 1` and `ok 3`; a
 * line that is no call, or has over 400 bytes, is answered `unread`. The desk is tested for form
 * once, at entry, and not in each call; otherwise desk, answers and scratch become what the same
 * calls one by one make of them.
 *
 * A line is taken if its line feed (byte 10) is in the text and if, behind the answers so far,
 * `out` has SHEETDESK_LINE_ROOM bytes left, however long its answer then is; lines are taken from
 * the front until one isn't. counts[0]: the bytes of the text that were taken, line feeds included.
 * counts[1]: the bytes of answers that were put. Returns 2, the counts laid. With a counts_len
 * below 2 it returns 0, and nothing is done.
 *
 * The scratch is lent to each `forecast r` of the text, as sheetdesk_forecast takes it: with fewer
 * words than the desk's total that is `refused 1`. `desk_len` words always do; a text without
 * forecasts needs none. The text, further words of `counts`, bytes of `out` behind the answers and
 * words of the desk past its total stay.
 *
 * A text of any length, with an `out` of SHEETDESK_LINE_ROOM bytes or more:
 *
 *     for (from = 0; from < length; from += counts[0]) {
 *         sheetdesk_script(desk, desk_len, text + from, length - from, out, sizeof out, scratch,
 *                          scratch_len, counts, 2);
 *         if (counts[0] == 0)
 *             break;
 *         fwrite(out, 1, counts[1], stdout);
 *     }
 *
 * When nothing is taken though there is text, it has no line feed, or `out` is too short. So what
 * is left here lacks its line feed: put one behind it, if it is the last line, or what follows, if
 * the text comes in parts, which may be cut at any byte. (For a line over 400 bytes that outgrows
 * the room of a part an empty line can be handed over: that is `unread` too.) */
uint32_t sheetdesk_script(uint32_t *desk, size_t desk_len, const uint8_t *text, size_t text_len,
                          uint8_t *out, size_t out_len, uint32_t *scratch, size_t scratch_len,
                          size_t *counts, size_t counts_len);

/* Audits a record of issues, which clients wrote down: whether what each issue read was a snapshot
 * of the issues before it. It needs no desk. The record, which may go on past its total t:
 *   K W I Q a q t      K sheets (1..32), W writers (1..16), I issues, Q reads; the words at which
 *                      the issues begin (a = 7), the reads (q = 7 + 4 I), the record ends
 *                      (t = q + Q (1 + W))
 *   4 words an issue   writer, mask of the sheets saved, first read, number of reads; oldest first,
 *                      and its reads follow those of the issue before it
 *   1 + W words a read sheet, and a count for each writer: the sheet's saves by that writer up to
 *                      and with its issue of that number are in the version read
 * Ok: 0 if every issue read a snapshot, otherwise the number of the first that didn't, from 1.
 * Refused with 15 alone: the words don't follow this form, a read is of no save, or it counts an
 * issue that wasn't before it or didn't save the sheet; for a fault of form in any issue, whatever
 * the others read. About I (I + Q W) steps, on no memory but the two slices. Returns 2 words. */
uint32_t sheetdesk_audit(const uint32_t *record, size_t record_len, uint32_t *answer,
                         size_t answer_len);

/* How clock p stands against clock q. Returns an enum sheetdesk_standing; two empty clocks (both
 * lengths 0) are equal. */
uint32_t sheetdesk_compare(const uint32_t *p, size_t p_len, const uint32_t *q, size_t q_len);

/* Whether clock p covers clock q: every count of p is at least that of q. Returns 1 or 0, and
 * 2 if the lengths differ or exceed 16; 1 for two empty clocks. */
uint32_t sheetdesk_covers(const uint32_t *p, size_t p_len, const uint32_t *q, size_t q_len);

/* Each count of the target becomes the larger of the two. Returns 1, or 0 with nothing changed
 * if the lengths differ or exceed 16. */
uint32_t sheetdesk_merge(uint32_t *target, size_t target_len, const uint32_t *source,
                         size_t source_len);

#ifdef __cplusplus
}
#endif

#endif
