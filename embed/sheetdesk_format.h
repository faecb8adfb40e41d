/* What a file of a desk holds, read and judged: sheetdesk_file.h saves and loads by this one.
 * docs/FORMAT.md is its page. Outside of what is proved.
 */
#ifndef SHEETDESK_FORMAT_H
#define SHEETDESK_FORMAT_H

#include <errno.h>
#include <unistd.h>

#include "sheetdesk_why.h"

#define SHEETDESK_MAGIC "\211DESK\r\n\032"
/* Magic, layout and number of words; and with the sum behind them. */
#define SHEETDESK_HEAD_BYTES 16
#define SHEETDESK_LEAST_BYTES 20
/* No desk of any layout has more: nobody need read such a file. */
#define SHEETDESK_MOST_BYTES 67108864
/* The length of a message that holds any. */
#define SHEETDESK_MESSAGE_BYTES 1024

enum sheetdesk_fault {
    SHEETDESK_UNREAD = 1,       /* the file can't be read: errno says why */
    SHEETDESK_NO_MAGIC = 2,     /* it is no saved desk */
    SHEETDESK_TOO_SHORT = 3,    /* it ends before its sum */
    SHEETDESK_TRAILING = 4,     /* it goes on behind its sum */
    SHEETDESK_WRONG_SUM = 5,    /* a bit isn't as it was written */
    SHEETDESK_OTHER_LAYOUT = 6, /* whole, and of another layout */
    SHEETDESK_NO_DESK = 7,      /* admit answers refused 1, or words stand behind it */
    SHEETDESK_UNADMITTED = 8,   /* admit answers refused 11 */
    SHEETDESK_NO_ROOM = 9,      /* more words than are lent */
    SHEETDESK_UNSAVED = 10,     /* the file can't be written: errno says why */
    SHEETDESK_LOCKED = 11,      /* another holds the lock */
    SHEETDESK_TOO_LARGE = 12    /* no desk has so many bytes */
};

/* CRC-32C (Castagnoli) of some bytes behind others, whose sum is `sum`, or 0. */
static inline uint32_t sheetdesk_crc32c(uint32_t sum, const void *bytes, size_t count)
{
    static const uint32_t table[16] = {
        0x00000000, 0x105ec76f, 0x20bd8ede, 0x30e349b1, 0x417b1dbc, 0x5125dad3,
        0x61c69362, 0x7198540d, 0x82f63b78, 0x92a8fc17, 0xa24bb5a6, 0xb21572c9,
        0xc38d26c4, 0xd3d3e1ab, 0xe330a81a, 0xf36e6f75};
    const unsigned char *byte = (const unsigned char *)bytes;

    sum = ~sum;
    while (count-- > 0) {
        sum ^= *byte++;
        sum = table[sum & 15] ^ sum >> 4;
        sum = table[sum & 15] ^ sum >> 4;
    }
    return ~sum;
}

static inline void sheetdesk_put_word(unsigned char *bytes, uint32_t word)
{
    size_t at;

    for (at = 0; at < 4; at++)
        bytes[at] = (unsigned char)(word >> 8 * at);
}

static inline uint32_t sheetdesk_get_word(const unsigned char *bytes)
{
    return (uint32_t)bytes[0] | (uint32_t)bytes[1] << 8 | (uint32_t)bytes[2] << 16 |
           (uint32_t)bytes[3] << 24;
}

/* As many bytes as there are, up to the count; -1 if a read fails. */
static inline ssize_t sheetdesk_read_all(int file, unsigned char *bytes, size_t count)
{
    size_t had = 0;
    ssize_t got;

    while (had < count) {
        got = read(file, bytes + had, count - had);
        if (got == 0)
            break;
        if (got < 0 && errno != EINTR)
            return -1;
        had += got < 0 ? 0 : (size_t)got;
    }
    return (ssize_t)had;
}

static inline int sheetdesk_write_all(int file, const unsigned char *bytes, size_t count)
{
    ssize_t put;

    while (count > 0) {
        put = write(file, bytes, count);
        if (put < 0 && errno != EINTR)
            return -1;
        bytes += put < 0 ? 0 : put;
        count -= put < 0 ? 0 : (size_t)put;
    }
    return 0;
}

/* What is wrong with a file of this size that begins with these bytes; 0 if nothing is. */
static inline int sheetdesk_head_fault(const unsigned char *head, size_t had, uint64_t size,
                                       char *message)
{
    uint64_t due = SHEETDESK_LEAST_BYTES;

    if (size > SHEETDESK_MOST_BYTES) {
        sprintf(message, "too large: %llu bytes, and no desk has over %u",
                (unsigned long long)size, SHEETDESK_MOST_BYTES);
        return SHEETDESK_TOO_LARGE;
    }
    if (memcmp(head, SHEETDESK_MAGIC, had < 8 ? had : 8) != 0) {
        strcpy(message, "no saved desk: it doesn't begin with the magic");
        return SHEETDESK_NO_MAGIC;
    }
    if (had == SHEETDESK_HEAD_BYTES)
        due += 4 * (uint64_t)sheetdesk_get_word(head + 12);
    if (size < due) {
        sprintf(message, "too short: %llu bytes, and it should have %s%llu",
                (unsigned long long)size, had < SHEETDESK_HEAD_BYTES ? "at least " : "",
                (unsigned long long)due);
        return SHEETDESK_TOO_SHORT;
    }
    if (size > due) {
        sprintf(message, "trailing bytes: %llu bytes, and it should have %llu",
                (unsigned long long)size, (unsigned long long)due);
        return SHEETDESK_TRAILING;
    }
    return 0;
}

/* What the library says of the words, with a hint; `whole` if none may stand behind the desk. */
static inline int sheetdesk_desk_fault(const uint32_t *desk, size_t count, int whole,
                                       char *message)
{
    uint32_t answer[SHEETDESK_ANSWER_WORDS];
    char why[SHEETDESK_WHY_BYTES];

    sheetdesk_admit(desk, count, answer, SHEETDESK_ANSWER_WORDS);
    if (answer[0] == SHEETDESK_OK && (!whole || count == desk[9]))
        return 0;
    sheetdesk_why(desk, count, why);
    if (answer[0] == SHEETDESK_OK)
        sprintf(message, "not in form (1): %lu words, and its desk has %u", (unsigned long)count,
                (unsigned)desk[9]);
    else
        sprintf(message, "%s: %s", answer[1] == 1 ? "not in form (1)" : "not admitted (11)",
                why[0] == 0 ? "no cause was found" : why);
    return answer[0] == SHEETDESK_OK || answer[1] == 1 ? SHEETDESK_NO_DESK : SHEETDESK_UNADMITTED;
}

/* What is wrong with a file whose words were read: the sum that it has and that of its bytes, then
 * the layout, then the words. */
static inline int sheetdesk_body_fault(const unsigned char *head, uint32_t has, uint32_t sum,
                                       const uint32_t *desk, size_t desk_len, char *message)
{
    uint32_t count = sheetdesk_get_word(head + 12), layout = sheetdesk_get_word(head + 8);

    if (has != sum) {
        sprintf(message, "wrong sum: it has %08x, and its bytes make %08x: it is damaged",
                (unsigned)has, (unsigned)sum);
        return SHEETDESK_WRONG_SUM;
    }
    if (layout != SHEETDESK_LAYOUT) {
        sprintf(message, "saved in layout %u, and this library has layout %u: its log makes it "
                         "anew (docs/FORMAT.md, Other layouts)", (unsigned)layout,
                (unsigned)SHEETDESK_LAYOUT);
        return SHEETDESK_OTHER_LAYOUT;
    }
    if (count > desk_len) {
        sprintf(message, "%u words, and %lu are lent", (unsigned)count, (unsigned long)desk_len);
        return SHEETDESK_NO_ROOM;
    }
    return sheetdesk_desk_fault(desk, count, 1, message);
}

/* Reads the words of a file that has its head behind it, as many as are lent, and sums them up. */
static inline int sheetdesk_read_words(int file, const unsigned char *head, uint32_t *desk,
                                       size_t desk_len, char *message)
{
    uint32_t sum = sheetdesk_crc32c(0, head, SHEETDESK_HEAD_BYTES), word = 0;
    size_t count = sheetdesk_get_word(head + 12), at, left, have = 0, next = 0;
    unsigned char bytes[4096];
    ssize_t got;

    for (at = 0; at <= count; at++, next += 4) {
        if (next == have) {
            left = 4 * (count + 1 - at);
            got = sheetdesk_read_all(file, bytes, left < sizeof bytes ? left : sizeof bytes);
            if (got < 4 || got % 4 != 0) {
                sprintf(message, "can't be read: %s", got < 0 ? strerror(errno) : "it is cut off");
                return SHEETDESK_UNREAD;
            }
            have = (size_t)got;
            next = 0;
            sum = sheetdesk_crc32c(sum, bytes, at + have / 4 > count ? have - 4 : have);
        }
        word = sheetdesk_get_word(bytes + next);
        if (at < count && at < desk_len)
            desk[at] = word;
    }
    return sheetdesk_body_fault(head, word, sum, desk, desk_len, message);
}

#endif
