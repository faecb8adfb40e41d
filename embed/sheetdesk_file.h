/* Desks in files, for C: written whole or not at all, and taken back only if they are admitted.
 * docs/FORMAT.md says what a file holds, and what each fault is.
 *
 *     char message[SHEETDESK_MESSAGE_BYTES];
 *     if (sheetdesk_save("tower.desk", desk, desk_len, message) != 0)
 *         fprintf(stderr, "tower.desk: %s\n", message);
 *
 * Each function gives 0, or the fault's number with a message that doesn't name the file. A save
 * that fails leaves the file as it was. A load that fails leaves zeros in the lent words: what
 * isn't admitted is never handed out. Nothing is allocated, and no handle is kept open but that of
 * a lock. It needs POSIX: -std=gnu99, or _XOPEN_SOURCE defined as 700 before the first header.
 * Outside of what is proved.
 */
#ifndef SHEETDESK_FILE_H
#define SHEETDESK_FILE_H

#include <fcntl.h>
#include <limits.h>
#include <stdlib.h>
#include <sys/file.h>
#include <sys/stat.h>
#include <time.h>

#include "sheetdesk_format.h"

#define SHEETDESK_IRREGULAR "it isn't a regular file"

/* Takes a desk back: its words into the lent ones, as many as the desk has. */
static inline int sheetdesk_load(const char *path, uint32_t *desk, size_t desk_len, char *message)
{
    int file = open(path, O_RDONLY | O_CLOEXEC | O_NONBLOCK), fault = SHEETDESK_UNREAD;
    unsigned char head[SHEETDESK_HEAD_BYTES];
    int is_file = 1;
    struct stat about;
    ssize_t had = -1;

    if (file >= 0 && fstat(file, &about) == 0) {
        is_file = S_ISREG(about.st_mode);
        if (is_file)
            had = sheetdesk_read_all(file, head, sizeof head);
    }
    if (had < 0)
        sprintf(message, "can't be read: %s", is_file ? strerror(errno) : SHEETDESK_IRREGULAR);
    else
        fault = sheetdesk_head_fault(head, (size_t)had, (uint64_t)about.st_size, message);
    if (fault == 0)
        fault = sheetdesk_read_words(file, head, desk, desk_len, message);
    if (file >= 0)
        close(file);
    if (fault != 0 && desk_len > 0)
        memset(desk, 0, desk_len * sizeof desk[0]);
    return fault;
}

/* The file that a path leads to, through links, with something behind its name; 0, or -1 with
 * errno: a link to nothing, or a name that is too long. */
static inline int sheetdesk_beside(const char *path, const char *behind, char *name)
{
    struct stat about;

    if (realpath(path, name) == NULL) {
        if (errno != ENOENT || lstat(path, &about) == 0)
            return -1;
        errno = ENAMETOOLONG;
        if (strlen(path) >= PATH_MAX)
            return -1;
        strcpy(name, path);
    }
    errno = ENAMETOOLONG;
    if (strlen(name) + strlen(behind) >= PATH_MAX)
        return -1;
    strcat(name, behind);
    return 0;
}

/* Whether the path still leads to the file that is open. */
static inline int sheetdesk_is_at(int file, const char *path)
{
    struct stat one, other;

    return fstat(file, &one) == 0 && stat(path, &other) == 0 && one.st_dev == other.st_dev &&
           one.st_ino == other.st_ino;
}

/* Opens the new file that is written beside the old one, and holds it alone: one that a killed
 * save left is taken over, and one that another save writes is waited for. */
static inline int sheetdesk_open_new(const char *beside)
{
    int file;

    for (;;) {
        file = open(beside, O_RDWR | O_CREAT | O_CLOEXEC | O_NOFOLLOW, 0666);
        if (file < 0)
            return -1;
        while (flock(file, LOCK_EX) != 0)
            if (errno != EINTR) {
                close(file);
                return -1;
            }
        if (sheetdesk_is_at(file, beside))
            return file;
        close(file);
    }
}

static inline int sheetdesk_write_desk(int file, const uint32_t *desk, uint32_t count)
{
    unsigned char bytes[4096];
    uint32_t sum, at;
    size_t have = SHEETDESK_HEAD_BYTES;

    memcpy(bytes, SHEETDESK_MAGIC, 8);
    sheetdesk_put_word(bytes + 8, SHEETDESK_LAYOUT);
    sheetdesk_put_word(bytes + 12, count);
    for (sum = 0, at = 0; at < count; at++, have += 4) {
        if (have == sizeof bytes) {
            sum = sheetdesk_crc32c(sum, bytes, have);
            if (sheetdesk_write_all(file, bytes, have) != 0)
                return -1;
            have = 0;
        }
        sheetdesk_put_word(bytes + have, desk[at]);
    }
    sum = sheetdesk_crc32c(sum, bytes, have);
    if (sheetdesk_write_all(file, bytes, have) != 0)
        return -1;
    sheetdesk_put_word(bytes, sum);
    return sheetdesk_write_all(file, bytes, 4);
}

/* Has the folder on the disk, with the name that was just given there. */
static inline int sheetdesk_sync_folder(char *name)
{
    char *slash = strrchr(name, '/');
    int folder, done;

    if (slash != NULL)
        slash[slash == name] = 0;
    folder = open(slash == NULL ? "." : name, O_RDONLY | O_DIRECTORY | O_CLOEXEC);
    if (folder < 0)
        return -1;
    done = fsync(folder);
    close(folder);
    return done == 0 || errno == EINVAL ? 0 : -1;
}

/* Saves a desk that is admitted: a new file beside the old one, written whole, on the disk, given
 * the name, and the folder on the disk. */
static inline int sheetdesk_save(const char *path, const uint32_t *desk, size_t desk_len,
                                 char *message)
{
    char beside[PATH_MAX + 8], name[PATH_MAX + 8];
    int file = -1, fault = sheetdesk_desk_fault(desk, desk_len, 0, message), is_there, is_file = 1;
    struct stat about;

    if (fault != 0)
        return fault;
    if (sheetdesk_beside(path, "", name) != 0 || sheetdesk_beside(path, ".new", beside) != 0)
        goto failed;
    is_there = stat(name, &about) == 0;
    is_file = !is_there || S_ISREG(about.st_mode);
    if (!is_file || (is_there && access(name, W_OK) != 0))
        goto failed;
    file = sheetdesk_open_new(beside);
    if (file < 0 || ftruncate(file, 0) != 0 ||
        (is_there && fchmod(file, about.st_mode & 07777) != 0) ||
        sheetdesk_write_desk(file, desk, desk[9]) != 0 || fsync(file) != 0 ||
        rename(beside, name) != 0)
        goto failed;
    close(file);
    if (sheetdesk_sync_folder(name) == 0)
        return 0;
    sprintf(message, "saved, but it may not outlast a power cut: %s", strerror(errno));
    return SHEETDESK_UNSAVED;
failed:
    sprintf(message, "not saved, the file is as it was: %s",
            is_file ? strerror(errno) : SHEETDESK_IRREGULAR);
    if (file >= 0) {
        unlink(beside);
        close(file);
    }
    return SHEETDESK_UNSAVED;
}

/* Takes the lock of a desk's file, a file beside it, and waits so many seconds for another who has
 * it. Gives a handle, to be closed in the end, or -1 with a message. The lock's file stays. */
static inline int sheetdesk_lock(const char *path, unsigned seconds, char *message)
{
    const struct timespec pause = {0, 20000000};
    time_t until = time(NULL) + (time_t)seconds;
    char beside[PATH_MAX + 8];
    int file = -1;

    if (sheetdesk_beside(path, ".lock", beside) == 0)
        file = open(beside, O_RDWR | O_CREAT | O_CLOEXEC | O_NOFOLLOW, 0666);
    while (file >= 0 && flock(file, LOCK_EX | LOCK_NB) != 0) {
        if ((errno != EWOULDBLOCK && errno != EINTR) || time(NULL) >= until) {
            close(file);
            file = -1;
        } else {
            nanosleep(&pause, NULL);
        }
    }
    if (file < 0)
        sprintf(message, "not locked: %s",
                errno == EWOULDBLOCK ? "another process has it" : strerror(errno));
    return file;
}

#endif
