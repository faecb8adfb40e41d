/* Loaded before the C library (LD_PRELOAD): counts what a process does with files whose path begins with $SHIM_PATH, writes it to
 * $SHIM_TRACE if that is set, and at number $SHIM_AT does $SHIM_DO instead: "kill" ends the process, "half" writes half of it
 * and then ends the process, a number fails with that errno. */
#define _GNU_SOURCE
#include <dlfcn.h>
#include <errno.h>
#include <fcntl.h>
#include <signal.h>
#include <stdarg.h>
#include <stdio.h>
#include <stdlib.h>
#include <string.h>
#include <sys/types.h>
#include <unistd.h>

static int is_ours[1024];
static int number;

static int has_path(const char *path)
{
    const char *ours = getenv("SHIM_PATH");

    return ours != NULL && path != NULL && strncmp(path, ours, strlen(ours)) == 0;
}

/* Counts a deed; whether it is to fail. */
static int fails(const char *deed, const char *path, int file, const void *bytes, size_t count)
{
    const char *at = getenv("SHIM_AT"), *how = getenv("SHIM_DO"), *trace = getenv("SHIM_TRACE");
    static ssize_t (*real_write)(int, const void *, size_t);
    char line[600];
    int to;

    number++;
    if (trace != NULL) {
        to = (int)(((int (*)(const char *, int, ...))dlsym(RTLD_NEXT, "open"))(
            trace, O_WRONLY | O_CREAT | O_APPEND, 0666));
        snprintf(line, sizeof line, "%s %s\n", deed, path);
        real_write = (ssize_t(*)(int, const void *, size_t))dlsym(RTLD_NEXT, "write");
        if (real_write(to, line, strlen(line)) < 0)
            abort();
        close(to);
    }
    if (at == NULL || how == NULL || number != atoi(at))
        return 0;
    if (strcmp(how, "half") == 0 && bytes != NULL) {
        real_write = (ssize_t(*)(int, const void *, size_t))dlsym(RTLD_NEXT, "write");
        if (real_write(file, bytes, count / 2) < 0)
            abort();
    }
    if (atoi(how) == 0)
        kill(getpid(), SIGKILL);
    errno = atoi(how);
    return 1;
}

static int ours(int file)
{
    return file >= 0 && file < 1024 && is_ours[file];
}

#define OPENS(name) \
    int name(const char *path, int flags, ...) \
    { \
        va_list rest; \
        int mode, file; \
\
        va_start(rest, flags); \
        mode = va_arg(rest, int); \
        va_end(rest); \
        if (has_path(path) && fails("open", path, -1, NULL, 0)) \
            return -1; \
        file = ((int (*)(const char *, int, ...))dlsym(RTLD_NEXT, #name))(path, flags, mode); \
        if (file >= 0 && file < 1024) \
            is_ours[file] = has_path(path); \
        return file; \
    }

OPENS(open)
OPENS(open64)

#define OF_FILE(kind, name, takes, gives, bytes, count) \
    kind name takes \
    { \
        if (ours(file) && fails(#name, "", file, bytes, count)) \
            return -1; \
        return ((kind(*) takes)dlsym(RTLD_NEXT, #name))gives; \
    }

OF_FILE(int, ftruncate, (int file, off_t size), (file, size), NULL, 0)
OF_FILE(int, ftruncate64, (int file, off64_t size), (file, size), NULL, 0)
OF_FILE(int, fchmod, (int file, mode_t mode), (file, mode), NULL, 0)
OF_FILE(int, fsync, (int file), (file), NULL, 0)
OF_FILE(int, flock, (int file, int how), (file, how), NULL, 0)
OF_FILE(ssize_t, write, (int file, const void *bytes, size_t count), (file, bytes, count), bytes, count)

int rename(const char *from, const char *to)
{
    if (has_path(from) && fails("rename", to, -1, NULL, 0))
        return -1;
    return ((int (*)(const char *, const char *))dlsym(RTLD_NEXT, "rename"))(from, to);
}
