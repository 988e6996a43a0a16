/* To be preloaded into a program: breaks its streams, and keeps a trace of its calls. tests/test_streams.py builds and uses it.

   BREAK has a line 'STREAM MOST AT ERROR' for each stream that is to break. STREAM is 0, 1 or 2, or the path that a file is
   opened under. Each of its calls of read or write moves at most MOST bytes; number AT, counted from 1, fails with this error
   number, or moves nothing where that is 0. Number 0 is the first call that opens the path.

   To the file TRACE each call of open, read and write, of whichever stream, adds a line, as 'write 1 RESULT'. RESULT is what the
   call answers, 0 for a file that is open, and the error number with a minus for one that failed. */
#define _GNU_SOURCE
#include <dlfcn.h>
#include <errno.h>
#include <fcntl.h>
#include <stdarg.h>
#include <stdio.h>
#include <stdlib.h>
#include <string.h>
#include <unistd.h>

enum { MANY = 64, LONG = 256 };

struct stream {
    char name[LONG];
    long most, at, error, calls;
};

static struct stream broken[MANY];
static int count;
/* By descriptor: the digit, or the path that it was opened under. */
static char names[MANY][LONG] = {"0", "1", "2"};
static int trace = -1;

/* The C library's own function of this name. */
#define NEXT(name)                                     \
    static __typeof__(&name) next;                     \
    if (!next)                                         \
        next = (__typeof__(&name))dlsym(RTLD_NEXT, #name)

static ssize_t write_through(int file, const void *from, size_t size)
{
    NEXT(write);
    return next(file, from, size);
}

static int open_through(const char *path, int flags, mode_t mode)
{
    NEXT(open);
    return next(path, flags, mode);
}

/* What is wrong with BREAK or TRACE is no program's fault. */
static void give_up(void)
{
    _exit(99);
}

static void read_line(const char *line)
{
    struct stream *it = &broken[count];
    if (count == MANY || sscanf(line, "%255s %ld %ld %ld", it->name, &it->most, &it->at, &it->error) != 4)
        give_up();
    count++;
}

__attribute__((constructor)) static void begin(void)
{
    const char *lines = getenv("BREAK"), *path = getenv("TRACE");
    while (lines && *lines) {
        read_line(lines);
        lines = strchr(lines, '\n');
        lines += lines ? 1 : 0;
    }
    if (path && (trace = open_through(path, O_WRONLY | O_APPEND | O_CLOEXEC, 0)) < 0)
        give_up();
}

static struct stream *stream_of(const char *name)
{
    for (int i = 0; i < count; i++)
        if (!strcmp(broken[i].name, name))
            return &broken[i];
    return NULL;
}

static const char *name_of(int file)
{
    return file >= 0 && file < MANY && *names[file] ? names[file] : "?";
}

/* Adds the call to the trace, and hands on what it answers, with its errno. */
static ssize_t traced(const char *call, const char *name, ssize_t answer)
{
    int error = errno;
    char line[2 * LONG];
    int size = snprintf(line, sizeof line, "%s %s %ld\n", call, name, answer < 0 ? -(long)error : (long)answer);
    if (trace >= 0 && write_through(trace, line, size) != size)
        give_up();
    errno = error;
    return answer;
}

/* What the next call on this stream may move of so many bytes; -1 where it fails. */
static ssize_t allowed(struct stream *it, size_t size)
{
    if (!it)
        return size;
    if (++it->calls != it->at)
        return size < (size_t)it->most ? (ssize_t)size : it->most;
    errno = it->error;
    return it->error ? -1 : 0;
}

ssize_t read(int file, void *to, size_t size)
{
    NEXT(read);
    ssize_t most = allowed(stream_of(name_of(file)), size);
    return traced("read", name_of(file), most > 0 ? next(file, to, most) : most);
}

ssize_t write(int file, const void *from, size_t size)
{
    ssize_t most = allowed(stream_of(name_of(file)), size);
    return traced("write", name_of(file), most > 0 ? write_through(file, from, most) : most);
}

/* glibc's other name for it */
ssize_t __write(int file, const void *from, size_t size)
{
    return write(file, from, size);
}

/* Whether the call that opens the path is the one that fails. It is so once. */
static int refused(struct stream *it)
{
    if (!it || it->at != 0)
        return 0;
    it->at = -1;
    errno = it->error;
    return 1;
}

int open(const char *path, int flags, ...)
{
    va_list rest;
    va_start(rest, flags);
    mode_t mode = flags & O_CREAT ? va_arg(rest, mode_t) : 0;
    va_end(rest);
    int file = refused(stream_of(path)) ? -1 : open_through(path, flags, mode);
    if (file >= MANY || strlen(path) >= LONG)
        give_up();
    if (file >= 0)
        strcpy(names[file], path);
    traced("open", path, file < 0 ? -1 : 0);
    return file;
}
