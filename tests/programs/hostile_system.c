/* Loaded before a program, this stands between it and the system: it refuses requests for memory, and fails or cuts short a
   call that opens, looks at, reads, writes or empties a file, or brings it to the disk. Variables say which:
       HOSTILE_MEMORY=FIRST-LAST    the requests for memory with these numbers, from 1, are refused
       HOSTILE_LARGEST=BYTES        each request for more bytes is refused
       HOSTILE_CALLS=FIRST-LAST     the calls with these numbers, from 1,
       HOSTILE_ONLY=TEXT            of those alone whose line in the log begins so,
       HOSTILE_WAY=NUMBER           fail with this error, or, if it is 0, read or write one byte, where they do that
       HOSTILE_LOG=DESCRIPTOR       a line for each call and the count of requests for memory go there
       HOSTILE_FREED=BYTES          and a line for each block of as many bytes, or more, that is freed: of zeros, or not
   What the loader does before `main` is not counted. Blocks of 128 KiB and more are mapped one by one and come zeroed,
   so other bytes in one were written by the program. */
#define _GNU_SOURCE
#include <errno.h>
#include <fcntl.h>
#include <limits.h>
#include <malloc.h>
#include <stdarg.h>
#include <stdint.h>
#include <stdio.h>
#include <stdlib.h>
#include <string.h>
#include <sys/stat.h>
#include <sys/syscall.h>
#include <unistd.h>

void *__libc_malloc(size_t);
void *__libc_calloc(size_t, size_t);
void *__libc_realloc(void *, size_t);
void *__libc_memalign(size_t, size_t);
void __libc_free(void *);

static struct range { long first, last; } refused_requests, bad_calls, error = {EIO, 0}, log_descriptor = {-1, 0},
    largest_request = {LONG_MAX, 0}, told_when_freed = {LONG_MAX, 0};
static long requests, calls;
static int is_bad; /* the last call */
static const char *only = "";
static char names[16][64] = {"standard input", "standard output", "standard error"};

/* Takes a variable's range, or its number as the range's first, where it is there. */
static void take(const char *variable, struct range *range) {
    const char *text = getenv(variable);
    if (text && sscanf(text, "%ld-%ld", &range->first, &range->last) == 0)
        _exit(99);
}

__attribute__((constructor)) static void begin(void) {
    take("HOSTILE_MEMORY", &refused_requests);
    take("HOSTILE_LARGEST", &largest_request);
    take("HOSTILE_CALLS", &bad_calls);
    take("HOSTILE_WAY", &error);
    take("HOSTILE_LOG", &log_descriptor);
    take("HOSTILE_FREED", &told_when_freed);
    only = getenv("HOSTILE_ONLY") ? getenv("HOSTILE_ONLY") : "";
    requests = calls = 0;
}

static int is_within(struct range range, long number) { return range.first <= number && number <= range.last; }
static int is_refused(size_t size) {
    return is_within(refused_requests, ++requests) || size > (size_t)largest_request.first;
}

void *calloc(size_t count, size_t size) {
    return is_refused(size && count > SIZE_MAX / size ? SIZE_MAX : count * size) ? NULL : __libc_calloc(count, size);
}
void *malloc(size_t size) { return is_refused(size) ? NULL : __libc_malloc(size); }
void *realloc(void *old, size_t size) { return is_refused(size) ? NULL : __libc_realloc(old, size); }
void *aligned_alloc(size_t alignment, size_t size) { return is_refused(size) ? NULL : __libc_memalign(alignment, size); }

/* Whether the line of this call in the log begins as HOSTILE_ONLY says. */
static int tell(const char *call, const char *name) {
    char line[128];
    int length = snprintf(line, sizeof line, "%s %s\n", call, name);
    if (log_descriptor.first >= 0)
        syscall(SYS_write, log_descriptor.first, line, length);
    return strncmp(line, only, strlen(only)) == 0;
}

void free(void *block) {
    size_t size = block ? malloc_usable_size(block) : 0, at = 0;
    if (size >= (size_t)told_when_freed.first) {
        while (at < size && ((unsigned char *)block)[at] == 0)
            ++at;
        tell("free", at < size ? "what is there" : "zeros");
    }
    __libc_free(block);
}

/* Whether this call is made: if not, errno says why. */
static int goes_on(const char *call, const char *name) {
    is_bad = tell(call, name) && is_within(bad_calls, ++calls);
    if (is_bad)
        errno = error.first;
    return !is_bad || !error.first;
}

static const char *name_of(int descriptor) { return descriptor < 0 || descriptor >= 16 ? "a file" : names[descriptor]; }
static size_t cut(size_t size) { return !error.first && is_bad && size > 1 ? 1 : size; }

int open(const char *path, int flags, ...) {
    va_list rest;
    va_start(rest, flags);
    mode_t mode = flags & O_CREAT ? va_arg(rest, mode_t) : 0;
    va_end(rest);
    if (!goes_on("open", path))
        return -1;
    int descriptor = syscall(SYS_openat, AT_FDCWD, path, flags, mode);
    if (descriptor >= 0 && descriptor < 16)
        snprintf(names[descriptor], sizeof names[descriptor], "%s", path);
    return descriptor;
}

ssize_t read(int descriptor, void *bytes, size_t size) {
    return goes_on("read", name_of(descriptor)) ? syscall(SYS_read, descriptor, bytes, cut(size)) : -1;
}

ssize_t write(int descriptor, const void *bytes, size_t size) {
    return goes_on("write", name_of(descriptor)) ? syscall(SYS_write, descriptor, bytes, cut(size)) : -1;
}

int statx(int folder, const char *path, int flags, unsigned mask, struct statx *found) {
    return goes_on("look at", *path ? path : name_of(folder)) ? syscall(SYS_statx, folder, path, flags, mask, found) : -1;
}

int ftruncate(int descriptor, off_t length) {
    return goes_on("empty", name_of(descriptor)) ? syscall(SYS_ftruncate, descriptor, length) : -1;
}
int ftruncate64(int descriptor, off_t length) { return ftruncate(descriptor, length); }

int fsync(int descriptor) { return goes_on("sync", name_of(descriptor)) ? syscall(SYS_fsync, descriptor) : -1; }

__attribute__((destructor)) static void end(void) {
    char text[32];
    snprintf(text, sizeof text, "%ld", requests);
    tell("memory", text);
}
