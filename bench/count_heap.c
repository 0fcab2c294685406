/* Counts what a program asks of the heap while it writes its output.

   It is preloaded into the program (LD_PRELOAD). At the program's end the file that COUNT_HEAP
   names has three numbers: how often memory was taken (malloc, calloc, realloc and the aligned
   ones), how often it was given back, and how often the output was written.

   The output is the first descriptor past the standard streams that is written and was opened
   to be written. Both counts are those between its opening and its last write: what comes
   before and behind isn't the recording. Where the opening isn't seen, they begin with the
   first write. */

#include <errno.h>
#include <fcntl.h>
#include <stdarg.h>
#include <stdbool.h>
#include <stdint.h>
#include <stdio.h>
#include <stdlib.h>
#include <sys/syscall.h>
#include <sys/uio.h>
#include <unistd.h>

enum { LAST_STREAM = 2, MOST_FILES = 1024 };

/* What the C library's own calls are behind their names. */
void *__libc_malloc(size_t size);
void *__libc_calloc(size_t count, size_t size);
void *__libc_realloc(void *memory, size_t size);
void *__libc_memalign(size_t alignment, size_t size);
void __libc_free(void *memory);

struct counts {
    uint64_t taken, given;
};

static struct counts now, last, opened[MOST_FILES];
static bool is_opened[MOST_FILES];
static int output = -1;
static uint64_t writes;

static void count_one(uint64_t *counter)
{
    __atomic_fetch_add(counter, 1, __ATOMIC_RELAXED);
}

void *malloc(size_t size)
{
    count_one(&now.taken);
    return __libc_malloc(size);
}

void *calloc(size_t items, size_t size)
{
    count_one(&now.taken);
    return __libc_calloc(items, size);
}

void *realloc(void *memory, size_t size)
{
    count_one(&now.taken);
    return __libc_realloc(memory, size);
}

void *memalign(size_t alignment, size_t size)
{
    count_one(&now.taken);
    return __libc_memalign(alignment, size);
}

void *aligned_alloc(size_t alignment, size_t size)
{
    return memalign(alignment, size);
}

int posix_memalign(void **memory, size_t alignment, size_t size)
{
    *memory = memalign(alignment, size);
    return *memory == NULL ? ENOMEM : 0;
}

void free(void *memory)
{
    if (memory != NULL)
        count_one(&now.given);
    __libc_free(memory);
}

static int note_opening(int file, int flags)
{
    if (LAST_STREAM < file && file < MOST_FILES && (flags & O_ACCMODE) != O_RDONLY) {
        opened[file] = now;
        is_opened[file] = true;
    }
    return file;
}

static int open_at(int folder, const char *path, int flags, va_list words)
{
    mode_t mode = flags & (O_CREAT | O_TMPFILE) ? va_arg(words, mode_t) : 0;
    return note_opening(syscall(SYS_openat, folder, path, flags, mode), flags);
}

int open(const char *path, int flags, ...)
{
    va_list words;
    va_start(words, flags);
    int file = open_at(AT_FDCWD, path, flags, words);
    va_end(words);
    return file;
}

int open64(const char *path, int flags, ...) __attribute__((alias("open")));

int openat(int folder, const char *path, int flags, ...)
{
    va_list words;
    va_start(words, flags);
    int file = open_at(folder, path, flags, words);
    va_end(words);
    return file;
}

int openat64(int folder, const char *path, int flags, ...) __attribute__((alias("openat")));

static void note_write(int file)
{
    if (output < 0 && LAST_STREAM < file && file < MOST_FILES) {
        int flags = fcntl(file, F_GETFL);
        if (flags < 0 || (flags & O_ACCMODE) == O_RDONLY)
            return;
        output = file;
        if (!is_opened[file])
            opened[file] = now;
    }
    if (file == output) {
        last = now;
        writes++;
    }
}

ssize_t write(int file, const void *bytes, size_t size)
{
    note_write(file);
    return syscall(SYS_write, file, bytes, size);
}

ssize_t __write(int file, const void *bytes, size_t size) __attribute__((alias("write")));

ssize_t writev(int file, const struct iovec *pieces, int count)
{
    note_write(file);
    return syscall(SYS_writev, file, pieces, count);
}

__attribute__((destructor)) static void tell(void)
{
    const char *path = getenv("COUNT_HEAP");
    int file = path == NULL ? -1 : syscall(SYS_openat, AT_FDCWD, path, O_WRONLY | O_CREAT | O_TRUNC, 0666);
    if (file < 0)
        return;
    struct counts first = output < 0 ? last : opened[output];
    char line[80];
    int size = snprintf(line, sizeof line, "%llu %llu %llu\n", (unsigned long long)(last.taken - first.taken),
                        (unsigned long long)(last.given - first.given), (unsigned long long)writes);
    if (syscall(SYS_write, file, line, size) != size)
        unlink(path);
    close(file);
}
