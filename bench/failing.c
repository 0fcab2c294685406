/* Makes one call of a program to the outside fail.

   It is preloaded into the program (LD_PRELOAD) and told by the environment what to do:

   FAIL_KIND    which calls are counted: allocation, read, write, line, open, look, sync or
                thread
   FAIL_AT      the number of the call that it is about, from 1 on; 0 is none
   FAIL_HOW     fail: this call fails; on: it and all behind it; interrupted: a signal interrupts it;
                half: it takes half of its bytes; short: the same, and the next one fails
   FAIL_PIECE   the most bytes that a call of the kind read or write takes; else all
   FAIL_PAUSE   so many microseconds pass before each read once a file was opened to be written, and
                such a read takes at most FAIL_PIECE bytes
   FAIL_LINES   where it is there, each write of standard output fails
   FAIL_REPORT  a file for what happened, `struct report`. It is shared memory, so that it is right
                whatever becomes of the program

   An allocation is one of the program's own code: the loader and the C library, which take memory
   for themselves, aren't counted. Files are those whose names have no slash in front, so they are
   those of the folder in which the program runs: a read is one of a file that was opened to be
   read, and a write one of a file that was opened to be written. A line is a write of standard
   output, and a look asks what an open file is. By threads the calls of all of them are counted together. */

#define _GNU_SOURCE
#include <dlfcn.h>
#include <errno.h>
#include <fcntl.h>
#include <link.h>
#include <pthread.h>
#include <stdarg.h>
#include <stdbool.h>
#include <stdint.h>
#include <stdlib.h>
#include <string.h>
#include <sys/mman.h>
#include <sys/stat.h>
#include <sys/syscall.h>
#include <sys/uio.h>
#include <unistd.h>

enum { MOST_FILES = 1024, NAME_SIZE = 64 };
enum kind { ALLOCATION, READ, WRITE, LINE, OPEN, LOOK, SYNC, THREAD, KINDS };
enum how { FAIL, ON, INTERRUPTED, HALF, SHORT, HOWS };
enum role { OTHER, INPUT, OUTPUT };
enum verdict { PASS, REFUSE, TAKE_HALF };

static const char *const kind_names[KINDS] = {"allocation", "read", "write", "line", "open", "look",
                                               "sync", "thread"};
static const char *const how_names[HOWS] = {"fail", "on", "interrupted", "half", "short"};

struct report {
    uint64_t counted; /* the calls of the kind */
    uint64_t touched; /* those that weren't done as they were asked for */
    uint64_t before;  /* the bytes that the first of these found read or written of its file */
    char name[NAME_SIZE]; /* and the name of its file */
};

struct file {
    enum role role;
    uint64_t bytes;
    char name[NAME_SIZE];
};

static struct report unseen, *report = &unseen;
static struct file files[MOST_FILES];
static enum kind chosen = KINDS;
static enum how how;
static uint64_t at, pause_time, piece = SIZE_MAX;
static bool is_mute, has_output;
static uintptr_t code_begin, code_end;
static int (*real_pthread_create)(pthread_t *, const pthread_attr_t *, void *(*)(void *), void *);

/* What the C library's own calls are behind their names. */
void *__libc_malloc(size_t size);
void *__libc_calloc(size_t count, size_t size);
void *__libc_realloc(void *memory, size_t size);
void *__libc_memalign(size_t alignment, size_t size);

static int find_code(struct dl_phdr_info *object, size_t size, void *none)
{
    (void)size, (void)none;
    for (int k = 0; k < object->dlpi_phnum; k++) {
        const ElfW(Phdr) *part = &object->dlpi_phdr[k];
        if (part->p_type != PT_LOAD || !(part->p_flags & PF_X))
            continue;
        code_begin = object->dlpi_addr + part->p_vaddr;
        code_end = code_begin + part->p_memsz;
    }
    return 1; /* the program is the first */
}

static int find_name(const char *word, const char *const *names, int count)
{
    for (int k = 0; word != NULL && k < count; k++)
        if (strcmp(word, names[k]) == 0)
            return k;
    return count;
}

static uint64_t number_of(const char *name, uint64_t otherwise)
{
    const char *word = getenv(name);
    return word == NULL ? otherwise : strtoull(word, NULL, 10);
}

__attribute__((constructor)) static void begin(void)
{
    real_pthread_create = dlsym(RTLD_NEXT, "pthread_create");
    const char *path = getenv("FAIL_REPORT");
    int file = path == NULL ? -1 : syscall(SYS_openat, AT_FDCWD, path, O_RDWR | O_CREAT | O_TRUNC, 0666);
    if (file < 0 || ftruncate(file, sizeof *report) != 0)
        return;
    void *shared = mmap(NULL, sizeof *report, PROT_READ | PROT_WRITE, MAP_SHARED, file, 0);
    syscall(SYS_close, file);
    how = find_name(getenv("FAIL_HOW"), how_names, HOWS);
    if (shared == MAP_FAILED || how == HOWS)
        return;
    report = shared;
    at = number_of("FAIL_AT", 0);
    piece = number_of("FAIL_PIECE", SIZE_MAX);
    pause_time = number_of("FAIL_PAUSE", 0);
    is_mute = getenv("FAIL_LINES") != NULL;
    dl_iterate_phdr(find_code, NULL);
    chosen = find_name(getenv("FAIL_KIND"), kind_names, KINDS);
}

static void note(const char *name, uint64_t before)
{
    if (__atomic_fetch_add(&report->touched, 1, __ATOMIC_RELAXED) != 0)
        return;
    report->before = before;
    strncpy(report->name, name, NAME_SIZE - 1);
}

/* What becomes of a call of this kind. */
static enum verdict judge(enum kind kind, const char *name, uint64_t before)
{
    if (kind != chosen)
        return PASS;
    uint64_t number = __atomic_add_fetch(&report->counted, 1, __ATOMIC_RELAXED);
    bool behind = at != 0 && ((how == ON && number > at) || (how == SHORT && number == at + 1));
    if (at == 0 || (number != at && !behind))
        return PASS;
    note(name, before);
    return !behind && (how == HALF || how == SHORT) ? TAKE_HALF : REFUSE;
}

static int refuse(int reason)
{
    errno = how == INTERRUPTED ? EINTR : reason;
    return -1;
}

static bool refuse_memory(const void *caller)
{
    uintptr_t place = (uintptr_t)caller;
    if (place < code_begin || code_end <= place || judge(ALLOCATION, "", 0) == PASS)
        return false;
    errno = ENOMEM;
    return true;
}

#define CALLER __builtin_return_address(0)

void *malloc(size_t size)
{
    return refuse_memory(CALLER) ? NULL : __libc_malloc(size);
}

void *calloc(size_t items, size_t size)
{
    return refuse_memory(CALLER) ? NULL : __libc_calloc(items, size);
}

void *realloc(void *memory, size_t size)
{
    return refuse_memory(CALLER) ? NULL : __libc_realloc(memory, size);
}

void *memalign(size_t alignment, size_t size)
{
    return refuse_memory(CALLER) ? NULL : __libc_memalign(alignment, size);
}

void *aligned_alloc(size_t alignment, size_t size)
{
    return refuse_memory(CALLER) ? NULL : __libc_memalign(alignment, size);
}

int posix_memalign(void **memory, size_t alignment, size_t size)
{
    void *found = refuse_memory(CALLER) ? NULL : __libc_memalign(alignment, size);
    if (found == NULL)
        return ENOMEM;
    *memory = found;
    return 0;
}

int pthread_create(pthread_t *thread, const pthread_attr_t *words, void *(*work)(void *), void *given)
{
    return judge(THREAD, "", 0) == PASS ? real_pthread_create(thread, words, work, given) : EAGAIN;
}

static int open_at(int folder, const char *path, int flags, va_list words)
{
    mode_t mode = flags & (O_CREAT | O_TMPFILE) ? va_arg(words, mode_t) : 0;
    bool counts = folder == AT_FDCWD && path[0] != '/';
    if (counts && judge(OPEN, path, 0) != PASS)
        return refuse(EACCES);
    int file = syscall(SYS_openat, folder, path, flags, mode);
    if (0 <= file && file < MOST_FILES) {
        files[file] = (struct file){.role = OTHER};
        if (counts)
            files[file].role = (flags & O_ACCMODE) == O_RDONLY ? INPUT : OUTPUT;
        strncpy(files[file].name, path, NAME_SIZE - 1);
        has_output |= files[file].role == OUTPUT;
    }
    return file;
}

int open(const char *path, int flags, ...)
{
    va_list words;
    va_start(words, flags);
    int file = open_at(AT_FDCWD, path, flags, words);
    va_end(words);
    return file;
}

int open64(const char *path, int flags, ...) __attribute__((alias("open")));

int openat(int folder, const char *path, int flags, ...)
{
    va_list words;
    va_start(words, flags);
    int file = open_at(folder, path, flags, words);
    va_end(words);
    return file;
}

int openat64(int folder, const char *path, int flags, ...) __attribute__((alias("openat")));

int close(int file)
{
    if (0 <= file && file < MOST_FILES)
        files[file].role = OTHER;
    return syscall(SYS_close, file);
}

/* The kind of a call that moves bytes, or none. */
static enum kind kind_of(int file, enum role role)
{
    if (role == OUTPUT && file == STDOUT_FILENO)
        return LINE;
    if (file < 0 || MOST_FILES <= file || files[file].role != role)
        return KINDS;
    return role == INPUT ? READ : WRITE;
}

/* How many of the bytes a call moves, which is of this kind; negative where it fails. */
static ssize_t allowed(enum kind kind, int file, size_t size, int reason)
{
    if (kind == KINDS)
        return size;
    enum verdict verdict = judge(kind, files[file].name, files[file].bytes);
    if (verdict == REFUSE || (kind == LINE && is_mute))
        return refuse(reason);
    if (verdict == TAKE_HALF)
        return (size + 1) / 2;
    return kind == chosen && size > piece ? piece : size;
}

static ssize_t count_moved(enum kind kind, int file, ssize_t moved)
{
    if (kind != KINDS && moved > 0)
        files[file].bytes += moved;
    return moved;
}

ssize_t read(int file, void *bytes, size_t size)
{
    enum kind kind = kind_of(file, INPUT);
    if (kind == READ && has_output && pause_time != 0) {
        usleep(pause_time);
        size = size > piece ? piece : size;
    }
    ssize_t most = allowed(kind, file, size, EIO);
    return most < 0 ? most : count_moved(kind, file, syscall(SYS_read, file, bytes, most));
}

ssize_t write(int file, const void *bytes, size_t size)
{
    enum kind kind = kind_of(file, OUTPUT);
    ssize_t most = allowed(kind, file, size, ENOSPC);
    return most < 0 ? most : count_moved(kind, file, syscall(SYS_write, file, bytes, most));
}

/* Of several pieces the first that isn't empty is moved, where the call is one that counts. */
static const struct iovec *first_of(const struct iovec *pieces, int count)
{
    while (count > 1 && pieces->iov_len == 0)
        pieces++, count--;
    return pieces;
}

ssize_t readv(int file, const struct iovec *pieces, int count)
{
    if (count < 1 || kind_of(file, INPUT) == KINDS)
        return syscall(SYS_readv, file, pieces, count);
    const struct iovec *first = first_of(pieces, count);
    return read(file, first->iov_base, first->iov_len);
}

ssize_t writev(int file, const struct iovec *pieces, int count)
{
    if (count < 1 || kind_of(file, OUTPUT) == KINDS)
        return syscall(SYS_writev, file, pieces, count);
    const struct iovec *first = first_of(pieces, count);
    return write(file, first->iov_base, first->iov_len);
}

static const char *name_of(int file)
{
    return 0 <= file && file < MOST_FILES ? files[file].name : "";
}

int statx(int file, const char *path, int flags, unsigned mask, struct statx *found)
{
    if (judge(LOOK, path[0] == '\0' ? name_of(file) : path, 0) != PASS)
        return refuse(EIO);
    return syscall(SYS_statx, file, path, flags, mask, found);
}

int fsync(int file)
{
    return judge(SYNC, name_of(file), 0) == PASS ? syscall(SYS_fsync, file) : refuse(EIO);
}

int fdatasync(int file)
{
    return judge(SYNC, name_of(file), 0) == PASS ? syscall(SYS_fdatasync, file) : refuse(EIO);
}
