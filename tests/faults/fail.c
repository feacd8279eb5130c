// A library for LD_PRELOAD that lets chosen calls of a program fail. It counts the program's reads, its writes on
// standard output and on standard error, its requests for memory and the files that it opens, from its start on.
//
// The environment says what is to happen; each value is a number, and one that is absent is 0:
//
//   FAIL_READ, FAIL_WRITE, FAIL_ERROR, FAIL_MEMORY, FAIL_OPEN
//                    which call of the kind fails, from 1; none where it is 0. FAIL_ERROR is of standard error
//   FAIL_REST        1: all later calls of these kinds fail too
//   FAIL_NOTHING     1: a write that is to fail takes nothing and tells no error
//   FAIL_PIECE       the most bytes that a read or a write takes; no limit where it is 0
//   FAIL_INTERRUPT   1: each read and write is interrupted once before it is done
//   FAIL_REPORT      the name of a file of some zero bytes, as many as a Report has, which comes to hold one
//
// It is for programs of one thread on Linux with the C library of GNU, whose own allocator it calls.
#define _GNU_SOURCE
#include <errno.h>
#include <fcntl.h>
#include <link.h>
#include <stdarg.h>
#include <stdint.h>
#include <stdlib.h>
#include <sys/mman.h>
#include <sys/syscall.h>
#include <sys/types.h>
#include <unistd.h>

void *__libc_malloc(size_t size);
void *__libc_calloc(size_t count, size_t size);
void *__libc_realloc(void *old, size_t size);
void *__libc_memalign(size_t alignment, size_t size);

enum { READ, WRITE, ERROR, MEMORY, OPEN, KINDS };

static const char *const NAMES[KINDS] = {"FAIL_READ", "FAIL_WRITE", "FAIL_ERROR", "FAIL_MEMORY", "FAIL_OPEN"};

// What the runner reads: how many calls there were and how many of them failed, by kinds; of the last failed read or
// open which file it was of, counted as they are opened from 1, or 0 for standard input; and from where in the program
// the last refused memory was asked for, as its tools count its bytes.
typedef struct {
    uint64_t calls[KINDS];
    uint64_t failed[KINDS];
    uint64_t source;
    uint64_t caller;
} Report;

static Report unshared;
static Report *report = &unshared;
static uint64_t places[KINDS];
static uint64_t piece, all_the_rest, takes_nothing, interrupts, started, program;
static int interrupted[KINDS];

static uint64_t number_of(const char *name) {
    const char *text = getenv(name);
    return text ? strtoull(text, NULL, 10) : 0;
}

// The report's file as memory, so that each count is there however the program ends.
static void share_report(void) {
    const char *name = getenv("FAIL_REPORT");
    int file = name ? (int)syscall(SYS_openat, AT_FDCWD, name, O_RDWR | O_CLOEXEC) : -1;
    if (file < 0) {
        return;
    }
    void *shared = mmap(NULL, sizeof(Report), PROT_READ | PROT_WRITE, MAP_SHARED, file, 0);
    syscall(SYS_close, file);
    if (shared != MAP_FAILED) {
        report = shared;
    }
}

// Where the program lies in memory: it is the first of what is loaded.
static int note_program(struct dl_phdr_info *loaded, size_t size, void *nothing) {
    (void)size;
    (void)nothing;
    program = loaded->dlpi_addr;
    return 1;
}

__attribute__((constructor)) static void start(void) {
    for (int kind = 0; kind < KINDS; kind++) {
        places[kind] = number_of(NAMES[kind]);
    }
    piece = number_of("FAIL_PIECE");
    all_the_rest = number_of("FAIL_REST");
    takes_nothing = number_of("FAIL_NOTHING");
    interrupts = number_of("FAIL_INTERRUPT");
    dl_iterate_phdr(note_program, NULL);
    share_report();
    started = 1;
}

// Counts a call, and says whether it fails.
static int fails(int kind) {
    if (!started) {
        return 0;
    }
    uint64_t count = ++report->calls[kind];
    int is_failed = places[kind] != 0 && (count == places[kind] || (all_the_rest && count > places[kind]));
    report->failed[kind] += is_failed;
    return is_failed;
}

// Whether the call is to be interrupted, which each is once.
static int is_interrupted(int kind) {
    interrupted[kind] = interrupts && !interrupted[kind];
    return interrupted[kind];
}

static int stop(int error) {
    errno = error;
    return -1;
}

static size_t cut(size_t length) { return piece != 0 && length > piece ? piece : length; }

ssize_t read(int file, void *bytes, size_t length) {
    if (is_interrupted(READ)) {
        return stop(EINTR);
    }
    if (fails(READ)) {
        report->source = file == STDIN_FILENO ? 0 : report->calls[OPEN];
        return stop(EIO);
    }
    return syscall(SYS_read, file, bytes, cut(length));
}

ssize_t write(int file, const void *bytes, size_t length) {
    int kind = file == STDERR_FILENO ? ERROR : WRITE;
    if (is_interrupted(kind)) {
        return stop(EINTR);
    }
    if (fails(kind)) {
        return takes_nothing ? 0 : stop(EIO);
    }
    return syscall(SYS_write, file, bytes, cut(length));
}

int open(const char *name, int flags, ...) {
    va_list rest;
    va_start(rest, flags);
    mode_t mode = (flags & O_CREAT) != 0 ? va_arg(rest, mode_t) : 0;
    va_end(rest);
    if (fails(OPEN)) {
        report->source = report->calls[OPEN];
        return stop(EIO);
    }
    return (int)syscall(SYS_openat, AT_FDCWD, name, flags, mode);
}

// Counts a request for memory, and says whether it is refused.
static int is_refused(void *caller) {
    if (!fails(MEMORY)) {
        return 0;
    }
    report->caller = (uint64_t)caller - program;
    errno = ENOMEM;
    return 1;
}

void *malloc(size_t size) { return is_refused(__builtin_return_address(0)) ? NULL : __libc_malloc(size); }

void *calloc(size_t count, size_t size) {
    return is_refused(__builtin_return_address(0)) ? NULL : __libc_calloc(count, size);
}

// To give a block back is no request.
void *realloc(void *old, size_t size) {
    if (size == 0) {
        return __libc_realloc(old, size);
    }
    return is_refused(__builtin_return_address(0)) ? NULL : __libc_realloc(old, size);
}

void *memalign(size_t alignment, size_t size) {
    return is_refused(__builtin_return_address(0)) ? NULL : __libc_memalign(alignment, size);
}

void *aligned_alloc(size_t alignment, size_t size) {
    return is_refused(__builtin_return_address(0)) ? NULL : __libc_memalign(alignment, size);
}

int posix_memalign(void **block, size_t alignment, size_t size) {
    if (is_refused(__builtin_return_address(0))) {
        return ENOMEM;
    }
    *block = __libc_memalign(alignment, size);
    return *block == NULL ? ENOMEM : 0;
}
