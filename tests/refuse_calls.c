// Loaded into a program before the C library, it refuses one of the program's calls: that of the number
// REFUSED, counted from 1, among the calls of the kind CALLS, which is "memory", "read" or "write". Where the number
// is 0, or beyond the last one, it refuses none. Where PIECE is given, each read or write of that kind moves at most so
// many bytes. At the end it writes how many calls there were to the descriptor COUNTED. Only calls from the program's
// own code count: those of the C library go through.
#define _GNU_SOURCE
#include <dlfcn.h>
#include <errno.h>
#include <link.h>
#include <stdint.h>
#include <stdio.h>
#include <stdlib.h>
#include <string.h>
#include <sys/types.h>

static void *(*real_malloc)(size_t);
static void *(*real_realloc)(void *, size_t);
static void *(*real_calloc)(size_t, size_t);
static ssize_t (*real_read)(int, void *, size_t);
static ssize_t (*real_write)(int, const void *, size_t);

// The addresses of the program's own code and data, from the first to the one after the last.
static uintptr_t first, after_last;
static const char *counted = "memory";
static long seen, refused;
static size_t piece = SIZE_MAX;

// Of what is loaded the program is reported first, and nothing else is asked for.
static int note_program(struct dl_phdr_info *info, size_t size, void *unused) {
    (void)size;
    (void)unused;
    for (int i = 0; i < info->dlpi_phnum; i++) {
        const ElfW(Phdr) *part = &info->dlpi_phdr[i];
        if (part->p_type != PT_LOAD) continue;
        uintptr_t from = info->dlpi_addr + part->p_vaddr;
        if (!after_last || from < first) first = from;
        if (from + part->p_memsz > after_last) after_last = from + part->p_memsz;
    }
    return 1;
}

static void find_real(void) {
    real_malloc = dlsym(RTLD_NEXT, "malloc");
    real_realloc = dlsym(RTLD_NEXT, "realloc");
    real_calloc = dlsym(RTLD_NEXT, "calloc");
    real_read = dlsym(RTLD_NEXT, "read");
    real_write = dlsym(RTLD_NEXT, "write");
}

__attribute__((constructor)) static void begin(void) {
    find_real();
    const char *kind = getenv("CALLS"), *number = getenv("REFUSED");
    if (kind) counted = kind;
    refused = number ? atol(number) : 0;
    const char *most = getenv("PIECE");
    if (most) piece = strtoul(most, 0, 10);
    dl_iterate_phdr(note_program, 0);
}

__attribute__((destructor)) static void end(void) {
    const char *to = getenv("COUNTED");
    if (to) dprintf(atoi(to), "%ld\n", seen);
}

static int is_counted(const char *kind, void *caller) {
    uintptr_t at = (uintptr_t)caller;
    return first <= at && at < after_last && !strcmp(kind, counted);
}

static int is_refused(const char *kind, void *caller) {
    return is_counted(kind, caller) && ++seen == refused;
}

static size_t moved(const char *kind, void *caller, size_t size) {
    return is_counted(kind, caller) && size > piece ? piece : size;
}

void *malloc(size_t size) {
    if (!real_malloc) find_real();
    return is_refused("memory", __builtin_return_address(0)) ? 0 : real_malloc(size);
}

void *realloc(void *old, size_t size) {
    if (!real_realloc) find_real();
    return is_refused("memory", __builtin_return_address(0)) ? 0 : real_realloc(old, size);
}

void *calloc(size_t count, size_t size) {
    // dlsym itself may ask, and does without.
    if (!real_calloc) return 0;
    return is_refused("memory", __builtin_return_address(0)) ? 0 : real_calloc(count, size);
}

static ssize_t input_output_error(void) {
    errno = EIO;
    return -1;
}

ssize_t read(int from, void *room, size_t size) {
    if (!real_read) find_real();
    void *caller = __builtin_return_address(0);
    if (is_refused("read", caller)) return input_output_error();
    return real_read(from, room, moved("read", caller, size));
}

ssize_t write(int to, const void *bytes, size_t size) {
    if (!real_write) find_real();
    void *caller = __builtin_return_address(0);
    if (is_refused("write", caller)) return input_output_error();
    return real_write(to, bytes, moved("write", caller, size));
}
