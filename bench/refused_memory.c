/* What bench/memory puts under the program: requests for memory are counted from 1, and those from FIRST to LAST of the
   environment are refused. How many there were is written to the file COUNT when the program ends. */
#include <errno.h>
#include <fcntl.h>
#include <stddef.h>
#include <stdio.h>
#include <stdlib.h>
#include <unistd.h>

extern void *__libc_malloc(size_t bytes);
extern void *__libc_realloc(void *block, size_t bytes);

static long first, last, count;

__attribute__((constructor)) static void begin(void) {
    first = getenv("FIRST") ? atol(getenv("FIRST")) : 0;
    last = getenv("LAST") ? atol(getenv("LAST")) : 0;
}

__attribute__((destructor)) static void end(void) {
    char text[32];
    int file = open(getenv("COUNT"), O_WRONLY | O_CREAT | O_TRUNC, 0600);
    if (file < 0 || write(file, text, snprintf(text, sizeof text, "%ld\n", count)) < 0)
        _exit(1);
}

static int refused(void) {
    count++;
    if (count < first || count > last)
        return 0;
    errno = ENOMEM;
    return 1;
}

void *malloc(size_t bytes) { return refused() ? NULL : __libc_malloc(bytes); }

void *realloc(void *block, size_t bytes) { return refused() ? NULL : __libc_realloc(block, bytes); }
