/* SPDX-License-Identifier: MIT */
// Loaded before the C library (LD_PRELOAD), it refuses each request for memory in turn. At a request the process forks: to the
// child it is refused, and each later one granted; to the parent it is granted. So there is a child for each request, which goes on from there
// to its own end.
//
// To the file descriptor in REFUSED_TO it writes a line 'failed N' for each child that doesn't end with status 0, N being the number of
// its request, from 1; and at its own end 'requests N'. At most as many children run at a time as REFUSED_AT_ONCE says.
#include <errno.h>
#include <stdio.h>
#include <stdlib.h>
#include <sys/wait.h>
#include <unistd.h>

extern void *__libc_malloc(size_t), *__libc_calloc(size_t, size_t), *__libc_realloc(void *, size_t),
    *__libc_memalign(size_t, size_t);

// How many children may run at once, and how many seconds each.
enum { MOST = 64, LONGEST = 600 };

static struct {
    pid_t process;
    long request;
} children[MOST];
static int is_child, running, at_once;
static long requests;

static void say(const char *what, long number) {
    char line[64];
    const char *to = getenv("REFUSED_TO");
    int length = snprintf(line, sizeof line, "%s %ld\n", what, number);
    if (!to || write(atoi(to), line, length) != length) abort();
}

static void wait_until(int left) {
    while (running > left) {
        int status, at = 0;
        pid_t process = wait(&status);
        while (at < running && children[at].process != process) at++;
        if (at == running) abort();
        if (status) say("failed", children[at].request);
        children[at] = children[--running];
    }
}

static int is_refused(void) {
    if (is_child) return 0;
    if (!at_once) {
        const char *number = getenv("REFUSED_AT_ONCE");
        at_once = number ? atoi(number) : 1;
        if (at_once < 1 || at_once > MOST) abort();
    }
    requests++;
    wait_until(at_once - 1);
    pid_t process = fork();
    if (process < 0) abort();
    if (!process) {
        is_child = 1;
        alarm(LONGEST);
        errno = ENOMEM;
        return 1;
    }
    children[running].process = process;
    children[running++].request = requests;
    return 0;
}

__attribute__((destructor)) static void end(void) {
    if (is_child) return;
    wait_until(0);
    say("requests", requests);
}

void *malloc(size_t size) { return is_refused() ? NULL : __libc_malloc(size); }

void *calloc(size_t count, size_t size) { return is_refused() ? NULL : __libc_calloc(count, size); }

void *realloc(void *old, size_t size) { return is_refused() ? NULL : __libc_realloc(old, size); }

void *aligned_alloc(size_t align, size_t size) { return is_refused() ? NULL : __libc_memalign(align, size); }

int posix_memalign(void **made, size_t align, size_t size) {
    *made = is_refused() ? NULL : __libc_memalign(align, size);
    return *made ? 0 : ENOMEM;
}
