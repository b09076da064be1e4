/* Loaded before a program, this library refuses some of its calls of the C library (glibc), by variables of the environment:
   REFUSE="M N"    the allocations (malloc or realloc) from the M-th to the N-th fail
   FAIL_WRITE=N    the N-th write to standard output fails, once
   REFUSE_COUNT=F  at the end of the program, file F gets the number of refused allocations, that of all, and a number that tells the order
                   of allocations, of any size, and of frees
   REFUSE_EACH=M   the program runs once for each allocation from the M-th on, which fails, and then once for each that fails with all after
                   it; each time until nothing is refused. For each run it prints M and N as above, the status of waitpid, the number of refused
                   allocations, and how many bytes the run wrote to its two streams, in a line, and then these bytes */
#define _GNU_SOURCE
#include <errno.h>
#include <fcntl.h>
#include <limits.h>
#include <stdio.h>
#include <stdlib.h>
#include <sys/mman.h>
#include <sys/syscall.h>
#include <sys/wait.h>
#include <unistd.h>

void *__libc_malloc(size_t size);
void *__libc_realloc(void *old, size_t size);
void __libc_free(void *old);

static unsigned long allocations, refused, writes, first, last, failing, order;
static unsigned long *told; /* shared with the runs of REFUSE_EACH, which say there how many allocations were refused */
static int streams[2];

/* Passes on what a run wrote to a stream, and empties it. */
static void pass_on(int stream) {
    char bytes[4096];
    ssize_t count;
    for (lseek(stream, 0, SEEK_SET); (count = read(stream, bytes, sizeof bytes)) > 0;) {
        if (write(1, bytes, count) != count) _exit(1);
    }
    if (ftruncate(stream, 0) || lseek(stream, 0, SEEK_SET)) _exit(1);
}

/* Runs the program with these allocations refused: only in the run it returns 0. */
static int is_over(unsigned long from, unsigned long to) {
    int status;
    *told = 0;
    pid_t run = fork();
    if (run < 0) _exit(1);
    if (!run) {
        first = from, last = to;
        if (dup2(streams[0], 1) < 0 || dup2(streams[1], 2) < 0) _exit(1);
        return 0;
    }
    if (waitpid(run, &status, 0) != run) _exit(1);
    dprintf(1, "%lu %lu %d %lu %ld %ld\n", from, to, status, *told, lseek(streams[0], 0, SEEK_END), lseek(streams[1], 0, SEEK_END));
    pass_on(streams[0]);
    pass_on(streams[1]);
    return 1;
}

/* Ends the process after all runs; returns in each of them. */
static void run_each(unsigned long from) {
    told = mmap(NULL, sizeof *told, PROT_READ | PROT_WRITE, MAP_SHARED | MAP_ANONYMOUS, -1, 0);
    streams[0] = memfd_create("output", MFD_CLOEXEC), streams[1] = memfd_create("errors", MFD_CLOEXEC);
    if (told == MAP_FAILED || streams[0] < 0 || streams[1] < 0) _exit(1);
    for (int all_after = 0; all_after < 2; all_after++) {
        unsigned long number = from;
        do {
            if (!is_over(number, all_after ? ULONG_MAX : number)) return;
            number++;
        } while (*told);
    }
    _exit(0);
}

__attribute__((constructor)) static void begin(void) {
    const char *range = getenv("REFUSE"), *number = getenv("FAIL_WRITE"), *each = getenv("REFUSE_EACH");
    if (range) sscanf(range, "%lu %lu", &first, &last);
    if (number) failing = strtoul(number, NULL, 10);
    if (each) run_each(strtoul(each, NULL, 10));
    allocations = writes = 0;
}

__attribute__((destructor)) static void end(void) {
    const char *name = getenv("REFUSE_COUNT");
    if (told) *told = refused;
    else if (name) dprintf(creat(name, 0666), "%lu %lu %lu\n", refused, allocations, order);
}

static void note(int what) { order = 1000003 * order + what; }

static int is_refused(void) {
    allocations++;
    if (allocations < first || allocations > last) return 0;
    refused++;
    errno = ENOMEM;
    return 1;
}

void *malloc(size_t size) {
    note(1);
    return is_refused() ? NULL : __libc_malloc(size);
}

void *realloc(void *old, size_t size) {
    note(2);
    return is_refused() ? NULL : __libc_realloc(old, size);
}

void free(void *old) {
    if (old) note(3);
    __libc_free(old);
}

ssize_t write(int file, const void *bytes, size_t count) {
    if (file != 1 || ++writes != failing) return syscall(SYS_write, file, bytes, count);
    errno = EIO;
    return -1;
}

ssize_t __write(int file, const void *bytes, size_t count) { return write(file, bytes, count); }
