/* SPDX-License-Identifier: MIT */
/* Times the calls of libimago_bench.a: the least of several runs, in nanoseconds a call, and beside it the time of a bare
   copy of the same bytes in the same run. */
#include <stdint.h>
#include <stdio.h>
#include <stdlib.h>
#include <string.h>
#include <time.h>

uint64_t imago_bench_read(size_t align, uint64_t offset, size_t count, uint64_t rounds);
uint64_t imago_bench_write(size_t align, uint64_t offset, size_t count, uint64_t rounds);
uint64_t imago_bench_zero(size_t align, uint64_t offset, uint64_t count, uint64_t rounds);
uint64_t imago_bench_discard(size_t align, uint64_t offset, uint64_t count, uint64_t rounds);
uint64_t imago_bench_image_read(size_t align, uint64_t offset, size_t count, uint64_t rounds);
uint64_t imago_bench_map(uint64_t layers, uint64_t count, uint64_t rounds);
uint64_t imago_bench_open(uint64_t kind, uint64_t lines, uint64_t rounds);
uint64_t imago_bench_cow_map(uint64_t layers, uint64_t count, uint64_t rounds);
uint64_t imago_bench_zero_again(uint64_t count, uint64_t rounds);
uint64_t imago_bench_grow(uint64_t rounds);
uint64_t imago_bench_cow_read(size_t align, size_t count, uint64_t rounds);
uint64_t imago_bench_cow_write(size_t align, size_t count, uint32_t first, uint64_t rounds);

enum { SIZE = 4194304, RUNS = 15, MOST = 1 << 24 };

/* how long the rounds of a run take at least, in nanoseconds */
static const double ENOUGH = 2e7;

enum call { READ, WRITE, ZERO, DISCARD, IMAGE_READ, MAP, OPEN, COW_READ, COW_WRITE, COW_FIRST,
            COW_MAP, ZERO_AGAIN, GROW };

struct row {
    const char *name;
    enum call call;
    uint64_t align; /* of MAP and COW_MAP: how many layers; of OPEN: how many lines */
    uint64_t offset, count; /* of OPEN: the kind of the lines, and the descriptor's length */
};

static const struct row ROWS[] = {
    {"read of 64 bytes, aligned", READ, 16, 4096, 64},
    {"read of 512 bytes, one layer", IMAGE_READ, 512, 4096, 512},
    {"read of 4 KiB, aligned", READ, 4096, 4096, 4096},
    {"read of 100 bytes at an odd place", READ, 512, 4101, 100},
    {"read of 64 KiB at an odd place", READ, 512, 4101, 65536},
    {"read of 1 MiB at an odd place", READ, 4096, 4101, 1048576},
    {"write of 64 bytes, aligned", WRITE, 16, 4096, 64},
    {"write of 4 KiB, aligned", WRITE, 4096, 4096, 4096},
    {"write of 64 KiB at an odd place", WRITE, 512, 4101, 65536},
    {"write of 1 MiB at an odd place", WRITE, 4096, 4101, 1048576},
    {"zeroes of 4 KiB as data", ZERO, 512, 4096, 4096},
    {"discard of 4 KiB, which does nothing", DISCARD, 512, 4096, 4096},
    {"mapping, one layer", MAP, 0, 0, 0},
    {"mapping through 8 layers", MAP, 8, 0, 0},
    {"mapping through 64 layers", MAP, 64, 0, 0},
    {"mapping through 8 layers, copy-on-write", COW_MAP, 8, 0, 0},
    {"mapping through 64 layers, copy-on-write", COW_MAP, 64, 0, 0},
    {"mapping through 1000 layers, copy-on-write", COW_MAP, 1000, 0, 0},
    {"opening of a descriptor of 100 extents", OPEN, 99, 0, 1032},
    {"opening of a descriptor of 200,000 extents", OPEN, 199999, 0, 2000032},
    {"opening of a descriptor, 10,000 ZERO lines", OPEN, 10000, 0, 100042},
    {"opening of a descriptor, 10,000 FLAT lines", OPEN, 10000, 1, 280042},
    {"opening of a descriptor, 10,000 ddb lines", OPEN, 10000, 2, 550042},
    {"opening of a descriptor, 10,000 comments", OPEN, 10000, 3, 500042},
    {"opening of a descriptor, 10,000 empty lines", OPEN, 10000, 4, 10042},
    {"read of 4 KiB, copy-on-write", COW_READ, 512, 0, 4096},
    {"write of 4 KiB, copy-on-write, into data", COW_WRITE, 512, 0, 4096},
    {"first write of 4 KiB into a block of 64 KiB", COW_FIRST, 512, 0, 4096},
    {"zeroes of 60 KiB in a block that is zero", ZERO_AGAIN, 0, 0, 61440},
    {"growth of a storage in memory by one byte", GROW, 0, 0, 0},
};

static uint64_t calls(const struct row *row, uint64_t rounds) {
    switch (row->call) {
    case READ: return imago_bench_read(row->align, row->offset, row->count, rounds);
    case WRITE: return imago_bench_write(row->align, row->offset, row->count, rounds);
    case ZERO: return imago_bench_zero(row->align, row->offset, row->count, rounds);
    case DISCARD: return imago_bench_discard(row->align, row->offset, row->count, rounds);
    case IMAGE_READ: return imago_bench_image_read(row->align, row->offset, row->count, rounds);
    case OPEN: return imago_bench_open(row->offset, row->align, rounds);
    case COW_MAP: return imago_bench_cow_map(row->align, 65536, rounds);
    case ZERO_AGAIN: return imago_bench_zero_again(row->count, rounds);
    case GROW: return imago_bench_grow(rounds);
    case COW_READ: return imago_bench_cow_read(row->align, row->count, rounds);
    case COW_WRITE: return imago_bench_cow_write(row->align, row->count, 0, rounds);
    case COW_FIRST: return imago_bench_cow_write(row->align, row->count, 1, rounds);
    default: return imago_bench_map(row->align, 65536, rounds);
    }
}

/* Processor time, so that what else runs on the machine counts less. */
static double now(void) {
    struct timespec t;
    clock_gettime(CLOCK_PROCESS_CPUTIME_ID, &t);
    return t.tv_sec * 1e9 + t.tv_nsec;
}

__attribute__((noinline)) static void copy(char *to, const char *from, size_t count) {
    memcpy(to, from, count);
    __asm__ volatile("" : : "r"(to) : "memory");
}

/* The bare copies, from and to memory that is set up as the calls' is. */
static uint64_t copies(const struct row *row, uint64_t rounds) {
    char *from = malloc(SIZE), *to = malloc(row->count);
    if (!from || !to) exit(1);
    memset(from, 7, SIZE);
    memset(to, 0, row->count);
    for (uint64_t i = 0; i < rounds; i++) copy(to, from + (row->call == OPEN ? 0 : row->offset + (i & 7) * 65536), row->count);
    free(from);
    free(to);
    return rounds;
}

typedef uint64_t rounds_of(const struct row *, uint64_t);

/* The time of so many rounds, with their set-up. */
static double timed(rounds_of *what, const struct row *row, uint64_t rounds) {
    double start = now();
    uint64_t done = what(row, rounds);
    double end = now();
    if (done != rounds) {
        fprintf(stderr, "%s: %llu of %llu calls were done\n", row->name, (unsigned long long)done,
                (unsigned long long)rounds);
        exit(1);
    }
    return end - start;
}

/* Nanoseconds a round: the least time of many rounds less that of few, by which the set-up goes out. */
static double each(rounds_of *what, const struct row *row) {
    uint64_t few = 16, many = 64;
    while (many < MOST && timed(what, row, many) < ENOUGH) many *= 2;
    double least_few = 1e18, least_many = 1e18;
    for (int i = 0; i < RUNS; i++) {
        double t = timed(what, row, few);
        if (t < least_few) least_few = t;
        t = timed(what, row, many);
        if (t < least_many) least_many = t;
    }
    return (least_many - least_few) / (double)(many - few);
}

int main(void) {
    printf("| Call | ns a call | ns a bare copy | ratio |\n|---|---|---|---|\n");
    for (size_t r = 0; r < sizeof ROWS / sizeof *ROWS; r++) {
        const struct row *row = &ROWS[r];
        double call = each(calls, row);
        if (row->count) {
            double bare = each(copies, row);
            printf("| %s | %.1f | %.1f | %.2f |\n", row->name, call, bare, call / bare);
        } else {
            printf("| %s | %.1f | | |\n", row->name, call);
        }
        fflush(stdout);
    }
    return 0;
}
