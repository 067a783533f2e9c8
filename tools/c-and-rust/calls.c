/* SPDX-License-Identifier: MIT */
/* Makes each call of include/imago.h with good and with bad input. What it expects is worked out by hand. It prints how many calls
 * answered as expected, and fails where one didn't.
 */
#include "imago.h"
#include <stdio.h>
#include <stdlib.h>
#include <string.h>

static unsigned calls, wrong;

static void expect(bool holds, const char *what)
{
    calls += 1;
    if (!holds) {
        wrong += 1;
        printf("wrong: %s\n", what);
    }
}

/* A buffer of exactly that length, so that a byte too many is seen. */
static void *room(size_t length)
{
    void *buffer = malloc(length ? length : 1);
    if (!buffer)
        exit(2);
    memset(buffer, 0x5a, length);
    return buffer;
}

/* The same text in a buffer of its own. */
static uint8_t *copy(const void *text, size_t length)
{
    uint8_t *buffer = room(length);
    memcpy(buffer, text, length);
    return buffer;
}

/* Whether all these bytes are as room() left them. */
static bool untouched(const void *buffer, size_t length)
{
    const uint8_t *bytes = buffer;
    for (size_t i = 0; i < length; i++)
        if (bytes[i] != 0x5a)
            return false;
    return true;
}

static void runs(const char *text, uint32_t status, const char *printed)
{
    size_t length = strlen(text), wanted = strlen(printed);
    uint8_t *script = copy(text, length);
    for (size_t capacity = 0; capacity <= wanted + 3; capacity++) {
        uint8_t *output = room(capacity);
        size_t count = 77, fits = capacity < wanted ? capacity : wanted;
        expect(imago_script(script, length, output, capacity, &count) == status, text);
        expect(count == wanted && memcmp(output, printed, fits) == 0, printed);
        expect(untouched(output + fits, capacity - fits), "behind what is printed");
        free(output);
    }
    free(script);
}

static void scripts(void)
{
    runs("", 0, "");
    runs("mem a 16 00 1 1\nopen raw a rw\nwrite 3 0102\nread 0 6\n", 0, "ok\nok\nok\nok 000000010200\n");
    runs("mem a 16 00 1 1\nopen raw a ro\nwrite 0 01\nread 15 2", 0, "ok\nok\nerr Other\nok 0000\n");
    runs("size\nread 0 x\nsize\n", 2, "err NotFound\nbad line 2\n");
    runs("\xff\xfe\n", 2, "bad line 1\n");
    runs("hex b 0102030405060708\nopen raw b ro\nmem c 0 00 1 1\nopen cow c 4\nwrite 1 ff\nread 0 8\ndiscard backing 0 4\nread 0 8\nresize 6 zero\nmap 0 9\n",
         0, "ok\nok\nok\nok\nok\nok 01ff030405060708\nok\nok 0102030405060708\nok\nok 4 1/0:0x0/ro\n");
}

#define TEXT(literal) (const uint8_t *)(literal), sizeof(literal) - 1

struct descriptor {
    const uint8_t *text;
    size_t length;
    bool accept, probe;
    uint32_t kind;
    uint64_t size;
};

static const struct descriptor DESCRIPTORS[] = {
    {TEXT("version=1\nRW 2 ZERO\n"), false, true, IMAGO_DONE, 1024},
    {TEXT("version=1\nRW 1 FLAT \"a\" 3\nNOACCESS 4\n"), false, true, IMAGO_DONE, 2560},
    {TEXT("version=1"), false, true, IMAGO_DONE, 0},
    {TEXT("version=4"), false, false, IMAGO_UNSUPPORTED, 0},
    {TEXT("version=1\nencoding=\"UTF-8\"\n"), false, true, IMAGO_INVALID_DATA, 0},
    {TEXT("version=1\nencoding=\"UTF-8\"\n"), true, true, IMAGO_DONE, 0},
    {TEXT("KDMV and more"), false, true, IMAGO_UNSUPPORTED, 0},
    {TEXT("version=1\nRW 36028797018963968 ZERO\n"), false, true, IMAGO_INVALID_DATA, 0},
    {TEXT("version=1\n\xff\n"), false, true, IMAGO_INVALID_DATA, 0},
    {TEXT("\0\0\0\0\0"), false, false, IMAGO_UNSUPPORTED, 0},
    {TEXT("v=1"), true, false, IMAGO_INVALID_DATA, 0},
    {TEXT(""), true, false, IMAGO_INVALID_DATA, 0},
};

static void refused_extents(const struct descriptor *row, const uint8_t *text)
{
    struct imago_extent *extents = room(sizeof *extents);
    struct imago_extent_counts *counts = room(sizeof *counts);
    uint8_t *names = room(4);
    expect(imago_vmdk_extents(text, row->length, row->accept, extents, 1, names, 4, counts) == row->kind, "extents");
    expect(untouched(extents, sizeof *extents) && untouched(names, 4) && untouched(counts, sizeof *counts), "refused");
    struct imago_piece *pieces = room(sizeof *pieces);
    uint64_t *count = room(sizeof *count);
    expect(imago_vmdk_plan(text, row->length, row->accept, pieces, 1, count) == row->kind, "plan");
    expect(untouched(pieces, sizeof *pieces) && untouched(count, sizeof *count), "a refused plan");
    free(pieces);
    free(count);
    free(extents);
    free(counts);
    free(names);
}

static void descriptors(void)
{
    for (size_t i = 0; i < sizeof DESCRIPTORS / sizeof *DESCRIPTORS; i++) {
        const struct descriptor *row = &DESCRIPTORS[i];
        uint8_t *text = copy(row->text, row->length);
        uint64_t size = 0x5a5a;
        expect(imago_vmdk_probe(text, row->length) == row->probe, "probe");
        expect(imago_vmdk_size(text, row->length, row->accept, &size) == row->kind, "size");
        expect(size == (row->kind == IMAGO_DONE ? row->size : 0x5a5a), "the size");
        if (row->kind != IMAGO_DONE)
            refused_extents(row, text);
        free(text);
    }
}

static bool is_extent(const struct imago_extent *e, uint32_t kind, uint64_t sectors, uint64_t offset, uint64_t start, uint64_t length,
                      uint32_t writable)
{
    return e->kind == kind && e->sectors == sectors && e->offset == offset && e->name_start == start && e->name_length == length &&
           e->writable == writable;
}

/* Four extents, whose names are five bytes together, into buffers of every length up to one more. */
static void extents(void)
{
    static const char TOLD[] = "version=1\nRW 1 FLAT \"ab\" 3\nRW 2 ZERO\nRDONLY 5 FLAT \"cde\"\nNOACCESS 4\n";
    uint8_t *text = copy(TOLD, sizeof TOLD - 1);
    for (size_t most = 0; most <= 5; most++) {
        for (size_t bytes = 0; bytes <= 6; bytes++) {
            struct imago_extent *told = room(most * sizeof *told);
            uint8_t *names = room(bytes);
            struct imago_extent_counts counts;
            size_t fits = bytes < 5 ? bytes : 5;
            expect(imago_vmdk_extents(text, sizeof TOLD - 1, false, told, most, names, bytes, &counts) == IMAGO_DONE, "four");
            expect(counts.extents == 4 && counts.names == 5, "counts");
            expect(most < 1 || is_extent(&told[0], IMAGO_EXTENT_FLAT, 1, 3, 0, 2, 1), "the first");
            expect(most < 2 || is_extent(&told[1], IMAGO_EXTENT_ZERO, 2, 0, 2, 0, 0), "the second");
            expect(most < 3 || is_extent(&told[2], IMAGO_EXTENT_FLAT, 5, 0, 2, 3, 0), "the third");
            expect(most < 4 || is_extent(&told[3], IMAGO_EXTENT_NO_ACCESS, 4, 0, 5, 0, 0), "the fourth");
            expect(most < 5 || untouched(&told[4], sizeof *told), "behind the records");
            expect(memcmp(names, "abcde", fits) == 0 && untouched(names + fits, bytes - fits), "names");
            free(told);
            free(names);
        }
    }
    free(text);
}

static bool is_piece(const struct imago_piece *p, uint64_t at, uint64_t count, uint64_t file, uint64_t offset)
{
    return p->at == at && p->count == count && p->file == file && p->offset == offset;
}

/* Two extents that follow one another in two files, zeroes, and two that are one piece of zeroes: into buffers of every length. */
static void plans(void)
{
    static const char TOLD[] = "version=1\nRW 2 FLAT \"a\" 3\nRW 1 FLAT \"b\"\nRW 1 ZERO\nRW 4 ZERO\n";
    uint8_t *text = copy(TOLD, sizeof TOLD - 1);
    for (size_t most = 0; most <= 4; most++) {
        struct imago_piece *told = room(most * sizeof *told);
        uint64_t count = 77;
        expect(imago_vmdk_plan(text, sizeof TOLD - 1, false, told, most, &count) == IMAGO_DONE && count == 3, "three pieces");
        expect(most < 1 || is_piece(&told[0], 0, 1024, 1, 1536), "the first piece");
        expect(most < 2 || is_piece(&told[1], 1024, 512, 2, 0), "the second piece");
        expect(most < 3 || is_piece(&told[2], 1536, 2560, 0, 0), "the third piece");
        expect(most < 4 || untouched(&told[3], sizeof *told), "behind the pieces");
        free(told);
    }
    free(text);
}

static void refused_plan(const char *descriptor, uint32_t kind)
{
    size_t length = strlen(descriptor);
    uint8_t *text = copy(descriptor, length);
    struct imago_piece *pieces = room(sizeof *pieces);
    uint64_t count = 77;
    expect(imago_vmdk_plan(text, length, false, pieces, 1, &count) == kind && count == 77, descriptor);
    expect(untouched(pieces, sizeof *pieces), "a plan that isn't there");
    free(pieces);
    free(text);
}

int main(void)
{
    scripts();
    descriptors();
    extents();
    plans();
    refused_plan("version=1\nRW 1 ZERO\nNOACCESS 4\n", IMAGO_NO_ACCESS);
    refused_plan("version=1\nRW 1 FLAT \"a\" 36028797018963967\n", IMAGO_INVALID_DATA);
    refused_plan("version=1\nRW 1 FLAT \"a\" 36028797018963968\n", IMAGO_INVALID_DATA);
    printf("C: %u of %u answers as expected\n", calls - wrong, calls);
    return wrong != 0;
}
