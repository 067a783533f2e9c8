/* SPDX-License-Identifier: MIT */
/* Reads the disks of images through bindings/c/imago_disk.h: disks COMMAND IMAGE ..
 *
 *     read IMAGE RAW      compares all bytes of the disk with a raw file, in parts of random
 *                         lengths, and closes it twice
 *     map IMAGE           prints a line "image IMAGE", and then where the bytes of the disk are, a
 *                         line for each place: offset, length, kind, file, offset there
 *     try IMAGE           opens it, and reads all that can be read; only what the sanitizers and
 *                         valgrind see counts
 *     order IMAGE         calls in wrong order, with wrong counts and behind the close: each has
 *                         its code
 *     threads IMAGE RAW   does what read does in several threads at once, of which each opens the
 *                         image for itself
 *
 * The status is 1 where an answer isn't as expected, and read prints "refused CODE" and answers 2
 * for an image that isn't opened. */
#include <pthread.h>
#include <stdio.h>
#include "imago_disk.h"

static _Thread_local uint64_t seed = 1;

static uint64_t random_below(uint64_t most)
{
    seed ^= seed << 13, seed ^= seed >> 7, seed ^= seed << 17;
    return seed % most;
}

static int compared(struct imago_disk *disk, const char *raw)
{
    const size_t room = 1 << 20;
    uint8_t *mine = malloc(room), *theirs = malloc(room);
    int file = open(raw, O_RDONLY),
        same = mine && theirs && file >= 0 && (uint64_t)lseek(file, 0, SEEK_END) == disk->size;
    for (uint64_t at = 0; same && at < disk->size;) {
        uint64_t left = disk->size - at, part = 1 + random_below(room);
        if (part > left) part = left;
        same = imago_disk_pread(disk, mine, part, at) == IMAGO_DONE &&
               imago_disk_fill(file, theirs, part, at) == IMAGO_DONE &&
               memcmp(mine, theirs, part) == 0;
        if (!same) printf("differs near %llu\n", (unsigned long long)at);
        at += part;
    }
    for (int i = 0; same && disk->size > 0 && i < 200; i++) {
        uint64_t at = random_below(disk->size), left = disk->size - at,
                 part = 1 + random_below(9000);
        if (part > left) part = left;
        same = imago_disk_pread(disk, mine, part, at) == IMAGO_DONE &&
               imago_disk_fill(file, theirs, part, at) == IMAGO_DONE &&
               memcmp(mine, theirs, part) == 0;
    }
    same =
        same && imago_disk_pread(disk, mine, 2, disk->size - (disk->size > 0)) == IMAGO_BEYOND_DISK;
    if (file >= 0) close(file);
    free(mine);
    free(theirs);
    return same;
}

static int mapped(struct imago_disk *disk, const char *path)
{
    struct imago_place place;
    printf("image %s\n", path);
    for (uint64_t at = 0; at < disk->size; at += place.count) {
        if (imago_disk_map(disk, at, disk->size - at, &place) != IMAGO_DONE || place.at != at ||
            place.count == 0)
            return 0;
        printf("%llu %llu %u %llu %llu\n", (unsigned long long)place.at,
               (unsigned long long)place.count, place.kind, (unsigned long long)place.file,
               (unsigned long long)place.offset);
    }
    return 1;
}

static void tried(struct imago_disk *disk)
{
    static uint8_t bytes[1 << 16];
    struct imago_place place;
    uint64_t size = disk->size < (1 << 22) ? disk->size : 1 << 22;
    for (uint64_t at = 0; at < size; at += place.count) {
        if (imago_disk_map(disk, at, sizeof bytes, &place) != IMAGO_DONE || place.count == 0)
            place.count = 512;
        else imago_disk_pread(disk, bytes, (size_t)place.count, at);
    }
    for (int i = 0; i < 100; i++) imago_disk_pread(disk, bytes, 512, random_below(UINT64_MAX));
}

#define WANTED(call, code)                                                                         \
    do {                                                                                           \
        if ((call) != (code)) return printf("line %d: not as expected\n", __LINE__), 0;            \
    } while (0)

static int ordered(const char *path)
{
    struct imago_image image = IMAGO_CLOSED;
    struct imago_want want = {7, 7, 7, 7, 7};
    struct imago_place place = {7, 7, 7, 7, 7, 7, 7, 7, 7};
    static uint8_t bytes[65536];
    uint64_t size = 7, length;
    size_t told = 7;
    int file = open(path, O_RDONLY);
    length = (uint64_t)lseek(file, 0, SEEK_END);
    WANTED(imago_image_want(&image, &want), IMAGO_NOT_FOUND);
    WANTED(imago_image_give(&image, bytes, 1), IMAGO_NOT_FOUND);
    WANTED(imago_image_give_file(&image, 1, 0), IMAGO_NOT_FOUND);
    WANTED(imago_image_size(&image, &size), IMAGO_NOT_FOUND);
    WANTED(imago_image_map(&image, 0, 1, &place), IMAGO_NOT_FOUND);
    WANTED(imago_image_name(&image, bytes, 1, &told), IMAGO_NOT_FOUND);
    imago_image_close(&image);
    WANTED(imago_image_open(&image, length, 4, false), IMAGO_UNSUPPORTED);
    WANTED(imago_image_want(&image, &want), IMAGO_NOT_FOUND);
    WANTED(imago_image_open(&image, length, IMAGO_FORMAT_QCOW2, false), IMAGO_DONE);
    WANTED(imago_image_open(&image, length, IMAGO_FORMAT_QCOW2, false), IMAGO_DONE);
    WANTED(imago_image_size(&image, &size), IMAGO_NOT_FOUND);
    WANTED(imago_image_map(&image, 0, 1, &place), IMAGO_NOT_FOUND);
    WANTED(imago_image_name(&image, bytes, 1, &told), IMAGO_NOT_FOUND);
    WANTED(imago_image_give_file(&image, 1, 0), IMAGO_UNSUPPORTED);
    WANTED((int)(size == 7 && told == 7 && want.file == 7 && place.at == 7), 1);
    for (int i = 0; i < 100000; i++) {
        WANTED(imago_image_want(&image, &want), IMAGO_DONE);
        if (want.kind != IMAGO_WANTS_BYTES) break;
        WANTED((int)(want.file == 0 && want.count >= 1 && want.count <= 65536 &&
                     want.offset + want.count <= length),
               1);
        WANTED(imago_image_give(&image, bytes, (size_t)want.count - 1), IMAGO_INVALID_DATA);
        WANTED(imago_image_give_file(&image, 1, 0), IMAGO_UNSUPPORTED);
        WANTED(imago_disk_fill(file, bytes, (size_t)want.count, want.offset), IMAGO_DONE);
        WANTED(imago_image_give(&image, bytes, (size_t)want.count), IMAGO_DONE);
    }
    WANTED(want.kind, IMAGO_WANTS_NOTHING);
    WANTED(imago_image_give(&image, bytes, 1), IMAGO_UNSUPPORTED);
    WANTED(imago_image_give_file(&image, 1, 0), IMAGO_UNSUPPORTED);
    WANTED(imago_image_size(&image, &size), IMAGO_DONE);
    WANTED(imago_image_map(&image, size, 1, &place), IMAGO_UNSUPPORTED);
    WANTED(imago_image_map(&image, 0, 0, &place), IMAGO_DONE);
    WANTED((int)(place.count == 1), 1);
    imago_image_close(&image);
    imago_image_close(&image);
    WANTED(imago_image_map(&image, 0, 1, &place), IMAGO_NOT_FOUND);
    WANTED(imago_image_open(&image, 512, IMAGO_FORMAT_QCOW2, false), IMAGO_DONE);
    WANTED(imago_image_want(&image, &want), IMAGO_DONE);
    memset(bytes, 0, sizeof bytes);
    WANTED(imago_image_give(&image, bytes, (size_t)want.count), IMAGO_INVALID_DATA);
    WANTED(imago_image_want(&image, &want), IMAGO_INVALID_DATA);
    WANTED(imago_image_give(&image, bytes, 1), IMAGO_UNSUPPORTED);
    imago_image_close(&image);
    close(file);
    return 1;
}

/* Whether the image of a file is opened whose tables have that many bytes, and refused where they may
 * have one less, once the three blocks are given in which its front and its L1 table can stand. */
static int limited(const char *path, uint64_t tables)
{
    struct imago_image image = IMAGO_CLOSED;
    struct imago_want want;
    static uint8_t bytes[65536];
    int file = open(path, O_RDONLY);
    uint64_t length = (uint64_t)lseek(file, 0, SEEK_END);
    for (uint64_t less = 0; less < 2; less++) {
        uint32_t code = IMAGO_DONE;
        uint64_t given = 0;
        WANTED(imago_image_open_within(&image, length, IMAGO_FORMAT_QCOW2, false, tables - less),
               IMAGO_DONE);
        while (code == IMAGO_DONE) {
            WANTED(imago_image_want(&image, &want), IMAGO_DONE);
            if (want.kind != IMAGO_WANTS_BYTES) break;
            WANTED(imago_disk_fill(file, bytes, (size_t)want.count, want.offset), IMAGO_DONE);
            code = imago_image_give(&image, bytes, (size_t)want.count);
            given += want.count;
        }
        WANTED(code, less ? IMAGO_UNSUPPORTED : IMAGO_DONE);
        WANTED((int)(!less || given <= 3 * sizeof bytes), 1);
        imago_image_close(&image);
    }
    close(file);
    return 1;
}

/* What a thread reads and compares, and whether all is right. */
struct job {
    const char *path, *raw;
    uint64_t seed;
    int right;
};

static void *worked(void *at)
{
    struct job *job = at;
    struct imago_disk disk;
    seed = job->seed;
    job->right = imago_disk_open(&disk, job->path, IMAGO_FORMAT_UNKNOWN, imago_disk_beside, NULL) ==
                     IMAGO_DONE &&
                 compared(&disk, job->raw);
    imago_disk_close(&disk);
    return NULL;
}

static int threaded(const char *path, const char *raw)
{
    enum { COUNT = 4 };
    struct job jobs[COUNT];
    pthread_t threads[COUNT];
    int right = 1;
    for (size_t i = 0; i < COUNT; i++) {
        jobs[i] = (struct job){path, raw, i + 1, 0};
        if (pthread_create(&threads[i], NULL, worked, &jobs[i]) != 0) return 0;
    }
    for (size_t i = 0; i < COUNT; i++) {
        pthread_join(threads[i], NULL);
        right = right && jobs[i].right;
    }
    return right;
}

int main(int count, char **words)
{
    struct imago_disk disk;
    uint32_t code;
    int right = 1;
    if (count < 3) return 1;
    if (strcmp(words[1], "order") == 0) return !ordered(words[2]);
    if (strcmp(words[1], "limit") == 0) return !limited(words[2], strtoull(words[3], NULL, 10));
    if (strcmp(words[1], "threads") == 0) return count < 4 || !threaded(words[2], words[3]);
    code = imago_disk_open(&disk, words[2], IMAGO_FORMAT_UNKNOWN, imago_disk_beside, NULL);
    if (code != IMAGO_DONE) {
        imago_disk_close(&disk);
        return printf("refused %u\n", code), strcmp(words[1], "try") == 0 ? 0 : 2;
    }
    if (strcmp(words[1], "read") == 0) right = count > 3 && compared(&disk, words[3]);
    else if (strcmp(words[1], "map") == 0) right = mapped(&disk, words[2]);
    else tried(&disk);
    imago_disk_close(&disk);
    imago_disk_close(&disk);
    return !right;
}
