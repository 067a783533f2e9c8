/* SPDX-License-Identifier: MIT */
/* Times the reads and the opening of disks by bindings/c/imago_disk.h: speed COMMAND IMAGE ..
 *
 *     reads IMAGE RAW     reads 4 KiB at random offsets of the disk, and all of it in parts of 1 MiB,
 *                         by the handle and by plain pread of a raw file with the same bytes
 *     open IMAGE          opens a qcow2 image, and reads its header, its L1 table and all its L2
 *                         tables by plain pread into memory of their own
 *
 * All is done once untimed, and then by turns, in rounds. A line for each round has the nanoseconds:
 * of a 4 KiB read by the handle and by pread, and of a 1 MiB read by the handle and by pread; or of
 * an opening, and of the reading of the tables. The status is 1 where a call fails. */
#include <stdio.h>
#include <time.h>
#include "imago_disk.h"

#define ROUNDS 9
#define READS 50000

static uint64_t now(void)
{
    struct timespec time;
    clock_gettime(CLOCK_MONOTONIC, &time);
    return (uint64_t)time.tv_sec * 1000000000 + (uint64_t)time.tv_nsec;
}

static uint64_t seed;

static uint64_t random_below(uint64_t most)
{
    seed ^= seed << 13, seed ^= seed >> 7, seed ^= seed << 17;
    return seed % most;
}

static uint8_t bytes[1 << 20];

/* Reads by the handle, or by pread where disk is NULL: the nanoseconds of a read, 0 if one fails. */
static uint64_t random_reads(struct imago_disk *disk, int raw, uint64_t size)
{
    uint64_t begin = now();
    seed = 88172645463325252;
    for (int i = 0; i < READS; i++) {
        uint64_t at = random_below(size / 4096) * 4096;
        if (disk ? imago_disk_pread(disk, bytes, 4096, at) != IMAGO_DONE
                 : pread(raw, bytes, 4096, (off_t)at) != 4096)
            return 0;
    }
    return (now() - begin) / READS;
}

static uint64_t long_reads(struct imago_disk *disk, int raw, uint64_t size)
{
    uint64_t begin = now();
    for (uint64_t at = 0; at + sizeof bytes <= size; at += sizeof bytes) {
        if (disk ? imago_disk_pread(disk, bytes, sizeof bytes, at) != IMAGO_DONE
                 : pread(raw, bytes, sizeof bytes, (off_t)at) != sizeof bytes)
            return 0;
    }
    return (now() - begin) / (size / sizeof bytes);
}

static int time_reads(const char *path, const char *raw_path)
{
    struct imago_disk disk;
    int raw = open(raw_path, O_RDONLY);
    if (raw < 0 || imago_disk_open(&disk, path, IMAGO_FORMAT_QCOW2, imago_disk_beside, NULL) != 0)
        return 0;
    for (int round = 0; round <= ROUNDS; round++) {
        uint64_t handle = random_reads(&disk, raw, disk.size);
        uint64_t plain = random_reads(NULL, raw, disk.size);
        uint64_t long_handle = long_reads(&disk, raw, disk.size);
        uint64_t long_plain = long_reads(NULL, raw, disk.size);
        if (!handle || !plain || !long_handle || !long_plain) return 0;
        if (round > 0)
            printf("%llu %llu %llu %llu\n", (unsigned long long)handle, (unsigned long long)plain,
                   (unsigned long long)long_handle, (unsigned long long)long_plain);
    }
    imago_disk_close(&disk);
    close(raw);
    return 1;
}

static uint64_t number(const uint8_t *at, int length)
{
    uint64_t number = 0;
    for (int i = 0; i < length; i++) number = number << 8 | at[i];
    return number;
}

/* Reads the header and all tables: the nanoseconds, 0 if a read fails. */
static uint64_t read_tables(const char *path)
{
    uint64_t begin = now();
    int file = open(path, O_RDONLY);
    uint8_t header[112];
    if (file < 0 || pread(file, header, sizeof header, 0) != sizeof header) return 0;
    size_t cluster = (size_t)1 << number(header + 20, 4), count = number(header + 36, 4);
    uint8_t *l1 = malloc(8 * count), *l2 = malloc(cluster * count);
    if (!l1 || !l2 || pread(file, l1, 8 * count, (off_t)number(header + 40, 8)) < 0) return 0;
    for (size_t i = 0; i < count; i++) {
        uint64_t at = number(l1 + 8 * i, 8) & 0x00fffffffffffe00;
        if (at && pread(file, l2 + i * cluster, cluster, (off_t)at) != (ssize_t)cluster) return 0;
    }
    free(l1);
    free(l2);
    close(file);
    return now() - begin;
}

static uint64_t open_image(const char *path)
{
    struct imago_disk disk;
    uint64_t begin = now(), end;
    if (imago_disk_open(&disk, path, IMAGO_FORMAT_QCOW2, imago_disk_beside, NULL) != 0) return 0;
    end = now();
    imago_disk_close(&disk);
    return end - begin;
}

static int time_opening(const char *path)
{
    for (int round = 0; round <= ROUNDS; round++) {
        uint64_t opening = open_image(path), tables = read_tables(path);
        if (!opening || !tables) return 0;
        if (round > 0)
            printf("%llu %llu\n", (unsigned long long)opening, (unsigned long long)tables);
    }
    return 1;
}

int main(int count, char **words)
{
    if (count == 4 && strcmp(words[1], "reads") == 0) return !time_reads(words[2], words[3]);
    if (count == 3 && strcmp(words[1], "open") == 0) return !time_opening(words[2]);
    return 1;
}
