/* SPDX-License-Identifier: MIT */
/* Disks of images in files of the system: the part that reads, over include/imago.h. It isn't
 * proved, and is short enough to be read.
 *
 *     struct imago_disk disk;
 *     uint8_t sector[512];
 *     if (imago_disk_open(&disk, "disk.qcow2", 0, imago_disk_beside, NULL) != 0) return 1;
 *     uint32_t code = imago_disk_pread(&disk, sector, sizeof sector, 0);
 *     imago_disk_close(&disk);
 *
 * A disk stays on the thread that opened it. Every call but imago_disk_close answers 0, or an
 * imago_kind. IMAGO_DENIED is a file that the gate refused; IMAGO_DEVICE a call of the system that
 * failed, with errno set, a folder or a pipe (ESPIPE), or a number that no file of the disk has. */
#ifndef IMAGO_DISK_H
#define IMAGO_DISK_H

#include <errno.h>
#include <fcntl.h>
#include <limits.h>
#include <stdlib.h>
#include <string.h>
#include <sys/stat.h>
#include <unistd.h>

#include "imago.h"

#define IMAGO_DISK_NAME 4096

struct imago_disk {
    struct imago_image image;
    uint64_t size; /* of the disk, in bytes */
    int *files;    /* by their numbers */
    size_t count;
    uint8_t *bytes;              /* the compressed cluster that was made last, and its stream */
    struct imago_place unpacked; /* its place; file is 0 if there is none */
};

/* Decides which file is opened for a name that an image has, and opens it: a descriptor that can be
 * read, which the disk closes, or -1. above is the path of the file that has the name, and kind an
 * imago_want_kind. *format is what the image says, and may be changed. path takes the path of what
 * was opened, to which further names are relative. */
typedef int (*imago_gate)(void *context, const char *above, const char *name, uint32_t kind,
                          uint32_t *format, char path[IMAGO_DISK_NAME]);

/* The gate that lets a file through that stands beside the one that names it: no name with a '/' in
 * it. */
static inline int imago_disk_beside(void *context, const char *above, const char *name,
                                    uint32_t kind, uint32_t *format, char path[IMAGO_DISK_NAME])
{
    const char *slash = strrchr(above, '/');
    size_t folder = slash ? (size_t)(slash - above) + 1 : 0, length = strlen(name);
    (void)context, (void)kind, (void)format;
    if (length == 0 || strchr(name, '/') || folder + length >= IMAGO_DISK_NAME) return -1;
    memcpy(path, above, folder);
    memcpy(path + folder, name, length + 1);
    return open(path, O_RDONLY | O_CLOEXEC | O_NOFOLLOW | O_NONBLOCK);
}

/* Fills the buffer with bytes of a file, with zeroes past its end. */
static inline uint32_t imago_disk_fill(int file, uint8_t *bytes, size_t count, uint64_t offset)
{
    while (count > 0) {
        ssize_t got = offset > LLONG_MAX ? 0 : pread(file, bytes, count, (off_t)offset);
        if (got < 0 && errno == EINTR) continue;
        if (got < 0) return IMAGO_DEVICE;
        if (got == 0) return memset(bytes, 0, count), IMAGO_DONE;
        bytes += got, offset += (uint64_t)got, count -= (size_t)got;
    }
    return IMAGO_DONE;
}

/* Puts an open file to the others, and tells its length. Only plain files and block devices are
 * taken. */
static inline uint32_t imago_disk_add(struct imago_disk *disk, int file, uint64_t *length)
{
    struct stat status;
    int *files = (int *)realloc(disk->files, (disk->count + 1) * sizeof *files);
    off_t end = files && file >= 0 && fstat(file, &status) == 0 ? lseek(file, 0, SEEK_END) : -1;
    if (files) disk->files = files;
    if (end >= 0 && (S_ISREG(status.st_mode) || S_ISBLK(status.st_mode))) {
        files[disk->count++] = file;
        *length = (uint64_t)end;
        return IMAGO_DONE;
    }
    if (end >= 0) errno = ESPIPE;
    if (file >= 0) close(file);
    return !files ? IMAGO_MEMORY : file < 0 ? IMAGO_DENIED : IMAGO_DEVICE;
}

/* Gives the file that is asked for, as the gate opens it. */
static inline uint32_t imago_disk_next(struct imago_disk *disk, uint32_t kind,
                                       char above[IMAGO_DISK_NAME], imago_gate gate, void *context)
{
    static const char *const formats[] = {"", "raw", "vmdk", "qcow2"};
    char name[IMAGO_DISK_NAME] = "", path[IMAGO_DISK_NAME] = "", said[16] = "";
    size_t length = 0;
    uint64_t bytes = 0;
    uint32_t format = IMAGO_FORMAT_UNKNOWN;
    uint32_t code = imago_image_name(&disk->image, (uint8_t *)name, sizeof name - 1, &length);
    if (code != IMAGO_DONE) return code;
    if (strlen(name) != length) return IMAGO_UNSUPPORTED;
    code = imago_image_format_name(&disk->image, (uint8_t *)said, sizeof said - 1, &length);
    if (code == IMAGO_DONE) {
        if (strcmp(said, "file") == 0) { /* an old name of raw */
            memcpy(said, "raw", sizeof "raw");
            length = strlen(said);
        }
        for (format = 3; format > 0 && strcmp(said, formats[format]) != 0;) format--;
        if (format == 0 || strlen(said) != length) return IMAGO_UNSUPPORTED;
    }
    code = imago_disk_add(disk, gate(context, above, name, kind, &format, path), &bytes);
    if (code != IMAGO_DONE) return code;
    if (kind == IMAGO_WANTS_BACKING) memcpy(above, path, IMAGO_DISK_NAME);
    return imago_image_give_file(&disk->image, bytes, format);
}

/* Closes the disk and its files. A closed one stays so. */
static inline void imago_disk_close(struct imago_disk *disk)
{
    imago_image_close(&disk->image);
    while (disk->count > 0) close(disk->files[--disk->count]);
    free(disk->files);
    free(disk->bytes);
    memset(disk, 0, sizeof *disk);
}

/* Opens the image of a path, in that imago_format, with the files that it names, as the gate lets
 * them through: it gives the image all that it asks for. Refused, the disk is closed. */
static inline uint32_t imago_disk_open(struct imago_disk *disk, const char *path, uint32_t format,
                                       imago_gate gate, void *context)
{
    char above[IMAGO_DISK_NAME];
    uint8_t bytes[65536];
    struct imago_want want;
    uint64_t length = 0;
    memset(disk, 0, sizeof *disk);
    if (strlen(path) >= sizeof above) return IMAGO_UNSUPPORTED;
    memcpy(above, path, strlen(path) + 1);
    uint32_t code = imago_disk_add(disk, open(path, O_RDONLY | O_CLOEXEC | O_NONBLOCK), &length);
    if (code == IMAGO_DENIED) code = IMAGO_DEVICE;
    if (code == IMAGO_DONE) code = imago_image_open(&disk->image, length, format, false);
    while (code == IMAGO_DONE && (code = imago_image_want(&disk->image, &want)) == IMAGO_DONE) {
        if (want.kind == IMAGO_WANTS_NOTHING) return imago_image_size(&disk->image, &disk->size);
        if (want.kind != IMAGO_WANTS_BYTES) {
            code = imago_disk_next(disk, want.kind, above, gate, context);
        } else if (want.file >= disk->count || want.count > sizeof bytes) {
            code = IMAGO_DEVICE;
        } else {
            code = imago_disk_fill(disk->files[want.file], bytes, want.count, want.offset);
            if (code == IMAGO_DONE) code = imago_image_give(&disk->image, bytes, want.count);
        }
    }
    imago_disk_close(disk);
    return code;
}

/* Tells where the bytes of the disk stand from that offset on: see imago_image_map. */
static inline uint32_t imago_disk_map(struct imago_disk *disk, uint64_t offset, uint64_t most,
                                      struct imago_place *place)
{
    return imago_image_map(&disk->image, offset, most, place);
}

/* Reads the bytes of a place. A compressed cluster is made, unless it is the one made last. */
static inline uint32_t imago_disk_read(struct imago_disk *disk, const struct imago_place *place,
                                       uint8_t *bytes)
{
    size_t count = place->count, cluster = place->cluster, stream = place->stream;
    if (place->kind == IMAGO_PLACE_ZERO) return memset(bytes, 0, count), IMAGO_DONE;
    if (place->file > disk->count) return IMAGO_DEVICE;
    int file = disk->files[place->file - 1];
    if (place->kind == IMAGO_PLACE_STORED)
        return imago_disk_fill(file, bytes, count, place->offset);
    if (disk->unpacked.file != place->file || disk->unpacked.offset != place->offset) {
        uint8_t *made = (uint8_t *)realloc(disk->bytes, cluster + stream);
        if (!made) return IMAGO_MEMORY;
        disk->bytes = made;
        disk->unpacked.file = 0;
        uint32_t code = imago_disk_fill(file, made + cluster, stream, place->offset);
        if (code == IMAGO_DONE) code = imago_unpack_cluster(made + cluster, stream, made, cluster);
        if (code != IMAGO_DONE) return code;
        disk->unpacked = *place;
    }
    return memcpy(bytes, disk->bytes + place->skip, count), IMAGO_DONE;
}

/* Reads bytes of the disk. A range that passes the disk's end is IMAGO_BEYOND_DISK. */
static inline uint32_t imago_disk_pread(struct imago_disk *disk, void *buffer, size_t count,
                                        uint64_t offset)
{
    uint8_t *bytes = (uint8_t *)buffer;
    struct imago_place place;
    if (offset > disk->size || count > disk->size - offset) return IMAGO_BEYOND_DISK;
    while (count > 0) {
        uint32_t code = imago_disk_map(disk, offset, count, &place);
        if (code == IMAGO_DONE) code = imago_disk_read(disk, &place, bytes);
        if (code != IMAGO_DONE) return code;
        bytes += place.count, offset += place.count, count -= place.count;
    }
    return IMAGO_DONE;
}

#endif
