/* SPDX-License-Identifier: MIT */
/* The layer for C: images by a handle, scripts on disk images in memory, and what the descriptors
 * of VMDK images say.
 *
 * To link it: `rt lib` in the folder crates/imago_c makes out/libimago_c.a, once it is proved. That
 * archive calls two of the toolchain's, which are in the folder c/ beside the page that `rt doc`
 * names:
 *
 *     cc program.c libimago_c.a KIT/c/libos_c.a KIT/c/liblibc_c.a -lm -lpthread
 *
 * tools/c-and-rust/run does all of this, and runs programs that call it.
 *
 * What holds of every call:
 *  - A pointer isn't null, also where its length is 0. It stays the caller's, and is kept nowhere.
 *  - Buffers don't overlap one another, or what the call writes besides.
 *  - Memory is taken by malloc. It is freed before the call returns, but for what an image holds,
 *    which imago_image_close frees.
 *  - Any bytes may be handed in: invalid input is refused. Nothing is printed, and no call stops
 *    the program.
 *  - Nothing is shared between calls but the image that is handed to them, so several threads may
 *    call at once, each with images of its own.
 *
 * A text is bytes; it has no end mark, and needs no encoding.
 */
#ifndef IMAGO_H
#define IMAGO_H

#include <stdbool.h>
#include <stddef.h>
#include <stdint.h>

#ifdef __cplusplus
extern "C" {
#endif

/* The version of the library and of this header. */
#define IMAGO_VERSION "0.2.0"

/* What a call was refused for: the refusals of the library, by name. */
enum imago_kind {
    IMAGO_DONE = 0,
    IMAGO_READ_ONLY = 1,
    IMAGO_BEYOND_DISK = 2,
    IMAGO_RANGE_OVERFLOW = 3,
    IMAGO_WRAP_AROUND = 4,
    IMAGO_INVALID_DATA = 5,
    IMAGO_UNSUPPORTED = 6,
    IMAGO_NO_ACCESS = 7,
    IMAGO_DEVICE = 8,
    IMAGO_MEMORY = 9,
    IMAGO_FOREIGN_MAPPING = 10,
    IMAGO_DENIED = 11,
    IMAGO_NOT_FOUND = 12,
};

/* What a kind means, as a sentence without its full stop, for messages. The library itself prints
 * none. */
static inline const char *imago_kind_text(uint32_t kind)
{
    static const char *const texts[] = {
        "done",
        "the image is read-only",
        "the range passes the end of the disk",
        "the end of the range passes the greatest possible offset",
        "the request wraps around at the end of the storage's address space",
        "the image's data is invalid",
        "the driver or storage does not support this operation",
        "this part of the disk may not be accessed",
        "the storage failed",
        "out of memory",
        "the prepared mapping does not belong to this image",
        "opening further storages is denied",
        "there is no storage of that name",
    };
    return kind < sizeof texts / sizeof *texts ? texts[kind] : "an unknown kind";
}

/* Images by a handle, without any input of the library's own. An image asks for bytes of its files,
 * and its caller gives them; once it is open, it tells where each byte of its disk stands, and the
 * caller reads it there. So a file may be one of the system's, a socket, an object in a store:
 * anything whose length is known, and whose bytes can be read at any offset.
 * bindings/c/imago_disk.h does it with files of the system.
 *
 * The library opens no file. It names one that an image refers to, and the caller decides what is
 * opened for that name, if anything: an image from somebody else can name any file. To refuse,
 * close the image.
 *
 * A file must not change as long as the image is open.
 *
 * Who owns what: the struct is the caller's, and what it points to is the image's own memory, which
 * imago_image_close frees. A struct is made of zeroes (IMAGO_CLOSED). It may be moved, and nothing
 * but the library changes its fields. It is never copied: of two copies, the second one that is
 * closed would free what the first has freed. Only the thread that opened it may use it and close
 * it. Every call of a closed image but imago_image_open and imago_image_open_within is
 * IMAGO_NOT_FOUND and changes nothing, and to close it again does nothing.
 */
struct imago_image {
    bool is_open; /* the library's */
    void *at;     /* the library's */
};

#ifdef __cplusplus
#define IMAGO_CLOSED {}
#else
#define IMAGO_CLOSED { false, NULL }
#endif

/* The format of a file. */
enum imago_format {
    /* What the file is recognised as by its first 512 bytes, or else by its last ones: a qcow2
     * image; a VMDK descriptor, by "# Disk DescriptorFile"; or a raw disk, if it is recognised as
     * nothing. A file that is recognised as something else, such as a VHDX image or an archive, is
     * refused: say IMAGO_FORMAT_RAW if its bytes are those of the disk all the same. */
    IMAGO_FORMAT_UNKNOWN = 0,
    IMAGO_FORMAT_RAW = 1,
    IMAGO_FORMAT_VMDK = 2,
    IMAGO_FORMAT_QCOW2 = 3,
};

/* What an image asks for. */
enum imago_want_kind {
    IMAGO_WANTS_NOTHING = 0, /* it is open */
    IMAGO_WANTS_BYTES = 1,
    IMAGO_WANTS_BACKING = 2, /* the backing file of the last file that was given */
    IMAGO_WANTS_EXTENT = 3,  /* the file of an extent of a VMDK descriptor */
};

/* Files are numbered in the order in which they are asked for: the top one is 0. First come the
 * backing files, one below the other, then those of the extents of a VMDK descriptor, which is
 * always the lowest layer. */
struct imago_want {
    uint64_t file;   /* the number of the file that it is of */
    uint64_t offset; /* where the bytes begin in the file; 0 where none are asked for */
    uint64_t count;  /* how many: 1 to 65536, all inside the file; 0 where none are asked for */
    uint32_t kind;   /* an imago_want_kind */
    uint32_t unused;
};

/* Begins with a top file of that many bytes, in that imago_format. Whatever the image had is freed
 * first.
 *
 * Say the format of an image that a guest writes to, and RAW above all: else the guest chooses it,
 * since it can write the header of another format to the beginning of its disk. Descriptors may
 * have keys that aren't known, unless strict holds.
 *
 * IMAGO_UNSUPPORTED is a number that is no format's. Otherwise the refusals are those of
 * imago_image_give. Refused, the image is closed. */
uint32_t imago_image_open(struct imago_image *image, uint64_t length, uint32_t format, bool strict);

/* How many bytes the tables of each qcow2 file of an image may have that imago_image_open begins:
 * 256 MiB, which are enough for a disk of less than 2 TiB in clusters of 64 KiB. */
#define IMAGO_USUAL_TABLES ((uint64_t)256 << 20)

/* Begins as imago_image_open does, where the tables of each qcow2 file may have that many bytes: 8
 * for each entry of the L1 table that its disk needs, and a cluster for each L2 table that these
 * name, counted once. */
uint32_t imago_image_open_within(struct imago_image *image, uint64_t length, uint32_t format,
                                 bool strict, uint64_t tables);

/* Tells what the image asks for, which is the same until it is given. No block of a file is asked
 * for twice, so an opening ends. Once the image is open, nothing is asked for any more.
 *
 * IMAGO_INVALID_DATA is an image whose opening was refused: it can only be closed, or opened anew.
 * Refused, *want is as it was. */
uint32_t imago_image_want(struct imago_image *image, struct imago_want *want);

/* Gives the bytes that are asked for, want.count of them.
 *
 * IMAGO_UNSUPPORTED is an image that doesn't ask for bytes, and IMAGO_INVALID_DATA another count;
 * the image stays as it was then.
 *
 * The bytes that are asked for are refused for a fault that each file has which agrees with what was
 * given of it, as in imago-img:
 *  - The first fault of a qcow2 header: IMAGO_INVALID_DATA is an invalid number, and
 *    IMAGO_UNSUPPORTED one that needs what isn't offered.
 *  - The first fault of a descriptor, by the same two.
 *  - IMAGO_INVALID_DATA is also an extent that begins in its file at an offset which doesn't fit 64
 *    bits, and a backing file whose format's name passes the end of the header extensions.
 *  - IMAGO_UNSUPPORTED is also a file of IMAGO_FORMAT_UNKNOWN that is recognised as what isn't
 *    opened; a qcow2 file whose L1 table has more than 32 MiB, or whose tables have more bytes than
 *    they may, of which no L2 table is asked for; and a file below 200 others.
 *  - IMAGO_MEMORY is no memory.
 * The opening is over then, and imago_image_want says so. IMAGO_MEMORY may also leave the image as
 * it was, and the same bytes are asked for still. */
uint32_t imago_image_give(struct imago_image *image, const uint8_t *bytes, size_t count);

/* Tells the name of the file that is asked for, as the image has it: relative names are relative to
 * the file that has the name. As much as fits is put into name, and *length says how long it is.
 *
 * IMAGO_NOT_FOUND is an image that doesn't ask for a file. Refused, all is as it was. */
uint32_t imago_image_name(struct imago_image *image, uint8_t *name, size_t room, size_t *length);

/* Tells, in the same way, which format the image says the file that is asked for has: a name such
 * as "raw" or "qcow2". IMAGO_NOT_FOUND is also a file of which the image doesn't say it. */
uint32_t imago_image_format_name(struct imago_image *image, uint8_t *name, size_t room,
                                 size_t *length);

/* Gives the file that is asked for: its length, and its imago_format. For the file of an extent
 * both are ignored: 0 and IMAGO_FORMAT_UNKNOWN will do.
 *
 * IMAGO_UNSUPPORTED is an image that doesn't ask for a file, or a number that is no format's; the
 * image stays as it was then. Otherwise the refusals are those of imago_image_give, after which the
 * opening is over. The file of an extent isn't refused. */
uint32_t imago_image_give_file(struct imago_image *image, uint64_t length, uint32_t format);

/* Tells the size of the disk in bytes. IMAGO_NOT_FOUND is an image that isn't open yet. Refused,
 * *size is as it was. */
uint32_t imago_image_size(struct imago_image *image, uint64_t *size);

/* What bytes of the disk are. */
enum imago_place_kind {
    IMAGO_PLACE_ZERO = 0,       /* zeroes, in no file */
    IMAGO_PLACE_STORED = 1,     /* bytes of a file, as they are read there */
    IMAGO_PLACE_COMPRESSED = 2, /* a part of a compressed cluster: see imago_unpack_cluster */
};

/* Bytes of the disk that stand in one place, or are a part of a compressed cluster. Offsets, counts
 * and lengths are in bytes. Past the end of a file its bytes are zeroes. */
struct imago_place {
    uint64_t at;      /* the first byte's offset on the disk */
    uint64_t count;   /* how many bytes there are, at least 1 */
    uint64_t file;    /* the number of the file that has them, plus 1: the top file is 1; else 0 */
    uint64_t offset;  /* where they begin in that file, or the cluster's stream; 0 for zeroes */
    uint64_t stream;  /* how many bytes of the file the cluster's stream may have, else 0 */
    uint64_t cluster; /* how many bytes the compressed cluster has, else 0 */
    uint64_t skip;    /* how many bytes of that cluster come before the first one, else 0 */
    uint32_t kind;    /* an imago_place_kind */
    uint32_t unused;
};

/* Tells where the bytes of the disk are from that offset on: those that stand in one place, at most
 * as many as most says, and at least one. The same place may go on behind them.
 *
 * IMAGO_NOT_FOUND is an image that isn't open yet. IMAGO_UNSUPPORTED is the disk's end, and a
 * cluster that is compressed by Zstandard. IMAGO_NO_ACCESS is a part of a VMDK image that may not
 * be accessed, and IMAGO_INVALID_DATA a part whose table entry is invalid. Refused, *place is as it
 * was. */
uint32_t imago_image_map(struct imago_image *image, uint64_t offset, uint64_t most,
                         struct imago_place *place);

/* Makes a compressed cluster: stream has the place.stream bytes of its file from place.offset on,
 * and cluster has room for place.cluster bytes. The place's own bytes are then the place.count
 * bytes from cluster + place.skip on. No image is needed for it, and no memory is taken.
 *
 * IMAGO_INVALID_DATA is a faulty stream; then cluster may hold anything. */
uint32_t imago_unpack_cluster(const uint8_t *stream, size_t stream_length, uint8_t *cluster,
                              size_t cluster_length);

/* Closes the image, and frees what it has. A closed one stays so. */
void imago_image_close(struct imago_image *image);

/* Runs a script, whose commands docs/SCRIPTS.md has. It reaches nothing but storages in memory,
 * which are made anew and let go.
 *
 * What it prints is put into output, as much as fits in output_length bytes; the rest of output
 * stays as it was. *printed is how many bytes it printed. Where that is more than fits, the same
 * call with a longer output prints the same.
 *
 * The answer is 0 where each line was done, also where a command was refused, which its line says;
 * 2 where a line is malformed, which the last line says; 1 where there is no memory for the script.
 */
uint32_t imago_script(const uint8_t *text, size_t text_length, uint8_t *output,
                      size_t output_length, size_t *printed);

/* Whether these bytes look like a VMDK image's: of another kind than descriptors are, or a
 * descriptor whose first version line has a version that is known. */
bool imago_vmdk_probe(const uint8_t *text, size_t text_length);

/* Tells the size in bytes of the disk that a descriptor describes. Lines whose key isn't known say
 * nothing where accept_unknown_keys holds, and are IMAGO_INVALID_DATA where not.
 *
 * IMAGO_INVALID_DATA is an invalid text, or one of less than 4 bytes or more than
 * 2097152; IMAGO_UNSUPPORTED a version or an extent that isn't offered, such as a SPARSE or VMFS
 * one, or another kind of VMDK image; IMAGO_MEMORY no memory, which is answered only where the text
 * has no fault. Refused, *size is as it was. */
uint32_t imago_vmdk_size(const uint8_t *text, size_t text_length, bool accept_unknown_keys,
                         uint64_t *size);

/* What an extent is. */
enum imago_extent_kind {
    IMAGO_EXTENT_ZERO = 0,
    IMAGO_EXTENT_NO_ACCESS = 1,
    IMAGO_EXTENT_FLAT = 2,
};

/* An extent of a descriptor. A sector has 512 bytes. */
struct imago_extent {
    uint64_t sectors;     /* its length, in sectors */
    uint64_t offset;      /* where its bytes begin in its file, in sectors; 0 where it has none */
    uint64_t name_start;  /* where the file's name begins in the text of names, in bytes */
    uint64_t name_length; /* how long that is, in bytes; 0 where it has no file */
    uint32_t kind;        /* an imago_extent_kind */
    uint32_t writable;    /* 1 where its bytes may be written, else 0 */
};

/* How much a descriptor has to tell. */
struct imago_extent_counts {
    uint64_t extents; /* how many extents */
    uint64_t names;   /* how many bytes their names have together */
};

/* Tells the extents of a descriptor, in the order in which the disk has them, with their names one
 * after another in a text of names.
 *
 * As many records and as many bytes of that text as fit are put into extents, which has room for
 * extents_length records, and names; what is behind them stays as it was. *counts says how many
 * there are. The refusals are those of imago_vmdk_size, and leave all as it was. */
uint32_t imago_vmdk_extents(const uint8_t *text, size_t text_length, bool accept_unknown_keys,
                            struct imago_extent *extents, size_t extents_length, uint8_t *names,
                            size_t names_length, struct imago_extent_counts *counts);

/* Bytes of a disk that stand in one place. Offsets and counts are in bytes. */
struct imago_piece {
    uint64_t at;     /* the first byte's offset on the disk */
    uint64_t count;  /* how many bytes there are, at least 1 */
    uint64_t file;   /* which FLAT extent has them, counted from 1; 0 for zeroes, in no file */
    uint64_t offset; /* where they begin in that extent's file; 0 for zeroes */
};

/* Tells where the bytes of the disk stand that a descriptor describes: pieces in order, without gap
 * or overlap, from the disk's start to its end. What the files of its extents hold doesn't matter:
 * they aren't opened. A byte past the end of its file is a zero.
 *
 * As many pieces as fit are put into pieces, which has room for pieces_length of them; what is
 * behind them stays as it was. *count says how many there are.
 *
 * The refusals of imago_vmdk_size come first. Then IMAGO_NO_ACCESS is a disk with a part that may
 * not be read, IMAGO_INVALID_DATA one with a byte that no offset of 64 bits leads to, or an extent
 * that begins at none, and IMAGO_MEMORY no memory. Refused, all is as it was. */
uint32_t imago_vmdk_plan(const uint8_t *text, size_t text_length, bool accept_unknown_keys,
                         struct imago_piece *pieces, size_t pieces_length, uint64_t *count);

#ifdef __cplusplus
}
#endif

#endif
