# SPDX-License-Identifier: MIT
"""Disks of images: raw, qcow2 and VMDK, with their backing files and extents, for reading.

    import imago
    with imago.open("disk.qcow2", imago.QCOW2) as disk:
        print(disk.size, disk.pread(512, 0))

The proved library says where each byte stands; this module opens the files and reads them, and
isn't proved. It needs the library as a shared one: `bindings/python/build` makes libimago.so beside
this file, and IMAGO_LIBRARY names another.

An image may name other files. `others(above, name, kind, format)` decides each: it returns the path
that is opened, or raises. `above` is the path of the file that names it, `name` is bytes, `kind` is
BACKING or EXTENT, and `format` is the name that the image says, such as b"raw", or None. By default
a file has to stand beside the one that names it. A disk is used by one thread, the one that opened
it.
"""
import builtins
import ctypes
import io
import os
import stat

UNKNOWN, RAW, VMDK, QCOW2 = range(4)
BACKING, EXTENT = 2, 3
# How many bytes the tables of each qcow2 file may have, unless the caller says otherwise.
USUAL_TABLES = 256 << 20
ZERO, STORED, COMPRESSED = range(3)
# `file` is an old name of raw.
_FORMATS = {b"raw": RAW, b"file": RAW, b"vmdk": VMDK, b"qcow2": QCOW2}
_KINDS = (
    "done",
    "the image is read-only",
    "the range passes the end of the disk",
    "the end of the range passes the greatest possible offset",
    "the request wraps around at the end of the storage's address space",
    "the image's data is invalid",
    "the driver or storage does not support this operation",
    "this part of the disk may not be accessed",
    "the storage failed",
    "out of memory",
    "the prepared mapping does not belong to this image",
    "opening further storages is denied",
    "there is no storage of that name",
)


class Error(OSError):
    """A refusal of the library: `code` is its number in include/imago.h."""

    def __init__(self, code, path):
        kind = _KINDS[code] if code < len(_KINDS) else "an unknown kind"
        super().__init__("%s: %s" % (path, kind))
        self.code = code


class _Image(ctypes.Structure):
    _fields_ = [("is_open", ctypes.c_bool), ("at", ctypes.c_void_p)]


class _Want(ctypes.Structure):
    _fields_ = [
        ("file", ctypes.c_uint64),
        ("offset", ctypes.c_uint64),
        ("count", ctypes.c_uint64),
        ("kind", ctypes.c_uint32),
        ("unused", ctypes.c_uint32),
    ]


class Place(ctypes.Structure):
    """Bytes of the disk that stand in one place, or are a part of a compressed cluster.

    `kind` is ZERO, STORED or COMPRESSED. `file` is the number of the file plus 1, so the top file
    is 1; it is 0 for zeroes. The rest is as in include/imago.h.
    """

    _fields_ = [
        ("at", ctypes.c_uint64),
        ("count", ctypes.c_uint64),
        ("file", ctypes.c_uint64),
        ("offset", ctypes.c_uint64),
        ("stream", ctypes.c_uint64),
        ("cluster", ctypes.c_uint64),
        ("skip", ctypes.c_uint64),
        ("kind", ctypes.c_uint32),
        ("unused", ctypes.c_uint32),
    ]

    def __repr__(self):
        fields = (self.at, self.count, self.kind, self.file, self.offset)
        return "Place(at=%d, count=%d, kind=%d, file=%d, offset=%d)" % fields


_AT = ctypes.POINTER(_Image)
_SIZE = ctypes.POINTER(ctypes.c_size_t)
_SIGNATURES = {
    "imago_image_open_within": [
        _AT, ctypes.c_uint64, ctypes.c_uint32, ctypes.c_bool, ctypes.c_uint64,
    ],
    "imago_image_want": [_AT, ctypes.POINTER(_Want)],
    "imago_image_give": [_AT, ctypes.c_char_p, ctypes.c_size_t],
    "imago_image_name": [_AT, ctypes.c_char_p, ctypes.c_size_t, _SIZE],
    "imago_image_format_name": [_AT, ctypes.c_char_p, ctypes.c_size_t, _SIZE],
    "imago_image_give_file": [_AT, ctypes.c_uint64, ctypes.c_uint32],
    "imago_image_size": [_AT, ctypes.POINTER(ctypes.c_uint64)],
    "imago_image_map": [_AT, ctypes.c_uint64, ctypes.c_uint64, ctypes.POINTER(Place)],
    "imago_unpack_cluster": [ctypes.c_char_p, ctypes.c_size_t, ctypes.c_char_p, ctypes.c_size_t],
}
_library = None


def _lib():
    global _library
    if _library is None:
        beside = os.path.join(os.path.dirname(os.path.abspath(__file__)), "libimago.so")
        library = ctypes.CDLL(os.environ.get("IMAGO_LIBRARY", beside))
        for name, arguments in _SIGNATURES.items():
            getattr(library, name).argtypes = arguments
            getattr(library, name).restype = ctypes.c_uint32
        library.imago_image_close.argtypes = [ctypes.POINTER(_Image)]
        library.imago_image_close.restype = None
        _library = library
    return _library


def beside(above, name, kind, format):
    """The path of a file that stands beside the one that names it."""
    if not name or b"/" in name or b"\0" in name:
        raise PermissionError("%r names another file that isn't beside it: %r" % (above, name))
    return os.path.join(os.path.dirname(os.fsencode(above)), name)


class Disk(io.RawIOBase):
    """The disk of an image: a file object for reading."""

    def __init__(self, path, format=UNKNOWN, others=beside, strict=False, tables=USUAL_TABLES):
        self._image, self._files, self._path, self._at, self.size = _Image(), [], path, 0, 0
        self._unpacked = (None, b"")
        try:
            self._load(path, format, others, strict, tables)
        except BaseException:
            self.close()
            raise

    def _done(self, code):
        if code != 0:
            raise Error(code, self._path)

    def _add(self, path):
        descriptor = os.open(path, os.O_RDONLY | os.O_CLOEXEC | os.O_NONBLOCK)
        file = builtins.open(descriptor, "rb", buffering=0)
        self._files.append(file)
        mode = os.fstat(file.fileno()).st_mode
        if not (stat.S_ISREG(mode) or stat.S_ISBLK(mode)):
            raise OSError("%r is no file" % (path,))
        return file.seek(0, os.SEEK_END)

    def _text(self, call):
        """The name that a call tells, or None."""
        name, length = ctypes.create_string_buffer(4096), ctypes.c_size_t()
        code = call(self._image, name, len(name), length)
        if code != 0:
            return None
        return name.raw[:length.value] if length.value <= len(name) else b""

    def _load(self, path, format, others, strict, tables):
        lib, want, above = _lib(), _Want(), path
        length = self._add(path)
        self._done(lib.imago_image_open_within(self._image, length, format, strict, tables))
        while True:
            self._done(lib.imago_image_want(self._image, want))
            if want.kind == 0:
                break
            if want.kind == 1:
                data = self._bytes(want.file, want.offset, want.count)
                self._done(lib.imago_image_give(self._image, data, len(data)))
                continue
            said = self._text(lib.imago_image_format_name)
            if said is not None and said not in _FORMATS:
                raise Error(6, self._path)
            below = others(above, self._text(lib.imago_image_name), want.kind, said)
            length = self._add(below)
            format = _FORMATS.get(said, UNKNOWN)
            self._done(lib.imago_image_give_file(self._image, length, format))
            above = below if want.kind == BACKING else above
        size = ctypes.c_uint64()
        self._done(lib.imago_image_size(self._image, size))
        self.size = size.value

    def _bytes(self, file, offset, count):
        """So many bytes of a file, with zeroes past its end."""
        parts = []
        while count > 0 and offset < 1 << 63:
            part = os.pread(self._files[file].fileno(), count, offset)
            if not part:
                break
            parts.append(part)
            offset, count = offset + len(part), count - len(part)
        return b"".join(parts) + bytes(count)

    def _cluster(self, place):
        """The compressed cluster of a place. The one that was made last is kept."""
        if self._unpacked[0] != (place.file, place.offset):
            stream = self._bytes(place.file - 1, place.offset, place.stream)
            cluster = ctypes.create_string_buffer(place.cluster)
            self._done(_lib().imago_unpack_cluster(stream, len(stream), cluster, len(cluster)))
            self._unpacked = ((place.file, place.offset), cluster.raw)
        return self._unpacked[1]

    def place(self, offset, most):
        """Where the bytes of the disk stand from that offset on: at most that many."""
        place = Place()
        self._done(_lib().imago_image_map(self._image, offset, most, place))
        return place

    def map(self):
        """All places of the disk, in order."""
        at = 0
        while at < self.size:
            place = self.place(at, self.size - at)
            yield place
            at += place.count

    def pread(self, count, offset):
        """So many bytes of the disk from an offset on, fewer only at its end."""
        count, parts = max(0, min(count, self.size - offset)), []
        while count > 0:
            place = self.place(offset, count)
            if place.kind == ZERO:
                parts.append(bytes(place.count))
            elif place.kind == STORED:
                parts.append(self._bytes(place.file - 1, place.offset, place.count))
            else:
                parts.append(self._cluster(place)[place.skip : place.skip + place.count])
            offset, count = offset + place.count, count - place.count
        return b"".join(parts)

    def readable(self):
        return True

    def seekable(self):
        return True

    def readinto(self, buffer):
        data = self.pread(len(buffer), self._at)
        buffer[:len(data)] = data
        self._at += len(data)
        return len(data)

    def seek(self, offset, whence=os.SEEK_SET):
        at = offset + {os.SEEK_SET: 0, os.SEEK_CUR: self._at, os.SEEK_END: self.size}[whence]
        if at < 0:
            raise ValueError("a negative offset")
        self._at = at
        return at

    def tell(self):
        return self._at

    def close(self):
        if not self.closed:
            _lib().imago_image_close(self._image)
            while self._files:
                self._files.pop().close()
            super().close()


def open(path, format=UNKNOWN, others=beside, strict=False, tables=USUAL_TABLES):
    """Opens the image of a path, with the files that it names as `others` lets them through. The
    tables of each qcow2 file may have that many bytes."""
    return Disk(path, format, others, strict, tables)
