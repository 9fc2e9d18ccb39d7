"""Layouts, paths, queries, groups and texts over bytes in memory, by the proved library fm_c.

    import fmem
    layout = open("examples/sale_layout", "rb").read()
    fmem.query(layout, "count,list(.tags[])", open("examples/two_sales", "rb").read())

Records may be anything with a buffer: bytes, a memoryview, an mmap, an array of numpy's. None is copied here. The
library copies a query's records once a call, and the call is made again where its answer takes more room than was guessed:
4,096 bytes of text, 64 numbers. A refused call raises `Refused`.
"""

import ctypes
import os
import struct
import threading

_NAME = "libfm_c.so"


def _library():
    folder = os.path.dirname(os.path.abspath(__file__))
    path = os.environ.get("FMEM_LIBRARY") or os.path.join(folder, _NAME)
    return ctypes.CDLL(path)


class _Report(ctypes.Structure):
    _fields_ = [(name, ctypes.c_uint64) for name in ("number", "arguments", "first", "second", "length")]


class _Extent(ctypes.Structure):
    _fields_ = [("size", ctypes.c_uint64), ("alignment", ctypes.c_uint64)]


class _Place(ctypes.Structure):
    _fields_ = [
        (name, ctypes.c_uint64) for name in ("offset", "kind", "order", "alignment", "root_size", "root_alignment")
    ]


class _Stride(ctypes.Structure):
    _fields_ = [("stride", ctypes.c_int64), ("bound", ctypes.c_uint64)]


class _Within(ctypes.Structure):
    _fields_ = [("size", ctypes.c_uint64), ("base", ctypes.c_uint64)]


class _Handle(ctypes.Structure):
    _fields_ = [("query", ctypes.c_void_p)]


class _Counted(ctypes.Structure):
    _fields_ = [("number", ctypes.c_int64), ("count", ctypes.c_uint64)]


class _Buffer(ctypes.Structure):
    """Py_buffer, of which the first two fields are read."""

    _fields_ = [
        ("buf", ctypes.c_void_p),
        ("obj", ctypes.py_object),
        ("len", ctypes.c_ssize_t),
        ("itemsize", ctypes.c_ssize_t),
        ("readonly", ctypes.c_int),
        ("ndim", ctypes.c_int),
        ("format", ctypes.c_char_p),
        ("shape", ctypes.c_void_p),
        ("strides", ctypes.c_void_p),
        ("suboffsets", ctypes.c_void_p),
        ("internal", ctypes.c_void_p),
    ]


_get_buffer = ctypes.pythonapi.PyObject_GetBuffer
_get_buffer.argtypes = [ctypes.py_object, ctypes.POINTER(_Buffer), ctypes.c_int]
_release_buffer = ctypes.pythonapi.PyBuffer_Release
_release_buffer.argtypes = [ctypes.POINTER(_Buffer)]
_release_buffer.restype = None

_EMPTY = ctypes.create_string_buffer(8)


class _Lent:
    """The bytes of a buffer, lent for a call: a pointer that is never NULL, and their count."""

    def __init__(self, of):
        self.view = _Buffer()
        _get_buffer(of, ctypes.byref(self.view), 0)

    def __enter__(self):
        return self.view.buf or ctypes.addressof(_EMPTY), self.view.len

    def __exit__(self, *_):
        _release_buffer(ctypes.byref(self.view))


_lib = _library()
_slice = [ctypes.c_void_p, ctypes.c_size_t]
_lib.fm_layout.argtypes = [*_slice, ctypes.POINTER(_Extent), ctypes.POINTER(_Report)]
_lib.fm_places.argtypes = [*_slice, *_slice, ctypes.POINTER(_Report)]
_lib.fm_place.argtypes = [*_slice, *_slice, ctypes.POINTER(_Place), *_slice, ctypes.POINTER(_Report)]
_lib.fm_at.argtypes = [ctypes.POINTER(_Place), *_slice, *_slice, ctypes.POINTER(_Within), ctypes.POINTER(ctypes.c_uint64), ctypes.POINTER(_Report)]
_lib.fm_numbers.argtypes = [*_slice, *_slice, *_slice, *_slice, ctypes.POINTER(_Report)]
_lib.fm_groups.argtypes = [*_slice, *_slice, *_slice, *_slice, ctypes.POINTER(_Report)]
_lib.fm_texts.argtypes = [*_slice, *_slice, *_slice, *_slice, ctypes.POINTER(_Report)]
_lib.fm_query.argtypes = [*_slice, *_slice, *_slice, *_slice, ctypes.POINTER(_Report)]
_lib.fm_query_make.argtypes = [*_slice, *_slice, ctypes.POINTER(_Handle), ctypes.POINTER(_Report)]
_lib.fm_query_ask.argtypes = [ctypes.POINTER(_Handle), *_slice, *_slice, ctypes.POINTER(_Report)]
_lib.fm_query_free.argtypes = [ctypes.POINTER(_Handle)]
_lib.fm_refusal.argtypes = [ctypes.POINTER(_Report), *_slice, ctypes.POINTER(_Report)]
for _name in ("layout", "places", "place", "at", "query", "query_make", "query_ask", "query_free", "numbers", "groups", "texts", "refusal"):
    getattr(_lib, "fm_" + _name).restype = ctypes.c_uint64

KINDS = ("byte", "boolean", "char", "short", "int", "long")
ORDERS = ("little", "big")
_FORMATS = dict(zip(KINDS, "b?Hhiq"))


class Refused(ValueError):
    """A call that was refused: `number` and `arguments`, as docs/REFUSALS.md lists them."""

    def __init__(self, report):
        self.number = report.number
        self.arguments = (report.first, report.second)[: report.arguments]
        super().__init__(_text(lambda *to: _lib.fm_refusal(ctypes.byref(report), *to), 64))


def _told(refused, report):
    """How long the whole output is; else the refusal is raised."""
    if refused:
        raise MemoryError() if report.number == 99 else Refused(report)
    return report.length


def _filled(call, of, room):
    """All items that the call puts, of which most need no more room than this, and how many they are."""
    report = _Report()
    while True:
        out = (of * room)()
        length = _told(call(out, room, ctypes.byref(report)), report)
        if length <= room:
            return out, length
        room = length


def _text(call, room):
    out, length = _filled(call, ctypes.c_char, room)
    return memoryview(out)[:length].tobytes().decode()


def _bytes(text):
    return text.encode() if isinstance(text, str) else text


class Place:
    """Where a path leads in a record: plain numbers, which any number of threads may read."""

    __slots__ = ("offset", "kind", "order", "alignment", "size", "strides", "_format", "_place", "_strides")

    def __init__(self, layout, path):
        self._place = place = _Place()
        with _Lent(_bytes(layout)) as json, _Lent(_bytes(path)) as text:
            self._strides, count = _filled(lambda *to: _lib.fm_place(*json, *text, ctypes.byref(place), *to), _Stride, 8)
        self.offset, self.alignment, self.size = place.offset, place.alignment, place.root_size
        self.kind, self.order = KINDS[place.kind], ORDERS[place.order]
        self.strides = [(it.stride, it.bound) for it in self._strides[:count]]
        self._format = struct.Struct("<>"[place.order] + _FORMATS[self.kind])

    def find(self, size, base, *indices):
        """Where the value stands in so many bytes, of which a record begins at the base. An index that isn't below its
        bound, is missing, or is one too many, and a record that passes the end, raise `Refused`; a number that is below 0 or
        takes more than 64 bits, an `OverflowError`."""
        # ctypes would cut such a number off.
        if not all(0 <= n < 2**64 for n in (size, base, *indices)):
            raise OverflowError("a number of 64 bits is wanted")
        report, at = _Report(), ctypes.c_uint64()
        of, within = (ctypes.c_uint64 * len(indices))(*indices), _Within(size, base)
        _told(
            _lib.fm_at(
                ctypes.byref(self._place), self._strides, len(self.strides), of, len(indices), ctypes.byref(within),
                ctypes.byref(at), ctypes.byref(report),
            ),
            report,
        )
        return at.value

    def at(self, *indices):
        """The value's offset at one index for each open step."""
        if len(indices) != len(self.strides):
            raise IndexError(f"{len(self.strides)} indices are wanted")
        if any(not 0 <= i < bound for i, (_, bound) in zip(indices, self.strides)):
            raise IndexError("an index isn't below its bound")
        return self.offset + sum(i * stride for i, (stride, _) in zip(indices, self.strides))

    def get(self, records, record, *indices):
        """The value in the record of this number."""
        return self._format.unpack_from(records, record * self.size + self.at(*indices))[0]


def measure(layout):
    """The layout's size and alignment in bytes."""
    report, extent = _Report(), _Extent()
    with _Lent(_bytes(layout)) as json:
        _told(_lib.fm_layout(*json, ctypes.byref(extent), ctypes.byref(report)), report)
    return extent.size, extent.alignment


def places(layout):
    """The text that lists the layout's places, as `fmem layout` prints it."""
    with _Lent(_bytes(layout)) as json:
        return _text(lambda *to: _lib.fm_places(*json, *to), 1024)


def answer(layout, text, records):
    """The text of what the query answers, as `fmem query` prints it."""
    with _Lent(_bytes(layout)) as json, _Lent(_bytes(text)) as query, _Lent(records) as lent:
        return _text(lambda *to: _lib.fm_query(*json, *query, *lent, *to), 4096)


def query(layout, text, records):
    """What each item of the query finds: a number; None for a least or greatest of no numbers; a list for `list`."""
    with _Lent(_bytes(layout)) as json, _Lent(_bytes(text)) as asked, _Lent(records) as lent:
        out, length = _filled(lambda *to: _lib.fm_numbers(*json, *asked, *lent, *to), ctypes.c_int64, 64)
    numbers, found, at = memoryview(out).cast("B").cast("q"), [], 0
    while at < length:
        form, count = numbers[at : at + 2]
        of = numbers[at + 2 : at + 2 + count].tolist()
        if form == 4:
            found.append(of)
        elif form == 1:
            found.append((of[1] << 64) + (of[0] & 0xFFFFFFFFFFFFFFFF))
        else:
            found.append(of[0] if of else None)
        at += 2 + count
    return found


class Query:
    """A query over records of a layout that is kept, so that it isn't read anew each time. It is freed by `close`, at the end
    of a `with`, or when it is collected. Threads that share it take turns."""

    def __init__(self, layout, text):
        self._turn, self._handle = threading.Lock(), None
        report, handle = _Report(), _Handle()
        with _Lent(_bytes(layout)) as json, _Lent(_bytes(text)) as asked:
            _told(_lib.fm_query_make(*json, *asked, ctypes.byref(handle), ctypes.byref(report)), report)
        self._handle = handle

    def answer(self, records):
        """The text of what it answers over records, as `answer`."""
        with _Lent(records) as lent, self._turn:
            if self._handle is None:
                raise ValueError("the query is closed")
            return _text(lambda *to: _lib.fm_query_ask(ctypes.byref(self._handle), *lent, *to), 4096)

    def close(self):
        with self._turn:
            handle, self._handle = self._handle, None
            if handle is not None:
                _lib.fm_query_free(ctypes.byref(handle))

    def __enter__(self):
        return self

    def __exit__(self, *_):
        self.close()

    def __del__(self):
        self.close()


def groups(layout, path, records):
    """How often each number comes among the values of the path: a dict, in rising order of the numbers."""
    with _Lent(_bytes(layout)) as json, _Lent(_bytes(path)) as text, _Lent(records) as lent:
        out, count = _filled(lambda *to: _lib.fm_groups(*json, *text, *lent, *to), _Counted, 256)
    return {it.number: it.count for it in out[:count]}


class NoText:
    """Why a record has no text: its number is 61, no byte is 0; or 60, it isn't UTF-8, and its longest front that is has
    as many bytes as the argument says."""

    def __init__(self, number, *arguments):
        self.number, self.arguments = number, arguments


def texts(layout, path, records):
    """The text of each record, in the bytes to which the path leads, up to the first that is 0; or a `NoText`."""
    with _Lent(_bytes(layout)) as json, _Lent(_bytes(path)) as text, _Lent(records) as lent:
        lines = _text(lambda *to: _lib.fm_texts(*json, *text, *lent, *to), 4096)
    return [_text_of(line) for line in lines.splitlines()]


def _text_of(line):
    word, *rest = line.split(" ")
    if word == "text":
        return bytes.fromhex(*rest or [""]).decode()
    return NoText(*map(int, rest))
