"""Buffers that a call is passed: anything with the buffer protocol, checked for its kind and found by its address, without a copy.

The library asks of its caller what no proof can see: that a pointer is good for its length and aligned, and that what a call
writes overlaps with nothing else that it is passed. So that is what is checked here, and nothing else: lengths and values go to
the library as they are, which refuses what is out of range.
"""

import ctypes

_get_buffer = ctypes.pythonapi.PyObject_GetBuffer
_release = ctypes.pythonapi.PyBuffer_Release
_SIMPLE = 0


class _PyBuffer(ctypes.Structure):
    """Py_buffer of CPython's interface."""

    _fields_ = [
        ("buf", ctypes.c_void_p),
        ("obj", ctypes.c_void_p),
        ("len", ctypes.c_ssize_t),
        ("itemsize", ctypes.c_ssize_t),
        ("readonly", ctypes.c_int),
        ("ndim", ctypes.c_int),
        ("format", ctypes.c_void_p),
        ("shape", ctypes.c_void_p),
        ("strides", ctypes.c_void_p),
        ("suboffsets", ctypes.c_void_p),
        ("internal", ctypes.c_void_p),
    ]


_get_buffer.argtypes = [ctypes.py_object, ctypes.POINTER(_PyBuffer), ctypes.c_int]
_get_buffer.restype = ctypes.c_int
_release.argtypes = [ctypes.POINTER(_PyBuffer)]
_release.restype = None

# What a format says of the order of bytes and of alignment; another order than the machine's is no kind below.
_NATIVE = "@=<"


class Kind:
    """What a buffer's values are: their name, formats and width in bytes."""

    def __init__(self, name, formats, width):
        self.name = name
        self.formats = formats
        self.width = width

    def accepts(self, view, unit):
        """Whether a buffer has such values; or, where bytes are meant, structures of `unit` bytes, as numpy's dtypes are."""
        if self.formats.get(view.format.lstrip(_NATIVE)) == view.itemsize:
            return True
        return self.width == 1 and view.itemsize == unit and view.format.startswith(("T{", "B"))


BYTES = Kind("bytes", {"B": 1, "b": 1, "c": 1}, 1)
# Zf is numpy's complex64: a sample is a pair of floats.
FLOATS = Kind("32-bit floats", {"f": 4, "Zf": 8}, 4)
WORDS = Kind("64-bit unsigned numbers", {"Q": 8, "L": 8}, 8)


class Passed:
    """The buffers of one call, held until it is over: `with Passed() as passed`, and then an address and a length for each."""

    def __init__(self):
        self._held = []
        self._regions = []

    def __enter__(self):
        return self

    def __exit__(self, *unused):
        for held, view in self._held:
            _release(ctypes.byref(held))
            view.release()
        self._held.clear()

    def _take(self, name, given, kind, unit, written):
        if given is None:
            return None, 0
        try:
            view = memoryview(given)
        except TypeError:
            raise TypeError("%s: %s where %s are wanted" % (name, type(given).__name__, kind.name)) from None
        held = _PyBuffer()
        try:
            if not kind.accepts(view, unit):
                raise TypeError("%s: a buffer of format %s where %s are wanted" % (name, view.format, kind.name))
            if not view.c_contiguous:
                raise BufferError("%s: a buffer that is not contiguous" % name)
            if written and view.readonly:
                raise BufferError("%s: a buffer that cannot be written" % name)
            length = view.nbytes
            _get_buffer(view, ctypes.byref(held), _SIMPLE)
        except BaseException:
            view.release()
            raise
        self._held.append((held, view))
        if length == 0:
            return None, 0
        if held.buf % kind.width:
            raise BufferError("%s: a buffer that is not aligned to %d bytes" % (name, kind.width))
        self._apart(name, held.buf, held.buf + length, written)
        return held.buf, length // kind.width

    def _apart(self, name, start, end, written):
        for other, its_start, its_end, its_written in self._regions:
            if (written or its_written) and start < its_end and its_start < end:
                raise BufferError("%s overlaps with %s, and one of them is written" % (name, other))
        self._regions.append((name, start, end, written))

    def bytes(self, name, given, unit=1):
        """Bytes to read, or structures of `unit` bytes."""
        return self._take(name, given, BYTES, unit, False)

    def floats(self, name, given):
        return self._take(name, given, FLOATS, 0, False)

    def words(self, name, given):
        return self._take(name, given, WORDS, 0, False)

    def written_bytes(self, name, given, unit=1):
        return self._take(name, given, BYTES, unit, True)

    def written_floats(self, name, given):
        return self._take(name, given, FLOATS, 0, True)

    def written_words(self, name, given):
        return self._take(name, given, WORDS, 0, True)
