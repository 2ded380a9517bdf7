"""Prints a value's plain text as pretty text: convert.py LIBRARY '[Pair { x: 1, y: -2 }]'"""
import ctypes
import sys

TOKEN, PRETTY = ctypes.c_uint32(0), ctypes.c_uint32(1)
FULL = -2


def to_pretty(library, input, size=256):
    """The pretty text, as bytes. It asks again with a buffer that will do."""
    call = library.ufmt_convert
    call.restype = ctypes.c_ssize_t
    buffer, detail = ctypes.create_string_buffer(size), ctypes.c_size_t(0)
    length = call(buffer, ctypes.c_size_t(size), TOKEN, PRETTY, input, ctypes.c_size_t(len(input)), ctypes.byref(detail))
    if length == FULL:
        return to_pretty(library, input, detail.value)
    if length < 0:
        raise ValueError("not a text from byte %d on" % detail.value)
    return buffer.raw[:length]


if __name__ == "__main__":
    print(to_pretty(ctypes.CDLL(sys.argv[1]), sys.argv[2].encode()).decode())
