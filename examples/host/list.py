#!/usr/bin/env python3
"""A host, to start from: list.py LIBRARY SHEET judges a sheet file by libpomthija.so and prints its decided branches."""
import ctypes
import sys

LINE = 18
LIST = 2048 * LINE  # never too short


def load(path):
    library = ctypes.CDLL(path)
    library.pomthija_listing.restype = ctypes.c_uint64
    library.pomthija_listing.argtypes = [
        ctypes.c_char_p, ctypes.c_size_t, ctypes.c_char_p, ctypes.c_size_t, ctypes.POINTER(ctypes.c_uint64)]
    return library


def listing(library, sheet):
    """A refusal's number, 0 where there is none, what it left in out, and the lines."""
    out = ctypes.c_uint64()
    lines = ctypes.create_string_buffer(LIST)
    refusal = library.pomthija_listing(sheet, len(sheet), lines, LIST, ctypes.byref(out))
    return refusal, out.value, lines.raw


def main():
    if len(sys.argv) != 3:
        sys.exit('usage: list.py LIBRARY SHEET')
    try:
        library = load(sys.argv[1])
        with open(sys.argv[2], 'rb') as file:
            sheet = file.read()
    except OSError as error:
        sys.exit(f'list.py: {error}')
    refusal, out, lines = listing(library, sheet)
    if refusal != 0:
        print(f'refused {refusal} at {out}')
        return 1
    for at in range(0, out * LINE, LINE):
        site, target = (int.from_bytes(lines[at + k:at + k + 8], 'little') for k in (0, 8))
        verdict = 'always' if lines[at + 16] == 1 else 'never'
        print(f'{site:#x} to {target:#x}: {verdict} taken, reason {lines[at + 17]}')
    return 0


sys.exit(main())
