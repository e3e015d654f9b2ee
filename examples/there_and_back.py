#!/usr/bin/env python3
"""Makes packets of a file, loses each tenth, and gets the file back, by ctypes alone. Texts are the library's."""
import argparse
import pathlib
import sys
from ctypes import CDLL, POINTER, byref, c_char_p, c_size_t, c_uint8, c_uint16, c_uint32, c_uint64, create_string_buffer

SIZE, PACKET, BLOCK = 1280, 4 + 1280, 497
# What calls take that answer a number. Where one is too great for its type, ctypes hands on the low bits.
CALLS = {
    "reamertan_cut": (c_uint64, c_uint16, c_uint16, c_char_p),
    "reamertan_packets_length": (c_char_p, c_uint32, POINTER(c_uint64)),
    "reamertan_encode": (c_char_p, c_char_p, c_size_t, c_uint32, c_char_p, c_size_t),
    "reamertan_decode": (c_char_p, c_char_p, c_size_t, c_char_p, c_size_t),
}


def load(path):
    library = CDLL(path)
    library.reamertan_processor.restype = library.reamertan_answer_text.restype = c_char_p

    def check(answer, call, _):
        if answer != 0:
            sys.exit(f"{call.__name__}: {library.reamertan_answer_text(answer).decode()}")

    for name, parameters in CALLS.items():
        call = getattr(library, name)
        call.argtypes, call.restype, call.errcheck = parameters, c_uint8, check
    return library


def there_and_back(library, sent):
    length, header, repair = c_uint64(), create_string_buffer(12), BLOCK // 8 + 10
    library.reamertan_cut(len(sent), SIZE, BLOCK, header)
    library.reamertan_packets_length(header, repair, byref(length))
    packets, back = create_string_buffer(length.value), create_string_buffer(len(sent))
    library.reamertan_encode(header, sent, len(sent), repair, packets, len(packets))
    came = b"".join(packets[at : at + PACKET] for at in range(0, len(packets), PACKET) if at // PACKET % 10 != 3)
    library.reamertan_decode(header, came, len(came), back, len(back))
    return back.raw


parser = argparse.ArgumentParser(description=__doc__)
parser.add_argument("library", help="the path of libreamertan.so")
parser.add_argument("file")
words = parser.parse_args()
try:
    reamertan, contents = load(words.library), pathlib.Path(words.file).read_bytes()
except (OSError, AttributeError) as error:
    parser.error(str(error))
if there_and_back(reamertan, contents) != contents:
    sys.exit("another file came back")
print("the file is the same, by a library for", reamertan.reamertan_processor().decode())
