"""What include/reamertan.h declares, by ctypes: structs, and each call's parameters and result. `.ci/outside` compares both."""
from __future__ import annotations

import ctypes
from ctypes import POINTER, c_bool, c_char_p, c_size_t, c_uint8, c_uint16, c_uint32, c_uint64, c_void_p
from typing import Any


class Parameters(ctypes.Structure):
    """The numbers of a configuration."""

    _fields_ = [
        ("transfer_length", c_uint64),
        ("symbol_size", c_uint16),
        ("sub_blocks", c_uint16),
        ("source_blocks", c_uint8),
        ("alignment", c_uint8),
    ]


class Range(ctypes.Structure):
    """Bytes of an object."""

    _fields_ = [("start", c_uint64), ("end", c_uint64)]


# `bytes` stand for any pointer to bytes: those that a call fills are new, and nobody else's yet (`library.fresh`).
BYTES = (c_char_p, c_size_t)
# A pointer to a coder, and where a call writes one or frees it.
CODER, PLACE = c_void_p, POINTER(c_void_p)
# A pointer to a bool, by its address: ctypes takes a third of the time for it, at each packet.
TOLD = c_void_p

# A call's result, and its parameters. `None` is no result.
CALLS: dict[str, tuple[Any, ...]] = {
    "answer_text": (c_char_p, c_uint8),
    "version": (c_uint32,),
    "processor": (c_char_p,),
    "cut": (c_uint8, c_uint64, c_uint16, c_uint16, c_char_p),
    "derive_configuration": (c_uint8, c_uint64, c_uint16, c_uint64, c_char_p),
    "write_configuration": (c_uint8, POINTER(Parameters), c_char_p),
    "read_configuration": (None, c_char_p, POINTER(Parameters)),
    "check_configuration": (c_uint8, c_char_p),
    "block_range": (c_uint8, c_char_p, c_uint8, POINTER(Range)),
    "packets_length": (c_uint8, c_char_p, c_uint32, POINTER(c_uint64)),
    "encoder_open": (c_uint8, PLACE, c_char_p, *BYTES),
    "encoder_write": (c_uint8, CODER, c_uint8, c_uint32, c_uint32, *BYTES),
    "encoder_close": (None, PLACE),
    "plan_open": (c_uint8, PLACE, c_uint16),
    "plan_close": (None, PLACE),
    "block_encoder_open": (c_uint8, PLACE, CODER, c_char_p, c_uint8, *BYTES),
    "block_encoder_write": (c_uint8, CODER, c_uint32, c_uint32, *BYTES),
    "block_encoder_close": (None, PLACE),
    "decoder_open": (c_uint8, PLACE, c_char_p),
    "decoder_add_packet": (c_uint8, CODER, *BYTES, TOLD),
    "decoder_add_packets": (c_uint8, CODER, *BYTES),
    "decoder_is_complete": (c_bool, CODER),
    "decoder_missing": (c_uint8, CODER, c_uint8, POINTER(c_uint32)),
    "decoder_write_block": (c_uint8, CODER, c_uint8, *BYTES),
    "decoder_write_object": (c_uint8, CODER, *BYTES),
    "decoder_close": (None, PLACE),
    "block_decoder_open": (c_uint8, PLACE, c_char_p, c_uint8, c_uint64),
    "block_decoder_add_packets": (c_uint8, CODER, *BYTES),
    "block_decoder_is_complete": (c_bool, CODER),
    "block_decoder_missing": (c_uint8, CODER, POINTER(c_uint32)),
    "block_decoder_write": (c_uint8, CODER, *BYTES),
    "block_decoder_close": (None, PLACE),
}
