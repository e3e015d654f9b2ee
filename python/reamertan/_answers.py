"""What the library answers where it doesn't do what a call is for."""
from __future__ import annotations

import enum


class Answer(enum.IntEnum):
    """The numbers of include/reamertan.h, which says when each comes. Made by errors/make_lists."""

    DONE = 0
    TRANSFER_TOO_LONG = 1
    ALIGNMENT_ZERO = 2
    MISALIGNED = 3
    TOO_MANY_SYMBOLS = 4
    SYMBOL_SIZE_ZERO = 5
    SOURCE_BLOCKS_ZERO = 6
    BLOCK_OVER_TABLE = 7
    WRONG_DATA_LENGTH = 8
    SINGULAR = 9
    PLAN_MISMATCH = 10
    ESI_TOO_LARGE = 11
    PACKET_TOO_SHORT = 12
    WRONG_PAYLOAD_SIZE = 13
    UNKNOWN_BLOCK = 14
    PACKET_SIZE_ZERO = 15
    TRANSFER_LENGTH_ZERO = 16
    MEMORY_REQUIREMENT_TOO_SMALL = 17
    TOO_MANY_BLOCKS = 18
    OUT_OF_MEMORY = 21
    CONTRADICTION = 22
    WRONG_BUFFER = 24
    INCOMPLETE = 25


class Error(ValueError):
    """A call was refused. `number` says why, as a number of `Answer`, and `text` in words."""

    def __init__(self, number: int, text: str) -> None:
        super().__init__(number, text)
        self.number = Answer(number)
        self.text = text

    def __str__(self) -> str:
        return f"{self.text} ({self.number})"
