"""How an object is cut, which sender and receiver both know."""
from __future__ import annotations

from ctypes import byref
from typing import TYPE_CHECKING

from . import _library
from ._calls import Parameters, Range
from ._library import calls, exact, fresh, must, number

if TYPE_CHECKING:
    from _typeshed import ReadableBuffer

CONFIGURATION_BYTES = 12
PAYLOAD_ID_BYTES = 4
DEFAULT_DECODER_MEMORY = 10485760
# Source blocks of at most so many symbols are coded fastest.
FAST_BLOCK = 497


class ObjectTransmissionInformation:
    """The configuration of an object. It crosses as 12 bytes (RFC 6330, 3.3), and is what these say.

    >>> config = ObjectTransmissionInformation.with_defaults(5000, 100)
    >>> config.symbol_size, config.source_blocks, config.source_symbols(0)
    (96, 1, 53)
    >>> ObjectTransmissionInformation.deserialize(config.serialize()) == config
    True
    """

    __slots__ = ("_bytes", "_numbers")
    _bytes: bytes
    _numbers: Parameters

    def __init__(self, transfer_length: int, symbol_size: int, source_blocks: int, sub_blocks: int, alignment: int) -> None:
        """The configuration of these numbers. The library refuses those that no configuration has."""
        numbers = Parameters(
            number(transfer_length, 64, "the transfer length"),
            number(symbol_size, 16, "the symbol size"),
            number(sub_blocks, 16, "the number of sub-blocks"),
            number(source_blocks, 8, "the number of source blocks"),
            number(alignment, 8, "the alignment"),
        )
        written = fresh(CONFIGURATION_BYTES)
        must(calls.write_configuration(byref(numbers), written))
        self._bytes, self._numbers = written, numbers

    @staticmethod
    def deserialize(data: ReadableBuffer) -> ObjectTransmissionInformation:
        """The configuration that any 12 bytes spell. Whether a coder takes it is what `check` says."""
        data = exact(data)
        if len(data) != CONFIGURATION_BYTES:
            raise ValueError(f"a configuration has {CONFIGURATION_BYTES} bytes, not {len(data)}")
        made = ObjectTransmissionInformation.__new__(ObjectTransmissionInformation)
        made._bytes, made._numbers = data, Parameters()
        calls.read_configuration(data, byref(made._numbers))
        return made

    @staticmethod
    def with_defaults(
        transfer_length: int, max_packet_size: int, decoder_memory: int = DEFAULT_DECODER_MEMORY
    ) -> ObjectTransmissionInformation:
        """The configuration of an object in packets of at most so many bytes of payload (RFC 6330, 4.3): by 1400 they have up to 1404.

        It is the Rust crate's and PyPI's. Of large objects it has large blocks: `cut` makes smaller ones, which are faster.
        """
        length = number(transfer_length, 64, "the transfer length")
        size = number(max_packet_size, 16, "the packet size")
        memory = number(decoder_memory, 64, "the decoder's memory")
        written = fresh(CONFIGURATION_BYTES)
        must(calls.derive_configuration(length, size, memory, written))
        return ObjectTransmissionInformation.deserialize(written)

    @staticmethod
    def cut(transfer_length: int, symbol_size: int, block_symbols: int = FAST_BLOCK) -> ObjectTransmissionInformation:
        """The configuration of an object in as few source blocks as have at most so many symbols each.

        Where nothing else is said they are coded fastest. An object has 255 blocks at most, so that a larger one needs more symbols a
        block. In larger blocks fewer repair packets do.

        >>> config = ObjectTransmissionInformation.cut(10_000_000, 1280)
        >>> config.source_blocks, config.source_symbols(0)
        (16, 489)
        """
        length, size = number(transfer_length, 64, "the transfer length"), number(symbol_size, 16, "the symbol size")
        written = fresh(CONFIGURATION_BYTES)
        must(calls.cut(length, size, number(block_symbols, 16, "the number of symbols of a block"), written))
        return ObjectTransmissionInformation.deserialize(written)

    def serialize(self) -> bytes:
        """The 12 bytes that spell the configuration."""
        return self._bytes

    def check(self) -> None:
        """Raises an `Error` where no coder takes the configuration."""
        must(calls.check_configuration(self._bytes))

    @property
    def transfer_length(self) -> int:
        """The object's length, in bytes."""
        return int(self._numbers.transfer_length)

    @property
    def symbol_size(self) -> int:
        """The bytes of a symbol. A packet has 4 more."""
        return int(self._numbers.symbol_size)

    @property
    def source_blocks(self) -> int:
        """The number of source blocks, whose own numbers are from 0 on."""
        return int(self._numbers.source_blocks)

    @property
    def sub_blocks(self) -> int:
        """The number of sub-blocks of a source block. 0 is read as 1."""
        return int(self._numbers.sub_blocks)

    @property
    def alignment(self) -> int:
        """The symbol alignment, in bytes."""
        return int(self._numbers.alignment)

    def block_range(self, block: int) -> range:
        """Which bytes of the object a source block has. The last blocks can end past it: zeros fill them up."""
        found = Range()
        must(calls.block_range(self._bytes, number(block, 8, "a source block"), byref(found)))
        return range(found.start, found.end)

    def source_symbols(self, block: int) -> int:
        """The number of source symbols of a source block, which are its packets with the ids from 0 on."""
        return len(self.block_range(block)) // self.symbol_size

    def __eq__(self, other: object) -> bool:
        return isinstance(other, ObjectTransmissionInformation) and self._bytes == other._bytes

    def __hash__(self) -> int:
        return hash(self._bytes)

    def __repr__(self) -> str:
        cut = f"{self.transfer_length}, {self.symbol_size}, {self.source_blocks}, {self.sub_blocks}, {self.alignment}"
        return f"{type(self).__name__}({cut})"

    def __reduce__(self) -> tuple[object, ...]:
        return ObjectTransmissionInformation.deserialize, (self._bytes,)


def version() -> str:
    """The version of the library that is loaded."""
    return _library.spelled(calls.version())


def processor() -> str:
    """The processor whose instructions the library uses."""
    return str(calls.processor().decode())
