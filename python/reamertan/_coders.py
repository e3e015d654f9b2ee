"""Coders of objects and of blocks. Each keeps a pointer of the library, and nothing that the library has."""
from __future__ import annotations

import inspect
import itertools
import os
import struct
import threading
from ctypes import addressof, byref, c_bool, c_uint32, c_uint64, c_void_p
from typing import TYPE_CHECKING, Any, Callable, Iterable, Iterator, TypeVar

from ._answers import Answer
from ._configuration import PAYLOAD_ID_BYTES, ObjectTransmissionInformation
from ._library import WRITABLE, calls, exact, fresh, lent, must, number

if TYPE_CHECKING:
    from _typeshed import ReadableBuffer, WriteableBuffer

ENCODING_SYMBOL_IDS = 1 << 24
# How many bytes of packets a call makes at a time, unless one packet has more: so few that their memory is used again.
BATCH = 1 << 16

# What is asked for each packet, without a look-up.
_add_packet, _is_complete = calls.decoder_add_packet, calls.decoder_is_complete

_Any = TypeVar("_Any", bound="Coder")
# How often this process was forked off, and by which thread at last. Coders from before are looked at when they are next used.
_forks = _forker = 0
_meeting = threading.Lock()


def _count_fork() -> None:
    global _forks, _forker, _meeting
    _forks, _forker, _meeting = _forks + 1, threading.get_ident(), threading.Lock()


os.register_at_fork(after_in_child=_count_fork)


class Coder:
    """What coders share: a pointer, which is null where the coder is closed, and a lock, since one call at a time uses a pointer.

    The lock lets its own thread in again, as a signal's handler may come between two calls. In a forked child, a coder that another
    thread was using is lost, since that thread isn't there to end its call.
    """

    __slots__ = ("__weakref__", "_at", "_forks", "_lock", "_subject")
    # What help shows: what `__new__` takes is each kind's own.
    __signature__ = inspect.Signature()
    _at: c_void_p
    _forks: int
    _lock: Any
    # What it codes, to be shown.
    _subject: object
    # The library's calls of its kind.
    _open: Any
    _close: Any

    def __new__(cls: type[_Any], *words: Any, **named: Any) -> _Any:
        made = super().__new__(cls)
        made._lock, made._at, made._forks, made._subject = threading.RLock(), c_void_p(), _forks, "nothing"
        return made

    def __init_subclass__(cls) -> None:
        _, *parameters = inspect.signature(cls.__init__).parameters.values()
        cls.__signature__ = inspect.Signature(parameters if "__init__" in vars(cls) else [])

    def __repr__(self) -> str:
        return f"<{type(self).__name__} of {self._subject}{'' if self._at else ', closed'}>"

    def _begin(self, subject: object, *words: Any) -> None:
        """Opens the coder, in the place of what it was."""
        other = [c_void_p()]
        try:
            must(self._open(byref(other[0]), *words))
            self._exchange(other)
            self._subject = subject
        finally:
            self._close(byref(other[0]))

    def _exchange(self, other: list[c_void_p]) -> None:
        """Holds the other pointer, and leaves the one that was held there. A handler that raises finds each in one place or the other."""
        if self._forks != _forks:
            self._meet()
        if self._lock._is_owned():
            # A handler came between two lines of a call, which is to find the same coder.
            raise RuntimeError("the coder is in use")
        with self._lock:
            self._at, other[0] = other[0], self._at

    def _ask(self, call: Callable[..., Any], *words: Any) -> Any:
        """What a call of the coder answers."""
        if self._forks != _forks:
            self._meet()
        with self._lock:
            if not self._at:
                raise ValueError("the coder is closed")
            return call(self._at, *words)

    def _count(self, call: Callable[..., Any], *words: Any) -> int:
        """The number that a call of the coder writes."""
        count = c_uint32()
        must(self._ask(call, *words, byref(count)))
        return count.value

    def _meet(self) -> None:
        """Looks at a coder that comes from another process."""
        with _meeting:
            if self._forks == _forks:
                return
            # The lock takes a new thread for one of before that had its number. The thread that forked is itself.
            is_own = self._forks + 1 == _forks and threading.get_ident() == _forker
            if self._lock._is_owned() and not is_own or not self._lock.acquire(blocking=False):
                raise RuntimeError("another thread was using this coder when the process was forked")
            self._forks = _forks
            self._lock.release()

    def close(self) -> None:
        """Frees what the coder holds. Calls raise a `ValueError` from then on."""
        other = [c_void_p()]
        try:
            self._exchange(other)
        finally:
            self._close(byref(other[0]))

    def __enter__(self: _Any) -> _Any:
        return self

    def __exit__(self, *reason: object) -> None:
        self.close()

    # Nobody else has the coder any more: where its lock is held, that is by a thread of another process, whose number a new one may have.
    def __del__(self, byref: Callable[[Any], Any] = byref) -> None:
        if not self._lock._is_owned() and self._lock.acquire(blocking=False):
            self._close(byref(self._at))

    def __reduce__(self) -> tuple[object, ...]:
        raise TypeError("a coder can't be copied")


def batches(write: Callable[..., int], size: int, first: int, count: int) -> list[bytes]:
    """Packets of the ids from `first` on, by a call that fills a buffer with some of them."""
    first = number(first, 32, "the first id")
    count = number(count, 32, "the number of packets")
    if first + count > ENCODING_SYMBOL_IDS:
        # Refused before any is made.
        must(write(first, count, b"", 0))
    at_once = max(1, BATCH // size)
    packets: list[bytes] = []
    for start in range(first, first + count, at_once):
        made = min(at_once, first + count - start)
        filled = fresh(made * size)
        must(write(start, made, filled, len(filled)))
        # One step for all: half of the time of slices.
        packets += struct.unpack(f"{size}s" * made, filled)
    return packets


def write_into(write: Callable[..., int], size: int, buffer: WriteableBuffer, first: int, count: int) -> int:
    """Has a call fill the front of a buffer with packets of the ids from `first` on. Answers how many bytes these are."""
    first = number(first, 32, "the first id")
    count = number(count, 32, "the number of packets")
    with lent(buffer, WRITABLE) as (at, length):
        must(write(first, count, at, min(length, count * size)))
    return count * size


def configured(config: ObjectTransmissionInformation) -> bytes:
    """The 12 bytes of a configuration, whatever a class that is derived from it says."""
    if not isinstance(config, ObjectTransmissionInformation):
        raise TypeError(f"an ObjectTransmissionInformation is needed, not {type(config).__name__}")
    return ObjectTransmissionInformation.serialize(config)


class Encoder(Coder):
    """The encoder of an object.

    >>> encoder = Encoder.with_defaults(bytes(5000), 100)
    >>> packets = encoder.get_encoded_packets(10)
    >>> len(packets), packets[0] == encoder.packet(0, 0)
    (63, True)
    """

    __slots__ = ("_config",)
    _open, _close = calls.encoder_open, calls.encoder_close
    _config: ObjectTransmissionInformation

    def __init__(self, data: ReadableBuffer, config: ObjectTransmissionInformation) -> None:
        """The encoder of an object by this configuration. Neither is needed any more.

        The object is any contiguous buffer, which isn't copied: its bytes mustn't change before this returns.
        """
        with lent(data) as words:
            self._begin(config, configured(config), *words)
        self._config = config

    @staticmethod
    def with_defaults(data: ReadableBuffer, maximum_transmission_unit: int) -> Encoder:
        """The encoder of an object in packets of at most so many bytes of payload: by 1400 a packet has up to 1404, by its 4 bytes of id."""
        with lent(data) as (_, length):
            config = ObjectTransmissionInformation.with_defaults(length, maximum_transmission_unit)
        return Encoder(data, config)

    def get_config(self) -> ObjectTransmissionInformation:
        """The object's configuration, which a receiver needs."""
        return self._config

    def get_encoded_packets(self, repair_packets_per_block: int) -> list[bytes]:
        """Block by block the packets of all source symbols, and of so many repair symbols."""
        repair = number(repair_packets_per_block, 32, "the number of repair packets")
        # Refuses ids that are too great before any packet is made.
        must(calls.packets_length(configured(self._config), repair, byref(c_uint64())))
        packets: list[bytes] = []
        for block in range(self._config.source_blocks):
            packets += self.packets(block, 0, self._config.source_symbols(block) + repair)
        return packets

    def packet_stream(self, repair_packets_per_block: int | None = None) -> Iterator[bytes]:
        """Packets of all blocks in turn, id by id: of each source symbol of the largest block, and of so many repair symbols. Where no
        number is said they don't end: each round has the ids that follow, and behind the last id they begin anew."""
        end = ENCODING_SYMBOL_IDS
        if repair_packets_per_block is not None:
            repair = number(repair_packets_per_block, 32, "the number of repair packets")
            must(calls.packets_length(configured(self._config), repair, byref(c_uint64())))
            end = self._config.source_symbols(0) + repair
        once = self._turns(end)
        return once if repair_packets_per_block is not None else itertools.chain.from_iterable(self._turns(end) for _ in itertools.repeat(None))

    def _turns(self, end: int) -> Iterator[bytes]:
        """The packets of all blocks in turn, of the ids below an end."""
        blocks = range(self._config.source_blocks)
        at_once = max(1, BATCH // (PAYLOAD_ID_BYTES + self._config.symbol_size))
        for start in range(0, end, at_once):
            made = [self.packets(block, start, min(at_once, end - start)) for block in blocks]
            yield from itertools.chain.from_iterable(zip(*made))

    def packet(self, block: int, encoding_symbol_id: int) -> bytes:
        """The packet of a source block and an encoding symbol id, below the block's source symbols that of one of these."""
        return self.packets(block, encoding_symbol_id, 1)[0]

    def packets(self, block: int, first: int, count: int) -> list[bytes]:
        """So many packets of a source block, of the encoding symbol ids from `first` on."""
        block = number(block, 8, "a source block")
        size = PAYLOAD_ID_BYTES + self._config.symbol_size
        return batches(lambda *words: self._ask(calls.encoder_write, block, *words), size, first, count)

    def packets_into(self, buffer: WriteableBuffer, block: int, first: int, count: int) -> int:
        """Writes what `packets` returns into the front of a buffer, one behind another, and returns how many bytes they have. Raises an
        `Error` where there is no room for all of them."""
        block = number(block, 8, "a source block")
        size = PAYLOAD_ID_BYTES + self._config.symbol_size
        return write_into(lambda *words: self._ask(calls.encoder_write, block, *words), size, buffer, first, count)


class SourceBlockEncodingPlan(Coder):
    """How blocks of so many source symbols are encoded, which is most of the work where symbols are small. One plan serves them all.

    >>> plan = SourceBlockEncodingPlan.generate(10)
    """

    __slots__ = ()
    _open, _close = calls.plan_open, calls.plan_close

    @staticmethod
    def generate(symbol_count: int) -> SourceBlockEncodingPlan:
        """The plan for blocks of so many source symbols."""
        made, count = SourceBlockEncodingPlan(), number(symbol_count, 16, "the number of source symbols")
        made._begin(f"{count} symbols", count)
        return made


class SourceBlockEncoder(Coder):
    """The encoder of one source block, whose other blocks needn't be there.

    >>> config = ObjectTransmissionInformation(1000, 100, 1, 1, 1)
    >>> plan = SourceBlockEncodingPlan.generate(config.source_symbols(0))
    >>> encoder = SourceBlockEncoder.with_encoding_plan(0, config, bytes(1000), plan)
    >>> encoder.packets(0, 12) == Encoder(bytes(1000), config).packets(0, 0, 12)
    True
    """

    __slots__ = ("_size",)
    _open, _close = calls.block_encoder_open, calls.block_encoder_close
    _size: int

    @staticmethod
    def with_encoding_plan(
        source_block_id: int, config: ObjectTransmissionInformation, data: ReadableBuffer, plan: SourceBlockEncodingPlan
    ) -> SourceBlockEncoder:
        """The encoder of a block with these bytes, which are all of it: where the object ends before it, zeros follow. They are a buffer as
        `Encoder` takes."""
        if not isinstance(plan, SourceBlockEncodingPlan):
            raise TypeError(f"a SourceBlockEncodingPlan is needed, not {type(plan).__name__}")
        config_bytes, block = configured(config), number(source_block_id, 8, "a source block")
        made = SourceBlockEncoder()
        made._size = PAYLOAD_ID_BYTES + config.symbol_size
        with lent(data) as words:
            plan._ask(lambda at: made._begin(f"block {block} of {config}", at, config_bytes, block, *words))
        return made

    def packets(self, first: int, count: int) -> list[bytes]:
        """So many packets of the block, of the encoding symbol ids from `first` on."""
        return batches(lambda *words: self._ask(calls.block_encoder_write, *words), self._size, first, count)

    def packets_into(self, buffer: WriteableBuffer, first: int, count: int) -> int:
        """Writes packets of the block into the front of a buffer, as `Encoder.packets_into` does."""
        return write_into(lambda *words: self._ask(calls.block_encoder_write, *words), self._size, buffer, first, count)


class Decoder(Coder):
    """The decoder of an object.

    >>> packets = Encoder.with_defaults(b"reamertan" * 100, 100).get_encoded_packets(3)
    >>> decoder = Decoder.with_defaults(900, 100)
    >>> answers = [decoder.decode(packet) for packet in packets[2:]]
    >>> answers[-1] == b"reamertan" * 100
    True
    """

    __slots__ = ("_answer", "_config", "_handed", "_is_late", "_least", "_unread_at")
    _open, _close = calls.decoder_open, calls.decoder_close
    _config: ObjectTransmissionInformation
    _handed: itertools.count[int]
    _is_late: bool
    _least: int
    # What `decode` answered.
    _answer: bytes | None
    # Where `decode` has a call write whether a block is complete.
    _unread_at: Any

    def __init__(self, config: ObjectTransmissionInformation) -> None:
        """The decoder of an object that was cut by this configuration."""
        self._begin(config, configured(config))
        # Fewer packets than there are source symbols determine no object. A count is taken in one step, whoever interrupts.
        self._handed, self._least = itertools.count(1), -(-config.transfer_length // config.symbol_size)
        self._config, self._is_late, self._unread_at, self._answer = config, False, byref(c_bool()), None

    @staticmethod
    def with_defaults(transfer_length: int, maximum_transmission_unit: int) -> Decoder:
        """The decoder of an object of so many bytes, in packets of at most so many bytes of payload: by 1400 they have up to 1404."""
        return Decoder(ObjectTransmissionInformation.with_defaults(transfer_length, maximum_transmission_unit))

    def get_config(self) -> ObjectTransmissionInformation:
        """The object's configuration."""
        return self._config

    def decode(self, packet: ReadableBuffer) -> bytes | None:
        """Takes a packet. Answers the object once the packets that were taken determine it, each time the same bytes, and before that nothing.

        Raises an `Error` where the packet is refused: it is none of the object's, or contradicts others (`Answer.CONTRADICTION`).
        """
        # The lines of `exact` and `_ask`: this is asked for each packet.
        if type(packet) is not bytes:
            packet = exact(packet)
        if self._forks != _forks:
            self._meet()
        with self._lock:
            at = self._at
            if not at:
                raise ValueError("the coder is closed")
            # Who counts enough of them says so to all: a handler may add packets between this count and this call.
            if next(self._handed) >= self._least:
                self._is_late = True
            answer = _add_packet(at, packet, len(packet), self._unread_at)
            if not answer and not (self._is_late and _is_complete(at)):
                return None
        must(answer)
        if self._answer is None:
            self._answer = self.get_result()
        return self._answer

    def decode_from(self, packets: Iterable[ReadableBuffer]) -> bytes | None:
        """Takes packets until they determine the object, and answers it; nothing, where they end before. It asks for no packet that isn't
        needed, and raises an `Error` at the first that is refused, as `decode` does."""
        return next((answer for answer in map(self.decode, packets) if answer is not None), None)

    def close(self) -> None:
        """Frees what the decoder holds, as that of each coder does."""
        super().close()
        self._answer = None

    def add_packet(self, packet: ReadableBuffer) -> bool:
        """Takes a packet, and tells whether its source block is complete by it: then `block_bytes` has it. `packet[0]` is its number.

        Raises an `Error` where `decode` does.
        """
        packet, completes = exact(packet), c_bool()
        self._is_late = True
        must(self._ask(_add_packet, packet, len(packet), addressof(completes)))
        return completes.value

    def add_packets(self, packets: ReadableBuffer) -> None:
        """Takes packets that lie one behind another, in one call. `get_result` has the object once they determine it.

        Raises an `Error` where they are no whole number of packets, and then none is taken, or where one is refused: those before it are
        taken, and those behind it aren't.
        """
        packets = exact(packets)
        # `decode` doesn't count them.
        self._is_late = True
        must(self._ask(calls.decoder_add_packets, packets, len(packets)))

    def is_complete(self) -> bool:
        """Whether the packets that were taken determine the object."""
        return bool(self._ask(_is_complete))

    def get_result(self) -> bytes | None:
        """The object, where the packets that were taken determine it."""
        if not self.is_complete():
            return None
        data = fresh(self._config.transfer_length)
        must(self._ask(calls.decoder_write_object, data, len(data)))
        return data

    def missing_packets(self, block: int) -> int:
        """How many packets more a source block needs at least, and 0 once it is complete."""
        return self._count(calls.decoder_missing, number(block, 8, "a source block"))

    def block_bytes(self, block: int) -> bytes | None:
        """The object's bytes in a source block, where the packets that were taken determine the block."""
        block = number(block, 8, "a source block")
        # A block's bytes end where the object does.
        place = self._config.block_range(block)
        data = fresh(max(0, min(place.stop, self._config.transfer_length) - place.start))
        answer = self._ask(calls.decoder_write_block, block, data, len(data))
        if answer == Answer.INCOMPLETE:
            return None
        must(answer)
        return data


class SourceBlockDecoder(Coder):
    """The decoder of one source block, which holds nothing of the others: of an object that is larger than memory.

    >>> config = ObjectTransmissionInformation(1000, 100, 2, 1, 1)
    >>> decoder = SourceBlockDecoder(1, config)
    >>> decoder.add_packets(b"".join(Encoder(b"reamertan " * 100, config).packets(1, 3, 5)))
    >>> decoder.get_result() == b"reamertan " * 50
    True
    """

    __slots__ = ("_length",)
    _open, _close = calls.block_decoder_open, calls.block_decoder_close
    _length: int

    def __init__(self, source_block_id: int, config: ObjectTransmissionInformation) -> None:
        """The decoder of a block of an object that was cut by this configuration."""
        config_bytes, block = configured(config), number(source_block_id, 8, "a source block")
        length = len(config.block_range(block))
        self._begin(f"block {block} of {config}", config_bytes, block, length)
        self._length = length

    def add_packets(self, packets: ReadableBuffer) -> None:
        """Takes packets of the block that lie one behind another, or one alone, as `Decoder.add_packets` does."""
        packets = exact(packets)
        must(self._ask(calls.block_decoder_add_packets, packets, len(packets)))

    def is_complete(self) -> bool:
        """Whether the packets that were taken determine the block."""
        return bool(self._ask(calls.block_decoder_is_complete))

    def get_result(self) -> bytes | None:
        """The block, where the packets that were taken determine it: its place is `block_range` of the configuration. Where the object ends
        before it, zeros follow."""
        if not self.is_complete():
            return None
        data = fresh(self._length)
        must(self._ask(calls.block_decoder_write, data, len(data)))
        return data

    def missing_packets(self) -> int:
        """How many packets more the block needs at least, and 0 once it is complete."""
        return self._count(calls.block_decoder_missing)
