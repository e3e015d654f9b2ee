"""A model of cells and of their receivers, from docs/CELLS.md and RFC 6330 alone. It shares no code with the codec but the tables."""
import functools
import hmac
from hashlib import sha512
from typing import NamedTuple

from building import all_rows, numbers

MARK, HEAD, AROUND = b"RQC\2", 52, 64
LAST = 1 << 31
# How many blocks of a part are sent in turn.
GROUP = 8
PRODUCTS = [bytes(256)]


def make_products():
    """The products of octets (5.7), a table for each octet."""
    doubled = bytes((octet << 1 ^ (octet >> 7) * 0x11D) & 255 for octet in range(256))
    for octet in range(1, 256):
        half = PRODUCTS[octet >> 1].translate(doubled)
        PRODUCTS.append(bytes(product ^ (other if octet & 1 else 0) for other, product in enumerate(half)))


make_products()
V = [numbers("random_numbers", f"V{place}") for place in range(4)]
DEGREES = numbers("degrees", "DEGREE_STARTS")
ROWS = all_rows()


def random_number(y, i, m):
    """Rand (5.3.5.1)."""
    return (V[0][(y + i) & 255] ^ V[1][((y >> 8) + i) & 255] ^ V[2][((y >> 16) + i) & 255] ^ V[3][((y >> 24) + i) & 255]) % m


class Rows:
    """The equations of blocks of so many symbols, as sums of the L intermediate ones, a number of L octets each."""

    def __init__(self, symbols):
        row = next(row for row in ROWS if row[0] >= symbols)
        self.extended, self.index, self.s, self.h, self.w, self.p1 = row
        self.symbols, self.length = symbols, self.extended + self.s + self.h
        self.p = self.length - self.w
        self.fixed = self.ldpc() + self.hdpc()

    def octet(self, column):
        return 1 << 8 * (self.length - 1 - column)

    def ldpc(self):
        """5.3.3.3, the LDPC symbols: three ones a column, two neighbours among the PI symbols, and the symbol itself."""
        sums = [self.octet(self.w - self.s + i) ^ self.octet(self.w + i % self.p) ^ self.octet(self.w + (i + 1) % self.p) for i in range(self.s)]
        for i in range(self.w - self.s):
            for times in range(3):
                sums[(i + times * (1 + i // self.s)) % self.s] ^= self.octet(i)
        return sums

    def hdpc(self):
        """5.3.3.3, the HDPC symbols: MT * GAMMA, and the symbol itself."""
        columns, last = [], self.extended + self.s - 1
        for j in range(last, -1, -1):
            column = [PRODUCTS[2][octet] for octet in columns[-1]] if columns else []
            if not columns:
                column = [1]
                while len(column) < self.h:
                    column.append(PRODUCTS[2][column[-1]])
            else:
                first = random_number(j + 1, 6, self.h)
                column[first] ^= 1
                column[(first + random_number(j + 1, 7, self.h - 1) + 1) % self.h] ^= 1
            columns.append(column)
        columns.reverse()
        return [sum(columns[j][i] * self.octet(j) for j in range(last + 1)) ^ self.octet(last + 1 + i) for i in range(self.h)]

    def places(self, internal):
        """Which intermediate symbols the encoding symbol of an internal id is the sum of: Tuple and Enc (5.3.5.3, 5.3.5.4)."""
        a = (53591 + self.index * 997) | 1
        y = (10267 * (self.index + 1) + internal * a) % 2**32
        v = random_number(y, 0, 2**20)
        degree = min(next(d for d in range(1, len(DEGREES)) if v < DEGREES[d]), self.w - 2)
        step, at = 1 + random_number(y, 1, self.w - 1), random_number(y, 2, self.w)
        found = [(at + i * step) % self.w for i in range(degree)]
        wanted = degree + (2 + random_number(internal, 3, 2) if degree < 4 else 2)
        step, at = 1 + random_number(internal, 4, self.p1 - 1), random_number(internal, 5, self.p1)
        while len(found) < wanted:
            if at < self.p:
                found.append(self.w + at)
            at = (at + step) % self.p1
        return found

    def places_of(self, esi):
        return self.places(esi if esi < self.symbols else esi + self.extended - self.symbols)

    def received(self, ids):
        """The equations of these encoding symbols, behind those of the padding, which has zeros."""
        found = [self.places(internal) for internal in range(self.symbols, self.extended)] + [self.places_of(esi) for esi in ids]
        return [functools.reduce(lambda one, other: one ^ self.octet(other), places, 0) for places in found]


@functools.lru_cache(None)
def rows_of(symbols):
    return Rows(symbols)


def eliminate(rows, columns, width, upwards):
    """Brings rows of so many octets to their echelon over the first columns. Answers how many of these have a pivot."""
    rank = 0
    for column in range(columns):
        shift = 8 * (width - 1 - column)
        octets = [row >> shift & 255 for row in rows]
        found = next((at for at in range(rank, len(rows)) if octets[at]), None)
        if found is None:
            continue
        rows[rank], rows[found], octets[found] = rows[found], rows[rank], octets[rank]
        pivot = rows[rank].to_bytes(width, "big")
        pivot = pivot.translate(PRODUCTS[next(by for by in range(256) if PRODUCTS[by][pivot[column]] == 1)])
        times = {1: int.from_bytes(pivot, "big")}
        rows[rank] = times[1]
        for at in range(0 if upwards else rank + 1, len(rows)):
            octet = octets[at]
            if octet and at != rank:
                if octet not in times:
                    times[octet] = int.from_bytes(pivot.translate(PRODUCTS[octet]), "big")
                rows[at] ^= times[octet]
        rank += 1
    return rank


def is_determined(symbols, ids):
    """Whether packets of these ids, which differ, determine a block."""
    if len(ids) < symbols or all(esi in ids for esi in range(symbols)):
        return len(ids) >= symbols
    rows = rows_of(symbols)
    return eliminate(rows.received(ids) + rows.fixed, rows.length, rows.length, upwards=False) == rows.length


def intermediate_of(symbols, received):
    """The intermediate symbols of a block by what was received of ids that determine it. None where that contradicts itself."""
    rows, size = rows_of(symbols), len(next(iter(received.values())))
    values = [bytes(size)] * (rows.extended - symbols) + list(received.values())
    behind = [int.from_bytes(value, "big") for value in values] + [0] * (rows.s + rows.h)
    solved = [left << 8 * size | value for left, value in zip(rows.received(received) + rows.fixed, behind)]
    assert eliminate(solved, rows.length, rows.length + size, upwards=True) == rows.length
    return None if any(solved[rows.length :]) else [row & (1 << 8 * size) - 1 for row in solved[: rows.length]]


def sum_of(symbols, size, intermediate, esi):
    """The encoding symbol of an id."""
    places = rows_of(symbols).places_of(esi)
    return functools.reduce(lambda one, other: one ^ intermediate[other], places, 0).to_bytes(size, "big")


class Block:
    """A source block, and its encoding symbols."""

    def __init__(self, symbols):
        self.symbols, self.size = symbols, len(symbols[0])

    @functools.cached_property
    def intermediate(self):
        return intermediate_of(len(self.symbols), dict(enumerate(self.symbols)))

    def symbol(self, esi):
        return self.symbols[esi] if esi < len(self.symbols) else sum_of(len(self.symbols), self.size, self.intermediate, esi)


class Configuration(NamedTuple):
    """What 12 bytes say (3.3.2, 3.3.3)."""

    length: int
    size: int
    blocks: int
    sub_blocks: int
    alignment: int

    def to_bytes(self):
        parts = zip(self, (5, 2, 1, 2, 1))
        first, *others = (number.to_bytes(count, "big") for number, count in parts)
        return first + b"\0" + b"".join(others)

    def largest(self):
        return -(-(-(-self.length // self.size)) // self.blocks)

    def counts(self):
        """How many symbols each block has: Partition (4.4.1.2)."""
        symbols = -(-self.length // self.size)
        large = symbols % self.blocks
        return [symbols // self.blocks + (block < large) for block in range(self.blocks)]

    def is_taken(self):
        """Whether coders take it."""
        sound = self.size > 0 and self.alignment > 0 and self.size % self.alignment == 0 and self.blocks > 0
        return sound and self.largest() <= ROWS[-1][0]


def number_in(head):
    return int.from_bytes(head[12:16], "big")


def configuration_of(head):
    parts = [head[at : at + count] for at, count in ((32, 5), (38, 2), (40, 1), (41, 2), (43, 1))]
    return Configuration(*(int.from_bytes(part, "big") for part in parts))


def digest_of(data):
    return sha512(data).digest()[:32]


def check_of(data, key):
    """The check of bytes: by HMAC-SHA-512 (RFC 2104) where there is a key."""
    return (hmac.digest(key, data, "sha512") if key else sha512(data).digest())[:8]


def seal_of(names):
    """What ends the last part behind parts of these names."""
    return digest_of(b"".join(names))


SEAL = seal_of(())


def name_of(number, configuration, symbols):
    digests = b"".join(map(digest_of, symbols))
    return sha512(number.to_bytes(4, "big") + configuration.to_bytes() + digests).digest()[:16]


def head_of(stream, number, name, configuration, key):
    said = MARK + stream + number.to_bytes(4, "big") + name + configuration
    return said + check_of(said, key)


def cell_of(head, block, esi, symbol, key):
    said = head + bytes([block]) + esi.to_bytes(3, "big")
    return said + symbol + check_of(said + digest_of(symbol), key)


def cut(data, configuration):
    """The source symbols of an object, of one sub-block a block: zeros fill up the last one."""
    size = configuration.size
    padded = data.ljust(sum(configuration.counts()) * size, b"\0")
    return [padded[at : at + size] for at in range(0, len(padded), size)]


class Object:
    """The part of a stream behind parts of these names, of these bytes, with its configuration, of one sub-block a block. Its name, number, stream
    or seal is another one where that is said."""

    def __init__(self, data, configuration, key, names=(), is_last=True, **wrong):
        self.data, self.configuration, self.key = data, configuration, key
        seal = wrong.get("seal", seal_of(names)) if is_last else b""
        number = wrong.get("number", len(names) | LAST * is_last)
        counts, symbols = configuration.counts(), cut(data + seal, configuration)
        self.name = wrong.get("name") or name_of(number, configuration, symbols)
        stream = wrong.get("stream", [*names, self.name][0][:8])
        self.head = head_of(stream, number, self.name, configuration.to_bytes(), key)
        self.blocks = [Block(symbols[sum(counts[:block]) :][:count]) for block, count in enumerate(counts)]

    def cell(self, block, esi):
        return cell_of(self.head, block, esi, self.blocks[block].symbol(esi), self.key)

    def order(self, ids):
        """The blocks and ids of its cells as they are sent: blocks in groups, group by group, in a group id by id."""
        blocks = range(self.configuration.blocks)
        groups = [blocks[at : at + GROUP] for at in blocks[::GROUP]]
        return [(block, esi) for group in groups for esi in ids for block in group]

    def cells(self, ids):
        return [self.cell(block, esi) for block, esi in self.order(ids)]


class Place(NamedTuple):
    """A place of bytes where a head stands. `end` is where its cell would end."""

    at: int
    head: bytes
    end: int
    is_cell: bool
    block: int
    esi: int
    symbol: bytes


def places_in(data, key):
    """The places of bytes where a head stands."""
    found, at = [], data.find(MARK)
    while at >= 0:
        head = data[at : at + HEAD]
        if len(head) == HEAD and head[:44] + check_of(head[:44], key) == head and head[37] == 0:
            end = at + AROUND + configuration_of(head).size
            symbol, check = data[at + HEAD + 4 : end - 8], data[end - 8 : end]
            is_cell = end <= len(data) and check_of(data[at : at + HEAD + 4] + digest_of(symbol), key) == check
            number = int.from_bytes(data[at + HEAD : at + HEAD + 4], "big")
            found.append(Place(at, head, end, is_cell, number >> 24, number & 2**24 - 1, symbol))
        at = data.find(MARK, at + 1)
    return found


class Part:
    """What is received of a part: by the head of which most cells came, and of those that came since it began last."""

    def __init__(self, head, objects):
        self.objects, self.restarted, self.cells, self.rival = objects, 0, 0, None
        self.begin(head)

    def begin(self, head):
        self.head, self.configuration, self.data = head, configuration_of(head), None
        self.made = next((thing for thing in self.objects if thing.head == head), None)
        self.received = [{} for _ in range(self.configuration.blocks)]
        self.answers = [None if count else [] for count in self.configuration.counts()]

    def begin_anew(self, head):
        self.restarted += 1
        self.begin(head)

    def fail(self):
        """What came of its head isn't the part. So none of it counts."""
        self.cells = 0
        self.begin_anew(self.head)

    def is_outnumbered(self, head):
        """Whether more cells of another head came, by this one. Then they change places."""
        rival, count = self.rival or (head, 0)
        count += 1 if rival == head else -1
        self.rival = (rival, count) if count > 0 else None
        if rival != head or count <= self.cells:
            return False
        self.rival, self.cells = (self.head, self.cells) if self.cells else None, count
        return True

    def take(self, place):
        if place.head == self.head:
            self.cells += 1
        elif not configuration_of(place.head).is_taken() or not self.is_outnumbered(place.head):
            return
        else:
            self.begin_anew(place.head)
        if self.data is None and place.block < self.configuration.blocks:
            self.take_symbol(place.block, place.esi, place.symbol)

    def take_symbol(self, block, esi, symbol):
        received, count = self.received[block], self.configuration.counts()[block]
        if self.answers[block] is None:
            received.setdefault(esi, symbol)
            if not is_determined(count, received):
                return
            self.answers[block] = self.solved(block, count)
        if self.answers[block] is None:
            self.fail()
        elif None not in self.answers:
            self.end(b"".join(b"".join(symbols) for symbols in self.answers)[: self.configuration.length])

    def solved(self, block, count):
        """The source symbols of a block that is determined. None where what was received contradicts itself."""
        received = self.received[block]
        if self.made and all(self.made.blocks[block].symbol(esi) == symbol for esi, symbol in received.items()):
            return self.made.blocks[block].symbols
        intermediate = intermediate_of(count, received)
        return intermediate and [sum_of(count, self.configuration.size, intermediate, esi) for esi in range(count)]

    def end(self, data):
        """Takes an object for the part, where it has the name that the head says."""
        if name_of(number_in(self.head), self.configuration, cut(data, self.configuration)) == self.head[16:32]:
            self.data = data
        else:
            self.fail()

    def settle(self, names):
        """The bytes of what is there, where it is the part behind parts of these names, and whether it is the last one. Else it begins anew."""
        number, stream = number_in(self.head), [*names, self.head[16:32]][0][:8]
        is_last, ends = number >= LAST, self.data.endswith(seal_of(names))
        if number & ~LAST == len(names) and self.head[4:12] == stream and (ends or not is_last):
            return self.data[: -len(SEAL)] if is_last else self.data, is_last
        self.fail()
        return None

    def missing(self):
        """How many packets more its blocks need at least."""
        needs = zip(self.configuration.counts(), self.received, self.answers)
        return sum(max(count - len(received), 1) for count, received, answer in needs if answer is None)


class Window:
    """The parts that are kept at once, from the first unwritten one on, and what is written."""

    def __init__(self, width, objects):
        self.width, self.objects = width, objects
        self.parts, self.names, self.written, self.is_ended = {}, [], [], False
        self.ahead = self.behind = self.restarted = 0

    def take(self, place):
        index, first = number_in(place.head) & ~LAST, len(self.names)
        if self.is_ended:
            return
        if index < first:
            self.behind += 1
        elif index >= first + self.width:
            self.ahead += 1
        elif index in self.parts or configuration_of(place.head).is_taken():
            self.take_in(self.parts.setdefault(index, Part(place.head, self.objects)), place)

    def take_in(self, part, place):
        """Has a part take a cell, and slides as far as that lets it."""
        part.take(place)
        while not self.is_ended and self.has_first():
            first = self.parts[len(self.names)]
            settled = first.settle(self.names)
            if settled:
                self.slide(first, *settled)

    def has_first(self):
        first = self.parts.get(len(self.names))
        return first is not None and first.data is not None

    def slide(self, first, data, is_last):
        del self.parts[len(self.names)]
        self.restarted += first.restarted
        self.names.append(first.head[16:32])
        self.written.append(data)
        self.is_ended = is_last

    def counts(self):
        """What it counts, by its names in JSON: where the last part isn't written, also how many are, and what the next one lacks, if a cell of it came."""
        restarted = self.restarted + sum(part.restarted for part in self.parts.values())
        counts = {"restarted": restarted, "ahead": self.ahead, "behind": self.behind}
        if self.is_ended:
            return counts
        first = self.parts.get(len(self.names))
        return {**counts, "parts": len(self.names), **({"missing": first.missing()} if first else {})}


class Received(NamedTuple):
    """How a receiver ends: how many bytes it read, what it counts by its names in JSON, the object that it writes, and its status."""

    read: int
    counts: dict
    written: bytes
    status: int


class Wish(NamedTuple):
    """How a wanted stream begins, and how one that is passed over does."""

    name: bytes = b""
    passed: tuple = ()


def is_wanted(head, wish):
    stream = head[4:12]
    return configuration_of(head).is_taken() and stream.startswith(wish.name) and not stream.startswith(wish.passed)


def is_of_stream(head, other):
    """Whether a head is of the same stream's cells, of the same length."""
    return head[4:12] == other[4:12] and configuration_of(head).size == configuration_of(other).size


def find_first(places, wish, ends):
    """The first wanted cell, and the end of the read that makes it whole."""
    whole = [place for place in places if place.is_cell and is_wanted(place.head, wish)]
    return next(((place, end) for end in ends for place in whole if place.end <= end), None)


def receive(data, wish, ends, objects, key, width):
    """What a receiver with a window of so many parts makes of bytes that are read up to these ends. Of these objects cells may stand there, which
    spares the model work."""
    places, window, taken = places_in(data, key), Window(width, objects), 0
    found = find_first(places, wish, ends)
    if not found:
        wanted = [is_wanted(place.head, wish) for place in places]
        damaged = sum(is_one and place.end <= len(data) for is_one, place in zip(wanted, places))
        return Received(len(data), {"cells": 0, "damaged": damaged, "others": len(places) - sum(wanted), **window.counts()}, b"", 2)
    first, front = found
    before = [place for place in places if place.at < first.at]
    damaged = sum(is_wanted(place.head, wish) and place.end <= front for place in before)
    others = sum(not is_wanted(place.head, wish) for place in before)
    own = [place for place in places if place.at >= first.at and is_of_stream(place.head, first.head)]
    for end in (end for end in ends if end >= front):
        cells = [place for place in own if place.is_cell and place.end <= end]
        for place in cells[taken:]:
            window.take(place)
        taken = len(cells)
        if window.is_ended:
            break
    damaged += sum(place.end <= end and not place.is_cell for place in own)
    others += sum(place.at >= first.at and place.at + HEAD <= end for place in places) - sum(place.at + HEAD <= end for place in own)
    counts = {"cells": taken, "damaged": damaged, "others": others, **window.counts()}
    return Received(end, counts, b"".join(window.written), 0 if window.is_ended else 2)


def follow(data, passed, ends, objects, key, width):
    """What one makes of bytes who takes stream after stream but for those of these names: the name of each that is whole, with how its receiver
    ends, and how the last receiver ends. Each begins with the last read of the one before, and passes over the last eight streams."""
    streams, starts, at = [], [0, *ends], 0
    while True:
        wish = Wish(b"", (*(name for name, _ in streams[:-9:-1]), *passed))
        rest, left = data[starts[at] :], [end - starts[at] for end in ends[at:]]
        received = receive(rest, wish, left, objects, key, width)
        if received.status:
            return streams, received
        streams.append((find_first(places_in(rest, key), wish, left)[0].head[4:12], received))
        at += left.index(received.read)
