"""Streams that are drawn at random, by the program or by the model, and what comes of their cells on the way."""
import functools
import json
import subprocess
import tempfile

from cells import AROUND, HEAD, LAST, MARK, SEAL, Configuration, Object, cell_of, configuration_of, head_of, number_in

# How long a run of the program may take.
SECONDS = 60


class Differs(Exception):
    """In what a run isn't as the model says."""


# ---- streams and their cells


def draw_length(draw, size, symbols):
    """A length of so many symbols at most."""
    return draw.randint(0, min(3000, size * draw.choice((1, 2, 5, 12, symbols))))


def draw_data(draw, length, held):
    """Random bytes, with cells in them where some are handed in."""
    data = bytearray(draw.randbytes(length))
    for cell in held:
        at = draw.randint(0, max(length - len(cell), 0))
        data[at : at + len(cell)] = cell
    return bytes(data[:length])


def draw_part_length(draw, length):
    """How long parts are of a stream that is so long: it has one, or up to six, of which the last one may have no bytes."""
    if draw.random() < 0.4:
        return length + draw.choice((1, 1000))
    return max(1, length // draw.randint(1, 5) + draw.choice((0, 0, 1)))


def pieces_of(data, length):
    """The bytes of a stream's parts, and whether each is the last one: that has fewer, perhaps none."""
    ends = range(0, len(data) + 1, length)
    return [(data[at : at + length], at == ends[-1]) for at in ends]


def draw_wrong(draw, names):
    """A name, a number, a stream or a seal, often none of these."""
    numbers = (0, 1, LAST + 1, LAST | LAST >> 1, len(names), len(names) | LAST, len(names) + 1)
    wrong = ({"name": draw.randbytes(16)}, {"number": draw.choice(numbers)}, {"seal": draw.randbytes(len(SEAL))}, {"stream": draw.randbytes(8)})
    return draw.choice(wrong) if draw.random() < 0.1 else {}


def draw_key(draw):
    """A key, often none. One that is longer than a block of SHA-512 is hashed first."""
    return draw.randbytes(draw.choice((1, 16, 128, 129, 300))) if draw.random() < 0.3 else b""


def made_of(draw, key, pieces, size, draw_blocks):
    """The parts of a stream by the model. What heads say may be wrong."""
    parts = []
    for piece, is_last in pieces:
        length, names = len(piece) + len(SEAL) * is_last, [part.name for part in parts]
        most = -(-length // size)
        alignment = draw.choice([by for by in (1, 2, 4, 5, 8) if size % by == 0])
        configuration = Configuration(length, size, min(draw_blocks(), most), 1, alignment)
        parts.append(Object(piece, configuration, key, names, is_last, **draw_wrong(draw, names)))
    return parts


def draw_made(draw, key, held):
    """A stream that the model makes, in parts of up to ten blocks, and cells of each part."""
    size = draw.choice((1, 2, 5, 8, 30, 120))
    length = draw_length(draw, size, 90)
    pieces = pieces_of(draw_data(draw, length, held), draw_part_length(draw, length))
    parts = made_of(draw, key, pieces, size, lambda: draw.choice((1, 1, 2, 3, 4, 10)))
    cells = []
    for part in parts:
        ids = range(part.configuration.largest() + draw.randint(0, 12))
        cells.append(part.cells([esi if draw.random() < 0.9 else draw.randrange(1 << 24) for esi in ids]))
    return parts, cells


def draw_shares(draw, is_whole):
    """How many repair packets runs ask for, and the share of each. Of a stream of several parts not all of them."""
    form = draw.randrange(4)
    if form == 0 and is_whole:
        shares = draw.randint(1 << 18, (1 << 24) - 1)
        return [("all", draw.randrange(shares), shares)]
    repair = f"{draw.choice((0, 1, 10, 33, 100, 250))}%" if form == 1 else str(draw.choice((0, 1, 3, 10, 40)))
    shards = draw.choice((1, 1, 1, 2, 3))
    return [(repair, first, shards) for first in range(shards)]


def end_of(repair, symbols):
    """The end of the ids that are asked for of a part whose largest block has so many symbols."""
    if repair == "all":
        return 1 << 24
    return symbols + (-(-symbols * int(repair[:-1]) // 100) if repair.endswith("%") else int(repair))


@functools.lru_cache(None)
def key_folder():
    return tempfile.TemporaryDirectory()


def keyed(key):
    """The words that name a file of a key."""
    if not key:
        return []
    name = f"{key_folder().name}/key"
    with open(name, "wb") as file:
        file.write(key)
    return ["--key", name]


def sent_by(program, key, data, size, length, repair, first=0, step=1):
    """What a run sent in parts of a length, and what it told before."""
    words = ["--cell", size, "--part", length, "--repair", repair, "--share", f"{first}/{step}", "--json", *keyed(key)]
    sent = subprocess.run([program, "send", *map(str, words)], input=data, capture_output=True, timeout=SECONDS)
    if sent.returncode or not sent.stderr.startswith(b'{"name":'):
        raise Differs(f"send {words} of {data.hex()} ended with {sent.returncode}, {sent.stderr}")
    return sent.stdout, json.loads(sent.stderr.splitlines()[0])


def configurations_in(sent):
    """The configuration of each part of which a cell was sent. Cells have one length."""
    around = configuration_of(sent[:HEAD]).size + AROUND
    heads = [sent[at : at + HEAD] for at in range(0, len(sent), around)]
    return {number_in(head) & ~LAST: configuration_of(head) for head in heads}


def parts_of(program, key, data, size, length, sent):
    """The parts of a stream in the configurations that the program takes for them. Where of one no cell was sent, another run sends it."""
    pieces, configurations, parts = pieces_of(data, length), configurations_in(sent), []
    if len(configurations) < len(pieces):
        configurations = configurations_in(sent_by(program, key, data, size, length, 0)[0])
    for piece, is_last in pieces:
        parts.append(Object(piece, configurations[len(parts)], key, [part.name for part in parts], is_last))
    return parts


def check_sent(parts, size, share, sent, told):
    """The cells of each part that a run sent, where they, the name and the counts are the model's."""
    repair, first, step = share
    wanted = [part.cells(range(first, end_of(repair, part.configuration.largest()), step)) for part in parts]
    one = parts[0].configuration
    by_model = {"name": parts[0].head[4:12].hex(), "blocks": one.blocks, "symbols": one.largest(), "cells": len(wanted[0])}
    if told != by_model or sent != b"".join(cell for cells in wanted for cell in cells):
        raise Differs(f"send {size} {share} of {[part.data.hex() for part in parts]} isn't the model's")
    for part in parts:
        if part.configuration.size + AROUND > size or part.configuration.sub_blocks != 1 or part.configuration.size != one.size:
            raise Differs(f"send {size} has the configuration {part.configuration}")
    return wanted


def draw_sent(draw, program, key, is_long, held):
    """A stream that the program sends, and the cells of each part."""
    size = 65 if is_long else draw.choice((65, 66, draw.randint(65, 216)))
    length = draw.randint(498, 800) if is_long else draw_length(draw, size - AROUND, 40)
    data, part_length = draw_data(draw, length, held), length + 1 if is_long else draw_part_length(draw, length)
    shares = draw_shares(draw, len(pieces_of(data, part_length)) == 1)
    sent = [sent_by(program, key, data, size, part_length, *share) for share in shares]
    parts = parts_of(program, key, data, size, part_length, b"".join(cells for cells, _ in sent))
    found = [check_sent(parts, size, share, *each) for share, each in zip(shares, sent)]
    return parts, [[cell for cells in of_part for cell in cells] for of_part in zip(*found)]


def draw_small(draw, key, held):
    """A stream for a stored run: in parts of one or two blocks, at times with a head that is wrong."""
    size, length = draw.randint(8, 16), draw.randint(0, 24)
    pieces = pieces_of(draw_data(draw, length, held), draw_part_length(draw, length))[-3:]
    parts = made_of(draw, key, pieces, size, lambda: draw.randint(1, 2))
    return parts, [part.cells(range(part.configuration.largest() + draw.randint(0, 2))) for part in parts]


def draw_stream(draw, program, key, number, held=()):
    if program is None:
        return draw_small(draw, key, held)
    if draw.random() < 0.5:
        return draw_made(draw, key, held)
    return draw_sent(draw, program, key, number % 200 == 199, held)


# ---- what comes of them on the way


def draw_lost(draw, part, cells):
    """Some of a part's cells, often just about as many as are needed."""
    share = draw.choice((0, 0.05, 0.1, 0.3, 0.6))
    needed = sum(part.configuration.counts())
    if draw.random() < 0.5:
        count = max(0, min(len(cells), needed + draw.randint(-2, 4)))
        return [cells[at] for at in sorted(draw.sample(range(len(cells)), count))]
    return [cell for cell in cells if draw.random() >= share]


def draw_travelled(draw, parts, cells):
    """What is left of a stream's cells, part by part. Of several parts often nearly all of each; one may be lost, and two exchanged."""
    if len(parts) > 1 and draw.random() < 0.6:
        left = [[cell for cell in own if draw.random() >= 0.02] for own in cells]
    else:
        left = [draw_lost(draw, part, own) for part, own in zip(parts, cells)]
    at = draw.randrange(len(left))
    if len(left) > 1 and draw.random() < 0.15:
        left[at] = []
    if at and draw.random() < 0.3:
        left[at - 1], left[at] = left[at], left[at - 1]
    return [cell for own in left for cell in own]


def draw_repeated(draw, cells):
    share = draw.choice((0, 0, 0.1, 1))
    return [cell for cell in cells for _ in range(2 if draw.random() < share else 1)]


def draw_order(draw, cells):
    far = draw.choice((0, 0, 3, 30, 1000))
    return [cell for _, cell in sorted(((at + draw.random() * far, cell) for at, cell in enumerate(cells)), key=lambda pair: pair[0])]


def draw_head(draw, key):
    """A head with a right check of any configuration, also of those that coders refuse."""
    length = draw.choice((0, 1, 3000, draw.randrange(1 << 40)))
    size, alignment = draw.choice((0, 1, 8, 100, 65535)), draw.choice((0, 1, 1, 1, 3))
    configuration = Configuration(length, size, draw.choice((0, 1, 1, 255)), draw.choice((0, 1, 7)), alignment).to_bytes()
    if draw.random() < 0.2:
        configuration = configuration[:5] + b"\1" + configuration[6:]
    return head_of(draw.randbytes(8), draw.choice((0, LAST)), draw.randbytes(16), configuration, key)


def draw_forged(draw, made, key):
    """A cell that its sender didn't send: of another block, another symbol, or with another head of the stream, of which there are few."""
    size, blocks = made.configuration.size, made.configuration.blocks
    kind, esi = draw.randrange(3), draw.choice((draw.randrange(made.configuration.largest() + 3), draw.randrange(1 << 24)))
    block = draw.randrange(blocks)
    if kind == 0:
        return cell_of(made.head, draw.randrange(blocks, 256), esi, draw.randbytes(size), key)
    if kind == 1:
        return cell_of(made.head, block, esi, draw.randbytes(size), key)
    own = number_in(made.head)
    number, name = draw.choice(((own, made.head[31:15:-1]), (own ^ LAST, made.head[16:32]), (own, draw.randbytes(16)), (own + 1, made.head[16:32])))
    return cell_of(head_of(made.head[4:12], number % 2**32, name, made.head[32:44], key), block, esi, draw.randbytes(size), key)


def draw_junk(draw, objects, cells):
    """Something that stands between cells, or in them."""
    some, made = draw.choice(cells or [MARK]), draw.choice(objects)
    kind, key = draw.randrange(10), made.key if draw.random() < 0.7 else draw_key(draw)
    if kind > 6:
        return draw_forged(draw, made, key)
    return (draw.randbytes(draw.randint(1, 100)), MARK, MARK * 3, made.head, draw_head(draw, key), some[: len(some) // 2], some[:-1])[kind]


def hurt(draw, data, objects, cells):
    """Inserts, removes and flips bytes at some places, and at times cuts the end."""
    data = bytearray(data)
    if draw.random() < 0.1:
        del data[draw.randint(0, len(data)) :]
    for _ in range(draw.choice((0, 0, 1, 2, 5, 20))):
        at, kind = draw.randint(0, len(data)), draw.randrange(4)
        if kind == 0:
            data[at:at] = draw_junk(draw, objects, cells)
        elif kind == 1:
            del data[at : at + draw.choice((1, 2, 40, 300))]
        elif at < len(data):
            data[at] ^= 1 << draw.randrange(8)
    return bytes(data)


def mix(draw, one, other):
    """Two lists of cells as one: behind each other, or in any turn."""
    if draw.random() < 0.3:
        return one + other
    taken = sorted(draw.sample(range(len(one) + len(other)), len(one)))
    places, mixed = set(taken), []
    lists = iter(one), iter(other)
    for at in range(len(one) + len(other)):
        mixed.append(next(lists[at not in places]))
    return mixed


def draw_input(draw, program, key, number):
    """Bytes to receive, the parts whose cells stand in them, and how many streams these are of."""
    objects, sent = draw_stream(draw, program, key, number)
    all_cells, streams = [cell for own in sent for cell in own], 1
    cells = draw_travelled(draw, objects, sent)
    if draw.random() < 0.3:
        held = [draw.choice(cells)] if cells and draw.random() < 0.3 else []
        others, more = draw_stream(draw, program, key if draw.random() < 0.8 else draw_key(draw), 0, held)
        objects, streams = objects + others, 2
        cells = mix(draw, cells, draw_travelled(draw, others, more))
    cells = draw_order(draw, draw_repeated(draw, cells))
    share = draw.choice((0, 0, 0.1, 0.5))
    pieces = [part for cell in cells for part in ([draw_junk(draw, objects, all_cells)] if draw.random() < share else []) + [cell]]
    return hurt(draw, b"".join(pieces), objects, all_cells), objects, streams
