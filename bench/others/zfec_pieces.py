"""zfec as a code of pieces, by its calls from Python: called as the programs over pieces.c are."""
import sys
import time

import zfec


def lose(pieces, blocks, word):
    """Which pieces are lost, block by block, as pieces.c draws them."""
    first, state, lost = 0 if word == "tenth" else int(word), 1, []
    for at in range(pieces * blocks):
        state = (state * 6364136223846793005 + 1442695040888963407) % 2**64
        lost.append(at % pieces < first if first else (state >> 32) % 10 == 0)
    return [lost[at : at + pieces] for at in range(0, pieces * blocks, pieces)]


def cut(data, size):
    return [data[at : at + size] for at in range(0, len(data), size)]


def encode(source, pieces, size, all_blocks):
    start, repair = time.monotonic(), []
    encoder = zfec.Encoder(source, pieces)
    for block in all_blocks:
        repair.append(encoder.encode(block, range(source, pieces)))
    seconds = time.monotonic() - start
    return seconds, 0, [piece for block, more in zip(all_blocks, repair) for piece in (*block, *more)]


def decode(source, pieces, size, all_blocks, lost):
    start, answers, failures = time.monotonic(), [], 0
    decoder = zfec.Decoder(source, pieces)
    for block, gone in zip(all_blocks, lost):
        came = [piece for piece in range(pieces) if not gone[piece]][:source]
        failures += len(came) < source
        answers += decoder.decode([block[piece] for piece in came], came) if len(came) == source else []
    return time.monotonic() - start, failures, answers


def main():
    mode, *numbers = sys.argv[1:6]
    source, pieces, size, blocks = map(int, numbers)
    with open(sys.argv[7], "rb") as file:
        width = source if mode == "encode" else pieces
        data = file.read(width * size * blocks)
    all_blocks = [cut(block, size) for block in cut(data, width * size)]
    if mode == "encode":
        seconds, failures, out = encode(source, pieces, size, all_blocks)
    else:
        seconds, failures, out = decode(source, pieces, size, all_blocks, lose(pieces, blocks, sys.argv[6]))
    with open(sys.argv[8], "wb") as file:
        for piece in out:
            file.write(piece)
    print(f"{seconds:.9f} {failures}")


main()
