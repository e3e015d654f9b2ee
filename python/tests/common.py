"""What the tests share."""
import random


def object_of(length, seed=1):
    return random.Random(seed).randbytes(length)


def shuffled(packets, lost, seed=1):
    """What comes of packets, a part of which is lost, in any order."""
    chance = random.Random(seed)
    came = [packet for packet in packets if chance.random() >= lost]
    chance.shuffle(came)
    return came


def received(decoder, packets):
    """The first answer of a decoder."""
    return next((answer for answer in map(decoder.decode, packets) if answer is not None), None)
