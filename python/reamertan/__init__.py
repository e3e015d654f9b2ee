"""A RaptorQ erasure codec (RFC 6330) that is proved, by Reamertan's library for C.

An object is cut into source blocks, and these into symbols. A packet is 4 bytes, which name a symbol, and the symbol. Any packets of
a block that determine it give it back: mostly as many as it has source symbols.

>>> import reamertan
>>> data = bytes(range(256)) * 40
>>> encoder = reamertan.Encoder.with_defaults(data, 1280)
>>> packets = encoder.get_encoded_packets(3)
>>> decoder = reamertan.Decoder.with_defaults(len(data), 1280)
>>> for packet in packets[2:]:
...     answer = decoder.decode(packet)
...     if answer is not None:
...         break
>>> answer == data
True

`Encoder` and `Decoder` have the calls of the module `raptorq` from PyPI, and further ones. Packets have to arrive whole or not at
all: **a damaged packet gives other bytes**. So put a checksum around each, and drop damaged ones.
"""
from ._answers import Answer, Error
from ._coders import Decoder, Encoder, SourceBlockDecoder, SourceBlockEncoder, SourceBlockEncodingPlan
from ._configuration import ObjectTransmissionInformation, processor, version

__version__ = version()

__all__ = [
    "Answer",
    "Decoder",
    "Encoder",
    "Error",
    "ObjectTransmissionInformation",
    "SourceBlockDecoder",
    "SourceBlockEncoder",
    "SourceBlockEncodingPlan",
    "processor",
    "version",
]
