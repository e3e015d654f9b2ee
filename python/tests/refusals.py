"""What is refused, and by which error."""
import copy
import os
import pickle
import random
import subprocess
import sys
import unittest

import reamertan

from .common import object_of, received

MODULE = os.path.dirname(os.path.dirname(reamertan.__file__))


def lying():
    class Lying(bytes):
        def __len__(self):
            return 1 << 40

        def __getitem__(self, place):
            return b"x"

    return Lying(object_of(500))


class Refusals(unittest.TestCase):
    def refused(self, number, call, *words):
        with self.assertRaises(reamertan.Error) as met:
            call(*words)
        self.assertEqual((met.exception.number, bool(met.exception.text)), (number, True))
        again = pickle.loads(pickle.dumps(met.exception))
        self.assertEqual((again.number, str(again)), (number, str(met.exception)))
        self.assertIn(f"({number})", str(again))

    def test_numbers(self):
        answer, Config = reamertan.Answer, reamertan.ObjectTransmissionInformation
        encoder, decoder = (reamertan.Encoder.with_defaults(bytes(500), 64), reamertan.Decoder.with_defaults(500, 64))
        plan = reamertan.SourceBlockEncodingPlan.generate(8)
        for number, call, *words in (
            (answer.TRANSFER_LENGTH_ZERO, reamertan.Encoder.with_defaults, b"", 100),
            (answer.PACKET_SIZE_ZERO, reamertan.Encoder.with_defaults, b"x", 0),
            (answer.TRANSFER_TOO_LONG, Config.with_defaults, 1 << 50, 65535),
            (answer.ALIGNMENT_ZERO, Config, 100, 10, 1, 1, 0),
            (answer.MISALIGNED, Config, 100, 10, 1, 1, 3),
            (answer.SYMBOL_SIZE_ZERO, reamertan.Decoder, Config.deserialize(bytes(12))),
            (answer.WRONG_DATA_LENGTH, reamertan.Encoder, b"xx", encoder.get_config()),
            (answer.ESI_TOO_LARGE, encoder.get_encoded_packets, 1 << 24),
            (answer.ESI_TOO_LARGE, encoder.packet, 0, 1 << 24),
            (answer.ESI_TOO_LARGE, encoder.packets, 0, 1, 1 << 24),
            (answer.UNKNOWN_BLOCK, encoder.packet, 1, 0),
            (answer.UNKNOWN_BLOCK, decoder.missing_packets, 1),
            (answer.UNKNOWN_BLOCK, decoder.block_bytes, 1),
            (answer.UNKNOWN_BLOCK, decoder.decode, b"\1" + bytes(67)),
            (answer.PACKET_TOO_SHORT, decoder.decode, b"\0\0\0"),
            (answer.WRONG_PAYLOAD_SIZE, decoder.decode, bytes(69)),
            (answer.PLAN_MISMATCH, reamertan.SourceBlockEncoder.with_encoding_plan, 0, Config(70, 10, 1, 1, 1), bytes(70), plan),
            (answer.BLOCK_OVER_TABLE, reamertan.SourceBlockEncodingPlan.generate, 56404),
            (answer.UNKNOWN_BLOCK, reamertan.SourceBlockDecoder, 1, encoder.get_config()),
            (answer.TOO_MANY_BLOCKS, Config.cut, 1 << 30, 1280, 497),
        ):
            with self.subTest(number, words=words):
                self.refused(number, call, *words)

    def test_packets_behind_another(self):
        encoder = reamertan.Encoder(object_of(80), reamertan.ObjectTransmissionInformation(80, 8, 1, 1, 1))
        decoder = reamertan.Decoder(encoder.get_config())
        first, second, *others = encoder.packets(0, 0, 10)
        self.refused(reamertan.Answer.WRONG_PAYLOAD_SIZE, decoder.add_packets, first + second[:-1])
        self.assertEqual(decoder.missing_packets(0), 10)
        self.refused(reamertan.Answer.UNKNOWN_BLOCK, decoder.add_packets, first + b"\1" + second[1:] + others[0])
        self.assertEqual(decoder.missing_packets(0), 9)
        self.assertRaises(TypeError, decoder.add_packets, first.hex())

    def test_contradiction(self):
        """Ten packets that don't determine a block of ten symbols, one of them damaged, are met by those that would determine it."""
        encoder = reamertan.Encoder(object_of(80), reamertan.ObjectTransmissionInformation(80, 8, 1, 1, 1))

        def fed(packets):
            decoder = reamertan.Decoder(encoder.get_config())
            for packet in packets:
                decoder.decode(packet)
            return decoder

        sets = (encoder.packets(0, first, 10) for first in range(10, 100000, 10))
        stuck = next(packets for packets in sets if not fed(packets).is_complete())
        met = 0
        for place in range(10):
            decoder = fed([*stuck[:place], stuck[place][:-1] + bytes([stuck[place][-1] ^ 1]), *stuck[place + 1 :]])
            try:
                self.assertIsNotNone(received(decoder, encoder.packets(0, 0, 10)))
            except reamertan.Error as error:
                met += error.number == reamertan.Answer.CONTRADICTION
                self.refused(reamertan.Answer.CONTRADICTION, decoder.missing_packets, 0)
                self.refused(reamertan.Answer.CONTRADICTION, decoder.decode, encoder.packet(0, 11))
                self.assertFalse(decoder.is_complete())
        self.assertGreater(met, 0)

    def test_types(self):
        encoder, decoder = (reamertan.Encoder.with_defaults(bytes(500), 64), reamertan.Decoder.with_defaults(500, 64))
        for wrong in (None, "x" * 68, 68, [0] * 68, object()):
            for call in (decoder.decode, lambda data: reamertan.Encoder.with_defaults(data, 64), reamertan.Decoder):
                self.assertRaises(TypeError, call, wrong)
        for wrong in (None, "1", 1.5, b"1"):
            for call in (encoder.get_encoded_packets, decoder.missing_packets, lambda length: reamertan.Decoder.with_defaults(length, 64)):
                self.assertRaises(TypeError, call, wrong)
        self.assertRaises(TypeError, reamertan.SourceBlockEncoder.with_encoding_plan, 0, encoder.get_config(), bytes(500), encoder)
        self.assertRaises(ValueError, reamertan.ObjectTransmissionInformation.deserialize, bytes(11))

    def test_ranges(self):
        encoder, decoder = (reamertan.Encoder.with_defaults(bytes(500), 64), reamertan.Decoder.with_defaults(500, 64))
        for call, *words in (
            (reamertan.Encoder.with_defaults, b"x", 65536),
            (reamertan.Decoder.with_defaults, -1, 64),
            (reamertan.Decoder.with_defaults, 1 << 64, 64),
            (encoder.get_encoded_packets, -1),
            (encoder.get_encoded_packets, 1 << 32),
            (encoder.packet, 256, 0),
            (encoder.packet, 0, 1 << 32),
            (encoder.packets, 0, 0, -1),
            (decoder.missing_packets, 256),
            (decoder.block_bytes, -1),
            (reamertan.SourceBlockEncodingPlan.generate, 65536),
            (reamertan.ObjectTransmissionInformation, 1, 1, 256, 1, 1),
        ):
            self.assertRaises(OverflowError, call, *words)

    def test_lying_types(self):
        class Number(int):
            def __le__(self, other):
                return True

            __lt__ = __ge__ = __gt__ = __le__

        class Index:
            def __index__(self):
                return 0

        class Config(reamertan.ObjectTransmissionInformation):
            def serialize(self):
                return b""

            symbol_size = transfer_length = 5

        encoder = reamertan.Encoder(bytes(500), Config(500, 50, 1, 1, 1))
        self.assertRaises(reamertan.Error, encoder.get_encoded_packets, 2)
        self.assertRaises(OverflowError, reamertan.Decoder.with_defaults, Number(-1), 64)
        self.assertIsNone(reamertan.Decoder.with_defaults(500, 64).block_bytes(Index()))
        data, packets = lying(), reamertan.Encoder.with_defaults(lying(), 64).get_encoded_packets(2)
        self.assertEqual(received(reamertan.Decoder.with_defaults(500, 64), packets), object_of(500))
        self.assertRaises(reamertan.Error, reamertan.Decoder.with_defaults(500, 64).decode, data)

    def test_memory_that_is_refused(self):
        code = "import reamertan, resource as r; r.setrlimit(r.RLIMIT_AS, (1 << 28, 1 << 28)); reamertan.Encoder.with_defaults(bytes(1 << 27), 1280)"
        ended = subprocess.run([sys.executable, "-c", code], env={**os.environ, "PYTHONPATH": MODULE}, capture_output=True, text=True)
        self.assertIn("MemoryError", ended.stderr)

    def test_closed(self):
        with reamertan.Encoder.with_defaults(bytes(500), 64) as encoder, reamertan.Decoder(encoder.get_config()) as decoder:
            decoder.decode(encoder.packet(0, 0))
        begun = reamertan.Decoder.__new__(reamertan.Decoder)
        plan = reamertan.SourceBlockEncodingPlan()
        for call, *words in (
            (encoder.packet, 0, 0),
            (encoder.get_encoded_packets, 1),
            (decoder.decode, bytes(68)),
            (decoder.add_packets, b""),
            (decoder.get_result,),
            (begun.is_complete,),
            (reamertan.SourceBlockEncoder.with_encoding_plan, 0, encoder.get_config(), bytes(512), plan),
        ):
            self.assertRaisesRegex(ValueError, "the coder is closed", call, *words)
        encoder.close()
        encoder.__init__(bytes(500), encoder.get_config())
        self.assertEqual(len(encoder.get_encoded_packets(2)), 10)
        self.assertRaises(reamertan.Error, encoder.__init__, b"x", encoder.get_config())
        self.assertEqual(len(encoder.get_encoded_packets(2)), 10)

    def test_copies(self):
        decoder = reamertan.Decoder.with_defaults(500, 64)
        for call in (copy.copy, copy.deepcopy, pickle.dumps):
            self.assertRaises(TypeError, call, decoder)

    def test_damaged_packets(self):
        chance, numbers = random.Random(5), set()
        for trial in range(200):
            length, size = chance.randrange(1, 20000), chance.randrange(1, 300)
            packets = reamertan.Encoder.with_defaults(object_of(length, trial), size).get_encoded_packets(5)
            decoder = reamertan.Decoder.with_defaults(length, size)
            for _ in range(100):
                packet = bytearray(chance.choice(packets))
                for _ in range(chance.randrange(1, 4)):
                    packet[chance.randrange(len(packet))] = chance.randrange(256)
                damaged = bytes(packet[: chance.choice((len(packet), len(packet), len(packet), chance.randrange(len(packet))))])
                try:
                    decoder.decode(damaged)
                except reamertan.Error as error:
                    numbers.add(error.number)
        self.assertLessEqual({12, 13, 14}, numbers)
        self.assertLessEqual(numbers, {12, 13, 14, 22})
