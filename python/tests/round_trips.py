"""Objects and configurations cross, whatever is lost."""
import array
import copy
import doctest
import inspect
import itertools
import mmap
import pickle
import random
import unittest
import weakref

import reamertan
from reamertan import _coders, _configuration

from .common import object_of, received, shuffled


class RoundTrips(unittest.TestCase):
    def test_documents(self):
        for module in (reamertan, _coders, _configuration):
            self.assertEqual(doctest.testmod(module).failed, 0)

    def test_losses_and_order(self):
        for length, size in ((1, 1), (1, 100), (999, 7), (5000, 100), (100000, 1400), (700000, 64), (640000, 8), (3000000, 1280)):
            data = object_of(length)
            encoder = reamertan.Encoder.with_defaults(data, size)
            least = encoder.get_config().source_symbols(0)
            packets = encoder.get_encoded_packets(least // 4 + 12)
            decoder = reamertan.Decoder.with_defaults(length, size)
            self.assertTrue(received(decoder, shuffled(packets, 0.1)) == data, (length, size))

    def test_configuration_crosses_as_bytes(self):
        data = object_of(20000)
        config = reamertan.ObjectTransmissionInformation(20000, 100, 3, 5, 4)
        encoder = reamertan.Encoder(data, config)
        came = reamertan.ObjectTransmissionInformation.deserialize(encoder.get_config().serialize())
        self.assertTrue(received(reamertan.Decoder(came), encoder.get_encoded_packets(9)[9:]) == data)

    def test_blocks_of_any_size(self):
        for symbols in (1, 10, 11, 497, 498, 511, 1002, 10120):
            data = object_of(symbols * 8)
            config = reamertan.ObjectTransmissionInformation(len(data), 8, 1, 1, 1)
            packets = reamertan.Encoder(data, config).get_encoded_packets(20)
            self.assertTrue(received(reamertan.Decoder(config), packets[15:]) == data, symbols)
        reamertan.ObjectTransmissionInformation(56403, 1, 1, 1, 1).check()
        with self.assertRaises(reamertan.Error):
            reamertan.ObjectTransmissionInformation.deserialize(bytes([0, 0, 0, 0xDC, 0x54, 0, 0, 1, 1, 0, 1, 1])).check()

    def test_packets_by_id(self):
        encoder = reamertan.Encoder.with_defaults(object_of(3000000), 1280)
        packets = encoder.get_encoded_packets(5)
        config = encoder.get_config()
        ids = [(block, id) for block in range(config.source_blocks) for id in range(config.source_symbols(block) + 5)]
        self.assertEqual([bytes([block]) + id.to_bytes(3, "big") for block, id in ids], [packet[:4] for packet in packets])
        for place in range(0, len(packets), 97):
            self.assertEqual(encoder.packet(*ids[place]), packets[place])
        self.assertEqual(encoder.packets(0, 3, 0), [])
        self.assertEqual(len(encoder.packet(0, 2**24 - 1)), 1284)

    def test_blocks_by_a_plan(self):
        data = object_of(100000)
        config = reamertan.ObjectTransmissionInformation(100000, 100, 4, 1, 1)
        whole = reamertan.Encoder(data, config)
        plan = reamertan.SourceBlockEncodingPlan.generate(250)
        for block in range(4):
            part = data[config.block_range(block).start : config.block_range(block).stop]
            encoder = reamertan.SourceBlockEncoder.with_encoding_plan(block, config, part, plan)
            self.assertEqual(encoder.packets(0, 300), whole.packets(block, 0, 300))

    def test_what_a_decoder_has(self):
        data = object_of(9990)
        encoder = reamertan.Encoder(data, reamertan.ObjectTransmissionInformation(9990, 100, 2, 1, 1))
        decoder = reamertan.Decoder(encoder.get_config())
        self.assertEqual((decoder.missing_packets(0), decoder.missing_packets(1)), (50, 50))
        for packet in encoder.packets(0, 10, 48):
            self.assertIsNone(decoder.decode(packet))
        self.assertEqual((decoder.missing_packets(0), decoder.block_bytes(0)), (2, None))
        for packet in encoder.packets(0, 60, 5):
            decoder.decode(packet)
        self.assertEqual((decoder.missing_packets(0), decoder.block_bytes(0)), (0, data[:5000]))
        self.assertEqual((decoder.is_complete(), decoder.get_result()), (False, None))
        self.assertTrue(received(decoder, encoder.packets(1, 0, 50)) == data)
        self.assertEqual((decoder.is_complete(), decoder.get_result(), decoder.block_bytes(1)), (True, data, data[5000:]))
        self.assertTrue(decoder.decode(encoder.packet(0, 77)) == data)

    def test_blocks_as_they_come(self):
        data = object_of(9990)
        config = reamertan.ObjectTransmissionInformation.cut(len(data), 100, 34)
        packets, decoder, back = reamertan.Encoder(data, config).get_encoded_packets(10), reamertan.Decoder(config), bytearray(len(data))
        told = 0
        for packet in shuffled(packets, 0.05):
            if decoder.add_packet(packet):
                place, told = config.block_range(packet[0]), told + 1
                back[place.start : place.stop] = decoder.block_bytes(packet[0])
        self.assertEqual((told, decoder.is_complete(), back == data), (config.source_blocks, True, True))

    def test_blocks_by_themselves(self):
        data = object_of(9990)
        config = reamertan.ObjectTransmissionInformation.cut(len(data), 100, 34)
        encoder, back = reamertan.Encoder(data, config), b""
        for block in range(config.source_blocks):
            decoder, least = reamertan.SourceBlockDecoder(block, config), config.source_symbols(block)
            self.assertEqual((decoder.get_result(), decoder.missing_packets()), (None, least))
            decoder.add_packets(b"".join(encoder.packets(block, 5, least + 3)))
            self.assertEqual((decoder.is_complete(), decoder.missing_packets()), (True, 0))
            back += decoder.get_result()
        self.assertEqual(back, data + bytes(10))

    def test_packets_behind_another(self):
        data = object_of(9990)
        encoder = reamertan.Encoder(data, reamertan.ObjectTransmissionInformation(9990, 100, 2, 1, 1))
        packets = shuffled(encoder.get_encoded_packets(10), 0.05)
        decoder = reamertan.Decoder(encoder.get_config())
        decoder.add_packets(b"")
        decoder.add_packets(b"".join(packets[:90]))
        self.assertEqual((decoder.is_complete(), decoder.get_result()), (False, None))
        self.assertTrue(received(decoder, packets[90:]) == data)
        decoder.add_packets(b"".join(packets))
        self.assertTrue(decoder.get_result() == data)

    def test_blocks_without_symbols(self):
        config = reamertan.ObjectTransmissionInformation(3, 2, 5, 1, 1)
        encoder = reamertan.Encoder(b"abc", config)
        decoder = reamertan.Decoder(config)
        self.assertEqual(received(decoder, encoder.packets(0, 0, 1) + encoder.packets(1, 0, 1)), b"abc")
        self.assertEqual([decoder.block_bytes(block) for block in range(5)], [b"ab", b"c", b"", b"", b""])


class Buffers(unittest.TestCase):
    def setUp(self):
        self.data = object_of(9990)
        self.config = reamertan.ObjectTransmissionInformation.cut(9990, 90, 60)
        self.packets = reamertan.Encoder(self.data, self.config).get_encoded_packets(3)

    def buffers(self, data):
        """The same bytes in buffers of many kinds."""
        mapped = mmap.mmap(-1, len(data))
        mapped[:] = data
        yield from (bytearray(data), memoryview(data), memoryview(b"x" + data)[1:], memoryview(bytearray(data)), mapped)
        yield array.array("H", data)

    def test_what_is_read(self):
        joined = b"".join(self.packets)
        for data in self.buffers(self.data):
            self.assertEqual(reamertan.Encoder(data, self.config).get_encoded_packets(3), self.packets)
            self.assertEqual(reamertan.Encoder.with_defaults(data, 90).get_config().transfer_length, 9990)
        for packets in self.buffers(joined):
            decoder = reamertan.Decoder(self.config)
            decoder.add_packets(packets)
            self.assertEqual(decoder.get_result(), self.data)
        decoder = reamertan.Decoder(self.config)
        self.assertEqual(decoder.decode_from(packet for whole in self.packets for packet in [bytearray(whole)]), self.data)
        for header in self.buffers(self.config.serialize()):
            self.assertEqual(reamertan.ObjectTransmissionInformation.deserialize(header), self.config)
        self.assertRaises(BufferError, reamertan.Encoder, memoryview(self.data)[::2], self.config)

    def test_what_is_written(self):
        encoder, size = reamertan.Encoder(self.data, self.config), 94
        plan = reamertan.SourceBlockEncodingPlan.generate(self.config.source_symbols(1))
        place = self.config.block_range(1)
        block = reamertan.SourceBlockEncoder.with_encoding_plan(1, self.config, memoryview(bytearray(self.data))[place.start : place.stop].toreadonly(), plan)
        wanted = b"".join(encoder.packets(1, 40, 30))
        for buffer in (bytearray(30 * size), bytearray(30 * size + 5), mmap.mmap(-1, 4096), array.array("B", bytes(30 * size))):
            for call, *words in ((encoder.packets_into, buffer, 1), (block.packets_into, buffer)):
                self.assertEqual(call(*words, 40, 30), len(wanted))
                self.assertEqual(memoryview(buffer).cast("B")[: len(wanted)], wanted)
        self.assertRaises(BufferError, encoder.packets_into, bytes(30 * size), 1, 40, 30)
        with self.assertRaises(reamertan.Error) as met:
            encoder.packets_into(bytearray(30 * size - 1), 1, 40, 30)
        self.assertIs(met.exception.number, reamertan.Answer.WRONG_BUFFER)

    def test_streams(self):
        encoder, config = reamertan.Encoder(self.data, self.config), self.config
        ids = [(block, id) for id in range(config.source_symbols(0) + 3) for block in range(config.source_blocks)]
        self.assertEqual(list(encoder.packet_stream(3)), [encoder.packet(*id) for id in ids])
        endless = encoder.packet_stream()
        for _ in range(50):
            next(endless)
        self.assertEqual(reamertan.Decoder(config).decode_from(endless), self.data)
        self.assertIsNone(reamertan.Decoder(config).decode_from(self.packets[3:50]))
        # Nothing is asked for behind the last packet that is needed.
        came = iter(self.packets)
        reamertan.Decoder(config).decode_from(came)
        self.assertEqual(len(list(came)), 3)
        one = reamertan.Encoder(b"x", reamertan.ObjectTransmissionInformation(1, 65528, 1, 1, 1)).packet_stream()
        self.assertEqual(next(itertools.islice(one, 2, None))[:4], bytes([0, 0, 0, 2]))
        with self.assertRaises(reamertan.Error):
            encoder.packet_stream(1 << 24)


class Objects(unittest.TestCase):
    def test_answers_once(self):
        data = object_of(500)
        encoder = reamertan.Encoder.with_defaults(data, 64)
        decoder = reamertan.Decoder(encoder.get_config())
        first = decoder.decode_from(encoder.packet_stream())
        self.assertIs(decoder.decode(encoder.packet(0, 3)), first)

    def test_what_they_show(self):
        config = reamertan.ObjectTransmissionInformation(500, 50, 1, 1, 1)
        plan = reamertan.SourceBlockEncodingPlan.generate(10)
        coders = [reamertan.Encoder(bytes(500), config), reamertan.Decoder(config), plan]
        coders += [reamertan.SourceBlockEncoder.with_encoding_plan(0, config, bytes(500), plan), reamertan.SourceBlockDecoder(0, config)]
        of_block = f"block 0 of {config}"
        for coder, subject in zip(coders, (config, config, "10 symbols", of_block, of_block)):
            self.assertEqual(repr(coder), f"<{type(coder).__name__} of {subject}>")
            self.assertIs(weakref.ref(coder)(), coder)
            coder.close()
            self.assertEqual(repr(coder), f"<{type(coder).__name__} of {subject}, closed>")
        self.assertEqual(list(inspect.signature(reamertan.Encoder).parameters), ["data", "config"])
        self.assertEqual(list(inspect.signature(reamertan.SourceBlockEncodingPlan).parameters), [])
        self.assertEqual(reamertan.__version__, reamertan.version())


class Configurations(unittest.TestCase):
    def test_numbers(self):
        config = reamertan.ObjectTransmissionInformation(10000, 100, 3, 5, 4)
        self.assertEqual(config.serialize(), bytes([0, 0, 0, 0x27, 0x10, 0, 0, 100, 3, 0, 5, 4]))
        self.assertEqual(repr(config), "ObjectTransmissionInformation(10000, 100, 3, 5, 4)")
        places = [config.block_range(block) for block in range(3)]
        self.assertEqual(places, [range(0, 3400), range(3400, 6700), range(6700, 10000)])
        config.check()

    def test_equal_ones(self):
        configs = [reamertan.ObjectTransmissionInformation.with_defaults(5000, size) for size in (100, 100, 101, 8)]
        self.assertEqual(len({*configs, pickle.loads(pickle.dumps(configs[3])), copy.copy(configs[0])}), 2)
        self.assertNotEqual(configs[0], configs[0].serialize())

    def test_any_bytes(self):
        chance = random.Random(3)
        for _ in range(2000):
            config = reamertan.ObjectTransmissionInformation.deserialize(chance.randbytes(12))
            try:
                config.check()
            except reamertan.Error:
                continue
            self.assertGreater(config.source_symbols(0) * config.symbol_size * config.source_blocks, 0)
