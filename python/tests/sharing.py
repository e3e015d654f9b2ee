"""Threads, forks, signals and memory."""
import itertools
import os
import resource
import signal
import sys
import threading
import unittest

import reamertan

from .common import object_of, received, shuffled

SECONDS = 60


def in_threads(*works):
    """Runs works side by side, and raises what one of them raised."""
    met = []

    def guarded(work):
        try:
            work()
        except BaseException as error:
            met.append(error)

    threads = [threading.Thread(target=guarded, args=(work,)) for work in works]
    for thread in threads:
        thread.start()
    for thread in threads:
        thread.join()
    if met:
        raise met[0]


class Stop(Exception):
    """Raised by handlers."""


class Sharing(unittest.TestCase):
    def setUp(self):
        signal.alarm(SECONDS)

    def tearDown(self):
        signal.alarm(0)

    def test_threads_share_coders(self):
        data = object_of(2000000)
        encoder = reamertan.Encoder.with_defaults(data, 1280)
        packets, decoder, answers = encoder.get_encoded_packets(200), reamertan.Decoder(encoder.get_config()), []
        came = shuffled(packets, 0.05)

        def feed(start):
            answers.append(received(decoder, came[start::8]))
            self.assertEqual(encoder.packets(0, 5, 20), packets[5:25])

        in_threads(*[lambda start=start: feed(start) for start in range(8)])
        self.assertTrue({answer for answer in answers if answer is not None} == {data})

    def test_closing_while_others_call(self):
        for _ in range(200):
            encoder = reamertan.Encoder.with_defaults(bytes(6400), 64)

            def ask():
                try:
                    encoder.packets(0, 0, 200)
                except ValueError as error:
                    self.assertEqual(str(error), "the coder is closed")

            in_threads(ask, encoder.close, ask)

    def in_child(self, work):
        """Does work in a forked child, whose status has to be 0."""
        child = os.fork()
        if child == 0:
            signal.alarm(SECONDS)
            try:
                work()
                os._exit(0)
            except BaseException as error:
                print(repr(error), file=sys.stderr, flush=True)
                os._exit(1)
        self.assertEqual(os.waitstatus_to_exitcode(os.waitpid(child, 0)[1]), 0)

    def test_fork(self):
        data = object_of(64000)
        encoder, decoder = (reamertan.Encoder.with_defaults(data, 64), reamertan.Decoder.with_defaults(64000, 64))
        packets = encoder.get_encoded_packets(20)
        for packet in packets[20:500]:
            decoder.decode(packet)

        def work():
            self.assertTrue(encoder.packets(0, 0, 1020) == packets[:1020])
            self.assertTrue(received(decoder, packets[500:]) == data)

        self.in_child(work)
        work()

    def test_fork_beside_threads(self):
        """Coders that no other thread is using are whole in a child. A coder in use may be lost there, and is never waited for."""
        encoder, free = (reamertan.Encoder.with_defaults(bytes(64000), 64) for _ in range(2))
        ending = threading.Event()

        def use():
            while not ending.is_set():
                encoder.packets(0, 0, 1000)

        def ask():
            try:
                self.assertEqual(len(encoder.packets(0, 0, 1000)), 1000)
            except RuntimeError as error:
                self.assertIn("when the process was forked", str(error))

        def work():
            self.assertEqual(len(free.packets(0, 0, 1000)), 1000)
            # A new thread may have the number of the one that isn't there any more.
            in_threads(ask)
            ask()

        def fork():
            try:
                for _ in range(40):
                    self.in_child(work)
            finally:
                ending.set()

        in_threads(use, fork)

    def signals(self, handler, work):
        """Does work, with a signal each millisecond."""
        before = signal.signal(signal.SIGVTALRM, handler)
        signal.setitimer(signal.ITIMER_VIRTUAL, 0.001, 0.001)
        try:
            work()
        finally:
            signal.setitimer(signal.ITIMER_VIRTUAL, 0)
            signal.signal(signal.SIGVTALRM, before)

    def test_handlers_call_the_same_coder(self):
        data = object_of(2000000)
        encoder = reamertan.Encoder.with_defaults(data, 1280)
        decoder, packets = reamertan.Decoder(encoder.get_config()), encoder.get_encoded_packets(200)
        rest, handled = iter(packets[1000:]), []

        def handler(*_):
            handled.append(decoder.decode(next(rest, packets[0])))
            encoder.packet(0, 3)

        self.signals(handler, lambda: [received(decoder, packets[:1000]) for _ in range(20)])
        self.assertTrue(handled)
        self.assertTrue(received(decoder, packets) == data)

    def test_packets_between_a_count_and_its_call(self):
        data = object_of(128)
        encoder = reamertan.Encoder.with_defaults(data, 64)
        first, second = encoder.packets(0, 0, 2)
        decoder, answers = reamertan.Decoder(encoder.get_config()), []
        counted = decoder._handed

        def count():
            decoder._handed, at = counted, next(counted)
            answers.append(decoder.decode(second))
            return at

        decoder._handed = iter(count, None)
        answers.append(decoder.decode(first))
        self.assertIn(data, answers)

    def test_closing_within_a_call(self):
        """A handler that comes between two lines of a call can't take its coder away."""
        encoder, refused = reamertan.Encoder.with_defaults(bytes(6400), 64), []
        with encoder._lock:
            for call, *words in ((encoder.close,), (encoder.__init__, bytes(6400), encoder.get_config())):
                try:
                    call(*words)
                except RuntimeError as error:
                    refused.append(str(error))
        self.assertEqual(refused, ["the coder is in use"] * 2)
        self.assertEqual(len(encoder.packets(0, 0, 3)), 3)

    def test_handlers_that_raise_behind_an_exchange(self):
        """The pointer that is freed then isn't the one that the coder holds."""

        class Leaving:
            def __init__(self, lock):
                self.lock, self._is_owned = lock, lock._is_owned

            def __enter__(self):
                return self.lock.__enter__()

            def __exit__(self, *reason):
                self.lock.__exit__(*reason)
                raise Stop

        decoder = reamertan.Decoder.with_defaults(5000, 100)
        lock, decoder._lock = decoder._lock, Leaving(decoder._lock)
        self.assertRaises(Stop, decoder.__init__, decoder.get_config())
        decoder._lock = lock
        self.assertFalse(decoder.is_complete())

    def test_handlers_that_raise(self):
        def handler(*_):
            raise Stop

        data = object_of(300000)
        packets, came = reamertan.Encoder.with_defaults(data, 64).get_encoded_packets(20), []
        decoder = reamertan.Decoder.with_defaults(len(data), 64)

        def work():
            stops = 0
            for packet in itertools.chain(*[packets] * 10):
                try:
                    decoder.decode(packet)
                except Stop:
                    stops += 1
            came.append(stops)

        try:
            self.signals(handler, work)
        except Stop:
            pass
        self.assertTrue(received(decoder, packets) == data)

    def test_memory_stays_level(self):
        def once():
            encoder = reamertan.Encoder.with_defaults(object_of(200000), 1280)
            decoder = reamertan.Decoder(encoder.get_config())
            received(decoder, encoder.get_encoded_packets(4)[3:])

        once()
        before = resource.getrusage(resource.RUSAGE_SELF).ru_maxrss
        for _ in range(100):
            once()
        self.assertLess(resource.getrusage(resource.RUSAGE_SELF).ru_maxrss - before, 4000)
