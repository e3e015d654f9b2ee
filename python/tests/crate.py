"""The packets are those of the Rust crate."""
import random
import subprocess
import sys
import unittest

import reamertan

from .common import object_of


class Crate(unittest.TestCase):
    program = None

    def setUp(self):
        if not self.program:
            self.skipTest("no program over the crate is named")

    def test_packets_are_the_crates(self):
        chance, larger = random.Random(9), 0
        for trial in range(100):
            length, size = chance.randrange(1, 60000), chance.randrange(1, 300)
            if trial % 3 == 0:
                length, size = chance.randrange(500, 12000) * 8, 8
            data, repair = object_of(length, trial), chance.randrange(20)
            made = subprocess.run([self.program, str(size), str(repair)], input=data, stdout=subprocess.PIPE, check=True).stdout
            encoder = reamertan.Encoder.with_defaults(data, size)
            stream = encoder.get_config().serialize() + b"".join(encoder.get_encoded_packets(repair))
            self.assertTrue(stream == made, (length, size, repair))
            larger += encoder.get_config().source_symbols(0) > 497
        self.assertGreaterEqual(larger, 33)
        print(f"{larger} of 100 objects have blocks of more than 497 symbols", file=sys.stderr)
