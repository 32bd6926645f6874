"""The random numbers of PCG-32, as the crate rand_pcg gives them of a seed."""
from random import Random

MULTIPLIER = 6_364_136_223_846_793_005
INCREMENT = 1
ALL_64, ALL_32 = 2**64 - 1, 2**32 - 1


class Pcg32(Random):
    """PCG-32 (XSH-RR) on its stream 0: 32 bits of each state, of which there are 2^64."""

    def seed(self, seed, version=2):
        """Starts again with a seed."""
        self.state = seed + INCREMENT
        self.go_on()

    def go_on(self):
        """The next state."""
        self.state = (self.state * MULTIPLIER + INCREMENT) & ALL_64

    def next_bits(self):
        """The 32 bits of this state."""
        bits, turn = ((self.state >> 18 ^ self.state) >> 27) & ALL_32, self.state >> 59
        self.go_on()
        return (bits >> turn | bits << (-turn & 31)) & ALL_32

    def getrandbits(self, count):
        """A number of so many bits."""
        number = 0
        for shift in range(0, count, 32):
            number |= self.next_bits() << shift
        return number >> (-count % 32)

    def random(self):
        """A number from 0 up to 1."""
        return self.getrandbits(53) / 2**53
