"""The random numbers of C++: std::mt19937_64, and std::exponential_distribution as libstdc++ has it."""
import math

SIZE, MIDDLE = 312, 156
WORD = (1 << 64) - 1


class Mersenne:
    """std::mt19937_64 of a seed."""

    def __init__(self, seed):
        self.state, self.at = [seed], SIZE
        for i in range(1, SIZE):
            last = self.state[-1]
            self.state.append((6364136223846793005 * (last ^ (last >> 62)) + i) & WORD)

    def next(self):
        """The next number below 2^64."""
        if self.at == SIZE:
            self.twist()
        x = self.state[self.at]
        self.at += 1
        x ^= (x >> 29) & 0x5555555555555555
        x ^= (x << 17) & 0x71D67FFFEDA60000
        x ^= (x << 37) & 0xFFF7EEE000000000
        return x ^ (x >> 43)

    def twist(self):
        """Makes the next numbers of the state."""
        for i in range(SIZE):
            x = (self.state[i] >> 31 << 31) | (self.state[(i + 1) % SIZE] & 0x7FFFFFFF)
            self.state[i] = self.state[(i + MIDDLE) % SIZE] ^ (x >> 1) ^ (0xB5026F5AA96619E9 if x & 1 else 0)
        self.at = 0

    def exponential(self, rate):
        """A number of the exponential distribution of this rate."""
        return -math.log(1.0 - self.next() / 2**64) / rate
