"""Chance with a fixed seed, the same on every machine and Python."""

MASK = (1 << 64) - 1


class Chance:
    def __init__(self, seed):
        self.state = seed & MASK

    def bits(self):
        """64 bits, by the splitmix step."""
        self.state = (self.state + 0x9E3779B97F4A7C15) & MASK
        z = self.state
        z = ((z ^ (z >> 30)) * 0xBF58476D1CE4E5B9) & MASK
        z = ((z ^ (z >> 27)) * 0x94D049BB133111EB) & MASK
        return z ^ (z >> 31)

    def below(self, limit):
        """A number from 0 to limit - 1."""
        return (self.bits() * limit) >> 64

    def between(self, low, high):
        """A number from low to high, both included."""
        return low + self.below(high - low + 1)

    def one_in(self, often):
        return self.below(often) == 0

    def pick(self, things):
        return things[self.below(len(things))]

    def some(self, things, many):
        """So many different ones of these, in a random order."""
        pool = list(things)
        many = min(many, len(pool))
        for i in range(many):
            j = self.between(i, len(pool) - 1)
            pool[i], pool[j] = pool[j], pool[i]
        return pool[:many]

    def shuffled(self, things):
        things = list(things)
        return self.some(things, len(things))
