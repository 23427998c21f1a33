"""Random numbers that are the same on every machine."""

MASK = (1 << 64) - 1


class Chance:
    """The numbers of SplitMix64 for a seed."""

    def __init__(self, seed):
        self.state = seed & MASK

    def word(self):
        """The next 64 bits."""
        self.state = (self.state + 0x9E3779B97F4A7C15) & MASK
        mixed = self.state
        mixed = ((mixed ^ (mixed >> 30)) * 0xBF58476D1CE4E5B9) & MASK
        mixed = ((mixed ^ (mixed >> 27)) * 0x94D049BB133111EB) & MASK
        return mixed ^ (mixed >> 31)

    def below(self, count):
        """A number of at least 0 and below this one."""
        return (self.word() * count) >> 64

    def percent(self, hundredths):
        """Whether something happens that happens this many times in a hundred."""
        return self.below(100) < hundredths

    def of(self, things):
        """One of these things."""
        return things[self.below(len(things))]
