"""A generator of the search's own (xorshift), so that the same text gives the same plan on every machine."""

MASK = 0xFFFFFFFFFFFFFFFF
UNIT = 1 << 30


class Chance:
    """Numbers by chance, from a seed."""

    def __init__(self, seed: int) -> None:
        self.state = (seed * 2654435761 + 88172645463325252) & MASK or 1

    def below(self, limit: int) -> int:
        """A whole number from 0 up to a limit, which is excluded."""
        x = self.state
        x ^= (x << 13) & MASK
        x ^= x >> 7
        x ^= (x << 17) & MASK
        self.state = x
        return (x >> 11) % limit

    def unit(self) -> float:
        """A number from 0 up to 1, which is excluded."""
        return self.below(UNIT) / UNIT
