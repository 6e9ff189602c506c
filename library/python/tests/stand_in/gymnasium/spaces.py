"""Spaces: what an observation or an action may be."""


def items_of(value):
    """Returns the items of an array of numpy, or of a memoryview, as a flat list."""
    values = value.tolist()
    for _ in value.shape[1:]:
        values = [item for row in values for item in row]
    return values


class Box:
    """Arrays of a shape, with items from low to high."""

    def __init__(self, low, high, shape, dtype):
        self.low, self.high, self.shape, self.dtype = low, high, tuple(shape), dtype

    def contains(self, value):
        """Tells whether this is such an array."""
        is_inside = all(self.low <= item <= self.high for item in items_of(value))
        return tuple(value.shape) == self.shape and is_inside


class Discrete:
    """The numbers from 0 to n - 1."""

    def __init__(self, n):
        self.n, self.shape = n, ()

    def contains(self, value):
        """Tells whether this is such a number."""
        return 0 <= int(value) < self.n


class MultiDiscrete:
    """A number for each of several environments."""

    def __init__(self, each, count):
        self.each, self.shape = each, (count,)

    def contains(self, values):
        """Tells whether these are such numbers."""
        return len(values) == self.shape[0] and all(map(self.each.contains, values))
