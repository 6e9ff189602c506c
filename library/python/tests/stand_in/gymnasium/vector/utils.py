"""The space of several environments, by that of one."""
from ..spaces import Box, Discrete, MultiDiscrete


def batch_space(space, n=1):
    """Returns a space of n environments."""
    if isinstance(space, Box):
        return Box(space.low, space.high, (n, *space.shape), space.dtype)
    assert isinstance(space, Discrete), "a Box or a Discrete"
    return MultiDiscrete(space, n)
