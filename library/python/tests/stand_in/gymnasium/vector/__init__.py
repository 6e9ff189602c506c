"""Environments of many games, whose calls are checked: an AssertionError says what is wrong."""
import functools
import inspect
from enum import Enum


class AutoresetMode(Enum):
    """When a game that is over begins again."""

    NEXT_STEP = "NextStep"
    SAME_STEP = "SameStep"
    DISABLED = "Disabled"


class VectorEnv:
    """The base class. It checks what `reset` and `step` of a subclass take and return."""

    metadata, render_mode, num_envs, closed = {"render_modes": []}, None, None, False

    def __init_subclass__(cls):
        parameters = inspect.signature(cls.reset).parameters
        for name in ("seed", "options"):
            it = parameters[name]
            assert (it.kind, it.default) == (
                it.KEYWORD_ONLY,
                None,
            ), f"reset has a keyword {name}"
        arguments = list(inspect.signature(cls.step).parameters)
        assert arguments == ["self", "actions"], "step has one argument, actions"
        assert "render_modes" in cls.metadata
        assert isinstance(cls.metadata["autoreset_mode"], AutoresetMode)
        cls.reset, cls.step = checked_reset(cls.reset), checked_step(cls.step)


def check(env, observations, infos):
    """Checks what each call returns: observations, and infos with the mask of the actions."""
    assert env.observation_space.contains(observations), "the observations are of their space"
    shape = (env.num_envs, *env.single_observation_space.shape)
    assert env.observation_space.shape == shape, "the spaces belong together"
    assert isinstance(infos, dict), "infos are a dict"
    mask = infos["action_mask"]
    assert tuple(mask.shape) == (
        env.num_envs,
        env.single_action_space.n,
    ), "a number an action"
    for row in mask.tolist():
        assert set(row) <= {0, 1} and 1 in row, "some action may be taken in each game"


def checked_reset(reset):
    """Returns this reset, with checks."""

    @functools.wraps(reset)
    def checked(self, *, seed=None, options=None):
        observations, infos = returned = reset(self, seed=seed, options=options)
        assert isinstance(returned, tuple), "reset returns observations and infos"
        check(self, observations, infos)
        return returned

    return checked


def checked_step(step):
    """Returns this step, with checks."""

    @functools.wraps(step)
    def checked(self, actions):
        assert self.action_space.contains(actions), "the actions are of their space"
        observations, rewards, terminations, truncations, infos = returned = step(self, actions)
        assert isinstance(returned, tuple), "step returns five things"
        check(self, observations, infos)
        for values in (rewards, terminations, truncations):
            assert tuple(values.shape) == (self.num_envs,), "a value for each game"
        assert all(isinstance(reward, float) for reward in rewards.tolist()), "rewards are floats"
        for ways in zip(terminations.tolist(), truncations.tolist()):
            assert set(ways) <= {0, 1} and ways != (
                1,
                1,
            ), "terminated, truncated or neither"
        return returned

    return checked
