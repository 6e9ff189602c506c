#!/usr/bin/env python3
"""An environment for learning, in the form of Gymnasium's vector environments.

It has many games, with a step in all at once.
Observations are planes, as `Games.planes_into` writes them, and actions are numbers of moves.
`infos["action_mask"]` says which actions are legal, and `infos["refused"]` why a game rejected its
action; that game is unchanged. A game that is over begins again in the same step, and its final
position isn't shown. The reward is that of the side that has just moved: 1 if it won, -1 if it
lost, else 0.

Arrays are numpy's if numpy is installed, else memoryviews. Each step overwrites them: copy what you
want to keep.

usage: go_env.py [STEPS [SIZE]]    makes random steps in 256 games, and prints the moves a second
"""
import importlib
import random
import sys
import time
from array import array
from typing import Any, Dict, Tuple

from vintsaky import BLACK, Games


def find_module(name: str) -> Any:
    """Returns a module, or None if it isn't installed."""
    try:
        return importlib.import_module(name)
    except ImportError:
        return None


numpy, spaces, vector = (
    find_module("numpy"),
    find_module("gymnasium.spaces"),
    find_module("gymnasium.vector"),
)
VectorEnv: Any = vector.VectorEnv if vector else object
batch_space: Any = find_module("gymnasium.vector.utils").batch_space if vector else None
same_step: Any = vector.AutoresetMode.SAME_STEP if hasattr(vector, "AutoresetMode") else "SameStep"


def shaped(buffer: Any, *shape: int) -> Any:
    """Returns a view of a buffer as an array of this shape."""
    view = memoryview(buffer)
    view = view.cast("B").cast(view.format, shape) if len(shape) > 1 else view
    return numpy.asarray(view) if numpy else view


class GoEnv(VectorEnv):  # type: ignore[misc] # its base is any class
    """Games of Go, in which both sides play in turn. One with `limit` moves is truncated."""

    metadata: Dict[str, Any] = {"render_modes": [], "autoreset_mode": same_step}

    def __init__(
        self, num_envs: int = 1, size: int = 9, komi: float = 7, earlier: int = 0, limit: int = 500
    ) -> None:
        self.num_envs, self.earlier = num_envs, earlier
        self.made = num_envs, size, komi
        self.limit, actions, planes = limit, size * size + 1, 2 * (1 + earlier)
        self.boards = bytearray(num_envs * planes * size * size)
        self.masks = bytearray(num_envs * actions)
        self.causes, self.over = bytearray(num_envs), bytearray(num_envs)
        self.scores, self.won = array("f", [0] * num_envs), array("f", [0] * num_envs)
        self.planes: Any = shaped(self.boards, num_envs, planes, size, size)
        self.infos = {
            "action_mask": shaped(self.masks, num_envs, actions),
            "refused": shaped(self.causes, num_envs),
        }
        if batch_space:
            self.single_observation_space = spaces.Box(0, 1, (planes, size, size), "uint8")
            self.single_action_space = spaces.Discrete(actions)
            self.observation_space = batch_space(self.single_observation_space, num_envs)
            self.action_space = batch_space(self.single_action_space, num_envs)
        self.reset()

    def reset(self, *, seed: Any = None, options: Any = None) -> Tuple[Any, Dict[str, Any]]:
        """Begins all games again. Nothing here is random, so a seed changes nothing."""
        count, size, komi = self.made
        self.games = Games(count, size, komi, limit=self.limit)
        self.causes[:] = bytes(count)
        self.games.planes_into(self.boards, self.earlier)
        self.games.masks_into(self.masks)
        return self.planes, self.infos

    def step(self, actions: Any) -> Tuple[Any, Any, Any, Any, Dict[str, Any]]:
        """Makes moves, and returns observations, rewards, terminations, truncations and infos."""
        movers = self.games.turns
        results: Dict[str, Any] = {"causes": self.causes, "over": self.over, "scores": self.scores}
        boards: Dict[str, Any] = {"planes": self.boards, "masks": self.masks}
        self.games.step(actions, earlier=self.earlier, **results, **boards)
        for number, score in enumerate(self.scores):
            ahead = (score > 0) - (score < 0)
            self.won[number] = ahead if movers[number] == BLACK else -ahead
        ended, cut = (
            shaped(bytearray(way == it for way in self.over), self.num_envs) for it in (1, 2)
        )
        if numpy:
            ended, cut = ended.view(bool), cut.view(bool)
        return self.planes, shaped(self.won, self.num_envs), ended, cut, self.infos

    def random_actions(self) -> Any:
        """Returns a legal move for each game: the next one from a random number on, or a pass."""
        each = len(self.masks) // self.num_envs
        starts = range(0, len(self.masks), each)
        return array("I", [self.masks.index(1, at + random.randrange(each)) - at for at in starts])

    def close(self) -> None:
        """Does nothing: there is nothing to close."""


if __name__ == "__main__":
    steps, size = (int(word) for word in [*sys.argv[1:], *("200", "9")[len(sys.argv) - 1 :]])
    env = GoEnv(256, size)
    began, ends = time.perf_counter(), 0
    for step in range(steps):
        _, _, terminations, truncations, _ = env.step(env.random_actions())
        ends += sum(map(bool, terminations)) + sum(map(bool, truncations))
    print(f"{ends} games ended, {256 * steps / (time.perf_counter() - began):.0f} moves a second")
