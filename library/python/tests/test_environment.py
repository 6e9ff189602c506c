"""The example of an environment for learning, with a stand-in for gymnasium and without one.

What is wanted was worked out by hand: size 3, whose moves are the numbers 0 to 8, and 9 for a pass.
"""
import contextlib
import importlib
import importlib.util
import sys
import unittest
from pathlib import Path

HERE = Path(__file__).resolve().parent
EMPTY = [[0] * 3] * 3


def load_example(*folders):
    """Returns the example as a module, which finds packages in these folders before others."""
    with contextlib.suppress(ImportError):  # it can't be imported a second time
        importlib.import_module("numpy")
    spec = importlib.util.spec_from_file_location("go_env", HERE.parent / "examples/go_env.py")
    example = importlib.util.module_from_spec(spec)
    sys.path[:0] = folders
    try:
        spec.loader.exec_module(example)
    finally:
        del sys.path[: len(folders)]
        for name in [it for it in sys.modules if it.partition(".")[0] == "gymnasium"]:
            del sys.modules[name]
    return example


class Environment:
    """The tests, which a case runs with the class of its environment."""

    def step(self, env, *moves):
        """Makes these moves in the only game, and returns what comes of the last one."""
        for move in moves[:-1]:
            _, rewards, ended, _, _ = env.step([move])
            self.assertEqual((float(rewards[0]), bool(ended[0])), (0, False))
        return env.step(moves[-1:])

    def test_new_games(self):
        planes, infos = self.GoEnv(2, 3, 0.5).reset(seed=7)
        self.assertEqual(planes.tolist(), [[EMPTY] * 2] * 2)
        self.assertEqual(infos["action_mask"].tolist(), [[1] * 10] * 2)

    def test_planes_and_masks(self):
        planes, rewards, ended, cut, infos = self.GoEnv(2, 3, 0.5).step([4, 9])
        # White has the turn: the first plane is White's, and the second has Black's stone on B2
        self.assertEqual(planes.tolist()[0], [EMPTY, [[0] * 3, [0, 1, 0], [0] * 3]])
        self.assertEqual(infos["action_mask"].tolist(), [[1, 1, 1, 1, 0, 1, 1, 1, 1, 1], [1] * 10])
        self.assertEqual(list(map(float, rewards)), [0, 0])
        self.assertEqual([list(map(bool, ended)), list(map(bool, cut))], [[False] * 2] * 2)

    def test_rewards(self):
        """Black has B2 and so all nine points, or none. The reward is that of who passes last."""
        for komi, reward, moves in (
            (0.5, 1, [4, 9, 9]),
            (20, -1, [4, 9, 9]),
            (0.5, 1, [9, 4, 9, 9]),
            (0.5, 1, [9, 9]),
            (-0.5, -1, [9, 9]),
            (0, 0, [9, 9]),
        ):
            with self.subTest(komi=komi, moves=moves):
                planes, rewards, ended, cut, infos = self.step(self.GoEnv(1, 3, komi), *moves)
                self.assertEqual(float(rewards[0]), reward)
                self.assertEqual((bool(ended[0]), bool(cut[0])), (True, False))
                # it has begun again
                self.assertEqual(planes.tolist(), [[EMPTY] * 2])
                self.assertEqual(infos["action_mask"].tolist(), [[1] * 10])

    def test_refused_move(self):
        env = self.GoEnv(1, 3, 0)
        planes, _, ended, cut, infos = self.step(env, 4, 4)
        self.assertEqual((int(infos["refused"][0]), int(planes[0, 1, 1, 1])), (10, 1))
        self.assertEqual((bool(ended[0]), bool(cut[0])), (False, False))
        *_, infos = self.step(env, 0)
        self.assertEqual(int(infos["refused"][0]), 0)

    def test_limit(self):
        planes, rewards, ended, cut, _ = self.step(self.GoEnv(1, 3, 0, limit=3), 4, 0, 1)
        self.assertEqual((bool(ended[0]), bool(cut[0])), (False, True))
        self.assertEqual(planes.tolist(), [[EMPTY] * 2])
        # Black has moved, and is ahead with two stones to one
        self.assertEqual(float(rewards[0]), 1)

    def test_earlier_boards(self):
        planes, *_ = self.step(self.GoEnv(1, 3, 0, earlier=1), 0, 8)
        rows = [[at for at, row in enumerate(it) if any(row)] for it in planes.tolist()[0]]
        # Black has the turn: Black's A1, White's C3, and before that Black's A1 alone
        self.assertEqual(rows, [[0], [2], [0], []])

    def test_random_games(self):
        env, ends = self.GoEnv(16, 5, 0.5, limit=40), set()
        for _ in range(400):
            _, rewards, ended, cut, infos = env.step(env.random_actions())
            self.assertFalse(any(infos["refused"].tolist()))
            ends |= set(zip(map(bool, ended), map(bool, cut), map(float, rewards)))
        won_or_lost = {(ended, not ended, reward) for ended in (True, False) for reward in (1, -1)}
        self.assertEqual(ends, {(False, False, 0), *won_or_lost})


class WithStandIn(Environment, unittest.TestCase):
    GoEnv = load_example(str(HERE / "stand_in")).GoEnv


class Plain(Environment, unittest.TestCase):
    GoEnv = load_example().GoEnv


if __name__ == "__main__":
    unittest.main()
