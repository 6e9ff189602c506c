"""The package: its library, its documentation, threads, and what can't be done with an object."""
import abc
import ast
import copy
import dataclasses
import doctest
import inspect
import io
import os
import pickle
import pydoc
import re
import subprocess
import sys
import textwrap
import threading
import unittest
from ctypes.util import find_library
from functools import partial
from pathlib import Path

import vintsaky
from vintsaky import (
    Action,
    Cause,
    Chain,
    Colour,
    CommandLines,
    Game,
    Match,
    Move,
    Point,
    Refused,
    Replies,
    Steps,
)
from vintsaky import _declared, _library, _objects

PACKAGE = Path(vintsaky.__file__).resolve().parent
INNER = [
    "_declared",
    "_library",
    "_numbers",
    "_refused",
    "_objects",
    "_attributes",
    "_buffers",
]
MODULES = [*INNER, "values", "moves", "games", "batches", "lines", "engines", "matches"]


def modules():
    return [sys.modules[f"vintsaky.{name}"] for name in MODULES]


class Documentation(unittest.TestCase):
    def test_examples(self):
        examples = 0
        for module in modules():
            result = doctest.testmod(module)
            self.assertEqual(result.failed, 0, module)
            examples += result.attempted
        self.assertGreater(examples, 30)

    def test_all_that_is_public_is_documented(self):
        for module in modules():
            for node in ast.walk(ast.parse(Path(module.__file__).read_text("ascii"))):
                if not isinstance(node, (ast.FunctionDef, ast.ClassDef)) or node.name.startswith(
                    "_"
                ):
                    continue
                overload = isinstance(node, ast.FunctionDef) and (
                    node.name == "marked" or "setter" in ast.dump(node)
                )
                self.assertTrue(
                    overload or ast.get_docstring(node), f"{module.__name__}.{node.name}"
                )

    def test_all_is_annotated(self):
        for module in modules():
            for node in ast.walk(ast.parse(Path(module.__file__).read_text("ascii"))):
                if isinstance(node, ast.FunctionDef):
                    own = [
                        each
                        for each in [*node.args.args, *node.args.kwonlyargs]
                        if each.arg not in ("self", "cls")
                    ]
                    is_annotated = node.returns and all(each.annotation for each in own)
                    self.assertTrue(is_annotated, f"{module.__name__}.{node.name}")

    def test_all_names_are_there(self):
        self.assertEqual([name for name in vintsaky.__all__ if not hasattr(vintsaky, name)], [])
        self.assertEqual(len(set(vintsaky.__all__)), len(vintsaky.__all__))

    def test_help_is_whole(self):
        text = pydoc.render_doc(vintsaky, renderer=pydoc.plaintext)
        words = " ".join(re.sub(r"^ *\|", "", text, flags=re.MULTILINE).split())
        for cause in Cause:
            self.assertIn(f"{cause.name}: {cause.text}", words)
        for name in vintsaky.__all__:
            self.assertRegex(words, rf"\b{name}\b")
        for method in (
            "from_moves",
            "playout",
            "turn",
            "adopt",
            "next",
            "feed",
            "neighbours",
            "winner",
            "__getitem__",
        ):
            self.assertRegex(text, rf"\|  {method}\b")

    def test_signatures(self):
        self.assertEqual(list(inspect.signature(Point).parameters), ["column", "row"])
        self.assertEqual(list(inspect.signature(Game).parameters), ["size", "komi", "rule"])
        self.assertEqual([field.name for field in dataclasses.fields(Action)], ["kind", "side"])

    def test_values_are_copied_and_pickled(self):
        self.assertEqual((Point._fields, Point(1, 2)._replace(row=5)), (("column", "row"), (1, 5)))
        self.assertIs(type(Point._make([1, 2])), Point)
        move = Move(Colour.BLACK, Point(1, 1))
        for value in (Point(3, 4), move, Chain(1, 2), Cause.KO, vintsaky.RESIGN):
            pickled = pickle.loads(pickle.dumps(value))
            for again in (pickled, copy.copy(value), copy.deepcopy(value)):
                self.assertEqual((again, type(again)), (value, type(value)))
        self.assertIs(pickle.loads(pickle.dumps(vintsaky.PASS)), vintsaky.PASS)

    def test_a_subclass_may_be_abstract(self):
        class Mine(Game, abc.ABC):
            """A subclass."""

        self.assertEqual(Mine(5).size, 5)

    def test_the_example_is_an_engine_of_12_lines(self):
        text = textwrap.dedent(re.search(r"\n\n((?:    .*\n|\n)+)\n", vintsaky.__doc__)[1]).strip()
        lines = text.split("\n")
        self.assertLessEqual(len(lines) - lines.index("import vintsaky"), 12)
        said = b"boardsize 1\n1 genmove b\n2 name\n3 quit\n"
        done = subprocess.run(
            [sys.executable, "-c", text], input=said, capture_output=True, timeout=20
        )
        self.assertEqual(
            (done.returncode, done.stdout, done.stderr),
            (0, b"=\n\n=1 pass\n\n=2 mine\n\n=3\n\n", b""),
        )

    def test_versions(self):
        project = PACKAGE.parent / "pyproject.toml"
        if project.exists():
            self.assertIn(f'version = "{vintsaky.__version__}"', project.read_text("ascii"))
        self.assertEqual(vintsaky.__version__, ".".join(map(str, vintsaky.version())))
        first, second, third = vintsaky.version()
        self.assertEqual(first * 65536 + second * 256 + third, _declared.VERSION)


class Refusals(unittest.TestCase):
    def test_each_cause_has_a_sentence(self):
        texts = [cause.text for cause in Cause]
        self.assertEqual(len(set(texts)), len(texts))
        for text in texts:
            self.assertRegex(text, r"^[A-Z].*\.$")

    def test_a_refusal_is_a_value_error(self):
        refusal = Refused(Cause.KO)
        self.assertIsInstance(refusal, ValueError)
        self.assertEqual((str(refusal), refusal.cause), (Cause.KO.text, Cause.KO))
        for again in (copy.copy(refusal), pickle.loads(pickle.dumps(refusal))):
            self.assertEqual((again.cause, str(again)), (Cause.KO, Cause.KO.text))
        plain, worded = Refused(Cause.KO, "play w C3"), Refused(Cause.KO, "a", "b")
        for refusal, text in ((plain, f"play w C3: {Cause.KO.text}"), (worded, "a: b")):
            for again in (refusal, copy.copy(refusal), pickle.loads(pickle.dumps(refusal))):
                self.assertEqual((again.cause, str(again)), (Cause.KO, text))


class Objects(unittest.TestCase):
    KINDS = (Game, Steps, Match, CommandLines, Replies)

    def test_memory_is_aligned(self):
        for kind in self.KINDS:
            held = kind()
            start = _library.ctypes.addressof(held._memory)
            align = getattr(_library.library, f"vintsaky_{kind._kind}_align")()
            size = getattr(_library.library, f"vintsaky_{kind._kind}_bytes")()
            self.assertEqual(held._handle.at % align, 0)
            self.assertLessEqual(start, held._handle.at)
            self.assertLessEqual(held._handle.at + size, start + len(held._memory))

    def test_no_other_object_is_pickled_or_copied(self):
        for kind in self.KINDS[1:]:
            text = f"^a {kind.__name__} can't be copied or pickled: .* only a Game can$"
            for call in (
                pickle.dumps,
                copy.copy,
                copy.deepcopy,
                lambda held: copy.deepcopy([held]),
            ):
                self.assertRaisesRegex(TypeError, text, call, kind())

    def in_thread(self, call):
        """Returns what the call raises in another thread."""
        raised = []

        def run():
            try:
                call()
            except Exception as problem:
                raised.append(problem)

        thread = threading.Thread(target=run)
        thread.start()
        thread.join()
        return raised[0] if raised else None

    def test_another_thread_is_refused(self):
        game, steps, match, lines, replies = (kind() for kind in self.KINDS)
        calls = [partial(getattr, game, name) for name in ("size", "taken")]
        calls += [partial(getattr, steps, name) for name in ("reply", "game", "line")]
        calls += [partial(getattr, match, "game"), partial(str, game)]
        calls += [game.copy, game.begin, match.next]
        calls += [lambda: game.moves[:], lambda: game["A1"], lambda: Game().become(game)]
        calls += [partial(game.play, "b", "A1"), partial(game.legal_points, "b")]
        calls += [partial(call, "b", b"") for call in (match.hear, match.report)]
        calls += [partial(it.feed, b"name\n") for it in (steps, lines, replies)]
        for call in calls:
            problem = self.in_thread(call)
            self.assertIsInstance(problem, RuntimeError)
            self.assertRegex(
                str(problem), "^a (Game|Steps|Match|CommandLines|Replies) is used by another thread"
            )
        self.assertEqual((len(game.moves), steps.reply), (0, b""))

    def test_a_thread_adopts_a_copy(self):
        game, handed = Game(9), []
        copy = game.copy()

        def plays():
            copy.adopt()
            copy.play("b", "C3")
            handed.append(len(copy.moves))

        self.assertIsNone(self.in_thread(plays))
        self.assertEqual((handed, len(game.moves)), ([1], 0))
        self.assertRaisesRegex(RuntimeError, "adopt", lambda: copy.moves[:])

    def test_each_method_asks_for_the_thread(self):
        """Each call with a handle gets it from the method that looks at the thread."""
        for name in ("games", "moves", "lines", "engines", "matches"):
            text = (PACKAGE / f"{name}.py").read_text("ascii")
            self.assertNotRegex(text, r"\._(reference|handle|memory)\b")
        self.assertEqual((PACKAGE / "_objects.py").read_text("ascii").count("get_ident() !="), 1)

    def test_threads_with_objects_of_their_own(self):
        boards = []

        def play():
            game = Game(9)
            for point in game.legal_points("b")[:-1]:
                game.play("b", point)
            boards.append(str(game))

        threads = [threading.Thread(target=play) for _ in range(8)]
        for thread in threads:
            thread.start()
        for thread in threads:
            thread.join()
        self.assertEqual(boards, [boards[0]] * 8)
        self.assertTrue(boards[0].startswith("X X X X X X X X . 9\n"))


class Loading(unittest.TestCase):
    def loaded(self, **variables):
        """Returns what an import prints to standard error at last, and its status."""
        command = [sys.executable, "-c", "import vintsaky"]
        environment = {**os.environ, **variables, "PYTHONPATH": str(PACKAGE.parent)}
        done = subprocess.run(command, env=environment, capture_output=True, text=True, timeout=20)
        return done.returncode, done.stderr.strip().split("\n")[-1]

    @unittest.skipIf((PACKAGE / _library.FILE).exists(), "the library is in the package")
    def test_what_cannot_be_loaded(self):
        for place, text in (
            (
                "/nosuch/library",
                "its library can't be loaded: /nosuch/library: cannot open shared object file",
            ),
            (__file__, "can't be loaded: .*: (invalid ELF header|file too short)"),
            ("libc.so.6", "libc.so.6 has another interface than 1"),
            *(
                []
                if find_library("vintsaky")
                else [("", "can't be loaded: libvintsaky.so.1: .*VINTSAKY_LIBRARY")]
            ),
        ):
            status, line = self.loaded(VINTSAKY_LIBRARY=place)
            self.assertEqual(status, 1)
            self.assertRegex(line, f"^ImportError: vintsaky: .*{text}")

    def test_each_number_is_looked_at(self):
        for value in (-1, 2**32):
            self.assertRaises(ValueError, _objects.int_in_range, value, "number")
        for value in (1.0, "1", None):
            self.assertRaises(TypeError, _objects.int_in_range, value, "number")
        self.assertEqual(
            [_objects.int_in_range(number, "number") for number in (0, 2**32 - 1)],
            [0, 2**32 - 1],
        )
        most = 2**32 - 1
        self.assertEqual(
            [_objects.clamped(number) for number in (-1, 0, most, 2**32)], [most, 0, most, most]
        )

    def test_a_closed_input(self):
        self.assertIsNone(vintsaky.Engine().serve(io.BytesIO(), io.BytesIO()))


if __name__ == "__main__":
    unittest.main()
