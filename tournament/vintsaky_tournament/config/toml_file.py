"""A plan in a file of TOML, such as night.toml: it becomes arguments, as of the command line.

A key is the name of an option of `tournament plan` or of twogtp, without its dashes.
`[engines.NAME]` has the command of an engine, its options and its environment. `folder` names the
directory of the tournament, which is otherwise the file's name without `.toml`. The directory of
the file is that in which engines start, and from which paths are seen.
"""
from __future__ import annotations

import contextlib
import importlib
import os
import shlex
from typing import Any, Callable, Iterator, Mapping, NamedTuple, Sequence

from ..model import Plan
from ..output import Mistake
from .arguments import OF_PLAN, OF_PLAY, OF_TWOGTP, OPTIONS, Arguments, Option

ENDING = ".toml"
Table = Mapping[str, Any]
Join = Callable[[str, Sequence[str]], str]  # of the words that a key has
OF_MOMENT = ("again", "task", "time-left", "dry-run")  # options that no file has
OF_ENGINE = ("command", "like", "options", "environment")
READERS = ("tomllib", "tomli")  # the former from Python 3.11 on
FLAGS_OF_TWOGTP = ("--show",)


def with_file_of(arguments: Arguments) -> Arguments:
    """Returns the arguments with what the file has that they name. Options of the command line
    count where both have them."""
    (place,) = arguments.places
    if arguments.after is not None:
        raise Mistake(f"options of twogtp belong into {place}, such as size = 9: leave out --")
    table = read(place)
    try:
        words = [*before_dashes(table, arguments.command, place)]
        words += [word for option in arguments.options for word in written(*option)]
        expanded = Arguments(arguments.command, [*words, "--", *after_dashes(table)])
        expanded.directory = os.path.dirname(os.path.abspath(place))
    except Mistake as mistake:
        raise Mistake(f"{place}: {mistake.text}") from None
    return expanded


def reader() -> Any:
    """Returns the module that reads TOML."""
    for name in READERS:
        with contextlib.suppress(ImportError):
            return importlib.import_module(name)
    raise Mistake(
        "to read TOML, Python before 3.11 needs tomli: write python3 -m pip install tomli, or "
        "install the package python3-tomli"
    )


def read(place: str) -> Table:
    """Returns what a file has."""
    try:
        with open(place, "rb") as file:
            table: Table = reader().load(file)
    except OSError as error:
        raise Mistake(f"{place} can't be read: {error.strerror}") from None
    except ValueError as error:  # also of bytes that are no text
        raise Mistake(f"{place} is no TOML: {error}") from None
    return table


# ---- keys


def keys() -> list[str]:
    """Returns the keys of a file."""
    names = [name[2:] for name in (*OF_PLAN, *OF_TWOGTP, *FLAGS_OF_TWOGTP)]
    kept = [name for name in names if name not in ("engine", *OF_MOMENT)]
    return ["folder", "engines", "options", *kept]


def check_keys(table: Table, known: Sequence[str], where: str = "") -> None:
    """Raises Mistake where a key isn't one of these."""
    import difflib  # which isn't needed elsewhere

    for key in table:
        if key in known:
            continue
        if not where and key in OF_MOMENT:
            raise Mistake(f"{key} is no key: give --{key} to tournament play")
        if where and is_table(table[key]):
            quoted = f'[engines."{where.partition(".")[2]}.{key}"]'
            raise Mistake(f"{where} can't have a table {key}: quote a name with a dot, {quoted}")
        (close,) = difflib.get_close_matches(key, known, 1, 0)
        raise Mistake(f"there is no key {key}{f' in {where}' if where else ''}: is it {close}?")


def is_table(value: object) -> bool:
    """Returns whether a value is a table."""
    return isinstance(value, dict)


def text_of(key: str, value: object, wanted: str) -> str:
    """Returns the text of a number or a text."""
    if isinstance(value, bool) or not isinstance(value, (str, int, float)):
        raise Mistake(f"{key} needs {wanted}, and not {shown(value)}")
    return str(value)


def shown(value: object) -> str:
    """Returns a value as TOML has it, nearly."""
    return str(value).lower() if isinstance(value, bool) else repr(value)


def is_set(key: str, value: object) -> bool:
    """Returns whether a key without a value of its own is set."""
    if not isinstance(value, bool):
        raise Mistake(f"{key} needs true or false, and not {shown(value)}")
    return value


# ---- arguments


def written(name: str, values: list[str]) -> list[str]:
    """Returns an option with its values as arguments, of which the first one may begin with
    dashes."""
    return [f"{name}={values[0]}", *values[1:]] if values else [name]


def before_dashes(table: Table, command: str, place: str) -> Iterator[str]:
    """Yields the arguments before --: the directory, engines, and options of the plan."""
    check_keys(table, keys())
    directory = os.path.dirname(place)
    folder = text_of("folder", table.get("folder", ""), "the name of a directory")
    yield os.path.join(directory, folder) if folder else place[: -len(ENDING)]
    is_direct = is_set("direct", table.get("direct", False))
    for engine, engine_command in commands(table, is_direct):
        yield f"--engine={engine}={engine_command}"
    for key, value in table.items():
        option = f"--{key}"
        if option in OPTIONS[command] and not (option in OF_PLAY and command == "plan"):
            values = values_of(key, value, OF_PLAN[option])
            if key == "openings":
                values = [os.path.join(directory, *values)]
            if values or OF_PLAN[option] is None and value:
                yield from written(option, values)


def values_of(key: str, value: object, option: Option | None) -> list[str]:
    """Returns the values of an option that has this value in a file."""
    if option is None:
        is_set(key, value)
        return []
    if option.number == 1:
        return [text_of(key, value, option.wanted)]
    if not isinstance(value, list) or len(value) != option.number:
        example = ", ".join(option.example.split()[1:])
        raise Mistake(f"{key} needs {option.wanted}, such as {key} = [{example}]")
    return [text_of(key, each, option.wanted) for each in value]


def after_dashes(table: Table) -> Iterator[str]:
    """Yields the options of twogtp."""
    for key, value in table.items():
        option = f"--{key}"
        if option in FLAGS_OF_TWOGTP and is_set(key, value):
            yield option
        elif option in OF_TWOGTP:
            text = text_of(key, value, f"a value such as {OF_TWOGTP[option]}")
            yield from [f"{option}={text}"] if text.startswith("-") else [option, text]


# ---- engines


class Started(NamedTuple):
    """How an engine is started: its environment, and the words of its command."""

    environment: dict[str, str]
    command: str


def commands(table: Table, is_direct: bool) -> Iterator[tuple[str, str]]:
    """Yields the name of each engine, and its command."""
    engines = table.get("engines", {})
    if not is_table(engines) or not engines:
        raise Mistake("it has no engines: write [engines.NAME], and below it the key command")
    join = join_directly if is_direct else join_quoted
    shared = command_text("options", table.get("options", ""), join)
    for name, engine in engines.items():
        environment, command = started(engines, name, join)
        own = command_text(f"engines.{name}.options", engine.get("options", ""), join)
        words = [f"{variable}={value}" for variable, value in environment.items()]
        first = join(f"engines.{name}.environment", ["env", *words]) if words else ""
        whole = " ".join(filter(None, [first, command, shared, own]))
        Plan().add_engine(name, whole)  # which raises Mistake where it can't be one
        yield name, whole


def started(engines: Table, name: str, join: Join, before: tuple[str, ...] = ()) -> Started:
    """Returns how an engine is started: by its own command, or by that of the one which it is
    like."""
    where, engine = f"engines.{name}", engines[name]
    if not is_table(engine):
        raise Mistake(f"{where} needs to be a table: write [{where}], and below it the key command")
    check_keys(engine, OF_ENGINE, where)
    if ("like" in engine) == ("command" in engine):
        raise Mistake(f"{where} needs either command or like, which names another engine")
    own = environment_of(f"{where}.environment", engine.get("environment", {}))
    if "command" in engine:
        return Started(own, command_text(f"{where}.command", engine["command"], join))
    other = text_of(f"{where}.like", engine["like"], "the name of another engine")
    if other not in engines or other in (*before, name):
        raise Mistake(f"{where}.like needs the name of another engine, and not '{other}'")
    environment, command = started(engines, other, join, (*before, name))
    return Started({**environment, **own}, command)


def command_text(key: str, value: object, join: Join) -> str:
    """Returns words of a command, which are in a text, or in a list."""
    if isinstance(value, list):
        return join(key, [text_of(key, word, "texts") for word in value])
    if not isinstance(value, str):
        raise Mistake(f"{key} needs a text, or a list of words, and not {shown(value)}")
    return value


def environment_of(key: str, table: object) -> dict[str, str]:
    """Returns the variables of an engine's environment."""
    if not isinstance(table, dict):
        raise Mistake(f"{key} needs a table, such as {{ OMP_NUM_THREADS = 2 }}")
    for name in table:
        if "=" in name or not name:
            raise Mistake(f"{key} has '{name}', which is no name of a variable")
    return {name: text_of(f"{key}.{name}", value, "a text") for name, value in table.items()}


def join_quoted(_: str, words: Sequence[str]) -> str:
    """Returns words as they are written for a shell."""
    return shlex.join(words)


def join_directly(key: str, words: Sequence[str]) -> str:
    """Returns words of an engine that is started directly, which has no quotes."""
    for word in words:
        if " " in word or not word:
            raise Mistake(f"{key} has '{word}', which direct = true can't give to an engine")
    return " ".join(words)
