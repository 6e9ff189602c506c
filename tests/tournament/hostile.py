"""A tournament whose commands, logs, notes and names try to become a part of its page."""
from __future__ import annotations

from pathlib import Path

# what it does where it runs is seen in the page
RUNS = "document.documentElement.setAttribute(String.fromCharCode(104,105),1)"
TEXT = (
    f"</script><script>{RUNS}</script><img src=x onerror={RUNS}>\"'><svg onload={RUNS}>"
    " <!-- ]]> {{SCRIPT}} }}DATA{{ &lt;b&gt; \\u003c"
)
DATA = TEXT.encode()
ENDED = "moves 2 restarts 2 0"
NOTES = b"1_x_y on %b\n1 black C3 0.5\n2 white D4 1e99\n3 black late 5: 9 %b\n\nresult: %b\n"
PLAN = f"""\
folder /{TEXT}
engine x {TEXT} \u202eevil
engine y --onerror=1 {TEXT}
engine constructor {TEXT}
option --size
option 5
option {TEXT}
start-limit 60
seeds 3
limit 600
"""


def write_hostile(folder: Path) -> None:
    """Writes the tournament."""
    for name in ("games", "logs", "notes", "running/2_x_y", "tried"):
        (folder / name).mkdir(parents=True)
    (folder / "plan").write_text(PLAN, encoding="utf-8")
    result = f"abandoned black {ENDED}"
    write(folder, "games/1_x_y", f"game 1: {result}\nC3 D4\n".encode())
    log = b"twogtp: game 1: black: %b\n\xff\xfe\x1b[31m\x00\xe2\x80\xae" % DATA
    write(folder, "logs/1_x_y", log)
    write(folder, "notes/1_x_y", NOTES % (DATA, DATA, result.encode()))
    write(folder, "games/1_y_x", b"game 1: W+F(no move) moves 1 restarts 0 0\nC3\n")
    write(folder, "logs/1_y_x", b"twogtp: game 1: black: %b\n" % DATA)
    write(folder, "notes/1_y_x", b"1_y_x on a\xff\n")
    write(folder, "logs/1_x_constructor", b"tournament: %b\n" % DATA)
    write(folder, "games/1_constructor_x", b"game 1: B+T moves 1 restarts 0 0\nC3\n")
    write(folder, "games/2_constructor_y", b"game 1: %b moves 1 restarts 0 0\nC3\n" % DATA)
    write(folder, "notes/2_x_y", b"2_x_y on %b\n1 black C3 %b\n1 black C3 0.5\n" % (DATA, DATA))


def write(folder: Path, name: str, data: bytes) -> None:
    """Writes a file of it."""
    (folder / name).write_bytes(data)
