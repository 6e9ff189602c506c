"""What `--help` prints."""
from __future__ import annotations

HEAD = """\
usage: tournament play FOLDER --engine NAME=CMD --engine NAME=CMD ..
           [--seeds N] [--limit SECONDS] [--jobs N] .. [-- OPTION ..]
       tournament play FOLDER [--again]     goes on with the plan in FOLDER
       tournament play FILE.toml            plays the plan of a file
       tournament plan FOLDER --engine ..   writes FOLDER/plan, plays nothing
       tournament check FOLDER ..           tries engines, estimates the time
       tournament list FOLDER [--all]       lists games without a result, or all
       tournament game FOLDER GAME          plays one game
       tournament export FOLDER --csv       exports results for other programs
       tournament verify FOLDER             replays each game by gtp_engine
       tournament score FOLDER              scores games that --scorer hasn't
       tournament page FOLDER               writes a page for a browser
       tournament watch FOLDER              serves it while games are played
       tournament show FILE                 the same of one game, or of SGF
       tournament COMMAND --help            explains one command
       tournament --version
"""
PLAN = """\
  --engine NAME=CMD  an engine and its command, split at spaces; quote what has
                     a space as for a shell. %s in CMD is the game's seed, and
                     %slot a number from 0 to N-1 that no other game has at the
                     moment, where --jobs N plays N games at once: it chooses a
                     GPU or a port. NAME has letters, digits, . + -
  --seeds N          seeds 1 to N; with each seed every two engines play two
                     games, one with each colour. You can raise N later: games
                     that were played still count [10]
  --gauntlet NAME    each game is between this engine and one of the others
  --limit SECONDS    time limit of a game [600]
  --move-limit SECONDS
                     time limit of a genmove, in real time. You can't add or
                     change it later [no limit except --limit]
  --start-limit SECONDS
                     time limit of every answer except that to genmove; the
                     first one includes the engine's start [60]
  --clock CLOCK      the clock of each side, by which it loses on time:
                     'absolute MAIN', 'canadian MAIN PERIOD MOVES',
                     'byoyomi MAIN PERIOD COUNT' or 'fischer MAIN INCREMENT',
                     all but MOVES and COUNT in seconds. --limit is by default
                     what both clocks allow, and 600 seconds more. You can't add
                     or change a clock later [no clock]
  --margin SECONDS   what the clock doesn't count of each move [0]
  --scorer CMD       an engine that says which stones are dead at the end of a
                     game: games that ended by two passes are replayed to it,
                     and count by the area without the stones that it names for
                     final_status_list dead; or by its final_score if it lacks
                     that command. If it fails or is late, which is the limit of
                     --start-limit for each answer, twogtp's verdict counts. You
                     can give it later, too: see tournament score --help
  --openings FILE    openings; each line has the moves of one, such as
                     D4 Q16 pass, and # begins a comment. Seed 1 has the first
                     opening, with both colours, seed 2 the second, and so on;
                     after the last opening comes the first again. You can't add
                     openings later. FILE.sgf has one in each game tree: its
                     first variation, on a board of the plan's size, and without
                     other stones that are set up than those of --handicap. A
                     directory may have such files, read in order of their names
  --shuffle-openings N
                     put the openings in an order that the number N chooses, the
                     same each time [the order of FILE]
  --direct           saves 30 milliseconds a game: twogtp itself starts the
                     engines, so commands have no quotes. There are no limits of
                     an answer, no clocks and no openings, and no notes of the
                     moves
"""
KEYS = """\
A plan may also be a file, FILE.toml in place of FOLDER: example.toml next to
these scripts is one to copy. It has these keys:

  seeds, size ..     the options above and those of twogtp, without dashes, such
                     as seeds = 10, gauntlet = "new", direct = true, komi = 7.5;
                     also jobs
  folder             the directory of the tournament [the file's name without
                     .toml]
  options            words for the end of the command of each engine
  [engines.NAME]     an engine, with the keys that follow; quote a NAME with a
                     dot or a plus
  command            its command, as CMD, or a list of words
  like               another engine, whose command and environment it has
  options            words for the end of its command alone
  environment        variables, such as { OMP_NUM_THREADS = 2 }

Engines start in the directory of the file, and paths are seen from there. An
option that is given besides counts in place of the key. Before version 3.11
Python needs the package tomli to read such a file.
"""
BETWEEN = """\
  --between NAME NAME
                     with --sprt: test these two engines, the first one against
                     the second; needed if the plan has more than two engines
  --alpha NUMBER     with --sprt: accept ELO1 so often where ELO0 is true, from
                     0.001 to 0.25 [0.05]
  --beta NUMBER      with --sprt: accept ELO0 so often where ELO1 is true [0.05]
"""
PLAY = """\
  --jobs N           play N games at once; a plan doesn't keep N [the number of
                     processors]
"""
MORE_OF_PLAY = (
    """\
  --pin              each of the N games gets its own share of the processors
  --again            play games with an unfit, abandoned or late side again, and
                     try their engines again
  --task K/T         play only the games K, K+T, K+2T .. of the plan
  --time-left TIME   begin no game that doesn't fit into this time, written as
                     squeue prints it: 1-00:30:00 or 30:00; or in seconds, as 90
  --on-end CMD       run CMD by sh when the run ends, however it ends, and wait
                     60 seconds for it. It reads the JSON of tally --json, which
                     also has: event ("end"), folder, task, status (that of the
                     run), and failed: each game of this run without a result or
                     with an unfit, abandoned or late side, and each engine that
                     can't be started, with the reason (100 at most). What CMD
                     writes goes to standard error, and its end changes nothing
  --on-failure CMD   the same at the first of these failures in the run, while
                     games go on; event is "failure" then
  --sprt ELO0 ELO1   end the run once a sequential test is over: whether the
                     plan's first engine is stronger than its second by ELO0 or
                     by ELO1 Elo. Pairs count in the order of seeds; one is left
                     out whose game has no result after its try. With --task all
                     results in FOLDER count; as many tasks as there are have to
                     run at once, or pairs wait for a task that hasn't begun
"""
    + BETWEEN
    + """\
  --page FILE        write the page of tournament page while games are played,
                     at most a twentieth of the time, and at the end
"""
)
DRY_RUN = """\
  --dry-run          write and play nothing; print the games without a result,
                     and a command of twogtp that plays the first one by hand,
                     without limits of an answer, clock and opening
"""
OPTION = """\
  -- OPTION ..       options of twogtp, such as --size 9 --komi 7.5, except
                     --games; twogtp --help has them
"""
FILES = """\
A game is named SEED_BLACK_WHITE. FOLDER/games has its result and record,
FOLDER/notes its moves as they are played, and FOLDER/logs its standard error,
if there was any. FOLDER/index only makes tallies and exports quicker: you can
remove it at any time. The twogtp that plays is the one that TWOGTP names, or
else the one in ../bin or ../../bin, seen from the directory of these scripts,
or else the one in PATH.
"""
STATUS = """\
status: 0  each game has a result, and no side was unfit, abandoned or late; or
           the test of --sprt is over. With --task, and for tournament game, a
           game that another process is playing needs no result
        1  some game has no result, a side was unfit, abandoned or late, or
           nothing can be written
        2  usage error; nothing was played
        69  an engine can't be started on this machine
        130, 143  stopped by Ctrl-C; by TERM or HUP
        141  nobody reads what it prints
"""
LOSSES = """\
  --abandoned loses  an abandoned side loses: it crashed or broke the protocol
                     more often than --restarts allows; this is the default. A
                     game with an unfit side is out, that is in no pair: it
                     refused the size, the komi or the handicap
  --abandoned out    a game with an abandoned or unfit side is out
  --abandoned half   such a game has no winner, and in a pair it is half a point
                     for each side, as with earlier versions
  --late half|out|loses
                     the same for a late side, which gave no answer in time;
                     twogtp has that abandoned, too [as --abandoned says]
"""
HELP: dict[str | None, str] = {
    None: "\n".join([HEAD, PLAN + PLAY + MORE_OF_PLAY + DRY_RUN + OPTION, FILES, STATUS]),
    "play": "\n".join(
        [
            """\
usage: tournament play FOLDER --engine NAME=CMD --engine NAME=CMD ..
           [--gauntlet NAME]
           [--seeds N] [--limit SECONDS] [--move-limit SECONDS]
           [--start-limit SECONDS] [--clock CLOCK] [--margin SECONDS]
           [--scorer CMD] [--openings FILE] [--shuffle-openings N] [--direct]
           [--jobs N] [--pin] [--again] [--task K/T] [--time-left TIME]
           [--dry-run] [--on-end CMD] [--on-failure CMD] [--page FILE]
           [--sprt ELO0 ELO1 [--between NAME NAME] [--alpha N] [--beta N]]
           [-- OPTION ..]
       tournament play FOLDER ..            if FOLDER has a plan
       tournament play FILE.toml ..         tournament plan --help has its keys

Plays all games of FOLDER that have no result, seed by seed; a damaged result
counts as none. The same command goes on where it was stopped. If FOLDER has a
plan, give engines, --gauntlet, --openings, --move-limit, --clock, --margin,
--direct and options all as in the plan, or give none of them. You can add
engines after the others. If the plan has more engines or seeds than the
command, the whole plan is played. New engines are added to a plan only if each
of them can be started on this machine. Each minute, and in a terminal each ten
seconds, a line on standard error shows the progress, and who leads.
""",
            PLAN + PLAY + MORE_OF_PLAY + DRY_RUN + OPTION,
            FILES,
            STATUS,
        ]
    ),
    "plan": "\n".join(
        [
            """\
usage: tournament plan FOLDER --engine NAME=CMD --engine NAME=CMD ..
           [--gauntlet NAME]
           [--seeds N] [--limit SECONDS] [--move-limit SECONDS]
           [--start-limit SECONDS] [--clock CLOCK] [--margin SECONDS]
           [--scorer CMD] [--openings FILE] [--shuffle-openings N] [--direct]
           [--dry-run] [-- OPTION ..]
       tournament plan FILE.toml ..

Makes FOLDER and FOLDER/plan, plays nothing, and tries no engine. The arguments
are those of tournament play. If FOLDER has a plan, you can give it more seeds,
more engines after the others, or another limit. FOLDER/plan is TOML; comments
that you write into it stay where it is changed.
""",
            PLAN + DRY_RUN + OPTION,
            KEYS,
            """\
status: 0  FOLDER/plan is as the arguments say
        1  FOLDER/plan can't be written
        2  usage error, or FOLDER/plan has other engines or options
""",
        ]
    ),
    "check": "\n".join(
        [
            """\
usage: tournament check FOLDER ..            has the options of tournament plan
       tournament check FILE.toml

Checks a plan before it is played, and changes nothing in FOLDER. Each engine is
started, set up as for a game and asked for a move, its name and its version.
Each two engines that play each other play a game of 20 moves behind the
opening. Then it is said how long all games without a result take, if they have
as many moves as the board has points, and how wide the interval of the
difference in Elo is in the end.
""",
            PLAN + PLAY + OPTION,
            """\
status: 0  all engines played
        1  a game has no result, or a side was unfit, abandoned or late
        2  usage error; nothing was played
        69  an engine can't be started on this machine
        130, 143  stopped by Ctrl-C; by TERM or HUP
""",
        ]
    ),
    "list": """\
usage: tournament list FOLDER [--all | --replaced]

Prints the names of the games that have no result, one in each line, in the
plan's order. A damaged result counts as none.

  --all       print the names of all games of FOLDER/plan
  --replaced  print the names of the games that have a result of an engine whose
              file was replaced later by another one. To play one again, remove
              its file in FOLDER/games

status: 0  the names are printed
        1  a directory can't be read, or nothing can be written
        2  usage error
        141  nobody reads what it prints
""",
    "game": "\n".join(
        [
            """\
usage: tournament game FOLDER GAME

Plays one game of FOLDER/plan, such as 1_one_two; %slot is 0. If the game has a
result, or another process is playing it, this command plays nothing and ends
with 0.
""",
            FILES,
            STATUS,
        ]
    ),
    "export": """\
usage: tournament export FOLDER --pgn | --csv | --jsonl | --sgf RECORDS
           [--abandoned half|out|loses] [--late half|out|loses]

Writes the results of FOLDER in the plan's order, for other programs.

  --pgn              write each game in PGN, without moves, for rating programs.
                     White's result is first; 1/2-1/2 is a drawn game, and * is
                     any other game without a winner
  --csv              write a table with a header, and a line for each game
  --jsonl            write a line of JSON for each game
  --sgf RECORDS      write an SGF file for each game, RECORDS/GAME.sgf, into a
                     new directory. The result 0 is a drawn game, and Void is
                     any other game without a winner
"""
    + LOSSES
    + """
The version of an engine is what it said in its last trial on the game's
machine. If the engine was replaced or tried again after the game, that can
differ from what played. The date is when the game began, in UTC, as its notes
have it; notes of earlier versions don't, and with --direct there are none.
twogtp's rules are Chinese: area scoring, simple ko, no suicide, and no points
for handicap stones. The move times of the notes are comments in SGF, with what
the clock had left as BL, OB, WL and OW.

status: 0  the games that have a result are written
        1  something can't be read or written; no file of --sgf is left
        2  usage error, or RECORDS isn't empty
        141  nobody reads what it prints
""",
    "verify": """\
usage: tournament verify FOLDER

Replays each game of FOLDER that has a result by gtp_engine, the one next to
these scripts or in PATH, and compares moves, score and winner with the line in
FOLDER/games: each move has to be legal under simple ko, two passes end the game
with the score of the board, and the side to move has resigned or forfeited.
Prints a line for each game in which something differs, or whose file is
damaged, and how many there are.

status: 0  no result differs, and none is damaged
        1  some do, or something can't be read or written
        2  usage error
        141  nobody reads what it prints
""",
    "score": """\
usage: tournament score FOLDER

Has the scorer of FOLDER/plan score the games that ended by two passes and that
it hasn't: those that were played before tournament play was given this
--scorer, those of which the scorer was stopped, and those at which it failed.
FOLDER/scores has a file for each game, with the dead stones and the verdict,
or why there is none.

status: 0  all of these games are scored
        1  the scorer failed, or nothing can be written
        2  usage error
        141  nobody reads what it prints
""",
    "page": """\
usage: tournament page FOLDER [-o FILE] [--without-moves]
           [--abandoned half|out|loses] [--late half|out|loses]
           [--no-winner half|out]
           [--sprt ELO0 ELO1 [--between NAME NAME] [--alpha N] [--beta N]]

Writes one HTML file that shows FOLDER in a browser, without a network or a
server: what failed and why, ranking, crosstable, scores over time, endings,
lengths and seconds, and all games with their boards. Its numbers are those of
tally with the same options. Without a script its tables can still be read.

  -o FILE            the file [FOLDER/page.html]
  --without-moves    leave the boards out, for very many games
"""
    + LOSSES
    + """\
  --no-winner half|out
  --sprt ELO0 ELO1   as for tally: see tally --help
"""
    + BETWEEN
    + """
status: 0  the page is written, and each game has a result
        1  some game has no result, or the page can't be written
        2  usage error
        141  nobody reads what it prints
""",
    "watch": """\
usage: tournament watch FOLDER [--port N] and the options of tournament page

Serves the page of FOLDER on http://127.0.0.1:N/, for browsers on this machine
alone, with small boards of the games in play. It is brought up to date while
games are played, until Ctrl-C. For a browser elsewhere use
ssh -L N:127.0.0.1:N.

  --port N           the port [the first from 8000 on that is free]

status: 2  usage error, or no port can be opened
""",
    "show": """\
usage: tournament show FILE [-o PAGE] [--size N] [--komi K] [--handicap N]
           [--ko simple|positional]

Writes a page that shows the games of FILE in a browser, as tournament page does
with those of a tournament. FILE is SGF, of which the main line is shown; what
twogtp --record writes, or a file in FOLDER/games; or GTP commands, such as a
block of gtp_check, with or without the replies.

  -o PAGE            the page [FILE.html]
  --size N, --komi K, --handicap N
                     of the games of twogtp, whose record doesn't have them, and
                     of commands without boardsize and komi [19, 6.5, 0]
  --ko RULE          which moves are marked as refused whose replies aren't
                     there: by simple or by positional ko [simple]

status: 0  the page is written
        1  FILE can't be read, or the page can't be written
        2  usage error, or FILE has no game
        141  nobody reads what it prints
""",
    "tally": """\
usage: tally FOLDER [--abandoned half|out|loses] [--late half|out|loses]
           [--no-winner half|out] [--json] [--by colour|opening|length|time]
           [--sprt ELO0 ELO1 [--between NAME NAME] [--alpha N] [--beta N]]
       tally --version

Counts the results of a directory that tournament made. With three engines or
more it rates them in Elo by maximum likelihood, from the mean of all, with 95 %
intervals that follow from whole pairs. Of each engine it says how often it was
to blame, and its crashes: how many of its starts ended because it crashed or
broke the protocol, those after which it was abandoned among them.

"""
    + LOSSES
    + """\
  --no-winner half   in a pair (the two games of two engines with one seed),
                     count a game without a winner that isn't out as half a
                     point; this is the default
  --no-winner out    leave out pairs with a game without a winner, unless that
                     game is drawn
  --sprt ELO0 ELO1   test whether the plan's first engine is stronger than its
                     second by ELO0 or by ELO1 Elo, and say which of the two is
                     accepted, at which pair, and which games have no result
                     after their try, whose pairs are left out. Both are from
                     -800 to 800, the lower one first
"""
    + BETWEEN
    + """\
  --by KIND          print the scores of games by colour, opening or length,
                     with intervals; those by opening or length are Black's. By
                     time, each engine has a line for its games in which its
                     moves took so many seconds on average; a game in which
                     none of its moves was timed is in no line
  --json             print JSON: scores are from 0 to 1, an infinite Elo is
                     null, and pairs that repeat each other count as one in
                     pairs_in_interval. It has scores by time with --by time

status: 0  each game of the plan has a result; with --sprt: ELO1 is accepted
        1  some game has no result, or its file is damaged
        2  usage error
        3  with --sprt: ELO0 is accepted
        4  with --sprt: more pairs are needed
        141  nobody reads what it prints
""",
}
