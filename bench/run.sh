#!/bin/sh
# Runs one benchmark beside its peer, and leaves what it prints in bench/results/NAME.txt.
#
# usage: sh bench/run.sh NAME [ARGUMENT..]    NAME is a directory of bench/, such as board
#
# bench/NAME/main.txt is a program in Rattle (no .rt file, since rt ci takes each for a crate's), and bench/NAME/needs names the libraries
# that it needs. It is proved like any other program, but in a copy of the repository's crates, so that rt ci needn't run it. Then come
# the limit bench/NAME/limit.rs and the program bench/NAME/run, which gets the arguments, where they are there.
set -eu
top=$(cd "$(dirname "$0")/.." && pwd)
name=${1:-}
results=$top/bench/results/$name.txt

# peers: of each benchmark what it is compared with, and the limit that the ratio has to keep
peers() {
    cat << 'ROWS'
commands: copy.c, which only copies its input, and GNU Go: at most 1.3 times the time of copy.c; at most a fifth of GNU Go's
board: limit.rs, a board written only for speed: at most 1.5 times its time
match: limit.c, which checks nothing, and GNU Go's scripts: at most 15 microseconds a move in memory; at most 1.3 times the limit's time
check: limit.c, which sends the same commands and judges nothing: at most 1.3 times its time
playouts: by_hand.h, a board in C without the library: at least 1.2 times its speed with -O2, and 1.0 times with -O3
learning: single calls from Python: at least 10 times their speed
tournament: twogtp alone, and engines alone: none
page: a loop of Python: 3 MB and 8 s for 10,000 games with moves; 20 MB and 40 s for 100,000 without, where 20 million turns take 1.5 s; 2 s until a browser shows them
ROWS
}

# about ARGUMENT..: the head of the results
about() {
    echo "# sh bench/run.sh $*"
    peers | sed -n "s/^$name: \(.*\): \(.*\)$/# peer: \1\n# limit: \2/p"
    echo "# $(date -u +%Y-%m-%d), commit $(git -C "$top" describe --always --dirty), $(nproc) processors" \
        "($(sed -n 's/^model name.*: //p' /proc/cpuinfo | head -n 1)), load $(cut -d ' ' -f 1 /proc/loadavg)"
    echo
}

# in_rattle: the program in Rattle, and its limit
in_rattle() {
    if ! command -v rt > /dev/null; then
        echo "left out: bench/$name/main.txt, since there is no Rattle kit (rt)"
        [ -x "$top/bench/$name/run" ]
        return
    fi
    cp -R "$top/crates" "$top/crates.txt" "$top/HANDLES" "$copy/"
    mkdir -p "$copy/crates/bench_$name/src"
    cp "$top/bench/$name/main.txt" "$copy/crates/bench_$name/src/main.rt"
    printf '\nbench_%s: %s\n' "$name" "$(cat "$top/bench/$name/needs")" >> "$copy/crates.txt"
    (cd "$copy/crates/bench_$name" && rt run) || return
    [ -f "$top/bench/$name/limit.rs" ] || return 0
    echo "the limit:"
    rustc -C opt-level=3 -o "$copy/limit" "$top/bench/$name/limit.rs" && "$copy/limit"
}

# measure ARGUMENT..: all of the benchmark
measure() {
    if [ -f "$top/bench/$name/main.txt" ]; then in_rattle || return; fi
    if [ -x "$top/bench/$name/run" ]; then "$top/bench/$name/run" "$@"; fi
}

if [ -z "$name" ] || ! peers | grep -q "^$name: "; then
    echo "bench: there is no benchmark '$name': name one of $(peers | sed 's/:.*//' | xargs)" >&2
    sed -n '4s/^# //p' "$0" >&2
    exit 2
fi
copy=$(mktemp -d)
trap 'rm -rf "$copy"' EXIT
about "$@" > "$copy/results"
cat "$copy/results"
shift
# a pipe has no status of what is before it
{ measure "$@" || touch "$copy/failed"; } | tee -a "$copy/results"
[ ! -e "$copy/failed" ] || { echo "bench: it failed, and bench/results/$name.txt stays as it was" >&2 && exit 1; }
mkdir -p "$top/bench/results"
cp "$copy/results" "$results"
