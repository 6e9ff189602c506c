"""Engines that hang, that can only be killed, or that wait for a file before they begin."""
from __future__ import annotations

# It moves along an edge of 9x9. At its genmove of the first argument's number it hangs, or ends by
# the signal of the second argument.
HANGS = """\
#!/bin/bash
letters=ABCDEFGHJ count=0
while read -r number command colour _; do
    vertex=
    if [ "$command" = genmove ]; then
        count=$((count + 1))
        [ "$count" != "$1" ] || { [ -n "$2" ] && kill "-$2" $$ || exec sleep 1000; }
        vertex=" ${letters:count-1:1}$([ "$colour" = b ] && echo 1 || echo 9)"
    fi
    printf '=%s%s\\n\\n' "$number" "$vertex"
    [ "$command" != quit ] || exit
done
"""

# It ignores TERM and INT, never answers, and reads no end of its input; nor does what it starts.
STUBBORN = """\
#!/bin/bash
trap '' TERM INT
while :; do sleep 0.5; done &
while :; do sleep 0.5; done
"""

# gtp_engine with the seed $2$1, which waits for a file `go` in games whose seed is $3 or more.
WAITS = """\
#!/bin/bash
if [ "$1" -ge "$3" ]; then
    until [ -e go ]; do sleep 0.05; done
fi
exec gtp_engine --policy random --seed "$2$1"
"""
