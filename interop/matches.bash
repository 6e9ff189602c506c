# Matches of twogtp between our engine, GNU Go and Leela Zero. `interop/run` reads this file.
#
# Between our engine, GNU Go 3.8 and Leela Zero 0.17, on 9x9 and 19x19, each on either side, also with handicap. Of each match it
# checks:
#
# - it ends with status 0 and a line with a score and no restart (or with limit, where there is one);
# - our engine, GNU Go and on 19x19 Leela Zero take each move of its record;
# - GNU Go then has the same stones on the board and the same captures as the board of --show;
# - each of them gives the position the score of the line; with handicap, GNU Go and Leela Zero give White a point more for each
#   stone.
#
# What can't be played has its line and status.
#
# Then engines are killed: GNU Go on one side or both, twice each, by kill -9 after a random number of commands. But for the
# restarts the line, the record and the board have to stay the same, and no engine may be left. Leela Zero plays otherwise after
# a restart, so there all three engines check the record.

# play BLACK WHITE ARGUMENT..: one run of twogtp, with the size, komi and handicap of that moment. Sets `status`, and of the
# last game `line`, `verdict`, `record` and `board`.
play() {
    number=$((number + 1))
    name=$(printf 'match%02d' "$number")
    timeout 600 ./twogtp --black "$1" --white "$2" --size "$size" --komi "$komi" --handicap "$handicap" \
        --record --show "${@:3}" > "$name.out" 2> "$name.err"
    status=$?
    line=$(grep '^game ' "$name.out" | tail -n 1)
    verdict=${line#game *: }
    verdict=${verdict% moves *}
    record=$(grep -A 1 '^game ' "$name.out" | tail -n 1)
    board=$(tac "$name.out" | sed -n '2,/^game /p' | head -n -2 | tac)
}

# played_again ENGINE..: sends an engine the last match, asks for the position and last for what `asked` names, and prints what it says
# in one line: how many commands it refused, then black stones, white stones, stones that Black took and that White took, and
# the last answer. What the engine doesn't know of these is `-`.
played_again() {
    local colour=b vertex question
    [ "$handicap" = 0 ] || colour=w
    {
        printf 'boardsize %s\nkomi %s\nclear_board\n' "$size" "$komi"
        [ "$handicap" = 0 ] || echo "fixed_handicap $handicap"
        for vertex in $record; do
            echo "play $colour $vertex"
            if [ "$colour" = b ]; then colour=w; else colour=b; fi
        done
        for question in 'list_stones black' 'list_stones white' 'captures black' 'captures white' "$asked"; do
            echo "$question"
        done
    } | "$@" 2> /dev/null | awk '
        BEGIN { RS = "" }
        { reply[NR] = $0 }
        END {
            for (k = 1; k <= NR - 5; k++) refused += reply[k] ~ /^\?/
            said = refused + 0
            for (k = NR - 4; k <= NR; k++) said = said ":" (sub(/^= */, "", reply[k]) ? reply[k] : "-")
            print said
        }' | while IFS=: read -r refused black white taken lost score; do
            echo "$refused $(sorted "$black") $(sorted "$white") $taken $lost $score"
        done
}

# sorted VERTICES: the vertices in order, joined by commas.
sorted() {
    echo "$1" | tr ' ' '\n' | sort | paste -s -d ,
}

# shown: the position of the last match as twogtp wrote it with --show, in the form of `played_again`, without refusals and score.
shown() {
    local black white
    black=$(echo "$board" | stones X)
    white=$(echo "$board" | stones O)
    echo "$(sorted "$black") $(sorted "$white") $(echo "$board" | awk '/^captures/ { print $3, $5 }')"
}

# stones MARK: the points of a board on standard input that have this mark.
stones() {
    awk -v mark="$1" '!/^captures/ && $NF ~ /^[0-9]+$/ {
        for (k = 1; k < NF; k++) if ($k == mark) print substr("ABCDEFGHJKLMNOPQRSTUVWXYZ", k, 1) $NF
    }' | xargs
}

# credited SCORE STONES: the score with STONES points more for White.
credited() {
    echo "$1" | awk -v stones="$2" '{
        lead = ($1 ~ /^B/ ? 1 : -1) * substr($1, 3) - stones
        print (lead > 0 ? "B+" lead : "W+" (-lead))
    }'
}

# referees TITLE: the last match, played again by each engine that is here. Where there was a score, each has to say it too.
referees() {
    local scored=1 asked=final_score said wanted=$verdict words
    [[ $verdict =~ ^[BW]\+[0-9] ]] || { scored='' asked=protocol_version; }
    said=$(played_again ./gtp_engine)
    check "$1: played again by our engine, no move is refused${scored:+, and its score is ${said##* }}" \
        "${said%% *} ${scored:+${said##* }}" "0 ${scored:+$verdict}"
    [ -z "$scored" ] || wanted=$(credited "$verdict" "$handicap")
    if [ -x gnugo ]; then
        said=$(played_again ./gnugo --mode gtp --level 1 --chinese-rules --capture-all-dead)
        check "$1: played again by GNU Go, no move is refused, and it has the stones and captures of --show" "${said% *}" "0 $(shown)"
        [ -z "$scored" ] || check "$1: GNU Go's score is ${said##* }" "${said##* }" "$wanted"
    fi
    if [ -x leelaz ] && [ "$size" = 19 ]; then
        read -ra words <<< "$leela"
        said=$(played_again "${words[@]}")
        check "$1: played again by Leela Zero, no move is refused${scored:+, and its score is ${said##* }}" \
            "${said%% *} ${scored:+${said##* }}" "0 ${scored:+$wanted}"
    fi
}

# fair TITLE BLACK WHITE ARGUMENT..: plays a match that has to end with a score, or at the limit where there is one.
fair() {
    local verdicts='[BW]\+[0-9]+(\.5)?'
    [[ " $* " != *' --max-moves '* ]] || verdicts=limit
    play "${@:2}"
    check "$1: $line" "$status $(echo "$line" | grep -cE "^game 1: $verdicts moves [0-9]+ restarts 0 0$")" "0 1"
    referees "$1"
}

# ends TITLE LINE STATUS BLACK WHITE ARGUMENT..: plays a match of which the line and the status are known.
ends() {
    play "${@:4}"
    check "$1: $line, status $status" "$line, $status" "$2, $3"
}

# drawn MOST: draws a number from 1 to this one, into `count`. The numbers are the same in each run.
drawn() {
    state=$((state * 16807 % 2147483647))
    count=$((state % $1 + 1))
}

# alive FILE..: how many of the processes whose ids these files have still run.
alive() {
    local file count=0
    for file in "$@"; do
        [ ! -f "$file" ] || [ ! -d "/proc/$(cat "$file")" ] || count=$((count + 1))
    done
    echo "$count"
}

# killing TITLE SIDES BLACK WHITE ARGUMENT..: plays a match once in peace and once while the engines of SIDES (`black`, `white`
# or both words) are killed twice each from outside, when they have been sent drawn numbers of commands. The engines of these
# sides are started by `marked` or `tap`, with the side's own name as LOG. Sets `before` to the line in peace.
killing() {
    local title=$1 sides=$2 side moves restarts='' restarted counts killers=''
    shift 2
    rm -f black.* white.*
    play "$@"
    before=$line record_before=$record board_before=$board
    check "$title, in peace: $line" "$status ${line##* restarts }" "0 0 0"
    moves=${line##* moves }
    moves=${moves%% *}
    rm -f black.* white.*
    for side in black white; do
        restarted=0
        if [[ " $sides " = *" $side "* ]]; then
            restarted=2
            drawn $((moves / 2)); counts=$count
            drawn $((moves / 2)); counts="$counts $count"
            # shellcheck disable=SC2086
            ./kill_at "$side" "$victim" $counts > "killed$number.$side" &
            killers="$killers $!"
            title="$title, ${side^} killed after $counts commands"
        fi
        restarts="$restarts $restarted"
    done
    play "$@"
    # shellcheck disable=SC2086
    kill $killers 2> /dev/null
    wait
    check "$title: restarts$restarts" "$status ${line##* restarts}" "0 $restarts"
    check "$title: no engine is left" "$(alive black.*.process white.*.process 2> /dev/null)" 0
}

# undisturbed TITLE: the last match of `killing` has the verdict, the moves, the record and the board of the one in peace.
undisturbed() {
    check "$1: the line is the same but for the restarts: ${line% restarts*}" "${line% restarts*}" "${before% restarts*}"
    check "$1: the record and the board are the same" "$record/$board" "$record_before/$board_before"
}

# by_twogtp: plays and checks all matches of this file.
by_twogtp() {
    local first='./gtp_engine --policy first' random='./gtp_engine --policy random --seed'
    local peer='./gnugo --mode gtp --level 1 --chinese-rules --play-out-aftermath --capture-all-dead --never-resign --seed'
    local quick='./gnugo --mode gtp --level 0 --chinese-rules --seed'
    leela='./leelaz --gtp --quiet --cpu-only --weights weights --noponder --threads 1 --visits 2 --resignpct 0 --seed 1'
    number=0 state=12 komi=7.5 handicap=0
    small
    large
    [ ! -x gnugo ] || killings
}

# small: matches on 9x9, and what no engine can be brought to.
small() {
    local size=9
    fair '9x9, Random - Random' "$random 1" "$random 101"
    komi=0.5 handicap=4 fair '9x9, Random - First, handicap 4' "$random 2" "$first"
    if [ -x gnugo ]; then
        fair '9x9, Random - GNU Go' "$random 4" "$peer 1"
        fair '9x9, GNU Go - First' "$peer 1" "$first"
        fair '9x9, GNU Go - GNU Go' "$peer 1" "$peer 101"
        komi=0.5 handicap=3 fair '9x9, Random - GNU Go, handicap 3' "$random 4" "$peer 1"
        komi=0.5 handicap=5 fair '9x9, GNU Go - Random, handicap 5' "$peer 1" "$random 4"
        size=20 ends '20x20, First - GNU Go' 'game 1: unfit white moves 0 restarts 0 0' 1 "$first" "$quick 1"
        size=12 handicap=2 ends '12x12, GNU Go - First, handicap 2' \
            'game 1: unfit black moves 0 restarts 0 0' 1 "$quick 1" "$first"
        ends '9x9, GNU Go without --mode gtp - First' 'game 1: abandoned black moves 0 restarts 2 0' 1 ./gnugo "$first"
    fi
    if [ -x leelaz ]; then
        ends '9x9, Leela Zero - First' 'game 1: unfit black moves 0 restarts 0 0' 1 "$leela" "$first"
        ends '9x9, First - Leela Zero' 'game 1: unfit white moves 0 restarts 0 0' 1 "$first" "$leela"
    fi
}

# large: matches on 19x19.
large() {
    local size=19
    if [ -x leelaz ]; then
        fair '19x19, Leela Zero - Random' "$leela" "$random 1"
        fair '19x19, Random - Leela Zero' "$random 2" "$leela"
        komi=0.5 handicap=9 fair '19x19, Leela Zero - Random, handicap 9' "$leela" "$random 3"
        komi=0.5 handicap=2 fair '19x19, Random - Leela Zero, handicap 2' "$random 4" "$leela"
    fi
    if [ -x gnugo ]; then
        fair '19x19, First - GNU Go' "$first" "${peer/level 1/level 0} 1"
        komi=0.5 handicap=6 fair '19x19, GNU Go - Random, handicap 6, 100 moves' "$quick 1" "$random 1" --max-moves 100
    fi
    if [ -x gnugo ] && [ -x leelaz ]; then
        fair '19x19, GNU Go - Leela Zero, 100 moves' "$quick 1" "$leela" --max-moves 100
        komi=0.5 handicap=4 fair '19x19, Leela Zero - GNU Go, handicap 4, 100 moves' "$leela" "$quick 1" --max-moves 100
    fi
}

# killings: matches in which the engines are killed from outside.
killings() {
    local size=9 seed title marked=${peer% --seed}
    victim=gnugo
    for seed in 1 2 3; do
        title="9x9, GNU Go $seed - GNU Go $((seed + 100))"
        killing "$title" 'black white' "./marked black $marked --seed $seed --gtp-dump-commands" \
            "./marked white $marked --seed $((seed + 100)) --gtp-dump-commands"
        undisturbed "$title"
    done
    title='9x9, Random - GNU Go, handicap 3'
    komi=0.5 handicap=3 killing "$title" white "$random 4" "./marked white $marked --seed 1 --gtp-dump-commands"
    undisturbed "$title"
    title='19x19, GNU Go - Random, 60 moves'
    size=19 killing "$title" black "./marked black ${marked/level 1/level 0} --seed 1 --gtp-dump-commands" "$random 5" \
        --max-moves 60
    undisturbed "$title"
    if [ -x leelaz ]; then
        victim=leelaz size=19
        killing '19x19, Random - Leela Zero' white "$random 6" "./tap white $leela"
        referees '19x19, Random - Leela Zero, White killed'
    fi
}
