#!/bin/bash
#SBATCH --job-name=tournament
#SBATCH --cpus-per-task=1
#SBATCH --time=04:00:00
#SBATCH --output=tournament.%A.log
#SBATCH --open-mode=append
#SBATCH --requeue
# Plays a tournament as a Slurm array: each of TASKS tasks plays its share of the games of FOLDER. All nodes have to see FOLDER and the
# programs.
#
#   tournament plan FOLDER --engine .. --engine .. --limit 600
#   sbatch --array=1-99 tournament.sbatch FOLDER 99
#
# Task 3 of 99 plays the games 3, 102, 201 and so on, as many at once as --cpus-per-task says. TASKS should have no common factor with the
# number of games of a seed, which is two for every two engines: take a prime number above the number of engines. To go on, submit the array
# again with the same TASKS, or a part of the array: --array=3,7. After TASKS there may be options of tournament play, such as --again; for
# --sprt take no more TASKS than run at once. A task begins no game that doesn't fit into the time that the task has left, so --time has to be
# more than the limit of a game. If `tournament` isn't in PATH, set TOURNAMENT to its path, and TWOGTP to the path of twogtp.
#
# On a node where an engine can't be started, a task excludes this node and is queued again; Slurm starts it after two minutes. At its third
# such node, or where no other node is left, it ends with 69. squeue --format '%i %k' shows these nodes. If a node dies, Slurm gives its tasks
# to other nodes after some nine minutes. The number of the last task has to be below MaxArraySize, which is 1001 by default.
MOST_NODES=3
NO_START=69

# say TEXT: writes a message
say() {
    echo "tournament.sbatch: $1" >&2
}

# run COMMAND ..: returns the status of a command, to which signals are passed on
run() {
    local status
    "$@" &
    trap 'kill "$!" 2> /dev/null' HUP INT TERM
    while
        wait "$!"
        status=$?
        kill -0 "$!" 2> /dev/null
    do :; done
    return "$status"
}

# move: has the task queued again without this node, unless this is the third one where it can't start an engine. The nodes are kept in the
# task's comment, first of all, so that it moves no more often whatever happens. Slurm sends TERM to all processes of such a task.
move() {
    local excluded comment mark='no engine on ' nodes=()
    trap '' HUP INT TERM
    IFS='|' read -r excluded comment < <(squeue --noheader --jobs "$task" --format '%x|%k') || return
    case $comment in
        *"$mark"*)
            IFS=, read -ra nodes <<< "${comment##*"$mark"}"
            comment=${comment%"$mark"*}
            ;;
        '(null)') comment='' ;;
        *) comment+='; ' ;;
    esac
    nodes+=("$SLURMD_NODENAME")
    excluded+=${excluded:+,}$SLURMD_NODENAME
    if [ "${#nodes[@]}" -ge "$MOST_NODES" ]; then
        say "task $task can't start an engine on ${nodes[*]}, and ends"
    elif ! others "$excluded"; then
        say "task $task can't start an engine on ${nodes[*]}, and ends, since no other node is left"
    elif scontrol update "JobId=$task" "Comment=$comment$mark$(IFS=, && echo "${nodes[*]}")" && scontrol requeue "$task"; then
        say "task $task can't start an engine on $SLURMD_NODENAME, and goes to another node"
        scontrol update "JobId=$task" "ExcNodeList=$excluded"
    fi
}

# others NODES: tells whether there are nodes besides these
others() {
    sinfo --noheader --Node --partition "$SLURM_JOB_PARTITION" --format %N | grep -qvxFf <(scontrol show hostnames "$1")
}

if [ $# -lt 2 ] || [ -z "${SLURM_ARRAY_TASK_ID:-}" ]; then
    {
        [ $# -ge 2 ] && echo 'tournament.sbatch: SLURM_ARRAY_TASK_ID is not set: submit it by sbatch, as an array' \
            || echo 'tournament.sbatch: give FOLDER and the number of TASKS'
        echo 'usage: sbatch --array=1-TASKS tournament.sbatch FOLDER TASKS [OPTION ..]'
    } >&2
    exit 2
fi
# The id of the array's last task is that of the array, for which squeue lists all tasks. So ask for the task by its name.
task=${SLURM_ARRAY_JOB_ID:-}_$SLURM_ARRAY_TASK_ID
folder=$1 words=(--task "$SLURM_ARRAY_TASK_ID/$2" --jobs "${SLURM_CPUS_PER_TASK:-1}")
if read -r left < <(squeue --noheader --jobs "$task" --Format TimeLeft) && [ -n "$left" ]; then
    words+=(--time-left "$left")
else
    say "squeue doesn't say how much time is left, so a game may be cut off"
fi
shift 2
run "${TOURNAMENT:-tournament}" play "$folder" "${words[@]}" "$@"
status=$?
[ "$status" -ne "$NO_START" ] || move
exit "$status"
