#!/usr/bin/env bash
# Surveys any number of inputs, in calls of `scale survey` of at most 64, as many side by side as wanted, and prints their totals.
#
#     many_surveys.sh [-j JOBS] IMAGE SCALED MACHINE LOOPS < INPUTS
#
# INPUTS has the name of an input in each line. JOBS is how many calls run at once: by default as many as there are processors.
# With PARALLEL_HOSTS="--sshlogin one,two" GNU parallel runs them on these machines, JOBS on each; there the repository with the built
# program, and the files, have to be in the same folders as here.
#
# It prints the lines of a survey after those of its inputs: the most of each loop is the greatest of all calls, every other number is the
# sum. The status is 0, or that of the first call that failed, whose text is then all that is printed. SCALE names another `scale` to call.
set -u
jobs=$(nproc)
if [ "${1:-}" = -j ] && [ $# -gt 1 ]; then
    jobs=$2
    shift 2
fi
if [ $# -ne 4 ]; then
    echo "many_surveys.sh [-j JOBS] IMAGE SCALED MACHINE LOOPS < INPUTS" >&2
    exit 2
fi
scale=${SCALE:-$(dirname "$(dirname "$(readlink -f "$0")")")/scale}
parts=$(mktemp -d)
trap 'rm -rf "$parts"' EXIT

# What all calls print goes to a file; the status is that of the first one that failed, whose text alone is then in the file.
on_machines() {
    parallel -q -j "$jobs" $PARALLEL_HOSTS --workdir "$PWD" --halt now,fail=1 -k -N 64 "$scale" survey "$@" {} > "$parts/text"
    local status=$?
    if [ "$status" -ne 0 ]; then
        sed -n '/^refused /p' "$parts/text"
        exit "$status"
    fi
}

here() {
    split -l 64 -a 6 - "$parts/inputs-"
    one() {
        mapfile -t names < "$1"
        "${@:2}" "${names[@]}" > "$1.text" || echo $? > "$1.failed"
    }
    export -f one
    find "$parts" -name 'inputs-*' -print0 | sort -z | xargs -0 -P "$jobs" -I {} bash -c 'one "$@"' one {} "$scale" survey "$@"
    local failed
    for failed in "$parts"/*.failed; do
        if [ -f "$failed" ]; then
            cat "${failed%.failed}.text"
            exit "$(cat "$failed")"
        fi
    done
    find "$parts" -name '*.text' -print0 | sort -z | xargs -0 -r cat > "$parts/text"
}

if [ -n "${PARALLEL_HOSTS:-}" ]; then
    on_machines "$@"
else
    here "$@"
fi
# Sums stay exact up to 2^53.
awk '
    $1 == "input" { next }
    { value = $NF; name = $0; sub(/ [0-9]+$/, "", name) }
    !(name in total) { order[++count] = name; total[name] = 0 }
    $1 != "loop" { total[name] += value }
    $1 == "loop" && value + 0 > total[name] { total[name] = value + 0 }
    END { for (k = 1; k <= count; k++) printf "%s %.0f\n", order[k], total[order[k]] }' "$parts/text"
