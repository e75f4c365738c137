#!/usr/bin/env bash
# Checks from the shell what only the built program shows: its words, its streams, its statuses and what it says on
# standard error. Prints a line for each case that differs, and how many cases held.
#
# usage: bench/shell.sh [PROGRAM]     PROGRAM: the program to check, in place of ./unifyfs
set -u

root=$(cd -P -- "$(dirname -- "${BASH_SOURCE[0]}")/.." >/dev/null && pwd) || exit 1
program=${1:-$root/unifyfs}
job=$root/jobs/first.job
usage='usage: unifyfs sim SEED | run | check NAME | load N | stage NAME'

work=$(mktemp -d) || exit 1
trap 'rm -rf -- "$work"' EXIT

held=0
failed=0

# Whether a case ended with this status, this text in $work/out and this one in $work/err.
expect() {
    local name=$1 got=$2 status=$3 out=$4 err=$5
    if [ "$got" -eq "$status" ] && cmp -s "$work/out" <(printf '%s' "$out") && cmp -s "$work/err" <(printf '%s' "$err"); then
        held=$((held + 1))
        return
    fi
    failed=$((failed + 1))
    printf '%s: status %s, wanted %s\n' "$name" "$got" "$status"
    sed 's/^/  out: /' "$work/out"
    sed 's/^/  err: /' "$work/err"
}

# Runs the program on standard input with these words, and checks its status, output and messages.
check() {
    local name=$1 status=$2 out=$3 err=$4
    shift 4
    : >"$work/out"
    "$program" "$@" >"$work/out" 2>"$work/err"
    expect "$name" $? "$status" "$out" "$err"
}

# Runs the program with file 5 as its standard output, which takes nothing, and checks its status and messages.
check_no_output() {
    local name=$1 status=$2 err=$3
    shift 3
    : >"$work/out"
    "$program" "$@" >&5 2>"$work/err"
    expect "$name" $? "$status" '' "$err"
}

report='L 2 ok v=1
L 3 ok slots=1
L 4 ok v=2
L 5 ok v=2 n=3 hex=656c6c
J /unifyfs/a 2 4
F /unifyfs/a n=5 frozen=0 md5=5d41402abc4b2a76b9719d911017c592
S 0 held=1 free=3 faults=0
end
'

# Builds the program where that is due, so that no case below has the messages of a build.
"$program" sim 0 <"$job" >"$work/out" || echo "shell.sh: the program did not run"

# Each job has beside it its report under seed 0.
for each in "$root"/jobs/*.job; do
    check "the job ${each##*/}" 0 "$(<"${each%.job}.report")"$'\n' '' sim 0 <"$each"
done
printf '%s' "$(<"$job")" >"$work/no_last_line_feed"
check 'a job' 0 "$report" '' sim 0 <"$job"
check 'a job without its last line feed' 0 "$report" '' sim 0 <"$work/no_last_line_feed"
check 'a job through a pipe' 0 "$report" '' sim 18446744073709551615 < <(cat "$job")

check 'an empty input' 2 $'refused header\n' '' sim 0 </dev/null
check 'an unknown word' 2 $'refused line=2 reason=op\n' '' sim 0 \
    < <(printf 'unifyfs 1 servers=1 clients=1 chunk=64 shmem=4 spill=0\n0 remove /unifyfs/a\n')
check 'an input that is too long' 2 $'refused long\n' '' sim 0 < <(head -c 4194305 /dev/zero)

check 'a folder as the input' 3 '' $'unifyfs: read fault\n' sim 0 <"$root"
check 'a closed input' 3 '' $'unifyfs: read fault\n' sim 0 <&-

exec 5>/dev/full
check_no_output 'a report and a full output' 4 $'unifyfs: write fault\n' sim 0 <"$job"
check_no_output 'a refusal and a full output' 4 $'unifyfs: write fault\n' sim 0 </dev/null
check_no_output 'no words and a full output' 4 $'unifyfs: write fault\n' </dev/null

# A pipe can be opened for writing only while it has a reader, which then goes away.
mkfifo "$work/pipe"
exec 3<>"$work/pipe"
exec 5>"$work/pipe"
exec 3>&-
check_no_output 'a report that nobody reads' 4 $'unifyfs: write fault\n' sim 0 <"$job"
exec 5>&-

# The script alone is larger than the memory. The wrapper's shell needs more than that, so the built program runs.
built=${1:-$root/crates/unifyfs/out/unifyfs}
head -c 4194304 /dev/zero >"$work/long"
(
    ulimit -v 5000
    exec "$built" sim 0 <"$work/long" >"$work/out" 2>"$work/err"
)
expect 'little memory' $? 6 '' $'unifyfs: out of memory\n'

check 'no words' 1 "$usage"$'\n' '' <"$job"
check 'sim' 1 "$usage"$'\n' '' sim <"$job"
check 'a third word' 1 "$usage"$'\n' '' sim 0 0 <"$job"
check 'a seed that begins with 0' 1 "$usage"$'\n' '' sim 01 <"$job"
check 'a seed below 0' 1 "$usage"$'\n' '' sim -1 <"$job"
check 'a seed of 2^64' 1 "$usage"$'\n' '' sim 18446744073709551616 <"$job"
check 'run' 1 "$usage"$'\n' '' run <"$job"
check '--help' 1 "$usage"$'\n' '' --help <"$job"
check 'a word that is no UTF-8' 1 "$usage"$'\n' '' sim $'\xff' <"$job"
check 'an empty word' 1 "$usage"$'\n' '' '' <"$job"

printf '%d held, %d failed\n' "$held" "$failed"
[ "$failed" -eq 0 ]
