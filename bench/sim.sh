#!/usr/bin/env bash
# Times `sim 0` on jobs of growing sizes, and prints for each how many microseconds and how many read
# bytes come to a line, how the time of a line grew from the size before it, and how many MiB of memory
# the program had at most. A growth of 1.00 is in proportion to the job. The memory is measured by the
# command /usr/bin/time of GNU; where that isn't there, none is printed. Then it times reads of a file
# of few fragments and of one of many, and reads with a client's own pending writes of few fragments
# and of many. It fails where a line's time grows by more than 1.3 from a job's
# first size to its second, where a read of the file of many fragments takes more than 3 times as long
# as of the other, or where the program has more than 64 MiB, or 32 for the largest log.
#
# usage: bench/sim.sh [PROGRAM]     PROGRAM: the program to time, in place of the one built here
set -eu

root=$(cd -P -- "$(dirname -- "${BASH_SOURCE[0]}")/.." >/dev/null && pwd)
# Each job is run so often, and its shortest time counts.
rounds=5

if [ $# -gt 0 ]; then
    program=$1
else
    # Builds the program where that is due.
    "$root/unifyfs" sim 0 <"$root/jobs/first.job" >/dev/null
    program=$root/crates/unifyfs/out/unifyfs
fi

work=$(mktemp -d)
trap 'rm -rf -- "$work"' EXIT

# A job of one client and so many lines over eight paths. After the creates come rounds of nine lines
# on one path after another: six writes of 64 bytes, each where the one before it ended, two reads of
# the last 4 KiB that were committed, and a sync.
one_client() {
    awk -v lines="$1" 'BEGIN {
        paths = 8
        print "unifyfs 1 servers=1 clients=1 chunk=4096 shmem=65536 spill=0"
        n = 1
        for (p = 0; p < paths && n < lines; p++) {
            printf "0 create /unifyfs/bench/%d\n", p
            n++
        }
        for (i = 0; n < lines; i++) {
            p = int(i / 9) % paths
            k = i % 9
            if (k == 8) {
                printf "0 sync /unifyfs/bench/%d\n", p
                committed[p] = end[p]
            } else if (k % 4 == 3) {
                printf "0 read /unifyfs/bench/%d %d 4096\n", p, (committed[p] > 4096 ? committed[p] - 4096 : 0)
            } else {
                printf "0 write /unifyfs/bench/%d %d t:%064d\n", p, end[p], n
                end[p] += 64
            }
            n++
        }
    }'
}

# A job of 64 clients over 16 servers, of so many lines over 512 paths, eight for each client. In the
# first phase each client creates its paths. In each later one it writes 512 bytes to the end of one of
# them and syncs it, then opens a path of the next client, asks for its size, and reads the last 512
# bytes that were committed to it in earlier phases.
phases() {
    awk -v lines="$1" 'BEGIN {
        clients = 64
        each = 8
        print "unifyfs 1 servers=16 clients=64 chunk=1024 shmem=1024 spill=0"
        n = 1
        for (r = 0; r < clients; r++) {
            for (k = 0; k < each; k++) {
                printf "%d create /unifyfs/bench/%d/%d\n", r, r, k
                n++
            }
        }
        for (round = 0; n < lines; round++) {
            print "barrier"
            n++
            k = round % each
            for (r = 0; r < clients && n < lines; r++) {
                q = (r + 1) % clients
                from = committed[k] > 512 ? committed[k] - 512 : 0
                for (step = 0; step < 5 && n < lines; step++) {
                    if (step == 0) printf "%d write /unifyfs/bench/%d/%d %d p:%d:512\n", r, r, k, committed[k], n
                    if (step == 1) printf "%d sync /unifyfs/bench/%d/%d\n", r, r, k
                    if (step == 2) printf "%d open /unifyfs/bench/%d/%d\n", r, q, k
                    if (step == 3) printf "%d size /unifyfs/bench/%d/%d\n", r, q, k
                    if (step == 4) printf "%d read /unifyfs/bench/%d/%d %d 512\n", r, q, k, from
                    n++
                }
            }
            committed[k] += 512
        }
    }'
}

# A job of one client with a log of 64 slots, of so many lines over four small files of twelve slots
# each. In every thirteen lines there are twelve writes of one slot each, over what was written before,
# and a sync; so each slot is taken again and again.
reuse() {
    awk -v lines="$1" 'BEGIN {
        paths = 4
        print "unifyfs 1 servers=1 clients=1 chunk=64 shmem=64 spill=0"
        n = 1
        for (p = 0; p < paths; p++) {
            printf "0 create /unifyfs/bench/%d\n", p
            n++
        }
        for (i = 0; n < lines; i++) {
            p = int(i / 13) % paths
            k = i % 13
            if (k == 12) printf "0 sync /unifyfs/bench/%d\n", p
            else printf "0 write /unifyfs/bench/%d %d p:%d:64\n", p, 64 * k, n
            n++
        }
    }'
}

# A job of one client, of so many lines over two files of 256 slots each, which it writes slot by slot
# first. In every three lines after that it writes one slot of a file again, syncs, and reads 256 bytes.
pieces() {
    awk -v lines="$1" 'BEGIN {
        paths = 2
        slots = 256
        print "unifyfs 1 servers=1 clients=1 chunk=64 shmem=1024 spill=0"
        n = 1
        for (p = 0; p < paths; p++) {
            printf "0 create /unifyfs/bench/%d\n", p
            for (k = 0; k < slots; k++) printf "0 write /unifyfs/bench/%d %d p:%d:64\n", p, 64 * k, k
            printf "0 sync /unifyfs/bench/%d\n", p
            n += slots + 2
        }
        for (i = 0; n < lines; i++) {
            p = int(i / 3) % paths
            k = (37 * int(i / 3)) % slots
            if (i % 3 == 0) printf "0 write /unifyfs/bench/%d %d p:%d:64\n", p, 64 * k, n
            if (i % 3 == 1) printf "0 sync /unifyfs/bench/%d\n", p
            if (i % 3 == 2) printf "0 read /unifyfs/bench/%d %d 256\n", p, 64 * ((k + 128) % (slots - 4))
            n++
        }
    }'
}

# A job of eight clients over four servers, of about so many lines over eight files, one for each
# client. In each round each client writes up to 9,000 bytes to its file and syncs it, and after a
# barrier it opens the file of the next client and reads it whole. At the end each file is frozen.
load() {
    awk -v lines="$1" 'BEGIN {
        clients = 8
        rounds = int((lines - 18) / 34)
        print "unifyfs 1 servers=4 clients=8 chunk=4096 shmem=256 spill=0"
        for (r = 0; r < clients; r++) printf "%d create /unifyfs/f%d\n", r, r
        print "barrier"
        for (k = 1; k <= rounds; k++) {
            for (r = 0; r < clients; r++) {
                printf "%d write /unifyfs/f%d %d p:%d:%d\n", r, r, 1000 * (k % 16), k, 1 + (37 * k + 11 * r) % 9000
                printf "%d sync /unifyfs/f%d\n", r, r
            }
            print "barrier"
            for (r = 0; r < clients; r++) {
                printf "%d open /unifyfs/f%d\n", r, (r + 1) % clients
                printf "%d read /unifyfs/f%d 0 16384\n", r, (r + 1) % clients
            }
            print "barrier"
        }
        for (r = 0; r < clients; r++) printf "%d laminate /unifyfs/f%d\n", r, r
    }'
}

# A job of one client with a file of so many fragments of 64 bytes, each 64 bytes behind the one before
# it, and with so many reads, of one fragment each.
reads() {
    awk -v fragments="$1" -v reads="$2" 'BEGIN {
        print "unifyfs 1 servers=1 clients=1 chunk=64 shmem=16384 spill=0"
        print "0 create /unifyfs/bench"
        for (k = 0; k < fragments; k++) printf "0 write /unifyfs/bench %d p:%d:64\n", 128 * k, k
        print "0 sync /unifyfs/bench"
        for (i = 0; i < reads; i++) printf "0 read /unifyfs/bench %d 64\n", 128 * ((37 * i) % fragments)
    }'
}

# A job of one client with a file of so many fragments of 64 bytes, each 64 bytes behind the one before
# it, with as many pending writes of 32 bytes, one into the middle of each fragment, and with so many
# reads of all of it that show these.
own_reads() {
    awk -v fragments="$1" -v reads="$2" 'BEGIN {
        print "unifyfs 1 servers=1 clients=1 chunk=64 shmem=32768 spill=0"
        print "0 create /unifyfs/bench"
        for (k = 0; k < fragments; k++) printf "0 write /unifyfs/bench %d p:%d:64\n", 128 * k, k
        print "0 sync /unifyfs/bench"
        for (k = 0; k < fragments; k++) printf "0 write /unifyfs/bench %d p:%d:32\n", 128 * k + 16, k
        for (i = 0; i < reads; i++) printf "0 readown /unifyfs/bench 0 %d\n", 128 * fragments
    }'
}

# A job of five lines with the largest log that a header allows, and three small writes.
largest_log() {
    echo 'unifyfs 1 servers=1 clients=1 chunk=4096 shmem=65536 spill=0'
    echo '0 create /unifyfs/bench'
    echo '0 write /unifyfs/bench 0 p:1:100'
    echo '0 write /unifyfs/bench 100 p:2:100'
    echo '0 write /unifyfs/bench 200 p:3:100'
    echo '0 sync /unifyfs/bench'
}

now() {
    local t=${EPOCHREALTIME/[.,]/}
    printf '%s' "$t"
}

# Microseconds of the shortest of several runs.
shortest() {
    local best= begun ended round
    for ((round = 0; round < rounds; round++)); do
        begun=$(now)
        "$program" sim 0 <"$1" >"$work/report"
        ended=$(now)
        if [ -z "$best" ] || [ $((ended - begun)) -lt "$best" ]; then
            best=$((ended - begun))
        fi
    done
    printf '%s' "$best"
}

# The MiB of memory that the program had at most.
peak() {
    if [ ! -x /usr/bin/time ]; then
        printf -- '-'
        return
    fi
    if ! /usr/bin/time -q -f %M -o "$work/peak" "$program" sim 0 <"$1" >"$work/report"; then
        echo "sim.sh: the program failed" >&2
        exit 1
    fi
    awk '{ printf "%.1f", $1 / 1024 }' "$work/peak"
}

# The report answers each operation, and is whole.
check_report() {
    local answers operations
    answers=$(grep -c '^L ' "$work/report" || true)
    operations=$(grep -c '^[0-9]' "$work/job" || true)
    if [ "$answers" -ne "$operations" ] || [ "$(tail -n 1 "$work/report")" != end ]; then
        echo "sim.sh: the report of $operations operations has $answers answers, or isn't whole" >&2
        exit 1
    fi
}

# What a job is held to is said, and counted where it isn't so.
failed=0
hold_to() {
    local what=$1 found=$2 most=$3
    if [ "$found" != - ] && awk -v found="$found" -v most="$most" 'BEGIN { exit !(found > most) }'; then
        echo "sim.sh: $what is $found, and is to be at most $most" >&2
        failed=$((failed + 1))
    fi
}

# Times a job of these sizes: from the first to the second the time of a line may grow by this at
# most, and the program may have so many MiB, where that is measured.
times() {
    local job=$1 grows=$2 room=$3 sizes=0 before=0 lines took bytes growth memory
    shift 3
    printf '\n%s\n%8s %14s %18s %16s %8s %8s\n' "$job" lines microseconds microseconds/line 'bytes read/line' growth MiB
    for lines in "$@"; do
        "$job" "$lines" >"$work/job"
        took=$(shortest "$work/job")
        check_report
        bytes=$(awk '/^L .* n=[0-9]* (hex|md5)=/ { split($5, n, "="); sum += n[2] } END { print sum + 0 }' "$work/report")
        memory=$(peak "$work/job")
        growth=$(awk -v lines="$lines" -v took="$took" -v before="$before" 'BEGIN {
            printf "%s", before == 0 ? "-" : sprintf("%.2f", took / lines / before)
        }')
        awk -v lines="$lines" -v took="$took" -v bytes="$bytes" -v growth="$growth" -v peak="$memory" 'BEGIN {
            printf "%8d %14d %18.2f %16.2f %8s %8s\n", lines, took, took / lines, bytes / lines, growth, peak
        }'
        sizes=$((sizes + 1))
        if [ "$sizes" -eq 2 ]; then
            hold_to "the growth of $job to $lines lines" "$growth" "$grows"
        fi
        hold_to "the memory of $job in MiB" "$memory" "$room"
        before=$(awk -v lines="$lines" -v took="$took" 'BEGIN { print took / lines }')
    done
}

times one_client 1.3 64 1000 2000 4000 8000
# 58 rounds and 234.
times load 1.3 64 1990 7974
# The last job of `reuse` has 60,000 writes, that of `pieces` 20,000 reads.
times phases 1.3 64 8000 60000
times reuse 1.3 64 8000 60000 65010
times pieces 1.3 64 8000 60600

# Nanoseconds that so many reads add to the job without them, divided by a number.
nanoseconds_of() {
    local job=$1 fragments=$2 reads=$3 by=$4 without with
    "$job" "$fragments" 0 >"$work/job"
    without=$(shortest "$work/job")
    "$job" "$fragments" "$reads" >"$work/job"
    with=$(shortest "$work/job")
    check_report
    printf '%s' "$(((with - without) * 1000 / by))"
}

few=$(nanoseconds_of reads 16 40000 40000)
many=$(nanoseconds_of reads 16384 40000 40000)
printf '\nreads\n%10s %17s\n%10d %17d\n%10d %17d\n' fragments nanoseconds/read 16 "$few" 16384 "$many"
if [ "$few" -le 0 ]; then
    echo "sim.sh: reads of the short file took no time that could be measured" >&2
    exit 1
fi
times_as_long=$(awk -v few="$few" -v many="$many" 'BEGIN { printf "%.2f", many / few }')
hold_to 'the time of a read of 16384 fragments over that of 16' "$times_as_long" 3

# In each of these jobs the reads go over 65,536 fragments of the file.
printf '\nown_reads\n%10s %21s\n' fragments nanoseconds/fragment
for fragments in 256 1024 4096 16384; do
    printf '%10d %21d\n' "$fragments" "$(nanoseconds_of own_reads "$fragments" $((65536 / fragments)) 65536)"
done

largest_log >"$work/job"
memory=$(peak "$work/job")
[ -x /usr/bin/time ] && check_report
printf '\nlargest_log\n%s MiB\n' "$memory"
hold_to 'the memory of largest_log in MiB' "$memory" 32
exit "$((failed > 0))"
