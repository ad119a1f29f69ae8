#!/usr/bin/env bash
# Usage: bench/processors.sh [PEERS]
# Times a million steps of the proved program on 1, 2, 4 and 8 processors, and prints milliseconds, and beside them how many times as
# fast as one processor that is:
# - four and eight threads of one loop, each with memory of its own. Four processors should be at least 3.0 times as fast as one, two at
#   least 1.8, and eight processors on a machine of four not slower than four;
# - four threads that add to one word, and two that count on one page under Peterson's lock. Four processors should have at least 0.5
#   of the speed of one, and end;
# - eight threads that make calls where the caches are as small as they may be. Eight processors should end with the report of one;
# - the eight threads on eight processors beside four other busy processes, twenty times. No run should take more than five times
#   what one processor takes beside them in the middle of twenty.
# PEERS is a folder with a plain interpreter in C and loops that it reads. Where it is given, its loop mix is taken, and the interpreter
# runs in turn with the program; one processor should reach 0.85 of it; and how much more two and four interpreters do at once than one
# does says what the machine itself has to give. Else the loop is one that adds the words of a page.
#
# What is timed is the whole program, the middle one of 101 runs in turn, less that of runs of one step. Not the shortest: a processor whose
# neighbours rest may be twice as fast as usual for a moment, which one thread can meet and several can't. It wants the program that
# ./build leaves, and four processors that nobody else uses: a thread that waits for another one takes steps meanwhile, of which there are
# a million. It fails where a run ends otherwise than it should; of the other bars it prints what is missed.
set -euo pipefail
script=bench/processors.sh
top="$(cd "$(dirname "${BASH_SOURCE[0]}")/.." && pwd)"
source "$top/scripts/program.sh"
take_help "$@"
want_proved v_run
place="$(mktemp -d)"
busy=()
trap '((${#busy[@]} == 0)) || kill "${busy[@]}" 2> /dev/null; rm -rf "$place"' EXIT
runs=101
failed=0
steps=1000000

# apart COUNT: so many threads of the loop in the file loop, each with a space and frames of its own.
apart() {
    echo 'mem 1'
    echo 'kernel 0'
    echo 'right 0 0 rw'
    awk -v count="$1" '
        function lines(of,    k) {
            for (k = 0; k < count; k++) {
                if (of == "space") print "space", k, 0
                if (of == "thread") print "thread", k, k, pc
            }
        }
        $1 == "thread" { pc = $4 }
        $1 == "map" { maps[++map_count] = $0; if ($4 >= frames) frames = $4 + 1 }
        $1 == "word" { words[++word_count] = $0; if ($2 >= frames) frames = $2 + 1 }
        END {
            lines("space")
            lines("thread")
            for (i = 1; i <= map_count; i++) for (k = 0; k < count; k++) { $0 = maps[i]; $2 = k; $4 += k * frames; print }
            for (i = 1; i <= word_count; i++) for (k = 0; k < count; k++) { $0 = words[i]; $2 += k * frames; print }
            print "end"
        }' "$place/loop"
}

# one_space: the head of a scenario of one space, with code at 0 and a page to share at 69632.
one_space() {
    printf '%s\n' 'mem 1' 'kernel 0' 'right 0 0 rw' 'space 0 0' 'map 0 0 0 rx' 'map 0 17 1 rw'
}

adders() {
    local thread
    one_space
    for thread in 0 1 2 3; do echo "thread $thread 0 0 a0 69632 a1 40000"; done
    cat << 'CODE'
code 0 0
addi t0, zero, 1
again:
amoadd.w t1, t0, (a0)
addi a1, a1, -1
bne a1, zero, again
addi a7, zero, 0
ecall
endcode
end
CODE
}

# s1 is the address of the thread's own flag, s2 that of the other's, and s3 the other's number, which the word at 8 gives the turn. Each
# waits first until the other is there, by the words 16 behind the flags.
peterson() {
    one_space
    echo 'thread 0 0 0 a0 0 a1 200'
    echo 'thread 1 0 0 a0 1 a1 200'
    cat << 'CODE'
code 0 0
lui s0, 17
addi t0, zero, 1
sub s3, t0, a0
slli s1, a0, 2
add s1, s1, s0
slli s2, s3, 2
add s2, s2, s0
sw t0, 16(s1)
meet:
lw t1, 16(s2)
beq t1, zero, meet
again:
sw t0, 0(s1)
sw s3, 8(s0)
wait:
lw t1, 0(s2)
beq t1, zero, enter
lw t2, 8(s0)
beq t2, s3, wait
enter:
lw t3, 12(s0)
addi t3, t3, 1
sw t3, 12(s0)
sw zero, 0(s1)
addi a1, a1, -1
bne a1, zero, again
lw a0, 12(s0)
addi a7, zero, 2
ecall
addi a7, zero, 0
ecall
endcode
end
CODE
}

# Eight threads, each of which stores to a page of its own and puts characters out.
callers() {
    local thread
    printf '%s\n' 'mem 1' 'caps 6 5 5 6' 'kernel 0' 'right 0 0 rw'
    for thread in {0..7}; do echo "space $thread 0"; done
    for thread in {0..7}; do echo "thread $thread $thread 0 a0 $((65 + thread)) a1 200"; done
    for thread in {0..7}; do printf 'map %d 0 0 rx\nmap %d 17 %d rw\n' "$thread" "$thread" $((thread + 1)); done
    cat << 'CODE'
code 0 0
lui s0, 17
again:
sw a1, 0(s0)
addi a7, zero, 1
ecall
lw a1, 0(s0)
addi a1, a1, -1
bne a1, zero, again
addi a7, zero, 0
ecall
endcode
end
CODE
}

# taken PROGRAM WORD..: microseconds of one run on the file scenario. Its report is left in the file report, its status in status.
taken() {
    local start=$EPOCHREALTIME end
    status=0
    timeout 100 "$@" < "$place/scenario" > "$place/report" || status=$?
    end=$EPOCHREALTIME
    micros=$((${end/./} - ${start/./}))
}

# keep NAME: keeps the time of the last run with those of that name.
keep() {
    times[$1]+="$micros"$'\n'
}

# middle NAME: of the times of that name the middle one.
middle() {
    printf '%s' "${times[$1]}" | sort -n | sed -n "$(((runs + 1) / 2))p"
}

# compare WHAT BARS CPUS..: times the file scenario on so many processors in turn. BARS has a word CPUS:TIMES for each bar.
compare() {
    local bars="$2" run cpus it
    declare -A times=()
    echo "$1"
    shift 2
    for ((run = 0; run < runs; run++)); do
        for cpus in "$@"; do
            taken "$proved" --cpus "$cpus" --steps "$steps"
            keep "$cpus"
            ends_as_wanted "$cpus"
            taken "$proved" --cpus "$cpus" --steps 1
            keep "few $cpus"
        done
        if [[ -n ${peer-} && -z ${wanted-} ]]; then
            cp "$place/scenario" "$place/several"
            cp "$place/loop" "$place/scenario"
            taken "$peer" --steps "$steps"
            keep peer
            taken "$peer" --steps 1
            keep 'few peer'
            cp "$place/several" "$place/scenario"
        fi
    done
    for it in "${!times[@]}"; do
        [[ $it == few* ]] || echo "$it $(middle "$it") $(middle "few $it")"
    done | sort -n | awk -v bars="$bars" '
        BEGIN { n = split(bars, all, " "); for (i = 1; i <= n; i++) { split(all[i], of, ":"); bar[of[1]] = of[2] } }
        { time[$1] = $2 - $3 > 1 ? $2 - $3 : 1; order[++count] = $1 }
        END {
            for (i = 1; i <= count; i++) {
                at = order[i]
                if (at == "peer") { printf "  the peer %7.2f ms, of which one processor has %.2f%s\n", time[at] / 1000, time[at] / time[1], (time[at] / time[1] < 0.85 ? ", below 0.85" : ""); continue }
                times = time[1] / time[at]
                printf "  %-12s %7.2f ms, %.2f times one%s\n", (at == 1 ? "1 processor" : at " processors"), time[at] / 1000, times, (at in bar && times < bar[at] ? ", below " bar[at] : "")
            }
        }'
}

# ends_as_wanted CPUS: where an end is wanted, says so if the run didn't come to it, or not with the report of the first run.
ends_as_wanted() {
    [[ -n ${wanted-} ]] || return 0
    [[ -e $place/first ]] || cp "$place/report" "$place/first"
    if ((status != wanted)) || { [[ $same == yes ]] && ! cmp -s "$place/report" "$place/first"; }; then
        echo "  on $1 processors: status $status, or another report than the first"
        failed=1
    fi
}

# ending WHAT BARS SAME CPUS..: as compare, of a scenario that ends; where SAME is yes, each time with the same report.
ending() {
    local what="$1" bars="$2" same="$3" wanted=0
    shift 3
    rm -f "$place/first"
    compare "$what" "$bars" "$@"
}

# several_peers: how much more several peers do at once than one does, by themselves, in the middle of the runs.
several_peers() {
    local run count it start end
    for ((run = 0; run < runs; run++)); do
        for count in 1 2 4; do
            start=$EPOCHREALTIME
            for ((it = 0; it < count; it++)); do
                "$peer" --steps 10000000 < "$place/loop" > /dev/null &
            done
            wait
            end=$EPOCHREALTIME
            echo "$count $((${end/./} - ${start/./}))"
        done
    done | sort -k1,1n -k2,2n | awk -v runs="$runs" '
        { if (++seen[$1] == (runs + 1) / 2) time[$1] = $2 }
        END { printf "the machine: two peers at once do %.2f times what one does, four %.2f times\n", 2 * time[1] / time[2], 4 * time[1] / time[4] }'
}

# crowded: the eight threads beside four busy processes.
crowded() {
    local run
    for run in 1 2 3 4; do
        while :; do :; done &
        busy+=("$!")
    done
    for ((run = 0; run < 20; run++)); do
        taken "$proved" --cpus 1 --steps "$steps"
        echo "1 $micros"
        taken "$proved" --cpus 8 --steps "$steps"
        echo "8 $micros"
    done > "$place/times"
    kill "${busy[@]}"
    wait "${busy[@]}" 2> /dev/null || true
    busy=()
    sort -k1,1n -k2,2n "$place/times" | awk '
        { if ($1 == 1) one[++ones] = $2; else eight[++eights] = $2 }
        END {
            middle = one[int((ones + 1) / 2)]
            longest = eight[eights]
            printf "eight threads beside four busy processes, twenty runs\n  1 processor  %7.2f ms in the middle\n", middle / 1000
            printf "  8 processors %7.2f ms in the middle, %.2f the longest, %.2f times that of one%s\n", eight[int((eights + 1) / 2)] / 1000, longest / 1000, longest / middle, (longest > 5 * middle ? ", above 5" : "")
        }'
}

peer=
if [[ -n ${1:-} ]]; then
    make -s -C "$1" B="$place/peers"
    peer="$place/peers/rvi_paged"
    cp "$1/loops/mix.scn" "$place/loop"
else
    cp "$top/bench/loops/adding.scn" "$place/loop"
fi
[[ -z $peer ]] || several_peers
apart 4 > "$place/scenario"
compare 'four threads of one loop, each by itself' '2:1.8 4:3.0' 1 2 4
apart 8 > "$place/scenario"
compare 'eight threads of one loop, each by itself' '2:1.8 4:3.0 8:3.0' 1 2 4 8
crowded
adders > "$place/scenario"
ending 'four threads that add to one word' '4:0.5' yes 1 2 4 8
peterson > "$place/scenario"
ending 'two threads that lock a page' '4:0.5' no 1 2 4 8
callers > "$place/scenario"
ending 'eight threads with calls in the smallest caches' '' yes 1 2 4 8
exit "$failed"
