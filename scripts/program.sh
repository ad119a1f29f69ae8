# shellcheck shell=bash disable=SC2154
# Read by run, drive, show, build, .ci/run, tests/run and scripts of bench: which programs are proved and built from the sources as they are, and how to
# run one. Who reads it has set `top` to the repository's folder, and `script` to its own name.
#
# A proved program stands in out/proved/SUM/, where SUM is a sum of all that it was made from: the bytes of the sources,
# crates.txt, HANDLES, and the kit's version. So a program can't be taken for that of other sources. The sum takes some
# tenths of a second, so the file out/proved/listing holds the last one that was found, with a line for each source that
# says when it was last changed; as long as those lines are the same, so is the sum.

source "$top/scripts/usage.sh"

programs=(v_run v_drive v_show)
about_trying='a minute or two each time'
about_proving='an hour to an hour and a half on four processors from nothing'
proved_folder="$top/out/proved"

# The statuses of these scripts that are no program's.
no_answer=70
no_kit=127

# The status of build, .ci/run, tests/run and scripts/elf_block where a word isn't taken.
not_taken=2

say() {
    printf '%s: %s\n' "$script" "$1" >&2
}

# take_no_words WORD..: of a script that takes none.
take_no_words() {
    take_help "$@"
    (($# == 0)) || refuse_word "$1"
}

refuse_word() {
    say "$1 is no word that it takes"
    show_usage >&2
    exit "$not_taken"
}

# Sets rt to the path of the kit's command, or to nothing.
find_rt() {
    rt=
    if hash rt 2> /dev/null; then
        rt=${BASH_CMDS[rt]}
        [[ $rt == /* ]] || rt="$PWD/$rt"
    fi
}

# Writes a line for each file that a program is made from, and before them one for rt, if it is on the path. The times are
# of the last change of the bytes and of anything about the file, so bytes that were written, a file that was moved into
# place and one that was given an older time all make another line.
list_sources() (
    cd -- "$top" > /dev/null && shopt -s nullglob &&
        find -H ${rt:+"$rt"} crates.txt HANDLES crates/*/{src,specs,proofs} ! -type d -printf '%p %i %s %T@ %C@\n'
)

# Writes the sum of what the sources hold and of the kit's version; where rt isn't on the path, of the version that the
# last program was built with.
sum_sources() (
    set -o pipefail
    cd -- "$top" > /dev/null && shopt -s nullglob || exit
    if [ -n "$rt" ]; then kit=$("$rt" version); else kit=$(< "$proved_folder/kit"); fi || exit
    sum=$({
        printf '%s\n' "$kit"
        find crates.txt HANDLES crates/*/{src,specs,proofs} ! -type d -print0 | LC_ALL=C sort -z | xargs -0 sha256sum
    } | sha256sum) || exit
    printf '%s\n' "${sum%% *}"
)

# Keeps the sum of the sources with the listing that was made before it. The next run is only slower where that fails, as
# in a checkout that can't be written to.
keep_listing() {
    local new
    new=$(mktemp -- "$proved_folder/listing.XXXXXX" 2> /dev/null) || return 0
    printf '%s\n%s\n' "$1" "$2" > "$new" && chmod a+r "$new" && mv -f -- "$new" "$proved_folder/listing" || rm -f -- "$new"
} 2> /dev/null

# Sets proved to the path of the program of that name that is proved and built from the sources as they are, or fails.
find_proved() {
    local listing sum
    find_rt
    if ! take_kept_sum 2> /dev/null; then
        listing=$(list_sources) && sum=$(sum_sources 2> /dev/null) || return
        if [ -n "$rt" ] && [ -x "$proved_folder/$sum/$1" ]; then keep_listing "$sum" "$listing"; fi
    fi
    proved="$proved_folder/$sum/$1"
    [ -x "$proved" ]
}

# want_proved NAME: sets proved to the program of that name, or says that none is built and ends.
want_proved() {
    if ! find_proved "$1"; then
        say "no proved $1 is built from the sources as they are; ./build makes one"
        exit 1
    fi
}

# Sets sum to the one that is kept, and fails where the sources aren't listed as they were when it was found. The line on rt
# doesn't count where rt isn't on the path.
take_kept_sum() {
    {
        IFS= read -r sum
        [ -n "$rt" ] || IFS= read -r _
        cmp -s -- - <(list_sources)
    } < "$proved_folder/listing"
}

# Whether all programs of the sources with that sum are kept.
are_kept() {
    local name
    for name in "${programs[@]}"; do
        [ -x "$proved_folder/$1/$name" ] || return
    done
}

# keep_proved SUM LISTING: takes what rt left of the programs as those of the sources with that sum, all at once, and forgets
# all but the last few sums. It fails where a source was written to since they were listed: which text rt read isn't known then.
keep_proved() {
    local name changed old new=''
    mkdir -p -- "$proved_folder" || return
    if ! are_kept "$1"; then
        new=$(mktemp -d -- "$proved_folder/new.XXXXXX") || return
        for name in "${programs[@]}"; do
            cp -- "$top/crates/$name/out/$name" "$new/$name" && chmod 755 "$new/$name" || return
        done
    fi
    changed=$(diff <(printf '%s\n' "$2") <(list_sources) | sed -n 's/^[<>] \([^ ]*\).*/\1/p' | sort -u | head -n 3)
    if [ -n "$changed" ]; then
        [ -z "$new" ] || rm -rf -- "$new"
        say "these changed meanwhile, so no program counts as that of these sources: ${changed//$'\n'/, }"
        return 1
    fi
    if [ -n "$new" ]; then
        rm -rf -- "${proved_folder:?}/$1"
        chmod 755 "$new" && mv -T -- "$new" "$proved_folder/$1" || return
    fi
    "$rt" version > "$proved_folder/kit" || return
    keep_listing "$1" "$2"
    ls -dt -- "$proved_folder"/*/ | tail -n +5 | while IFS= read -r old; do rm -rf -- "$old"; done
}

# Has these signals end the processes of waited_for, call clean_up, and then end this script as they would have.
end_on_signals() {
    local signal
    waited_for=()
    for signal in INT TERM HUP PIPE; do
        trap "end_by $signal" "$signal"
    done
    trap clean_up EXIT
}

end_by() {
    trap '' INT TERM HUP PIPE
    if ((${#waited_for[@]})); then
        kill -TERM -- "${waited_for[@]}" 2> /dev/null
        wait 2> /dev/null
    fi
    clean_up
    trap - EXIT "$1"
    kill -s "$1" "$$"
}

# Runs a command, and returns its status. A signal to this script needn't wait for its end.
waited() {
    local status=0
    "$@" <&0 &
    waited_for=("$!")
    wait "$!" || status=$?
    waited_for=()
    return "$status"
}

clean_up() { [ -z "${place-}" ] || rm -rf -- "$place"; }

# run_program NAME WORD..: runs a program on the words and on this script's input and output, says on standard error what a
# status means that is no answer, and ends with the status. Where no proved one is built from the sources as they are, rt builds
# and runs an unproved one.
run_program() {
    local name=$1 status=0 first=
    shift
    take_help "$@"
    end_on_signals
    # A write that nobody reads fails, as a program's does, and ends nothing.
    trap : PIPE
    if find_proved "$name"; then
        run_proved "$@"
    elif [ -n "$rt" ]; then
        try_program "$name" "$@"
    else
        say "no proved $name is built from the sources as they are, and the kit's command rt isn't on the path to build one"
        exit "$no_kit"
    fi
    if [[ $status != [0-2] ]]; then
        source "$top/scripts/words.sh"
        explain_status "$name" "$status" "$first" "$@"
    fi
    exit "$status"
}

# Sets status to that of the program, or to 4 where its answer can't be passed on, and first to the first line of that.
run_proved() {
    local failed=
    exec 3< <(exec "$proved" "$@")
    waited_for=("$!")
    pass_on <&3 || failed=1
    exec 3<&-
    wait "${waited_for[0]}" || status=$?
    [ -z "$failed" ] || status=4
    waited_for=()
}

# Passes its input on as it comes, and sets first to its first line, in which no answer has a byte 0. It fails where it can't, but
# not where who reads has enough, as head has.
pass_on() {
    local end='' passed=0
    IFS= read -r first && end=$'\n'
    [ -n "$first$end" ] || return 0
    printf '%s%s' "$first" "$end" || return
    cat <&0 &
    waited_for+=("$!")
    wait "$!" || passed=$?
    ((passed == 0 || passed == 141))
} 2> /dev/null

# rt stops reading where input pauses, passes on at most 64 MiB, and has lines of its own, so the input is read whole first,
# and nothing is written before rt's last line says that the program ended, and with which status.
most_input=$((64 << 20))

try_program() {
    local name=$1 last
    shift
    say "not proved: $name isn't built from the sources as they are, so rt tries it unproved, in $about_trying; ./build proves and builds it, in $about_proving"
    source "$top/scripts/words.sh"
    if say_wrong_word "$name" "$@" && [ -t 0 ]; then
        # so that nobody waits for a terminal that the program won't read
        exec < /dev/null
    fi
    place=$(mktemp -d) || exit "$no_answer"
    if ! waited head -c "$((most_input + 1))" > "$place/input"; then
        say 'standard input could not be read'
        exit "$no_answer"
    fi
    if [ "$(wc -c < "$place/input")" -gt "$most_input" ]; then
        say "standard input has more than the $most_input bytes that rt passes to an unproved program"
        exit "$no_answer"
    fi
    waited try_crate "$name" -- "$@" < "$place/input" > "$place/output" 2> "$place/said"
    last=$(tail -n 1 -- "$place/said")
    if [[ ! $last =~ ^run=ended\ status=([0-9]+)\  ]]; then
        no_answer_from_rt "$place/said"
        exit "$no_answer"
    fi
    status=${BASH_REMATCH[1]}
    pass_on < "$place/output" || status=4
}

# try_crate NAME WORD..: becomes rt try on these words, in the folder of that crate.
try_crate() {
    cd -- "$top/crates/$1" > /dev/null && exec "$rt" try "${@:2}"
}

# Says in one line which limit of rt's was passed, or else all that rt said and that there is no answer.
no_answer_from_rt() {
    local limit
    limit=$(sed -n 's/^checked: no-answer: //p' "$1" | tail -n 1)
    if [ -n "$limit" ]; then
        say "no answer, since rt's limits for an unproved program were passed: $limit"
    else
        cat -- "$1" >&2
        say 'no answer: rt could not build and run the program, as the lines above say'
    fi
}
