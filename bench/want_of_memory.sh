#!/usr/bin/env bash
# Usage: bench/want_of_memory.sh
# Lets each allocation of the proved programs fail in turn: of v_run on a scenario of words, one of code and one of an executable, on one
# with more rows than slots, with the journal, with two frames, on a large one that is made from a number, and on one with a journal that
# is checked; and of v_drive on lists of operations. Each run ends with status 6 and writes nothing, or answers as the whole run; of a list of
# operations it may also answer as the whole run up to a line `refused no memory`, for the call that wanted it. Any other has a line,
# and so has how many there were. It wants cc, and the programs that ./build leaves.
# Ends with 1 where some run answered otherwise, or a program isn't built.
set -u
unset CDPATH
script=bench/want_of_memory.sh
top="$(cd "$(dirname "${BASH_SOURCE[0]}")/.." && pwd)"
source "$top/scripts/program.sh"
take_help "$@"
place="$(mktemp -d)"
trap 'rm -rf "$place"' EXIT

# The allocation of that number fails, and a byte goes to descriptor 9.
cat > "$place/refuse.c" << 'END'
#include <stdlib.h>
#include <unistd.h>
extern void *__libc_malloc(size_t size);
extern void *__libc_realloc(void *old, size_t size);
static long left = -1;
static int refuses(void) {
    if (left < 0) {
        const char *number = getenv("REFUSE");
        left = number ? atol(number) : 0;
    }
    if (left == 0 || --left != 0) return 0;
    return write(9, "x", 1) == 1;
}
void *malloc(size_t size) { return refuses() ? NULL : __libc_malloc(size); }
void *realloc(void *old, size_t size) { return refuses() ? NULL : __libc_realloc(old, size); }
END
cc -O2 -shared -fPIC -o "$place/refuse.so" "$place/refuse.c" || exit 1
failed=0

# Whether the first line that isn't that of the whole run says that an operation wanted memory.
refuses_one() {
    [ "$(diff "$place/whole" "$place/output" | sed -n '/^> /{p;q}')" = '> refused no memory' ]
}

# refuse_memory INPUT WORD..: the input, and the words of the program.
refuse_memory() {
    local input="$top/$1" whole status number=0 refused=0 partly=0 other=0
    shift
    "$proved" "$@" < "$input" > "$place/whole"
    whole=$?
    while ((number += 1)); do
        REFUSE=$number LD_PRELOAD="$place/refuse.so" "$proved" "$@" < "$input" \
            > "$place/output" 9> "$place/refused"
        status=$?
        [ -s "$place/refused" ] || break
        if [ "$status" = 6 ] && [ ! -s "$place/output" ]; then
            refused=$((refused + 1))
        elif [ "$status" = "$whole" ] && refuses_one; then
            partly=$((partly + 1))
        elif [ "$status" != "$whole" ] || ! cmp -s "$place/whole" "$place/output"; then
            echo "allocation $number: status $status, $(wc -c < "$place/output") bytes"
            other=$((other + 1))
        fi
    done
    echo "${input##*/} $*: $((number - 1)) allocations, $refused answered as want of memory, $partly so by one operation, $other otherwise than the whole run"
    ((other == 0)) || failed=1
}

want_proved v_run
refuse_memory examples/hello.scenario
refuse_memory examples/code.scenario
refuse_memory examples/squares.scenario
refuse_memory examples/hello.scenario --mode journal
refuse_memory tests/runs/nine_pages_through_six_slots.in
refuse_memory tests/runs/nine_pages_through_six_slots.in --mode journal
refuse_memory examples/hello.scenario --mode gen --steps 1
refuse_memory examples/checked.scenario --mode check
refuse_memory tests/runs/nine_pages_through_six_slots.in --mode page --frames 2
want_proved v_drive
refuse_memory crates/v_drive/stdin
for list in healing_loads_the_receivers_of_a_signal a_row_made_and_taken_at_run a_thread_begun_at_run; do
    refuse_memory "tests/drive/$list.in"
done
exit "$failed"
