#!/usr/bin/env bash
# Outside the gate: refuses memory to the program in turn. Of the calls by which it asks the system's library for memory the
# first is refused, then the second, and so on; and then the same with all later ones refused, too. Each run must end with the
# status of want of memory and exactly the texts of the first statements, or with status 0 and the whole output. Prints each run that
# doesn't, then the counts, and ends with a nonzero status if there is one. A C compiler `cc` and the GNU C
# library are needed, and a SCRIPT that ends with status 0.
#
#     tests/memory.sh < SCRIPT
#     tests/memory.sh --sample N < /dev/null
cd "$(dirname "$0")/.." || exit 1
export LC_ALL=C
folder=$(mktemp -d)
trap 'rm -rf "$folder"' EXIT
program=crates/drinfeld/out/drinfeld

cat >"$folder/refuse.c" <<'C'
#include <stdio.h>
#include <stdlib.h>

void *__libc_malloc(size_t);
void *__libc_realloc(void *, size_t);

static long calls, at;

__attribute__((constructor)) static void begin(void) {
    const char *text = getenv("REFUSE_AT");
    at = text ? atol(text) : 0;
    calls = 0;
}

static int refused(void) {
    calls++;
    return at && (getenv("REFUSE_LATER") ? calls >= at : calls == at);
}

void *malloc(size_t size) { return refused() ? NULL : __libc_malloc(size); }
void *realloc(void *place, size_t size) { return refused() ? NULL : __libc_realloc(place, size); }

__attribute__((destructor)) static void end(void) {
    if (getenv("REFUSE_COUNT")) printf("%ld\n", calls);
}
C
cc -shared -fPIC -o "$folder/refuse.so" "$folder/refuse.c" || exit 1

cat >"$folder/script"
./drinfeld "$@" <"$folder/script" >"$folder/whole" || exit 1

# Where the texts of statements end: before each echoed line, and at the end. No answer begins like one.
declare -A is_end
size=0
while IFS= read -r line; do
    if [[ $line == '> '* ]]; then is_end[$size]=1; else size=$((size + ${#line} + 1)); fi
done < <("$program" --echo "$@" <"$folder/script")
is_end[$size]=1
[[ $size -eq $(stat -c %s "$folder/whole") ]] || exit 1

calls=$(REFUSE_COUNT=1 LD_PRELOAD=$folder/refuse.so "$program" "$@" <"$folder/script" | tail -n 1)
failures=0

# is_right STATUS: the output of a run that ended so is one that may be.
is_right() {
    local size
    size=$(stat -c %s "$folder/output")
    cmp -s -n "$size" "$folder/output" "$folder/whole" || return 1
    [[ $1 -eq 6 && -n ${is_end[$size]} ]] || [[ $1 -eq 0 && $size -eq $(stat -c %s "$folder/whole") ]]
}

for later in '' REFUSE_LATER=1; do
    declare -A ended=()
    for ((at = 1; at <= calls; at++)); do
        env $later REFUSE_AT="$at" LD_PRELOAD="$folder/refuse.so" "$program" "$@" <"$folder/script" >"$folder/output" 2>"$folder/errors"
        status=$?
        ended[$status]=$((${ended[$status]:-0} + 1))
        is_right "$status" || { echo "memory: $later call $at: status $status, wrote '$(<"$folder/output")'"; failures=$((failures + 1)); }
    done
    echo "memory: $calls calls, ${later:-one refused at a time}: status 6 ${ended[6]:-0} times, 0 ${ended[0]:-0} times"
done
exit $((failures > 0))
