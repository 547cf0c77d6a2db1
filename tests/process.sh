#!/usr/bin/env bash
# Runs the program as a process, through ./drinfeld: what it writes and the status it ends with.
# Prints each case that fails, and nothing else, and ends with a nonzero status if any does.
cd "$(dirname "$0")/.." || exit 1
folder=$(mktemp -d)
trap 'rm -rf "$folder"' EXIT
failures=0

fail() {
    echo "process: $1"
    failures=$((failures + 1))
}

# expect NAME STATUS OUTPUT ERRORS: what the last command must have ended with and written, byte by
# byte, to the files `output` and `errors` of the folder.
expect() {
    local name=$1
    expect_told "$1" "$2" "$4"
    cmp -s "$folder/output" <(printf '%s' "$3") || fail "$name: wrote '$(<"$folder/output")', not '$3'"
}

# expect_told NAME STATUS ERRORS: the same where the output went elsewhere.
expect_told() {
    local name=$1
    [[ $status -eq $2 ]] || fail "$name: status $status, not $2"
    cmp -s "$folder/errors" <(printf '%s' "$3") || fail "$name: told '$(<"$folder/errors")', not '$3'"
}

# run WORD..: the program on standard input, with what it writes in the folder.
run() {
    ./drinfeld "$@" >"$folder/output" 2>"$folder/errors"
    status=$?
}

# The build, where one is needed, is no part of a case.
./drinfeld <crates/drinfeld/stdin >"$folder/output" 2>"$folder/errors" || fail "the example: $(<"$folder/errors")"

script=$'base 2\nover 2 z^2+z+1\ncheck [z, 1] [z, z] [z+1]\n'
answers=$'q = 2\nn = 2\nyes\n'

run <<<"${script%$'\n'}"
expect 'a script' 0 "$answers" ''

run </dev/null
expect 'no input' 0 '' ''

run < <(printf 'base 2\0\377\n')
expect 'bytes that are no text' 3 '' $'line 1: not a statement\n'

run < <(printf '%s' "${script//$'\n'/$'\r\n'}")
expect 'carriage returns' 0 "$answers" ''

run < <(printf 'base 2\r\nover 2 z^2+z+1\r\ncheck [z, 1] [z, z] 1 # \377\r\n\r\nrank t\r\n')
expect 'carriage returns, and a name that is none' 3 '' $'line 5: not a statement\n'

run <<<$'base 2\nover 2 z^2+z+1\nrank phi\n'
expect 'a stop' 5 $'q = 2\nn = 2\n' $'line 3: unknown name\n'

run x <<<"$script"
expect 'a word' 2 '' $'words refused\n'

run --echo --echo <<<"$script"
expect 'a flag twice' 2 '' $'words refused\n'

run --echo < <(printf 'base 2 # two\r\n')
expect 'an echoed line' 0 $'> base 2 # two\nq = 2\n' ''

# The counts of the sample were found apart from the program, by a plain search: in coordinates over F_2 the endomorphisms up
# to degree 40 are the kernel of a matrix, and a member is the one of least degree for each lead modulo 64.
for words in '--sample 0' '--sample 0' '--sample=0'; do
    run $words <&-
    expect "the sample, $words" 0 "$(<tests/sample-of-0.expected)"$'\n' ''
done

run $'\377' <<<"$script"
expect 'a word that is no text' 10 '' ''

run < <(head -c 65537 /dev/zero | tr '\0' '#')
expect 'one byte too many' 4 '' $'too large: script\n'

run < <(head -c 65536 /dev/zero | tr '\0' '#')
expect 'as many bytes as fit' 0 '' ''

run <&-
expect 'a closed input' 7 '' $'read failed\n'

./drinfeld <<<"$script" >&- 2>"$folder/errors"
status=$?
expect_told 'a closed output' 8 $'write failed\n'

# The reader has ended before the program writes, since the program waits for its input till then.
mkfifo "$folder/input" "$folder/pipe"
{ true; } <"$folder/pipe" &
reader=$!
./drinfeld <"$folder/input" >"$folder/pipe" 2>"$folder/errors" &
program=$!
exec 3>"$folder/input"
wait "$reader"
printf '%s' "$script" >&3
exec 3>&-
wait "$program"
status=$?
expect_told 'a reader that ends early' 8 $'write failed\n'

./drinfeld <<<"$script" >/dev/full 2>"$folder/errors"
status=$?
expect_told 'a full output' 8 $'write failed\n'

./drinfeld x </dev/null 2>&-
status=$?
[[ $status -eq 2 ]] || fail "closed errors: status $status, not 2"

# like NAME: what FILE.drinfeld writes, tells and ends with, against FILE.expected, FILE.errors and
# FILE.status, of which the last two are missing where nothing is told and the status is 0.
like() {
    run <"$1.drinfeld"
    [[ $status -eq $(cat "$1.status" 2>/dev/null || echo 0) ]] || fail "$1: status $status"
    cmp -s "$folder/output" "$1.expected" || fail "$1: wrote '$(<"$folder/output")'"
    cmp -s "$folder/errors" <(cat "$1.errors" 2>/dev/null) || fail "$1: told '$(<"$folder/errors")'"
}

for example in examples/*.drinfeld; do like "${example%.drinfeld}"; done

# The scripts of the tutorial, each with the blocks that follow it; one that tells a fault ends with 5.
awk -v folder="$folder" '
    /^```/ && file { close(file); file = ""; next }
    /^```drinfeld$/ { count++; file = folder "/tutorial-" count ".drinfeld"; next }
    /^```output$/ { file = folder "/tutorial-" count ".expected"; next }
    /^```errors$/ { file = folder "/tutorial-" count ".errors"; print 5 >(folder "/tutorial-" count ".status"); next }
    file { print >file }' docs/tutorial.md
[[ -s $folder/tutorial-1.drinfeld ]] || fail 'the tutorial has no script'
for script_file in "$folder"/tutorial-*.drinfeld; do like "${script_file%.drinfeld}"; done

# The launcher finds the program from any folder, and through a link.
ln -s "$PWD/drinfeld" "$folder/link"
(cd "$folder" && ./link <<<"$script" >output 2>errors)
status=$?
expect 'another folder' 0 "$answers" ''

# The launcher, with a stub for the toolchain: what it builds tells how often it was built, and `proved`
# which crates were proved, in their order.
tree=$folder/tree
crate=$tree/crates/drinfeld
mkdir -p "$folder/bin" "$tree"/crates/{low,side,high,tests_high,drinfeld}/src
cp drinfeld "$tree/"
printf '%s\n' '# layers' 'low: kit_crate' 'side: # alone' 'high: low' 'tests_high: high low' 'drinfeld: high side' >"$tree/crates.txt"
touch "$crate/stdin" "$crate/src/main.rt" "$crate/src/other.rt"
cat >"$folder/bin/rt" <<'STUB'
#!/usr/bin/env bash
if [[ $1 == all ]]; then
    for name in low side high tests_high drinfeld; do
        grep -q "^$name:" crates.txt || continue
        [[ -e crates/$name/src/fails ]] && echo 'a fault' && exit 1
        echo "== $name"
        echo "$name" >>../../../../proved
    done
    exit
fi
[[ -e src/edits ]] && sleep 0.05 && touch ../../../../src/main.rt && rm ../../../../src/edits
mkdir -p out && echo built >>../../../../builds
printf '#!/bin/sh\ngrep -c built "%s"\n' "$(readlink -f ../../../../builds)" >out/drinfeld
chmod +x out/drinfeld
STUB
chmod +x "$folder/bin/rt"

# launch NAME BUILDS: the launcher of the tree, whose program must have been built so often. What is
# changed next is then newer by more than a tick of the clock of files.
launch() {
    PATH=$folder/bin:$PATH "$tree/drinfeld" >"$folder/output" 2>"$folder/errors"
    status=$?
    cmp -s "$folder/output" <(printf '%s\n' "$2") || fail "launcher, $1: built $(<"$folder/output") times, not $2"
    sleep 0.05
}

launch 'nothing built' 1
[[ $(tr '\n' ' ' <"$tree/proved") == 'low side high drinfeld ' ]] || fail "launcher: proved $(<"$tree/proved")"
grep -qx 'drinfeld: proved high, 1 more to prove' "$folder/errors" || fail "launcher: told $(<"$folder/errors")"
launch 'nothing changed' 1
touch "$crate/src/main.rt"
launch 'a source changed' 2
touch "$tree/crates/low/src/lib.rt"
launch 'a source below changed' 3
touch "$tree/crates/tests_high/src/lib.rt"
launch 'a source on which the program does not stand' 3
rm "$crate/src/other.rt"
launch 'a source is gone' 4
touch "$crate/src/edits" "$crate/src/main.rt"
launch 'a source changes during the build' 5
launch 'it is built again' 6
launch 'and then stays' 6

touch "$tree/crates/high/src/fails" "$tree/crates/low/src/lib.rt"
PATH=$folder/bin:$PATH "$tree/drinfeld" >"$folder/output" 2>"$folder/errors"
status=$?
[[ $status -eq 1 && ! -s $folder/output ]] || fail "launcher, a proof that fails: status $status"
grep -qx 'a fault' "$folder/errors" && grep -qx 'drinfeld: the program was not built' "$folder/errors" || fail "launcher, a proof that fails: told $(<"$folder/errors")"

exit $((failures > 0))
