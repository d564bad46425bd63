# What the parts of the gate share. Each tests/NAME/run sources this file, which goes to the top of the repository: paths are from there.
# A part counts its tests by test_that and skip, and ends with finish. $work is a folder of its own, which is removed at its end.
set -u
cd "$(dirname "${BASH_SOURCE[0]}")/.." || exit 1
work=$(mktemp -d) || exit 1
trap 'rm -rf "$work"' EXIT
passed=0 failed=0
lacking= # what the tests that follow want and is absent
: >"$work/skipped"

# skip NAME WHY
skip() {
    echo "skipped: $1: $2"
    echo "$2" >>"$work/skipped"
}

# test_that NAME COMMAND..: counts the command's exit status; shows what it printed if it fails. If something is lacking, it runs nothing
test_that() {
    local name=$1
    shift
    if [ -n "$lacking" ]; then
        skip "$name" "$lacking"
    elif "$@" >"$work/out" 2>&1; then
        passed=$((passed + 1))
        echo "passed: $name"
    else
        failed=$((failed + 1))
        echo "FAILED: $name"
        shown
    fi
}

# what the test before printed; of a long output its beginning and its end
shown() {
    if [ "$(wc -l <"$work/out")" -le 60 ]; then
        cat "$work/out"
    else
        head -n 20 "$work/out" && echo '..' && tail -n 40 "$work/out"
    fi
}

# the last line that the test before printed
last_line() { [ -n "$lacking" ] || tail -n 1 "$work/out"; }

# the lines that end a part: what was skipped and why, and the count
print_counts() {
    sort "$work/skipped" | uniq -c | while read -r count why; do
        echo "skipped, $count: $why"
    done
    echo "$(wc -l <"$work/skipped") skipped"
    echo "$passed passed, $failed failed"
}

finish() {
    print_counts
    [ "$failed" -eq 0 ]
    exit
}

# is_one_test NAME: the whole script is one test, which passes if the script ends with status 0
is_one_test() {
    one_test=$1
    trap 'one_test_ended $?' EXIT
}

one_test_ended() {
    if [ "$1" -eq 0 ]; then
        passed=1
        echo "passed: $one_test"
    else
        failed=1
        echo "FAILED: $one_test"
    fi
    print_counts
    rm -rf "$work"
}

# has COMMAND..: all of these commands are installed
has() { local it; for it; do command -v "$it" >/dev/null || return; done; }

# wrote INPUT EXPECTED COMMAND..: the command, fed INPUT, writes EXPECTED
wrote() {
    local input=$1 expected=$2
    shift 2
    "$@" <"$input" >"$work/written" && cmp "$work/written" "$expected"
}

# sum_of_sources COMMAND..: a sum of what the command reads where it makes something of the crates
sum_of_sources() {
    { rt version && echo "$*" && find crates.txt crates/*/{src,specs,proofs} -type f | LC_ALL=C sort | xargs sha256sum; } | sha256sum
}

# made CRATE FILE COMMAND..: crates/CRATE/out/FILE is what the command makes of the crates as they stand, with this toolchain. If no note in target/ says
# so, it is made. One process at a time, since another part may link the file.
made() {
    local crate=$1 file=crates/$1/out/$2 note=target/made-$1-$2 sources
    shift 2
    mkdir -p target && (
        flock 9
        sources=$(sum_of_sources "$@")
        [ -f "$file" ] && [ "$sources $(sha256sum <"$file")" = "$(cat "$note" 2>/dev/null)" ] && exit
        (cd "crates/$crate" && "$@" </dev/null) && [ -f "$file" ] && echo "$sources $(sha256sum <"$file")" >"$note"
    ) 9>target/making
}

# archive NAME: the archive of this crate, for any processor of the x86-64 family
archive() { made "$1" "lib$1.a" rt lib --cpu=x86-64; }

# program NAME: the program of this crate
program() { made "$1" "$1" rt run; }

# left_by_ci NAME: notes that the program of this crate is there, after an rt ci that passed: it leaves what rt run would make
left_by_ci() { mkdir -p target && echo "$(sum_of_sources rt run) $(sha256sum <"crates/$1/out/$1")" >"target/made-$1-$1"; }

# feeds_packcheck DIR: packcheck, fed DIR/NAME.in, ends with status 0 and writes NAME.out, for every NAME. Prints the first pairs that differ and how
# many were compared: none is a failure
feeds_packcheck() {
    local dir=$1 input compared=0 differing=0
    for input in "$dir"/*.in; do
        [ -f "$input" ] || continue
        compared=$((compared + 1))
        if ! wrote "$input" "${input%.in}.out" crates/packcheck/out/packcheck >"$work/difference" 2>&1; then
            differing=$((differing + 1))
            [ "$differing" -gt 10 ] || { echo "differs: ${input##*/}" && cat "$work/difference"; }
        fi
    done
    echo "compared: $compared pairs, of which $differing differ"
    [ "$compared" -gt 0 ] && [ "$differing" -eq 0 ]
}
