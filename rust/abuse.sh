#!/bin/sh
# The library under abuse: arbitrary inputs to each C entry under AddressSanitizer, beside guarded pages; some of them under
# valgrind, in blocks of the heap; and the largest stack of each entry. docs/ABUSE.md says what each of them sees.
# What is made stands in the repository's target/rust and target/asan.
#
# usage: abuse.sh [--quick] [--seed N] [--inputs N]

set -u

fail() {
    printf 'abuse: %s\n' "$1" >&2
    exit 1
}

rust=$(CDPATH='' cd -- "$(dirname -- "$0")" && pwd) || fail "no folder of $0"
cd "$rust" || fail "no folder $rust"
target=$(dirname -- "$rust")/target
log=$target/abuse
mkdir -p "$log" || fail "$log cannot be made"

seed=1
inputs=10000000
watched=20000 # under valgrind
quick=
while [ $# -gt 0 ]; do
    argument=$1
    shift
    case $argument in
    --quick)
        quick=--quick
        inputs=200000
        continue
        ;;
    --seed) seed=${1-} ;;
    --inputs) inputs=${1-} ;;
    *) fail "unknown argument $argument" ;;
    esac
    case ${1-} in
    '' | *[!0-9]*) fail "$argument takes a number" ;;
    esac
    shift
done

passed=0
failed=0

# A run whose last line counts its checks. The others are printed; all are kept in a file.
run() {
    name=$1
    shift
    "$@" >"$log/$name.txt" 2>"$log/$name.err"
    status=$?
    counts=$(sed -n '$s/^\([0-9]*\) passed, \([0-9]*\) failed$/\1 \2/p' "$log/$name.txt")
    sed '${/ passed, /d;}' "$log/$name.txt"
    head -n 40 "$log/$name.err" >&2
    held=${counts% *}
    lost=${counts#* }
    passed=$((passed + ${held:-0}))
    failed=$((failed + ${lost:-0}))
    if [ -z "$counts" ] || { [ "$status" -ne 0 ] && [ "$lost" -eq 0 ]; }; then
        printf 'abuse: %s ended with status %s\n' "$name" "$status" >&2
        failed=$((failed + 1))
    fi
}

memcheck() {
    valgrind --quiet --error-exitcode=9 --exit-on-first-error=yes "$@"
}

# A read past a block of the heap is to be seen and told in these words: a check of what watches.
is_seen() {
    words=$1
    shift
    "$@" >"$log/overread.txt" 2>&1
    if grep -q "$words" "$log/overread.txt"; then
        passed=$((passed + 1))
    else
        printf 'abuse: a read past a block is not seen: no "%s"\n' "$words" >&2
        failed=$((failed + 1))
    fi
}

cargo build --quiet --release --offline -p abuse || fail "the program cannot be built"
plain=$target/rust/release/abuse

# AddressSanitizer comes with a nightly compiler.
triple=x86_64-unknown-linux-gnu
guarded=$plain
sanitizer=no
if ! cargo +nightly --version >"$log/asan.txt" 2>&1; then
    why="there is no nightly toolchain"
elif ! RUSTFLAGS=-Zsanitizer=address cargo +nightly build --quiet --release --offline -p abuse --target "$triple" \
    --target-dir "$target/asan" >"$log/asan.txt" 2>&1; then
    why="the program does not build with it: $(tail -n 1 "$log/asan.txt")"
else
    sanitizer=yes
    guarded=$target/asan/$triple/release/abuse
fi
if valgrind --version >/dev/null 2>&1; then
    valgrind=yes
else
    valgrind=no
fi
if [ $sanitizer = no ] && [ $valgrind = no ]; then
    fail "neither AddressSanitizer ($why) nor valgrind is at hand, and one of them is asked for: nothing was run"
fi

echo "== largest stack, plain build"
run stack "$plain" stack --seed "$seed" $quick

if [ $valgrind = yes ]; then
    [ "$inputs" -lt $watched ] && watched=$inputs
    echo "== $(valgrind --version), every access of the library watched"
    is_seen "Invalid read" memcheck "$plain" overread library
    run valgrind memcheck "$plain" fuzz --heap --seed "$seed" --inputs "$watched"
else
    echo "== valgrind is not at hand: no access of the library is watched but by guarded pages"
fi

if [ $sanitizer = yes ]; then
    echo "== AddressSanitizer on the host, guarded pages about all that is lent"
    is_seen "AddressSanitizer: heap-buffer-overflow" "$guarded" overread host
else
    echo "== AddressSanitizer is not at hand ($why): guarded pages about all that is lent, plain build"
fi
run fuzz "$guarded" fuzz --seed "$seed" --inputs "$inputs"

echo "$passed passed, $failed failed"
[ "$failed" -eq 0 ]
