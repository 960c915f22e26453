#!/bin/sh
# Holds the definitions in crates/meaning against the vectors, by computing them: each vector of a workable size becomes a
# theorem closed by `refl` in a crate that depends on a copy of `meaning`, and the prover checks them all.
# The two crates stand in a folder of their own outside the repository, where they are in the way of no `rt` there; it goes at the end. What
# was said is left in the repository's target/definitions.
#
# usage: definitions.sh [the built program `oracle`]
# Without one, cargo builds and runs it.

set -u

fail() {
    printf 'definitions: %s\n' "$1" >&2
    exit 1
}

rust=$(CDPATH='' cd -- "$(dirname -- "$0")" && pwd) || fail "no folder of $0"
root=$(dirname -- "$rust")
said=$root/target/definitions

[ -d "$root/crates/meaning/specs" ] || fail "$root has no crates/meaning/specs"
rm -rf "$said"
mkdir -p "$said" || fail "$said cannot be made"
scratch=$(mktemp -d) || fail "no folder for the theorems"
trap 'rm -rf "$scratch"' EXIT
trap 'exit 1' HUP INT PIPE TERM
mkdir -p "$scratch/crates/meaning" || fail "$scratch/crates cannot be made"
for part in src specs proofs; do
    [ ! -d "$root/crates/meaning/$part" ] || cp -R "$root/crates/meaning/$part" "$scratch/crates/meaning/" || fail "crates/meaning cannot be copied"
done
printf 'meaning:\nvectors: meaning\n' >"$scratch/crates.txt"

oracle() {
    if [ -n "$built" ]; then
        "$built" "$@"
    else
        (cd "$rust" && cargo run --quiet --release --offline -p oracle -- "$@")
    fi
}

built=${1-}
oracle definitions "$root/vectors" "$scratch/crates/vectors" >"$said/made.txt" || fail "no theorems were made"
count=$(sed -n 's/^\([0-9][0-9]*\) vectors as theorems$/\1/p' "$said/made.txt")
[ -n "$count" ] || fail "no theorems were made"

(cd "$scratch/crates/vectors" && rt check) >"$said/log.txt" 2>&1
status=$?
if [ "$status" -ne 0 ] || ! grep -q '^logic=proved ' "$said/log.txt"; then
    # The first errors; where none is marked as one, the log's end.
    if grep -q 'error:' "$said/log.txt"; then
        awk '/error:/ { errors++ } errors && errors <= 3' "$said/log.txt" | head -n 20 >&2
    else
        tail -n 20 "$said/log.txt" >&2
    fi
    fail "not all of $count vectors are computed to what they say (target/definitions/log.txt)"
fi
echo "definitions: $count vectors computed"
echo "$count passed, 0 failed"
