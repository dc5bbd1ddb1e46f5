#!/usr/bin/env bash
# Runs the built programs on books that are refused: each must write the fault and nothing else, and end with status 1.
# The gate runs each program on one input, so these runs stand here. Needs crates/NAME/out/NAME, as `rt run` and `rt ci`
# leave it.
set -euo pipefail

top=$(cd "$(dirname "${BASH_SOURCE[0]}")/.." && pwd)
work=$(mktemp -d)
trap 'rm -rf "$work"' EXIT
names='l m q c v h0 h1 h2 h3'
failed=0

# refused PROGRAM WHAT 'LINE COLUMN NUMBER', of the book in the file `book`.
refused() {
    printf 'line column number\n%s\n' "$3" >"$work/due"
    local status=0
    "$top/crates/$1/out/$1" <"$work/book" >"$work/came" 2>"$work/errors" || status=$?
    if [ "$status" -eq 1 ] && [ ! -s "$work/errors" ] && cmp -s "$work/due" "$work/came"; then
        echo "refusal $1, $2: $3"
    else
        echo "refusal $1, $2: FAILED, status $status, and it wrote:"
        cat "$work/came" "$work/errors"
        failed=1
    fi
}

for program in steps rig; do
    : >"$work/book"
    refused $program 'no text' '1 0 2'
    printf '%s\n1 8 0 1 2 5 2 - - \n' "$names" >"$work/book"
    refused $program 'a trailing space' '2 9 1'
    printf '%s\n1 8 0 1 2 5 2 - -\n1 8 0 1 9 5 2 - -\n' "$names" >"$work/book"
    refused $program 'v over its limit' '3 5 3'
    printf '%s\n1 8 0 1 2 4 2 - -\n' "$names" >"$work/book"
    refused $program 'an even h0' '2 6 4'
    printf '%s\n2 4 1 1 2 5 2 - -\n' "$names" >"$work/book"
    refused $program 'a differential parity bit' '2 0 5'
    { echo "$names"; for _ in {1..33}; do echo '1 8 0 1 2 5 2 - -'; done; } >"$work/book"
    refused $program '33 codes' '34 0 6'
    head -c 4097 /dev/zero >"$work/book"
    refused $program '4,097 bytes' '0 0 6'
done
exit $failed
