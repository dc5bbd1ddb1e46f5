#!/usr/bin/env bash
# Applies each misuse/NAME.edit to a copy of the sources and compiles the program `rig` from it: the compiler must refuse
# it with the error that the edit names. Nothing is proved here, so no crate need have been proved before.
# The copy is also compiled as it is, and must run then.
set -euo pipefail

top=$(cd "$(dirname "${BASH_SOURCE[0]}")/.." && pwd)
copy=$(mktemp -d)
trap 'rm -rf "$copy"' EXIT
cd "$top"
git ls-files crates crates.txt | tar cf - -T - | tar xf - -C "$copy"
git init -q "$copy"

# Compiles `rig` over the copy and runs it, and leaves what is said in the file `said`.
compiles() {
    (cd "$copy/crates/rig" && rt try <stdin >"$copy/said" 2>&1)
}

# The text after `KEY: ` in an edit.
field() {
    sed -n "s/^$2: //p" "$1"
}

# Puts `new` in place of `old`, which must stand once in the file.
apply() {
    OLD=$(field "$2" old) NEW=$(field "$2" new) awk '
        { at = index($0, ENVIRON["OLD"]) }
        at {
            rest = substr($0, at + length(ENVIRON["OLD"]))
            found += 1 + (index(rest, ENVIRON["OLD"]) > 0)
            $0 = substr($0, 1, at - 1) ENVIRON["NEW"] rest
        }
        { print }
        END { exit found != 1 }' "$top/$1" >"$copy/$1"
}

failed=0
if ! compiles; then
    cat "$copy/said"
    echo "misuse: the sources do not compile as they are"
    exit 1
fi
for edit in "$top"/misuse/*.edit; do
    name=$(basename "$edit" .edit)
    file=$(field "$edit" file)
    error=$(field "$edit" error)
    if ! apply "$file" "$edit"; then
        echo "misuse $name: FAILED, its old text does not stand once in $file"
        failed=1
    elif compiles; then
        echo "misuse $name: FAILED, it compiles"
        failed=1
    elif grep -qF "error[$error]" "$copy/said"; then
        echo "misuse $name: refused ($error)"
    else
        echo "misuse $name: FAILED, refused without $error:"
        cat "$copy/said"
        failed=1
    fi
    cp "$top/$file" "$copy/$file"
done
exit $failed
