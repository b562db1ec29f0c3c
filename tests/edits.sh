#!/usr/bin/env bash
# Tries the edits that the gate leaves out, crates/NAME/edits/*.edit, in a copy in which they stand in place of its own: the prover must refuse each.
# Words: names of crates, all that have such edits where none are given. What the kit has kept of these crates and those below isn't proved again. The
# last line tells how many edits were refused.
set -u
cd "$(dirname "$0")/.." || exit 1
names=("$@")
[ $# -gt 0 ] || mapfile -t names < <(for it in crates/*/edits/; do basename "$(dirname "$it")"; done)
copy=$(mktemp -d --tmpdir pvtag-edits-XXXXXX)
trap 'rm -rf "$copy"' EXIT
trap 'exit 130' INT TERM HUP
mkdir "$copy/.git"
cp crates.txt HANDLES "$copy"
tar -cf - --exclude='crates/*/out' --exclude='crates/*/must-fail' --exclude='crates/*/edits' crates | tar -xf - -C "$copy"
count=0
for name in "${names[@]}"; do
    [ -d "crates/$name/edits" ] || {
        echo "tests/edits.sh: crates/$name has no edits" >&2
        exit 2
    }
    cp -r "crates/$name/edits" "$copy/crates/$name/must-fail"
    count=$((count + $(find "crates/$name/edits" -name '*.edit' | wc -l)))
done
log=$copy/log
(cd "$copy" && env -u CI rt ci "${names[@]}") 2>&1 | tee "$log"
status=${PIPESTATUS[0]}
# How the kit tells of an edit that was refused: in `rt ci` one that can't be applied fails nothing.
refused=$(grep -c '^rt: must-fail [^:]*: refused, as it must be' "$log")
failed=$((count - refused))
[ "$status" -eq 0 ] || [ "$failed" -gt 0 ] || failed=1
echo "edits: $refused passed, $failed failed"
[ "$failed" -eq 0 ]
