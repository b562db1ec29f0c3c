#!/usr/bin/env bash
# All tests. `rt ci` proves every crate, tries the must-fail edits and runs the crates' tests and the program. What it has proved and built is put
# at build/pvtag, build/pvlong and build/pvmany, and the checks of tests/run.py are run on them. The last line tells how many passed. Words: names of checks,
# which are run alone, on what is built; `--list` lists them.
set -u
cd "$(dirname "$0")/.." || exit 1
# No test takes a program that isn't proved.
export PVTAG_PROVED=1
if [ $# -gt 0 ]; then
    [ "$1" = --list ] || tools/build pvtag pvlong pvmany --check || {
        echo "tests/all.sh: what is built is older than its sources: \`tools/build all\` makes it"
        exit 1
    }
    exec python3 tests/run.py "$@"
fi
log=$(mktemp)
trap 'rm -f "$log"' EXIT

# counted: what the last line of the form 'N passed, M failed' in the log tells
counted() {
    grep -oE '[0-9]+ passed, [0-9]+ failed' "$log" | tail -n 1
}

# What is proved is what stands here now, whatever changes meanwhile.
mapfile -t sources < <(tools/build pvtag pvlong pvmany --sum)
[ "${#sources[@]}" -eq 3 ] || exit 1
commit=$(git rev-parse HEAD 2>/dev/null)
[ -z "$(git status --porcelain 2>/dev/null)" ] || commit+=" with changes"
rm -f build/pvtag.gate
rt ci | tee "$log"
[ "${PIPESTATUS[0]}" -eq 0 ] || {
    grep -qE ', [1-9][0-9]* failed' "$log" || echo "0 passed, 1 failed"
    exit 1
}
proofs=$(counted)
{ tools/build pvtag --put crates/pvtag/out/pvtag "${sources[0]}" && tools/build pvlong --put crates/pvlong/out/pvlong "${sources[1]}" &&
    tools/build pvmany --put crates/pvmany/out/pvmany "${sources[2]}" && tools/build pvtag pvlong pvmany --check; } || {
    echo "tests/all.sh: the sources have changed since they were proved"
    echo "0 passed, 1 failed"
    exit 1
}
python3 tests/run.py | tee "$log"
status=${PIPESTATUS[0]}
checks=$(counted)
checks=${checks:-0 passed, 1 failed}
skipped=$(tail -n 1 "$log" | grep -oE ', [0-9]+ skipped')
told="$((${proofs%% *} + ${checks%% *})) passed, $(($(cut -d' ' -f3 <<<"$proofs") + $(cut -d' ' -f3 <<<"$checks"))) failed$skipped"
# A package tells it.
[ "$status" -ne 0 ] || echo "${sources[0]} $told, at commit $commit" >build/pvtag.gate
echo "$told"
exit "$status"
