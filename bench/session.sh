#!/usr/bin/env bash
# What a session costs: a script of 200 MB of lines that are no commands against `cat` into the same pipe, and the memory for scripts of
# 2 MB and of 200 MB. Word: the program.
set -eu
top=$(cd "$(dirname "$0")/.." && pwd)
pvtag=$(readlink -f "${1:-$top/build/pvtag}")
work=$(mktemp -d)
trap 'rm -rf "$work"' EXIT
cd "$work"
[ -x "$pvtag" ] || { echo "build it first" >&2; exit 1; }
cp "$top/examples/article.dtd" a.dtd
printf '<doc>Hello</doc>' >hello.xml

# seconds COMMAND..: the least of three runs
seconds() {
    for _ in 1 2 3; do
        /usr/bin/time -f %e -o time.txt "$@" >/dev/null
        cat time.txt
    done | sort -n | head -n 1
}
ratio() { awk -v a="$1" -v b="$2" 'BEGIN { printf "%.1f", a / (b > 0 ? b : 0.01) }'; }

# lines LINE: how long 200 MB of this line take
lines() {
    yes "$1" | head -c 200000000 >long.txt
    copied=$(seconds bash -c 'cat long.txt | cat')
    answered=$(seconds bash -c 'cat long.txt | "$0" session a.dtd doc hello.xml' "$pvtag")
    echo "200 MB of lines of ${#1} bytes: $answered s, cat $copied s, $(ratio "$answered" "$copied") times"
}
lines 'not a command at all'
lines "$(head -c 100 /dev/zero | tr '\0' x)"
head -c 2000000 long.txt >short.txt

for script in short.txt long.txt; do
    /usr/bin/time -f "$script: %M kB" "$pvtag" session a.dtd doc hello.xml <"$script" 2>&1 >/dev/null
done
