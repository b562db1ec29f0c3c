#!/usr/bin/env bash
# A first look, without proofs, shows what README's first session shows. The last line tells how many passed.
set -u
cd "$(dirname "$0")/.." || exit 1
line=$(sed -n 's/^\$ \.\/pvtag \(session .*\)/\1/p' README.md | head -n 1)
shown=$(awk -v line="\$ ./pvtag $line" '$0 == "```" || /^\$ / { inside = 0 } inside { print } $0 == line { inside = 1 }' README.md)
said=$(bash -c "tools/look $line" 2>/dev/null)
if [ -n "$shown" ] && [ "$said" = "$shown" ]; then
    echo "1 passed, 0 failed"
else
    printf 'a first look shows\n%s\nin place of\n%s\n' "$said" "$shown"
    echo "0 passed, 1 failed"
    exit 1
fi
