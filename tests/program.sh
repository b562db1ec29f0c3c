#!/usr/bin/env bash
# The program as a user runs it: by the script at the root, with files, pipes and devices of the machine.
set -u
top=$(cd "$(dirname "$0")/.." && pwd)
work=$(mktemp -d)
trap 'rm -rf "$work"' EXIT
passed=0
failed=0

# expect NAME STATUS OUTPUT COMMAND..
expect() {
    local name=$1 status=$2 output=$3
    shift 3
    local got got_status
    got=$("$@" 2>errors.txt; echo "$?")
    got_status=${got##*$'\n'}
    got=${got%"$got_status"}
    if [ "$got_status" = "$status" ] && [ "$got" = "$output" ] && [ ! -s errors.txt ]; then
        passed=$((passed + 1))
    else
        failed=$((failed + 1))
        echo "$name: status $got_status for $status, output '$got' for '$output', errors '$(cat errors.txt)'"
    fi
}

# says NAME STATUS OUTPUT SENTENCE COMMAND..: the same, with a line on the standard error that ends so
says() {
    local name=$1 status=$2 output=$3 sentence=$4
    shift 4
    expect "$name" "$status" "$output" bash -c '"$@" 2>said.txt
        status=$?
        grep -q ": $0\$" said.txt && [ "$(wc -l <said.txt)" = 1 ] || cat said.txt >&2
        exit $status' "$sentence" "$@"
}

cd "$work" || exit 1
cp "$top/examples/article.dtd" a.dtd
printf '<doc>Hello</doc>' >hello.xml
printf '<doc><head>a</head><sec></sec></doc>' >valid.xml
printf 'Hello' >hello.txt
printf '<!ELEMENT doc (#PCDATA)>' >text.dtd
printf '<!ELEMENT doc EMPTY>' >empty.dtd
printf '<doc> </doc>' >blank.xml
head -c 4194305 /dev/zero | tr '\0' ' ' >long.dtd
head -c 4194304 /dev/zero | tr '\0' ' ' >spaces.dtd
head -c 67108865 /dev/zero | tr '\0' ' ' >long.xml
{ printf '<a>'; head -c 60000000 /dev/zero | tr '\0' x; printf '</a>'; } >text.xml
{ printf '<a>'; yes '<a/>' | head -n 1000000 | tr -d '\n'; printf '</a>'; } >siblings.xml
printf '<!ELEMENT a ANY>' >any.dtd
printf '0 5 0 a\n' >ranges.txt
head -c 67108864 long.xml | tr ' ' '\n' >lines.txt
head -c 67108864 long.xml | tr ' ' x >long.txt
printf 'show\n' >show.txt
pvtag=$top/pvtag
pvlong=$top/pvlong pvmany=$top/pvmany
lf=$'\n'

"$pvtag" valid text.dtd doc hello.xml >/dev/null || {
    echo "the program doesn't run"
    exit 1
}
expect "valid" 0 "valid$lf" "$pvtag" valid a.dtd doc valid.xml
expect "a letter" 0 "valid$lf" "$pvtag" valid "$top/examples/letter.dtd" letter "$top/examples/letter.xml"
expect "invalid" 1 "invalid 0$lf" "$pvtag" valid a.dtd doc hello.xml
expect "another root" 1 "invalid .$lf" "$pvtag" valid text.dtd p hello.xml
expect "a blank in EMPTY" 1 "invalid 0$lf" "$pvtag" valid empty.dtd doc blank.xml
says "a missing file" 3 "" "nothing.xml: there is no such file" "$pvtag" valid text.dtd doc nothing.xml
expect "a long DTD" 8 "limit dtd-file$lf" "$pvtag" valid long.dtd doc hello.xml
expect "the longest DTD" 1 "invalid 0$lf" "$pvtag" valid spaces.dtd doc hello.xml
expect "EMPTY with text" 1 "invalid 0$lf" "$pvtag" valid empty.dtd doc hello.xml
expect "a long document" 8 "limit document-file$lf" "$pvtag" valid text.dtd doc long.xml
expect "a long text" 8 "limit text-file$lf" "$pvtag" standoff any.dtd a long.xml ranges.txt
expect "the longest text" 0 "valid${lf}show 67108878$lf" bash -c '"$0" standoff any.dtd a long.txt ranges.txt | head -n 2' "$pvtag"
expect "a long file of ranges" 8 "limit ranges-file$lf" "$pvtag" standoff any.dtd a hello.txt long.xml
expect "the longest file of ranges" 9 "ranges line 0$lf" "$pvtag" standoff any.dtd a hello.txt lines.txt
expect "60 MB of text" 0 "valid$lf" "$pvtag" valid any.dtd a text.xml
expect "1,000,000 siblings" 0 "valid$lf" "$pvtag" valid any.dtd a siblings.xml
expect "check, possible" 0 "possible 1$lf" "$pvtag" check "$top/examples/letter.dtd" letter "$top/examples/letter-draft.xml"
expect "check, impossible" 1 "impossible 0$lf" "$pvtag" check "$top/examples/letter.dtd" letter "$top/examples/letter-swapped.xml"
expect "check, valid" 0 "valid$lf" "$pvtag" check a.dtd doc valid.xml
expect "why, possible" 1 "possible$lf" "$pvtag" why a.dtd doc hello.xml
expect "why, impossible" 0 "pvdeny 1${lf}list 0${lf}cause empty${lf}end$lf" "$pvtag" why empty.dtd doc blank.xml
expect "deny, by a pipe" 0 "denied 0$lf" bash -c '"$0" why empty.dtd doc blank.xml | "$0" deny empty.dtd doc blank.xml /dev/stdin' "$pvtag"
says "deny, a missing file" 3 "" "nothing.den: there is no such file" "$pvtag" deny empty.dtd doc blank.xml nothing.den
expect "deny, no denial" 9 "table line 0$lf" "$pvtag" deny empty.dtd doc blank.xml blank.xml
says "one word" 2 "usage$lf" "valid takes 3 arguments, DTD ROOT DOC, and has 0" "$pvtag" valid
says "no words" 2 "usage$lf" "one of valid, check, session, complete, why, verify, deny, standoff, dtd, drill" "$pvtag"
says "no name" 2 "usage$lf" "ROOT is to be a name, and .1x. is none" "$pvtag" valid text.dtd 1x hello.xml
expect "a bad DTD" 6 "dtd syntax 0$lf" "$pvtag" valid hello.xml doc hello.xml
expect "a bad document" 7 "document syntax 0$lf" "$pvtag" valid text.dtd doc text.dtd
expect "a full device" 4 "" bash -c '"$0" valid text.dtd doc hello.xml >/dev/full' "$pvtag"
expect "show from a file" 0 "show 16$lf<doc>Hello</doc>$lf" bash -c '"$0" session a.dtd doc hello.xml <show.txt' "$pvtag"
expect "show by a pipe" 0 "show 16$lf<doc>Hello</doc>$lf" bash -c 'printf "show" | "$0" session a.dtd doc hello.xml' "$pvtag"
expect "an empty script" 0 "" bash -c '"$0" session a.dtd doc hello.xml </dev/null' "$pvtag"
expect "a closed pipe" 0 "4$lf" bash -c 'yes show | head -n 100000 >many.txt
    ("$0" session a.dtd doc hello.xml <many.txt; echo "$?" >&3) 3>status.txt | head -c 1 >/dev/null
    cat status.txt' "$pvtag"

# A script piece by piece: each line is answered before the next is written, a hundred times.
expect "a hundred lines, each behind its reply" 0 "100$lf" bash -c 'coproc session { "$0" session a.dtd doc hello.xml; }
    answered=0
    for _ in $(seq 100); do
        echo undo >&"${session[1]}"
        read -r -t 900 reply <&"${session[0]}" && [ "$reply" = "no history" ] && answered=$((answered + 1))
    done
    echo $answered' "$pvtag"
expect "a line in two pieces" 0 "show 16$lf<doc>Hello</doc>$lf" bash -c '{ printf sh; sleep 0.2; printf "ow\r\nquit\n"; } | "$0" session a.dtd doc hello.xml' "$pvtag"
expect "an unfinished line of CR alone" 0 "no history${lf}no command$lf" bash -c 'printf "undo\r\n\r" | "$0" session a.dtd doc hello.xml' "$pvtag"
expect "the longest line" 0 "no command${lf}no history$lf" bash -c '{ head -c 1048576 /dev/zero | tr "\0" x; printf "\nundo\n"; } | "$0" session a.dtd doc hello.xml' "$pvtag"
expect "a longer line" 8 "no history${lf}limit line 2$lf" bash -c '{ printf "undo\n"; head -c 1048577 /dev/zero | tr "\0" x; } | "$0" session a.dtd doc hello.xml' "$pvtag"
# script SIZE: so many bytes, each line of which has 65,536 with its LF
script() { yes "$(head -c 65535 /dev/zero | tr '\0' x)" | head -c "$1"; }
export -f script
expect "the longest script" 0 "4096 no command$lf" bash -c 'script 268435456 | timeout 3000 "$0" session a.dtd doc hello.xml | uniq -c | sed "s/^ *//"' "$pvtag"
expect "a longer script" 0 "4096 no command${lf}1 limit script$lf" bash -c 'script 268435457 | timeout 3000 "$0" session a.dtd doc hello.xml | uniq -c | sed "s/^ *//"' "$pvtag"
expect "its status" 8 "" bash -c 'script 268435457 | timeout 3000 "$0" session a.dtd doc hello.xml >/dev/null' "$pvtag"

# The program for wide lists.
says "what acts on a terminal" 2 "usage$lf" '.x?.31m. is no command: .*' "$pvlong" "$(printf 'x\033[31m')"
says "pvlong, no words" 2 "usage$lf" "one of check, need, complete" "$pvlong"
says "pvlong, another question" 2 "usage$lf" ".valid. is no command: they are check, need, complete" "$pvlong" valid a.dtd doc hello.xml
expect "pvlong, a verdict" 0 "possible 1$lf" "$pvlong" check a.dtd doc hello.xml
says "pvlong, a missing DTD" 3 "" "nothing.dtd: there is no such file" "$pvlong" need nothing.dtd doc hello.xml
says "pvlong, a missing document" 3 "" "nothing.xml: there is no such file" "$pvlong" need a.dtd doc nothing.xml
expect "pvlong, by a pipe" 0 "need 2$lf" bash -c 'printf "<doc><head/>t</doc>" | "$0" need a.dtd doc /dev/stdin' "$pvlong"
says "pvmany, no words" 2 "usage$lf" "one of valid, check, need" "$pvmany"
expect "pvmany, its words" 0 "usage: pvmany valid DTD ROOT$lf" bash -c '"$0" --help | head -n 1' "$pvmany"
expect "pvmany, its words and a full device" 4 "" bash -c '"$0" --help >/dev/full 2>/dev/null' "$pvmany"
expect "pvmany, its version" 0 "pvmany $(cd "$top/tools" && python3 -B -c 'import version; print(version.version_of())' 2>/dev/null || echo unknown)$lf" "$pvmany" --version
says "pvmany, a word too many" 2 "usage$lf" ".--help. is no command: they are valid, check, need" "$pvmany" --help check
says "pvmany, a document too many" 2 "usage$lf" "valid takes 2 arguments, DTD ROOT, and has 3" "$pvmany" valid a.dtd doc hello.xml
says "pvmany, a missing DTD" 3 "" "nothing.dtd: there is no such file" "$pvmany" valid nothing.dtd doc
expect "pvlong, a full device" 4 "" bash -c '"$0" complete a.dtd doc hello.xml >/dev/full' "$pvlong"

# Drills.
expect "a drill" 0 "drill 3 lines 7 ok 4 refused 3 open 1 checked 7$lf" "$pvtag" drill 3
expect "a larger drill" 0 "drill 100 lines 233 ok 133 refused 100 open 33 checked 233$lf" "$pvtag" drill 100
expect "the largest drill" 0 "drill 20000 lines 46666 ok 26666 refused 20000 open 6666 checked 46666$lf" timeout 3000 "$pvtag" drill 20000
seq 20000 | awk 'BEGIN { printf "<doc><head>drill</head>" } { printf "<sec>t%d</sec>", $1 } END { printf "</doc>" }' >large.xml
seq 20000 | awk '{ printf "wrap 0.%d 0 1 br\nwrap 0.%d 0 1 p\n", $1, $1; if ($1 % 3 == 0) print "undo" }' >large.txt
seq 20000 | awk 'BEGIN { open = 20000 } { printf "no impossible 0.%d.0\nok 2 %d 0\n", $1, --open; if ($1 % 3 == 0) print "ok 1", ++open, 0 }' >replies.txt
expect "its lines in a session" 0 "46666 no impossible 0.1.0 ok 2 19999 0 ok 2 6666 0$lf" timeout 3000 bash -c '"$0" session a.dtd doc large.xml <large.txt |
    tee got.txt | awk "NR == 1 || NR == 2 { first = first \" \" \$0 } { last = \$0 } END { print NR first, last }"' "$pvtag"
expect "each of its replies" 0 "" cmp got.txt replies.txt
for size in 0 20001 007 +3 x; do says "a drill of $size" 2 "usage$lf" "N is to be a number from 1 to 20000, and .$size. is none" "$pvtag" drill "$size"; done

# DTDs at their limits and one past them, and bytes that are no characters. Each is read by `valid`, on a document that it declares.
printf '<a/>' >a.xml
types() { echo '<!ELEMENT a EMPTY>'; seq -f '<!ELEMENT e%g EMPTY>' "$1"; }
parts() { printf '<!ELEMENT a EMPTY><!ELEMENT b (#PCDATA'; seq -f '|n%g' "$1" | tr -d '\n'; printf ')*>'; }
named() { printf '<!ELEMENT a EMPTY><!ELEMENT '; head -c "$1" /dev/zero | tr '\0' n; printf ' EMPTY>'; }
# dtd NAME STATUS LINE: what `valid` says by the DTD in one.dtd
dtd() { expect "$1" "$2" "$3$lf" "$pvtag" valid one.dtd a a.xml; }
types 4095 >one.dtd
dtd "4,096 types" 0 valid
types 4096 >one.dtd
dtd "4,097 types" 8 "limit dtd 4096"
parts 65536 >one.dtd
dtd "65,536 parts" 0 valid
parts 65537 >one.dtd
dtd "65,537 parts" 8 "limit dtd 1"
named 256 >one.dtd
dtd "a name of 256 bytes" 0 valid
named 257 >one.dtd
dtd "a name of 257 bytes" 8 "limit dtd 1"
printf '<!ELEMENT a EMPTY><!ATTLIST a b CDATA "\xc3\xa9\xf0\x90\x80\x80">' >one.dtd
dtd "characters of two and four bytes" 0 valid
for bytes in '\xff' '\xed\xa0\x80' '\xc0\xaf' '\xe0\x80\xaf' '\xf4\x90\x80\x80' '\xc3' '\x00' '\xef\xbf\xbf'; do
    printf '%b' "<!ELEMENT a EMPTY><!ELEMENT n$bytes EMPTY>" >one.dtd
    dtd "$bytes in a name" 6 "dtd syntax 1"
    printf '%b' "<!ELEMENT a EMPTY><!--$bytes-->" >one.dtd
    dtd "$bytes in a comment" 6 "dtd syntax 1"
    printf '%b' "<!ELEMENT a EMPTY><!ATTLIST a b CDATA '$bytes'>" >one.dtd
    dtd "$bytes in a literal" 6 "dtd syntax 1"
done

# Parameter entities: sixteen, each of which refers twice to the one before; the limits and one past them; a text declaration after them.
doubled() {
    printf '<!ENTITY %% e0 "">'
    for k in $(seq 16); do printf '<!ENTITY %% e%d "&#37;e%d;&#37;e%d;">' "$k" $((k - 1)) $((k - 1)); done
    printf '%%e%d;' "$1"
}
# listed NAME STATUS LINES: what `dtd` says of one.dtd
listed() { expect "$1" "$2" "$3$lf" "$pvtag" dtd one.dtd; }
doubled 15 >one.dtd
listed "65,535 references by doubling" 0 "types 0 parts 0 undeclared 0"
doubled 16 >one.dtd
listed "131,071 references by doubling" 8 "limit params"
{ printf "<!ENTITY %% e ''>"; yes '%e;' | head -n 65536 | tr -d '\n'; } >one.dtd
listed "65,536 references" 0 "types 0 parts 0 undeclared 0"
{ printf "<!ENTITY %% e ''>"; yes '%e;' | head -n 65537 | tr -d '\n'; } >one.dtd
listed "65,537 references" 8 "limit params"
# placed N: N references to a text of 1,048,576 bytes
placed() {
    printf "<!ENTITY %% e '<!--"
    head -c 1048569 /dev/zero | tr '\0' x
    printf -- "-->'>"
    yes '%e;' | head -n "$1" | tr -d '\n'
}
placed 3 >one.dtd
listed "3,145,728 bytes put in place" 0 "types 0 parts 0 undeclared 0"
placed 16 >one.dtd
listed "16,777,216 bytes put in place, a DTD of too many bytes" 8 "limit dtd 0"
placed 17 >one.dtd
listed "17,825,792 bytes put in place" 8 "limit params"
printf "<!ENTITY %% a ''><?xml version='1.0'?>" >one.dtd
listed "a text declaration behind a parameter declaration" 6 "dtd syntax 0"

# Documents for `check`: many lists, long lists, and lists at the widest and one past it.
repeat() { yes "$2" | head -n "$1" | tr -d '\n'; }
# check NAME STATUS LINE: what `check` says of one.xml by the DTD in one.dtd and its root
check() { expect "$1" "$2" "$3$lf" "$pvtag" check "$4" "$5" one.xml; }
{ printf '<doc><head/>'; repeat 1055 '<sec/>'; printf '</doc>'; } >one.xml
check "1,055 sections" 0 valid a.dtd doc
{ printf '<doc><head/>'; repeat 1056 '<sec/>'; printf '</doc>'; } >one.xml
check "1,056 sections" 0 valid a.dtd doc
{ printf '<doc><head/>'; repeat 20000 '<sec>t</sec>'; printf '</doc>'; } >one.xml
check "20,000 sections with text" 0 "possible 20000" a.dtd doc
{ repeat 512 '<em>'; repeat 512 '</em>'; } >one.xml
check "512 elements in one another" 0 valid a.dtd em
{ printf '<!ELEMENT r (#PCDATA'; seq -f '|a%g' 4000 | tr -d '\n'; printf ')*><!ELEMENT a1 EMPTY>'; } >one.dtd
{ printf '<r>'; repeat 8386 '<a1/>'; printf '</r>'; } >one.xml
check "the widest list" 0 valid one.dtd r
{ printf '<r>'; repeat 8387 '<a1/>'; printf '</r>'; } >one.xml
check "a list too wide" 8 "limit width 0" one.dtd r
{ printf '<!ELEMENT r (#PCDATA'; seq -f '|a%g' 4000 | tr -d '\n'; printf ')*>'; } >one.dtd
{ printf '<r>'; repeat 8386 'x<!---->'; printf '</r>'; } >one.xml
check "the widest list of texts" 0 valid one.dtd r
{ printf '<r>'; repeat 8387 'x<!---->'; printf '</r>'; } >one.xml
check "a list of texts too wide" 8 "limit width 0" one.dtd r
expect "a session on it, whose input is left alone" 8 "limit width 0${lf}show$lf" \
    bash -c '("$0" session one.dtd r one.xml; status=$?; cat; exit $status) <show.txt' "$pvtag"
{ repeat 513 '<em>'; repeat 513 '</em>'; } >one.xml
check "513 elements in one another" 8 "limit depth 512" a.dtd em
printf '<!ELEMENT a (b, c?)><!ELEMENT b (a?)><!ELEMENT c EMPTY>' >one.dtd
{ printf '<a>'; repeat 20000 '<c/>'; printf '</a>'; } >one.xml
expect "20,000 kids by left recursion, in 20 seconds of processor time" 0 "possible 1$lf" bash -c 'ulimit -t 20; exec "$0" check one.dtd a one.xml' "$pvtag"

# Sessions. session NAME REPLIES DTD ROOT DOCUMENT LINE..: what is answered to these lines
session() {
    local name=$1 replies=$2 dtd=$3 root=$4
    printf '%s' "$5" >one.xml
    shift 5
    printf '%s\n' "$@" >script.txt
    expect "$name" 0 "$replies$lf" bash -c '"$0" session "$1" "$2" one.xml <script.txt' "$pvtag" "$dtd" "$root"
}
# lines LINE..: lines with an LF between
lines() { local IFS=$lf; printf '%s' "$*"; }
hello='<doc>Hello</doc>'
"$pvtag" session "$top/examples/article.dtd" doc "$top/examples/draft.xml" <"$top/examples/markup.txt" | tail -n +7 | head -n 2 >marked.xml
expect "a draft that was marked up" 0 "valid$lf" "$pvtag" valid a.dtd doc marked.xml
session "an impossible document" "$(lines 'no impossible 0' 'no impossible 0' 'ok 1 1 0' 'need 1' 'ok 2 0 1' 'verdicts 4' '. valid 0' '0 impossible 2' \
    '0.0 valid 0' '0.1 valid 2')" a.dtd doc '<doc><sec/><head/></doc>' need 'wrap 0 0 1 br' 'unwrap 0.1' need undo verdicts
session "its blank in a br" 'ok 1 0 0' a.dtd doc '<doc><head/><sec><p><br> </br></p></sec></doc>' 'deltext 0.1.0.0.0'
session "no more impossible lists" 'ok 2 1 1' a.dtd doc '<doc><sec/><head/></doc>' 'wrap 0 0 2 sec'
session "the first changed list" "$(lines 'no impossible 0.1' 'no impossible 0')" a.dtd doc '<doc><sec/><head/></doc>' 'insert 0.1 0 br' complete
session "a refused edit" "$(lines 'no impossible 0.0' 'show 16' "$hello" 'history 0')" a.dtd doc "$hello" 'wrap 0 0 1 br' show history
session "offers" "$(lines 'offer 7' head sec title p em list item 'offer 0' 'no shape root-shape' 'no shape not-element' 'no shape range' 'no shape not-element' \
    'history 0')" a.dtd doc "$hello" 'offer 0 0 1' 'offer . 0 1' 'offer . 0 0' 'offer 0.0 0 0' 'offer 0 1 0' 'offer .' history
session "offers round a root, and for it" "$(lines 'offer 4' doc sec list item 'offer 8' doc head sec title p em list item)" a.dtd doc '<p>a</p>' 'offer . 0 1' 'offer 0'
session "offers in an impossible document" "$(lines 'offer 1' doc 'ok 2 1 1' 'ok 1 0 1' 'no impossible 0')" a.dtd doc '<doc><sec/><head/></doc>' \
    'offer 0 0 1' 'wrap 0 0 1 doc' undo 'wrap 0 0 1 head'
session "undo and redo" "$(lines 'ok 2 1 0' 'ok 2 1 0' 'no history' 'ok 2 1 0' 'no history')" a.dtd doc '<doc><p>a</p></doc>' \
    'rename 0.0 head' undo undo redo redo
session "a head" "$(lines 'ok 1 1 0' 'ok 2 1 0' 'show 29' '<doc><head>He</head>llo</doc>' 'history 2' 'split 0.0 2' 'wrap 0 0 1 head')" \
    a.dtd doc "$hello" 'split 0.0 2' 'wrap 0 0 1 head' show history
session "verdicts" "$(lines 'verdicts 2' '. valid 0' '0 possible 0' 'ok 1 1 0' 'ok 2 1 0' 'verdicts 3' '. valid 0' '0 possible 2' '0.0 valid 2' 'no impossible 0' \
    'verdicts 3' '. valid 0' '0 possible 2' '0.0 valid 2' 'ok 1 1 0' 'ok 2 1 0' 'verdicts 3' '. valid 0' '0 possible 4' '0.0 valid 4')" \
    a.dtd doc "$hello" verdicts 'split 0.0 2' 'wrap 0 0 1 head' verdicts 'wrap 0 1 2 head' verdicts undo redo verdicts
session "need" "$(lines 'need 2' 'ok 2 1 0' 'need 1' 'ok 1 1 0' 'need 2' 'show 16' "$hello" 'history 0')" a.dtd doc "$hello" \
    need 'wrap 0 0 1 head' need undo need show history
session "need on a list too wide for weights" "$(lines 'no wide 0' 'ok 2 0 0' 'need 0')" a.dtd doc "<doc>$(repeat 1057 '<sec/>')</doc>" need 'insert 0 0 head' need
session "complete" "$(lines 'completed 2 40' '<doc><head>Hello</head><sec></sec></doc>' 'show 16' "$hello" 'history 0')" a.dtd doc "$hello" complete show history
# completes DTD ROOT DOCUMENT: what `complete` shows of an example is valid
completes() {
    printf 'complete\n' | "$pvtag" session "$top/examples/$1" "$2" "$top/examples/$3" >completed.txt
    read -r _ _ size <completed.txt
    tail -n +2 completed.txt | head -c "$size" >completed.xml
    expect "$3, completed" 0 "valid$lf" "$pvtag" valid "$top/examples/$1" "$2" completed.xml
}
for document in article draft outline report; do completes article.dtd doc "$document.xml"; done
for document in letter letter-draft; do completes letter.dtd letter "$document.xml"; done
completes page.dtd html page.xhtml
for k in $(seq 0 19); do echo "<!ELEMENT t$k (t$((k + 1)),t$((k + 1)))>"; done >doubling.dtd
echo '<!ELEMENT t20 EMPTY>' >>doubling.dtd
session "need past a million" "$(lines 'no heavy' 'no heavy')" doubling.dtd t0 '<t0/>' need complete
session "need below a million" 'need 524286' doubling.dtd t2 '<t2/>' need

# Ranges beside a text.
printf 'Tea time' >tea.txt
printf '0 8 0 p\n0 3 0 em\n' >tea.ranges
expect "ranges nest" 0 "$(lines 'possible 1' 'show 35' '<doc><p><em>Tea</em> time</p></doc>')$lf" "$pvtag" standoff a.dtd doc tea.txt tea.ranges
printf '3 8 0 em\n0 5 0 em\n' >tea.ranges
expect "ranges cross" 9 "ranges cross 0 5 3 8$lf" "$pvtag" standoff a.dtd doc tea.txt tea.ranges
printf '0 8 0 br\n' >tea.ranges
expect "ranges of an impossible document" 1 "$(lines 'impossible 0.0' 'show 28' '<doc><br>Tea time</br></doc>')$lf" "$pvtag" standoff a.dtd doc tea.txt tea.ranges

# Packs.
printf '<!ELEMENT a (b)><!ELEMENT b EMPTY>' >pair.dtd
printf '<a/>' >one.xml
expect "a pack" 0 "$(lines 'pvpack 1' 'total 1' 'mark 1' 'body 14' '<a><b></b></a>' 'list 0' 'c 0 0 0 1' 'c 1 0 0 0' 'n 0 0 0 2' \
    'n 1 0 0 1' 'p 0 0 0 1' 'p 1 0 0 1' 's 1 0 0 1' 'end')$lf" "$pvtag" complete pair.dtd a one.xml
"$pvtag" complete pair.dtd a one.xml >one.pack
expect "a pack is accepted" 0 "accepted 1$lf" "$pvtag" verify pair.dtd a one.xml one.pack
sed 's/^total 1$/total 2/' one.pack >other.pack
expect "a pack is rejected" 1 "rejected totals$lf" "$pvtag" verify pair.dtd a one.xml other.pack
sed '$d' one.pack >other.pack
expect "a pack without its end" 9 "pack line 12$lf" "$pvtag" verify pair.dtd a one.xml other.pack
says "no pack" 3 "" "none.pack: there is no such file" "$pvtag" verify pair.dtd a one.xml none.pack
printf '<a><b/></a>' >one.xml
expect "a pack of a valid document" 0 "$(lines 'pvpack 1' 'total 0' 'body 11' '<a><b/></a>' 'end')$lf" "$pvtag" complete pair.dtd a one.xml
printf '<doc><sec/><head/></doc>' >one.xml
expect "no pack of an impossible document" 1 "impossible 0$lf" "$pvtag" complete a.dtd doc one.xml
printf '<t0/>' >one.xml
expect "a pack of too many elements" 8 "limit weight$lf" "$pvtag" complete doubling.dtd t0 one.xml
printf '<doc>%s</doc>' "$(repeat 1057 '<sec/>')" >one.xml
expect "a list too wide for a pack" 8 "limit width 0$lf" "$pvtag" complete a.dtd doc one.xml
printf '<!ELEMENT t (r)*><!ELEMENT r (a)><!ELEMENT a ANY>' >one.dtd
printf '<t>%s</t>' "$(repeat 12 "<r>$(repeat 400 '<a/>')</r>")" >one.xml
expect "a pack of too many entries" 8 "limit tables$lf" "$pvtag" complete one.dtd t one.xml
session "not yet valid" "$(lines 'no shape range' 'ok 2 1 0' 'ok 2 1 0' 'show 30' '<doc><head/>Hello<p></p></doc>')" a.dtd doc "$hello" \
    'wrap 0 2 5 p' 'wrap 0 1 1 p' 'insert 0 0 head' show
session "shapes" "$(lines 'no shape close-mark' 'no shape not-element' 'no shape root-shape' 'no shape no-node' 'no shape root-shape' 'no shape bad-name')" \
    a.dtd doc '<doc><head/><sec><p><em>]]</em>></p></sec></doc>' 'unwrap 0.1.0.0' 'unwrap .' 'unwrap 0' 'unwrap 9' 'insert . 0 doc' 'rename 0.1 1x'
session "texts" "$(lines 'ok 1 1 0' 'ok 1 1 0' 'ok 1 1 0' 'no shape bad-text' 'ok 1 1 0' 'show 11' '<doc></doc>' 'ok 1 1 0' 'show 23' '<doc>Hi &amp; bye</doc>')" \
    a.dtd doc "$hello" 'addtext 0 1 , you' 'join 0.0' 'text 0.0 Hi &amp; bye' 'text 0.0 a&nbsp;' 'deltext 0.0' show undo show
session "the parent of a renamed element" "$(lines 'no impossible 0' 'show 24' '<doc><head/><sec/></doc>')" a.dtd doc '<doc><head/><sec/></doc>' \
    'rename 0.1 head' show
session "history" "$(lines 'ok 2 1 0' 'no impossible 0.0.0' 'no shape range' 'ok 2 1 0' 'history 2' 'wrap 0 0 1 p' 'wrap 0 0 1 sec' 'ok 1 1 0' 'history 1' \
    'wrap 0 0 1 p' 'ok 2 1 0' 'history 2' 'wrap 0 0 1 p' 'wrap 0 0 1 sec')" a.dtd doc "$hello" \
    'wrap 0 0 1 p' 'wrap 0.0 0 1 br' 'wrap 0 0 9 p' 'wrap 0 0 1 sec' history undo history redo history
session "a new edit drops what was undone" "$(lines 'ok 2 1 0' 'ok 1 1 0' 'ok 2 1 0' 'no history' 'history 1' 'wrap 0 0 1 head')" a.dtd doc "$hello" \
    'wrap 0 0 1 p' undo 'wrap 0 0 1 head' redo history
session "a refused edit keeps what was undone" "$(lines 'ok 2 1 0' 'ok 1 1 0' 'no impossible 0.0' 'ok 2 1 0' 'history 1' 'wrap 0 0 1 p')" a.dtd doc "$hello" \
    'wrap 0 0 1 p' undo 'wrap 0 0 1 br' redo history
session "numbers and paths" "$(lines 'no shape range' 'no command' 'no command' 'no command' 'no shape no-node' 'no command' 'no command' 'no command' \
    'no command' 'no command' 'no command' 'no shape no-node' 'no command')" a.dtd doc "$hello" \
    'split 0.0 4294967295' 'split 0.0 4294967296' 'split 0.0 01' 'split 0.0 +1' 'split 0.4294967295 1' 'split 0.4294967296 1' 'split 00.0 1' \
    'split 0..1 1' 'split .0 1' 'split 0. 1' 'split  1' 'insert 4294967295 0 p' 'insert 0 00 p'
session "paths of the document node" "$(lines 'no shape not-text' 'no shape not-text' 'no shape not-element' 'no shape root-shape' 'no shape root-shape' 'no shape root-shape')" \
    a.dtd doc "$hello" 'split . 1' 'deltext .' 'rename . doc' 'wrap . 0 0 doc' 'addtext . 0 x' 'insert . 1 doc'
session "empty names and texts" "$(lines 'no shape bad-name' 'no shape bad-name' 'no shape bad-name' 'no shape bad-text' 'no shape bad-text' \
    'no command' 'no command' 'no command' 'no command' 'no command')" a.dtd doc "$hello" \
    'wrap 0 0 1 ' 'insert 0 0 ' 'rename 0 ' 'text 0.0 ' 'addtext 0 0 ' 'wrap 0 0 1' 'insert 0 0' 'rename 0' 'text 0.0' 'addtext 0 0'
session "blanks in names and texts" "$(lines 'no shape bad-name' 'no shape bad-name' 'no shape bad-name' 'ok 1 1 0' 'show 14' '<doc> a </doc>')" a.dtd doc "$hello" \
    'wrap 0 0 1  p' 'wrap 0 0 1 p ' 'insert 0 0 p p' 'text 0.0  a ' show
forms=('wrap' 'wrap  0 0 1 p' 'wrap 0  0 1 p' 'wrap 0 0  1 p' ' wrap 0 0 1 p' 'wrap0 0 1 p' 'wrap 0 01 p' 'Wrap 0 0 1 p' 'insert' 'insert  0 0 p' 'insert 0  0 p'
    'insert 00 p' 'unwrap' 'unwrap ' 'unwrap  0' 'unwrap 0 ' 'unwrap 0 0' 'unwrap0' 'rename' 'rename  0 p' 'rename0 p' 'split' 'split 0.0' 'split  0.0 2'
    'split 0.0  2' 'split 0.0 2 ' 'split 0.0 2 2' 'join' 'join ' 'join  0.0' 'join 0.0 ' 'join0.0' 'text' 'text ' 'text  0.0 x' 'addtext' 'addtext  0 0 x'
    'addtext 0  0 x' 'deltext' 'deltext ' 'deltext  0.0' 'deltext 0.0 ' 'undo ' ' undo' 'undo 1' 'redo ' 'redo 1' 'history ' 'history 1' 'show ' 'show 1'
    'quit ' ' quit' 'quit 1' 'Quit' 'need ' ' need' 'need 1' 'complete ' 'complete 1' 'completed' 'verdicts ' 'offer' 'offer ' 'offer 0 ' 'offer 0 0' 'offer 0 0 ' 'offer 0 0 1 ' 'offer 0 0 1 p' 'offer  0'
    'offer 0 01 1' 'offer0' 'Offer 0' '')
session "lines that are no commands" "$(printf 'no command\n%.0s' "${forms[@]}")" a.dtd doc "$hello" "${forms[@]}"
session "1,055 sections" 'ok 2 0 0' a.dtd doc "<doc><head/>$(repeat 1055 '<sec/>')</doc>" 'insert 0 1 sec'
session "512 elements in one another" 'no shape deep' a.dtd em "$(repeat 512 '<em>')$(repeat 512 '</em>')" 'wrap . 0 1 em'
{ printf '<!ELEMENT r (#PCDATA'; seq -f '|a%g' 4000 | tr -d '\n'; printf ')*><!ELEMENT a1 EMPTY>'; } >wide.dtd
session "an edit past the width" "$(lines 'no limit' 'history 0' 'verdicts 2' '. valid 0' '0 valid 0')" wide.dtd r "<r>$(repeat 8386 'x<!---->')</r>" \
    'addtext 0 0 y' history verdicts

# The pages. shows COMMAND OUTPUT: it prints this, in which a line of three dots is any lines
mkdir page && ln -s "$pvtag" "$pvlong" "$pvmany" "$top/examples" "$top/clients" page/ || exit 1
where=page
shows() {
    local got
    case $1 in
    python3* | clients/* | *' clients/'*) command -v python3 >/dev/null || { echo "skipped: $1 (no python3)"; return; } ;;
    esac
    got=$(cd "$where" && PATH=$top:$PATH bash -c "$1" </dev/null 2>&1; echo .)
    got=${got%.}
    if [ "$got" = "$2" ] || [[ $2 == *"$lf...$lf"* && $got == "${2%%"$lf...$lf"*}$lf"*"${2#*"$lf...$lf"}" ]]; then
        passed=$((passed + 1))
    else
        failed=$((failed + 1))
        echo "$1: output '$got' for '$2'"
    fi
}
# page: what each command in its input shows, a line that begins with `$ ` between two lines of ```, with the lines below it up to the next
page() {
    local command='' output='' inside='' line
    while IFS= read -r line; do
        case $inside$line in
        '```'* | 'yes```'* | 'yes$ '*)
            [ -z "$command" ] || shows "$command" "$output"
            command='' output=''
            case $line in
            '$ '*) command=${line#'$ '} ;;
            *) [ "$inside" ] && inside='' || inside=yes ;;
            esac
            ;;
        *) [ -z "$command" ] || output+=$line$lf ;;
        esac
    done
}
expect "README's size" 0 "" awk 'length > 120 || FNR > 120' "$top/README.md"
page <"$top/README.md"
page <"$top/docs/COMMANDS.md"
page <"$top/docs/ARCHIVES.md"
# The line for GNU parallel, as it is printed, twice: the second time there are rows beside the batches.
if command -v parallel >/dev/null && command -v python3 >/dev/null; then
    mkdir page/bin && ln -s "$top/clients/report" page/bin/pvtag-report
    line=$(sed -n 's/^    \(parallel .*\)/\1/p' "$top/docs/ARCHIVES.md")
    for _ in once twice; do
        expect "the line for GNU parallel" 0 "" env -C page PATH="$work/page/bin:$PATH" PARALLEL=--will-cite bash -c "$line" </dev/null
        expect "the rows of the batches" 0 "4$lf" bash -c 'page/bin/pvtag-report --join page/batches | tail -n +2 | wc -l'
    done
else
    echo "skipped: the line for GNU parallel (no parallel or no python3)"
fi
if command -v python3 >/dev/null; then
    mkdir page/on-path && ln -s "$pvtag" page/on-path/pvtag
    expect "a client with the program on the path" 0 "$(cd page && python3 examples/client.py examples/letter.dtd letter examples/letter-draft.xml)$lf$lf" \
        env -C page/on-path/.. -u PVTAG PATH="$work/page/on-path:$PATH" sh -c 'cd clients && python3 ../examples/client.py ../examples/letter.dtd letter ../examples/letter-draft.xml'
fi
page <"$top/docs/HOWTO.md"
page <"$top/docs/CLIENTS.md"
expect "the first of the two commands" 0 "valid$lf" bash -c "cd page && $(sed -n 's/^- `\(\.\/pvtag [^`]*\)`.*/\1/p' "$top/README.md")"
# The manuals show commands among the examples, a long one over two lines.
where=page/examples
for manual in "$top/docs/pvtag.1" "$top/docs/pvlong.1" "$top/docs/pvmany.1"; do
    page < <(sed -n '/^\.Bd -literal/,/^\.Ed/ { s/^\.\(Bd\|Ed\).*/```/; s/\\e/\\/g; p }' "$manual" | sed ':join; /|$/ { N; s/\n */ /; b join }')
    if command -v groff >/dev/null; then
        expect "the manual page" 0 "" groff -ww -mdoc -Tutf8 -z "$manual"
    else
        echo "skipped: the manual page (no groff)"
    fi
    if command -v mandoc >/dev/null; then
        # Whether the manual that it refers to is installed is the machine's business.
        expect "the manual page, by mandoc" 0 "" bash -c 'mandoc -Tlint "$0" 2>&1 | grep -v ": outdated mandoc.db\|STYLE: referenced manual not found" || true' "$manual"
    else
        echo "skipped: the manual page, by mandoc (no mandoc)"
    fi
done
echo "program: $passed passed, $failed failed"
[ "$failed" -eq 0 ]
