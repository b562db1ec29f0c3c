# shellcheck shell=sh
# Runs the program at $program, which is $name, with the words that follow: the scripts `pvtag`, `pvlong` and `pvmany` end here. Words that it takes are given to it
# as they are. For others, and where a file can't be read, its output and its status are the same, and a sentence on the standard error says what is
# wrong. What is tested first is tested within the shell: a process more would cost as much as a short run of the program.
# shellcheck disable=SC2154

# Where addresses are limited, threads can't each have the room that the C library sets aside for one, and would ask for it again and again. The number
# comes by a pipe, which is that of an empty text.
addresses=
# shellcheck disable=SC3045
{ ulimit -v >/dev/fd/3 && read -r addresses <&3; } 3<<end 2>/dev/null
end
# shellcheck disable=SC3045
[ -n "$addresses" ] || addresses=$(ulimit -v 2>/dev/null)
[ "$addresses" = unlimited ] || export MALLOC_ARENA_MAX="${MALLOC_ARENA_MAX:-1}"

is_file() { [ -r "$1" ] && [ ! -d "$1" ]; }
is_name() {
    case $1 in
    '' | [0-9.-]* | *[[:space:]]* | *[\!\"\#\$%\&\'\(\)*+,/\;\<=\>?@\[\\^\`\{\|\}~]* | *']'*) return 1 ;;
    esac
}
is_count() {
    case $1 in
    [1-9] | [1-9][0-9] | [1-9][0-9][0-9] | [1-9][0-9][0-9][0-9] | 1[0-9][0-9][0-9][0-9] | 20000) ;;
    *) return 1 ;;
    esac
}

is_seconds() {
    case $1 in
    '' | 0?* | *[!0-9]* | ???????????*) return 1 ;;
    ??????????) [ "$1" -le 4294967295 ] ;;
    esac
}

# The program takes no words that aren't UTF-8. Another process is asked of them where one isn't ASCII.
is_utf_8() {
    case $* in
    *[![:cntrl:]\ -~]*) ! command -v iconv >/dev/null || printf '%s' "$*" | iconv -f UTF-8 -t UTF-8 >/dev/null 2>&1 ;;
    esac
}

# The version of the checkout, or of the package, which is without the file that finds the first.
version() {
    version=unknown
    if [ -r "$top/tools/version.py" ]; then
        version=$(cd "$top/tools" && python3 -B -c 'import version; print(version.version_of())' 2>/dev/null) || version=unknown
    elif [ -r "$top/../../share/doc/pvtag/built" ]; then
        read -r _ version <"$top/../../share/doc/pvtag/built"
    fi
    printf '%s %s\n' "$name" "$version"
}

case $name.${1-}.$# in
pvmany.--help.1)
    printf '%s' 'usage: pvmany valid DTD ROOT
       pvmany check DTD ROOT
       pvmany need DTD ROOT

Takes names of documents from the standard input, each ended by a null byte, as
`find -print0` writes them. For each it prints the name, a null byte and a line,
before it asks for more of the input:

  valid    valid, or invalid PATH
  check    valid, possible OPEN, or impossible PATH
  need     need K, or no impossible PATH, no wide PATH, no heavy

or why there is no such answer: document .., limit .., no file or no memory.

  --help       prints this
  --version    prints the version

Exit status: 0 if all names were answered, 2 if the arguments are wrong, 3 if
reading the DTD or the input fails, 4 if writing fails, 5 if memory runs out, 6
if the DTD is refused, 8 if a limit is passed, 10 if the arguments are not UTF-8
or there is no program.
' || exit 4
    exit
    ;;
pvmany.--version.1)
    version || exit 4
    exit
    ;;
esac

is_utf_8 "$@" && case $name.${1-}.$# in
pvtag.valid.4 | pvtag.check.4 | pvtag.session.4 | pvtag.complete.4 | pvtag.why.4) is_name "$3" && is_file "$2" && is_file "$4" ;;
pvlong.check.4 | pvlong.need.4 | pvlong.complete.4)
    is_seconds "${PVLONG_SECONDS-0}" && is_name "$3" && is_file "$2" && is_file "$4"
    ;;
pvtag.verify.5 | pvtag.deny.5 | pvtag.standoff.5) is_name "$3" && is_file "$2" && is_file "$4" && is_file "$5" ;;
pvmany.valid.3 | pvmany.check.3 | pvmany.need.3) is_name "$3" && is_file "$2" ;;
pvtag.dtd.2) is_file "$2" ;;
pvtag.drill.2) is_count "$2" ;;
*) false ;;
esac && exec "$program" ${unproved:+--of "$name"} "$@"

"$program" ${unproved:+--of "$name"} "$@"
status=$?

# say SENTENCE: on the standard error, without what acts on a terminal
say() {
    said=$1
    while case $said in *[[:cntrl:]]*) ;; *) false ;; esac do
        said="${said%%[[:cntrl:]]*}?${said#*[[:cntrl:]]}"
    done
    printf '%s: %s\n' "$name" "$said" >&2
}
# say_words COUNT WORDS: that a command takes these, where it has another number of words
say_words() {
    [ "$count" -eq "$1" ] || say "$command takes $1 argument$([ "$1" -eq 1 ] || echo s), $2, and has $count"
    [ "$count" -eq "$1" ]
}
# say_file FILE: why it can't be read; whether it can be
say_file() {
    if [ -d "$1" ]; then
        say "$1 is a folder"
    elif [ ! -e "$1" ]; then
        say "$1: there is no such file"
    elif [ ! -r "$1" ]; then
        say "$1: this file may not be read"
    else
        return 0
    fi
    return 1
}

command=${1-}
count=$(($# - 1))
case $name in
pvtag) commands='valid, check, session, complete, why, verify, deny, standoff, dtd, drill' ;;
pvmany) commands='valid, check, need' ;;
*) commands='check, need, complete' ;;
esac
case $status.$name.$command in
2.*.)
    say "a command is expected first: one of $commands"
    ;;
2.pvlong.check | 2.pvlong.need | 2.pvlong.complete)
    if ! is_seconds "${PVLONG_SECONDS-0}"; then
        say "PVLONG_SECONDS is to be a whole number from 0 to 4294967295, and \`$PVLONG_SECONDS\` is none"
    else
        say_words 3 'DTD ROOT DOC' && say "ROOT is to be a name, and \`$3\` is none"
    fi
    ;;
2.pvtag.valid | 2.pvtag.check | 2.pvtag.session | 2.pvtag.complete | 2.pvtag.why)
    say_words 3 'DTD ROOT DOC' && say "ROOT is to be a name, and \`$3\` is none"
    ;;
2.pvmany.valid | 2.pvmany.check | 2.pvmany.need) say_words 2 'DTD ROOT' && say "ROOT is to be a name, and \`$3\` is none" ;;
2.pvtag.verify) say_words 4 'DTD ROOT DOC CERTIFICATE' && say "ROOT is to be a name, and \`$3\` is none" ;;
2.pvtag.deny) say_words 4 'DTD ROOT DOC DENIAL' && say "ROOT is to be a name, and \`$3\` is none" ;;
2.pvtag.standoff) say_words 4 'DTD ROOT TEXT RANGES' && say "ROOT is to be a name, and \`$3\` is none" ;;
2.pvtag.dtd) say_words 1 DTD ;;
2.pvtag.drill) say_words 1 N && say "N is to be a number from 1 to 20000, and \`$2\` is none" ;;
10.*) is_utf_8 "$@" || say "an argument isn't UTF-8: a file of such a name can be read by a link, or as /dev/stdin" ;;
2.*) say "\`$command\` is no command: they are $commands" ;;
3.*)
    case $command.$# in
    dtd.2 | *.3) say_file "$2" ;;
    standoff.5 | verify.5 | deny.5) say_file "$2" && say_file "$4" && say_file "$5" ;;
    *.4) say_file "$2" && say_file "$4" ;;
    esac && say "a file couldn't be read"
    ;;
esac
exit $status
