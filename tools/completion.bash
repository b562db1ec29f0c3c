# Completion of `pvtag`, `pvlong`, `pvmany` and the commands `pvtag-*` for bash: commands, options, files, and the declared names of the DTD for ROOT.

# _pvtag_roots PROGRAM DTD WORD: the names that the DTD declares, by the program that is there: nothing is built for that
_pvtag_roots() {
    local program=$1 dtd=$2 word=$3 told name rest
    # The word as it is typed, without its quotes: nothing in it is run.
    [[ $dtd != \~/* ]] || dtd=$HOME/${dtd#\~/}
    case $dtd in
    \'*\' | \"*\") dtd=${dtd:1:-1} ;;
    *) dtd=${dtd//\\/} ;;
    esac
    # The last line counts the names.
    told=$(PVTAG_AS_BUILT=1 PVTAG_TOLD=1 "$program" dtd "$dtd" 2>/dev/null </dev/null) || return
    while read -r name rest; do
        [[ $name != "$word"* ]] || COMPREPLY+=("$name")
    done < <(sed '$d' <<<"$told")
}

# Files are readline's own: it knows how names are quoted.
_pvtag_files() { compopt -o default 2>/dev/null; }

_pvtag() {
    local word=${COMP_WORDS[COMP_CWORD]} command=${COMP_WORDS[1]}
    local program=${COMP_WORDS[0]} commands='valid check session complete verify why deny standoff dtd drill'
    [[ ${program##*/} != pvlong ]] || program=${program%pvlong}pvtag commands='check need complete'
    [[ ${program##*/} != pvmany ]] || program=${program%pvmany}pvtag commands='valid check need --help --version'
    COMPREPLY=()
    case $command.$COMP_CWORD in
    *.1) mapfile -t COMPREPLY < <(compgen -W "$commands" -- "$word") ;;
    drill.* | dtd.[3-9]) ;;
    *.3) _pvtag_roots "$program" "${COMP_WORDS[2]}" "$word" ;;
    *) _pvtag_files ;;
    esac
}

_pvtag_client() {
    local word=${COMP_WORDS[COMP_CWORD]} program=${COMP_WORDS[0]} options='' values='' at option files=()
    COMPREPLY=()
    case ${program##*/} in
    pvtag-annotate) options='--port --from --again --names --stay' values='--port --from --names --stay' ;;
    pvtag-complete) ;;
    pvtag-flatten) options='--also' values='--also' ;;
    pvtag-lsp) options='--stdio' ;;
    pvtag-mark) options='--output --all --cut --offsets --fields' values='--output --offsets --fields' ;;
    pvtag-ranges) options='--text' ;;
    pvtag-report)
        options='--null --by-doctype --otherwise --need --no-attributes --format --output --since --html --summary --fail-on --suffix --jobs --most --quiet --plan --folder --join'
        values='--otherwise --format --output --since --html --fail-on --suffix --jobs --most --plan --folder --join'
        ;;
    pvtag-standoff) options='--output --offsets --fields' values='--output --offsets --fields' ;;
    pvtag-why) options='--all --script' values='--script' ;;
    esac
    [[ ${program##*/} == pvtag-flatten ]] || options+=' --program' values+=' --program'
    for ((at = 1; at < COMP_CWORD; at++)); do
        option=${COMP_WORDS[at - 1]}
        [[ ${COMP_WORDS[at]} == -* || ($option == --* && " $values " == *" $option "*) ]] || files+=("${COMP_WORDS[at]}")
    done
    option=${COMP_WORDS[COMP_CWORD - 1]}
    if [[ $word == -* ]]; then
        mapfile -t COMPREPLY < <(compgen -W "$options --help" -- "$word")
    elif [[ $option == --format ]]; then
        mapfile -t COMPREPLY < <(compgen -W 'json tsv csv' -- "$word")
    elif [[ $option == --offsets ]]; then
        mapfile -t COMPREPLY < <(compgen -W 'characters utf-16 bytes' -- "$word")
    elif [[ ${#files[@]} == 1 && ! ($option == --* && " $values " == *" $option "*) && ${program##*/} != pvtag-@(flatten|lsp|ranges) ]]; then
        _pvtag_roots "${program%-*}" "${files[0]}" "$word"
    else
        _pvtag_files
    fi
}
complete -F _pvtag pvtag pvlong pvmany
complete -F _pvtag_client pvtag-annotate pvtag-complete pvtag-flatten pvtag-lsp pvtag-mark pvtag-ranges pvtag-report pvtag-standoff pvtag-why
