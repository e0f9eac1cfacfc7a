# Completion of wcpwatch, wcptrace and wcpdraw for bash 4.4 and later. The package bash-completion isn't needed.

# Sets `current`, the word at the cursor, `before`, the words between the program and it, and `previous`, the last of
# these. Bash cuts a word at each `=` and `:` that isn't quoted; here its pieces are put together again.
_wullaphi_words() {
    local piece is_open=
    before=()
    for piece in "${COMP_WORDS[@]:1:COMP_CWORD}"; do
        if [[ ${#before[@]} -gt 0 && -n $piece && (-n $is_open || $piece =~ ^[=:]+$) ]]; then
            before[-1]+=$piece
        else
            before+=("$piece")
        fi
        if [[ $piece =~ ^[=:]+$ ]]; then is_open=yes; else is_open=; fi
    done
    current=${before[-1]}
    unset 'before[-1]'
    previous=${before[*]: -1}
}

# Whether this word stands before the cursor.
_wullaphi_has() {
    local word
    for word in "${before[@]}"; do
        [[ $word != "$1" ]] || return 0
    done
    return 1
}

# Offers those of these words that begin with the word at the cursor.
_wullaphi_offer() {
    mapfile -t COMPREPLY < <(compgen -W "$*" -- "$current")
}

# Offers those of these values that begin with what stands behind the `=`. Where bash cuts words at `=`, it replaces
# the value alone, and else the whole word.
_wullaphi_offer_value() {
    local front=${current%%=*}=
    [[ $COMP_WORDBREAKS != *=* ]] || front=
    mapfile -t COMPREPLY < <(compgen -P "$front" -W "$*" -- "${current#*=}")
}

# Lets bash complete the name of a file.
_wullaphi_file() {
    compopt -o default
}

# Whether the cursor stands behind `<` or `>`.
_wullaphi_redirects() {
    [[ $current == *[\<\>] || $previous == *[\<\>] ]]
}

_wcpwatch() {
    local current previous before commands='single run replay ring help'
    COMPREPLY=()
    _wullaphi_words
    if _wullaphi_redirects; then
        _wullaphi_file
    elif _wullaphi_has ring; then
        case $previous:$current in
            --procs:* | --rounds:* | *=*) ;;
            *:-*) _wullaphi_offer --procs --rounds --fault -h --help ;;
            *) _wullaphi_offer --procs --rounds --fault ;;
        esac
    elif _wullaphi_has single || _wullaphi_has run || _wullaphi_has replay; then
        [[ $current != -* ]] || _wullaphi_offer -h --help
    elif [[ $current == -* ]]; then
        _wullaphi_offer -h --help -V --version
    else
        _wullaphi_offer "$commands"
    fi
}

_wcptrace() {
    local current previous before forms='lines shiviz shiviz-reversed messages'
    COMPREPLY=()
    _wullaphi_words
    if _wullaphi_redirects || _wullaphi_has --; then
        _wullaphi_file
        return
    fi
    case $previous:$current in
        --while:* | --from:* | --until:* | --at:* | --any-two*:* | --events:* | --columns:* | --from-line:* | --to-line:* | --parser:* | \
            --event-lines:* | --host-field:* | --clock-field:* | --event-field:* | --question:*) ;;
        --form:*) _wullaphi_offer "$forms" ;;
        --questions:*) _wullaphi_file ;;
        *:--form=*) _wullaphi_offer_value "$forms" ;;
        *:--*=*) ;;
        *:-*) _wullaphi_offer --while --from --until --at --any-two --any-two-from --any-two-until --questions --question --all --definitely --explain --order --form --json --progress --page --events --svg --columns --from-line --to-line --parser --event-lines --skip-unmatched --host-field --clock-field --event-field --strict --assume-sent --check -h --help -V --version ;;
        *) _wullaphi_file ;;
    esac
}

_wcpdraw() {
    local current previous before
    COMPREPLY=()
    _wullaphi_words
    if _wullaphi_redirects || _wullaphi_has --; then
        _wullaphi_file
        return
    fi
    case $previous:$current in
        --names:* | *:--names=* | --columns:* | *:--columns=* | --events:* | *:--events=*) ;;
        *:-*) _wullaphi_offer --svg --page --events --names --columns -h --help -V --version ;;
        *) _wullaphi_file ;;
    esac
}

complete -F _wcpwatch wcpwatch
complete -F _wcptrace wcptrace
complete -F _wcpdraw wcpdraw
